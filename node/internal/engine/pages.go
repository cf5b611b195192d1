package engine

import (
	"sync"
	"time"
)

const (
	// firstPage, leastPage and mostPage are how many bytes a page of entries may have: at first, after failures, and where all went well.
	firstPage, leastPage, mostPage = 64 << 10, 1 << 10, 4 << 20
	// mostEntries is how many entries a page has at most.
	mostEntries = 1000
	// firstEntry is how large an entry is thought to be before one was seen.
	firstEntry = 16 << 10
	// mostTime is how long a page may take after failures. The largest entry has this time over a thin link.
	mostTime = 30 * time.Second
)

// pages says how many entries are read at once. The engine bounds a page by their number, so that follows from the size of those that
// were read before. After a failure a page is smaller and has more time, down to one entry.
type pages struct {
	lock  sync.Mutex
	bytes int
	entry int
	time  time.Duration
}

func newPages() pages { return pages{bytes: firstPage, entry: firstEntry, time: CallTime} }

// next is how many entries the next page has, and how long it may take.
func (p *pages) next() (int64, time.Duration) {
	p.lock.Lock()
	defer p.lock.Unlock()
	count := p.bytes / p.entry
	if count < 1 {
		count = 1
	}
	if count > mostEntries {
		count = mostEntries
	}
	return int64(count), p.time
}

// came says that a page of so many entries and bytes came after a time.
func (p *pages) came(entries, bytes int, after time.Duration) {
	if entries == 0 {
		return
	}
	p.lock.Lock()
	defer p.lock.Unlock()
	p.entry = bytes/entries + 1
	if after < CallTime/8 && p.bytes < mostPage {
		p.bytes *= 2
	}
	if after < CallTime/2 {
		p.time = CallTime
	}
}

// failed says that a page did not come.
func (p *pages) failed() {
	p.lock.Lock()
	defer p.lock.Unlock()
	if p.bytes > leastPage {
		p.bytes /= 4
	}
	p.time *= 2
	if p.time > mostTime {
		p.time = mostTime
	}
}
