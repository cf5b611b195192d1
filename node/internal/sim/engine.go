package sim

import (
	"fmt"
	"strconv"
	"strings"
	"time"

	"ordup.dev/node/internal/engine"
	"ordup.dev/node/internal/lease"
)

// An engineModel is the engine: one map, whose calls are done one at a time. Package world decides when, and which answers are lost.
type engineModel struct {
	now time.Duration
	// The entries from the first one on. Those that are archived have no text.
	entries []engine.Raw
	// The last epoch, and its first entry, or 0 and 1.
	epoch, first int64
	keys         [3]siteKey
	leases       []granted
	revisions    int64
}

// A siteKey is the key of a site. It is there where it has a value.
type siteKey struct {
	name, site string
	value      string
	id         lease.ID
	revision   int64
}

// A granted is a lease, which the engine may end from a moment on.
type granted struct {
	ends  time.Duration
	ended bool
}

func newEngine() engineModel {
	return engineModel{first: 1, keys: [3]siteKey{{name: engine.SiteKey("north", "north"), site: "north"},
		{name: engine.SiteKey("far", "east"), site: "far"}, {name: engine.SiteKey("far", "west"), site: "far"}}}
}

// last is the number of the last entry.
func (e *engineModel) last() int64 { return int64(len(e.entries)) }

// from gives the first entry from a number on that is there.
func (e *engineModel) from(number int64) (engine.Raw, bool) {
	for ; number <= e.last(); number++ {
		if raw := e.entries[number-1]; raw.Text != nil {
			return raw, true
		}
	}
	return engine.Raw{}, false
}

// entry gives the text of an entry, or nil.
func (e *engineModel) entry(number int64) []byte {
	if number < 1 || number > e.last() {
		return nil
	}
	return e.entries[number-1].Text
}

// has is whether a key is there.
func (k *siteKey) has() bool { return k.value != "" }

// find gives what there is of a key.
func (e *engineModel) find(key int) lease.Found {
	it := &e.keys[key]
	return lease.Found{IsThere: it.has(), Value: it.value, ID: it.id}
}

func (e *engineModel) put(key int, value string, id lease.ID) {
	e.revisions++
	it := &e.keys[key]
	it.value, it.id, it.revision = value, id, e.revisions
}

func (e *engineModel) grant() lease.ID {
	e.leases = append(e.leases, granted{ends: e.now + lease.Time})
	return lease.ID(len(e.leases))
}

// create puts a key under a lease, where there is none and the engine has not ended the lease.
func (e *engineModel) create(key int, value string, id lease.ID) bool {
	if e.keys[key].has() || e.leases[id-1].ended {
		return false
	}
	e.put(key, value, id)
	return true
}

// renew is whether the engine has the lease, which lives on.
func (e *engineModel) renew(id lease.ID) bool {
	it := &e.leases[id-1]
	if it.ended {
		return false
	}
	it.ends = e.now + lease.Time
	return true
}

// end ends a lease, with its key.
func (e *engineModel) end(id lease.ID) {
	e.leases[id-1].ended = true
	for at := range e.keys {
		if it := &e.keys[at]; it.has() && it.id == id {
			e.put(at, "", 0)
		}
	}
}

// endOld ends the leases whose time is over.
func (e *engineModel) endOld() {
	for at := range e.leases {
		if it := &e.leases[at]; !it.ended && it.ends <= e.now {
			e.end(lease.ID(at + 1))
		}
	}
}

// archive takes the entries of ended epochs away.
func (e *engineModel) archive() {
	for number := int64(1); number < e.first; number++ {
		e.entries[number-1].Text = nil
	}
}

// epochValue is the value of the key of the last epoch.
func (e *engineModel) epochValue() string { return fmt.Sprintf("%d %d", e.epoch, e.first) }

// holds is whether what is compared as an entry is written is so.
func (e *engineModel) holds(compare *engine.Compare) bool {
	value, isThere := "", false
	digits := strings.TrimPrefix(compare.Key, "script/")
	switch {
	case compare.To != "":
		for at := range e.keys {
			name := e.keys[at].name
			isThere = isThere || e.keys[at].has() && compare.Key <= name && name < compare.To
		}
	case digits != compare.Key:
		number, _ := strconv.ParseInt(digits, 10, 64)
		isThere = e.entry(number) != nil
	default:
		if isThere = e.epoch > 0; isThere {
			value = e.epochValue()
		}
	}
	if compare.Value != "" {
		return value == compare.Value
	}
	return isThere == compare.IsThere
}
