package etcdtest

import (
	"io"
	"net"
	"strings"
	"sync"
	"testing"
	"time"

	"ordup.dev/node/internal/engine"
)

// A Link carries what a process and the members say to each other, and can be cut: then it carries nothing, and tells nobody.
type Link struct {
	lock    sync.Mutex
	isCut   bool
	mended  chan struct{}
	delay   time.Duration
	rate    int
	members []string
}

// Link gives a link to all members. It ends with the test.
func (m *Members) Link() *Link {
	link := &Link{mended: make(chan struct{})}
	for _, client := range m.Clients {
		listener, err := net.Listen("tcp", "127.0.0.1:0")
		if err != nil {
			m.t.Fatal(err)
		}
		m.t.Cleanup(func() { listener.Close() })
		link.members = append(link.members, "http://"+listener.Addr().String())
		go link.accept(listener, strings.TrimPrefix(client, "http://"))
	}
	return link
}

// Engine gives an engine over the link, which is closed at the end of the test.
func (l *Link) Engine(t *testing.T) *engine.Engine {
	opened := engine.Open(engine.Config{Members: l.members})
	t.Cleanup(opened.Close)
	return opened
}

// Cut cuts the link.
func (l *Link) Cut() {
	l.lock.Lock()
	defer l.lock.Unlock()
	l.isCut = true
}

// Mend mends it. What was said meanwhile arrives.
func (l *Link) Mend() {
	l.lock.Lock()
	defer l.lock.Unlock()
	l.isCut = false
	close(l.mended)
	l.mended = make(chan struct{})
}

// Delay has the link take so long for what it carries.
func (l *Link) Delay(delay time.Duration) {
	l.lock.Lock()
	defer l.lock.Unlock()
	l.delay = delay
}

// Rate has the link carry so many bytes a second.
func (l *Link) Rate(rate int) {
	l.lock.Lock()
	defer l.lock.Unlock()
	l.rate = rate
}

func (l *Link) accept(listener net.Listener, to string) {
	for {
		near, err := listener.Accept()
		if err != nil {
			return
		}
		go func() {
			l.pass(0)
			far, err := net.Dial("tcp", to)
			if err != nil {
				near.Close()
				return
			}
			go l.carry(near, far)
			l.carry(far, near)
		}()
	}
}

// pass waits while the link is cut, and as long as so many bytes take.
func (l *Link) pass(bytes int) {
	for {
		l.lock.Lock()
		isCut, mended, delay := l.isCut, l.mended, l.delay
		if l.rate > 0 {
			delay += time.Second * time.Duration(bytes) / time.Duration(l.rate)
		}
		l.lock.Unlock()
		if !isCut {
			time.Sleep(delay)
			return
		}
		<-mended
	}
}

func (l *Link) carry(from, to net.Conn) {
	defer from.Close()
	defer to.Close()
	room := make([]byte, 16<<10)
	for {
		count, err := from.Read(room)
		if err != nil && err != io.EOF || count == 0 {
			return
		}
		l.pass(count)
		_, err = to.Write(room[:count])
		if err != nil {
			return
		}
	}
}
