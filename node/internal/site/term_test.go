package site

import (
	"bytes"
	"context"
	"errors"
	"fmt"
	"strings"
	"sync/atomic"
	"testing"
	"time"

	"ordup.dev/node/internal/engine"
	"ordup.dev/node/internal/epoch"
	"ordup.dev/node/internal/etcdtest"
	"ordup.dev/node/internal/exit"
)

// A shop is a script in an engine, and how it is written on.
type shop struct {
	*written
	members *etcdtest.Members
	writer  *engine.Engine
	ctx     context.Context
	count   int
}

func newShop(t *testing.T) *shop {
	ctx, cancel := context.WithTimeout(context.Background(), 60*time.Second)
	t.Cleanup(cancel)
	members := etcdtest.Start(t, 1)
	return &shop{newWritten(t), members, members.Engine(), ctx, 0}
}

// put writes the batches, and puts what is new of the script into the engine.
func (s *shop) put() {
	s.t.Helper()
	s.write()
	for ; s.count < len(s.entries); s.count++ {
		is(s.t, nil, s.writer.Write(s.ctx, &engine.Write{Number: int64(s.count + 1), Text: s.entries[s.count].Text(), Epoch: 1, First: 1}))
	}
}

// north gives a process of the site north, which asks an engine and tells a teller.
func (s *shop) north(host string, asked *engine.Engine, teller Teller) *Site {
	s.t.Helper()
	site, err := New(Config{Engine: asked, Open: openStore, Name: "north", Host: host, Versions: []string{"1"}, Teller: teller})
	is(s.t, nil, err)
	return site
}

// hold has somebody else hold a key, until what it returns is called.
func (s *shop) hold(key string) (giveUp func()) {
	s.t.Helper()
	lease := s.members.Engine().NewLease(key, "before", nil, nil)
	leased, cancel := context.WithCancel(s.ctx)
	done := make(chan struct{})
	go func() { lease.Run(leased); close(done) }()
	until(s.t, "nobody gets the key "+key, lease.Relies)
	return func() { cancel(); <-done }
}

// A process gets the key of its site, cannot read the end of the script, and gives the key back, which the engine hears late. By then
// another process serves and tells a place. Readers of the first one see no less.
func TestOneProcessServesThoughALeaseIsGivenBackLate(t *testing.T) {
	shop, told := newShop(t), &listener{}
	shop.ask("ann", 1, "add:tea:-1")
	shop.put()
	giveUp := shop.hold(engine.SiteKey("north", "north"))
	calls := shop.members.Calls()
	one := shop.north("one", calls.Engine(t), nowhere{})
	go one.Run(shop.ctx)
	until(t, "the first process does not follow", func() bool { return one.Status().Place == 1 })
	calls.Judge(func(call etcdtest.Call) etcdtest.Fate {
		switch {
		case strings.HasSuffix(call.Method, "/LeaseRevoke"):
			return etcdtest.Waits
		case strings.HasSuffix(call.Method, "/Range") && bytes.Contains(call.Asked, []byte("script/")) && calls.Waiting() == 0:
			return etcdtest.Fails
		}
		return etcdtest.Passes
	})
	giveUp()
	until(t, "the first process does not give its lease back", func() bool { return calls.Waiting() > 0 })
	until(t, "the first process does not serve", func() bool { return one.Status().Serves })
	// From now on the first process is cut off, and relies on its lease.
	calls.Judge(func(etcdtest.Call) etcdtest.Fate { return etcdtest.Fails })
	other := shop.north("other", shop.members.Engine(), told)
	go other.Run(shop.ctx)
	until(t, "the other process does not follow", func() bool { return other.Status().Place == 1 })
	calls.Arrive()
	until(t, "the other process does not serve", func() bool { return other.Status().Serves })
	shop.ask("ann", 2, "add:tea:-1")
	shop.put()
	until(t, "the other process does not tell", func() bool { all := told.told(); return len(all) > 0 && all[len(all)-1].Applied == 2 })
	for end := time.Now().Add(2 * time.Second); time.Now().Before(end); time.Sleep(time.Millisecond) {
		if reading, err := one.Read(shop.ctx, Seen{}); err == nil && reading.Place < 2 {
			t.Fatalf("a reader is served the place %d after the site told the place 2", reading.Place)
		}
	}
}

// A gate takes places while it is open.
type gate struct {
	listener
	isShut atomic.Bool
}

func (g *gate) Tell(ctx context.Context, place epoch.Place) error {
	if g.isShut.Load() {
		return errors.New("no primary writes")
	}
	return g.listener.Tell(ctx, place)
}

// In each term of its lease a process serves readers once somebody has taken a place of it. Within a term it goes on, whoever is down.
func TestASiteServesOnceAPlaceWasTaken(t *testing.T) {
	shop, gate := newShop(t), &gate{}
	gate.isShut.Store(true)
	shop.put()
	site := shop.north("one", shop.members.Engine(), gate)
	go site.Run(shop.ctx)
	until(t, "it gets no lease", site.lease.Relies)
	stays := func(serves bool) {
		t.Helper()
		for end := time.Now().Add(4 * afterFailure); time.Now().Before(end); time.Sleep(5 * time.Millisecond) {
			if site.Status().Serves != serves {
				t.Fatalf("it serves: %v", !serves)
			}
		}
	}
	stays(false)
	gate.isShut.Store(false)
	until(t, "it does not serve", func() bool { return site.Status().Serves })
	gate.isShut.Store(true)
	shop.ask("ann", 1, "add:tea:-1")
	shop.put()
	until(t, "it does not follow", func() bool { return site.Status().Place == 1 })
	stays(true)
	shop.members.Delete("site/north")
	until(t, "it has no second term", func() bool { return site.lease.Lives(2) })
	stays(false)
	gate.isShut.Store(false)
	opened := time.Now()
	until(t, "it does not serve again", func() bool { return site.Status().Serves })
	if after := time.Since(opened); after > tellStill/2 {
		t.Errorf("it tells the place that the script has again only after %v", after)
	}
}

// A site that its fleet does not list serves nobody, and ends.
func TestASiteThatItsFleetDoesNotList(t *testing.T) {
	shop, far := newShop(t), []string{"object tea 100", "site far 4", "start"}
	shop.written = newScript(t, far)
	shop.put()
	site, err := New(Config{Engine: shop.members.Engine(), Open: openStore, Name: "west", Fleet: "far", Host: "h", Versions: []string{"1"},
		Teller: refusing{}})
	is(t, nil, err)
	ended := make(chan error, 1)
	go func() { ended <- site.Run(shop.ctx) }()
	for {
		select {
		case err := <-ended:
			is(t, exit.NotInScript, exit.Of(err))
			is(t, true, errors.Is(err, epoch.ErrNoSite))
			return
		case <-time.After(2 * time.Millisecond):
			if _, err := site.Read(shop.ctx, Seen{}); err == nil {
				t.Fatal("it serves a reader")
			}
		}
	}
}

// A fleet that has no such site.
type refusing struct{}

func (refusing) Tell(context.Context, epoch.Place) error {
	return fmt.Errorf("%w: ..", epoch.ErrNoSite)
}
