package engine_test

import (
	"context"
	"errors"
	"strings"
	"sync/atomic"
	"testing"
	"time"

	"ordup.dev/node/internal/clock"
	"ordup.dev/node/internal/engine"
	"ordup.dev/node/internal/etcdtest"
)

var until = etcdtest.Until

// The engine may hear of it late that a process gives its lease back. The process does not take that lease up again meanwhile: another one
// would get the key by then, and both would rely on it.
func TestALeaseThatIsGivenBackLate(t *testing.T) {
	members, ctx := etcdtest.Start(t, 1), within(t, 60*time.Second)
	calls := members.Calls()
	slow := calls.Engine(t)
	calls.Judge(func(call etcdtest.Call) etcdtest.Fate {
		if strings.HasSuffix(call.Method, "/LeaseRevoke") {
			return etcdtest.Waits
		}
		return etcdtest.Passes
	})
	var terms atomic.Int64
	one := slow.NewLease(engine.SiteKey("north", "north"), "one", nil, func(context.Context, engine.Term) error {
		if terms.Add(1) == 1 {
			return errors.New("the work of the first term fails")
		}
		return nil
	})
	go one.Run(ctx)
	until(t, "it does not give its lease back", func() bool { return calls.Waiting() > 0 })
	// Either it takes the same lease up again, or the engine ends that.
	until(t, "it has no second term", func() bool { return one.Lives(2) })
	other := members.Engine().NewLease(engine.SiteKey("north", "north"), "other", nil, nil)
	go other.Run(ctx)
	calls.Arrive()
	for end := time.Now().Add(2 * time.Second); time.Now().Before(end); time.Sleep(time.Millisecond) {
		if other.Lives(1) && one.Lives(2) {
			t.Fatal("two processes rely on one key")
		}
	}
}

// Of a name in the script there are the sites of a fleet at a time, or the one site of that name: that tells for all of the name.
func TestASiteAndAFleetOfItsNameExcludeEachOther(t *testing.T) {
	members, ctx := etcdtest.Start(t, 1), within(t, 60*time.Second)
	run := func(fleet, site string) (*engine.Lease, func()) {
		lease := members.Engine().NewSiteLease(fleet, site, fleet+site, nil, nil)
		leased, stop := context.WithCancel(ctx)
		done := make(chan struct{})
		go func() { lease.Run(leased); close(done) }()
		return lease, func() { stop(); <-done }
	}
	east, stopEast := run("far", "east")
	until(t, "a site of the fleet gets no key", east.Relies)
	west, stopWest := run("far", "west")
	until(t, "another site of the fleet gets no key", west.Relies)
	far2, stopFar2 := run("far2", "far2")
	until(t, "a site of another name gets no key", far2.Relies)
	far, stopFar := run("far", "far")
	stopEast()
	for end := time.Now().Add(2500 * time.Millisecond); time.Now().Before(end); time.Sleep(5 * time.Millisecond) {
		if far.Relies() {
			t.Fatal("a site has its key while one of the fleet of that name has")
		}
	}
	stopWest()
	until(t, "the site gets no key once the fleet has none", far.Relies)
	east, stopEast = run("far", "east")
	for end := time.Now().Add(1500 * time.Millisecond); time.Now().Before(end); time.Sleep(5 * time.Millisecond) {
		if east.Relies() {
			t.Fatal("a site of a fleet has its key while the site of that name has")
		}
	}
	stopFar()
	until(t, "a site of the fleet gets no key once the site has none", east.Relies)
	stopEast()
	stopFar2()
}

// hold runs a lease of the site east of the fleet far until the test ends, for one process.
func hold(t *testing.T, own *engine.Engine, whenHeld func(context.Context, engine.Term) error) *engine.Lease {
	lease := own.NewLease(engine.SiteKey("far", "east"), "one", nil, whenHeld)
	ctx, cancel := context.WithCancel(within(t, 60*time.Second))
	done := make(chan struct{})
	go func() { lease.Run(ctx); close(done) }()
	t.Cleanup(func() { cancel(); <-done })
	return lease
}

func TestALeaseIsReliedOnOnceItsWorkIsDone(t *testing.T) {
	members := etcdtest.Start(t, 1)
	begun, goOn := make(chan struct{}), make(chan struct{})
	lease := hold(t, members.Engine(), func(context.Context, engine.Term) error {
		close(begun)
		<-goOn
		return nil
	})
	<-begun
	is(t, []bool{false, false, false}, []bool{lease.Held(), lease.Relies(), lease.Lives(1)})
	close(goOn)
	until(t, "it is not relied on", func() bool { return lease.Lives(1) && lease.Relies() })
}

func TestAKeyThatAnotherHasIsLost(t *testing.T) {
	members := etcdtest.Start(t, 1)
	lease := hold(t, members.Engine(), nil)
	until(t, "it gets no key", lease.Relies)
	members.Put(engine.SiteKey("far", "east"), "another")
	begun := time.Now()
	until(t, "it relies on a key that is not its own", func() bool { return !lease.Lives(1) })
	if after := time.Since(begun); after > engine.Relied {
		t.Errorf("it relied on it for %v", after)
	}
	time.Sleep(300 * time.Millisecond)
	is(t, false, lease.Relies())
}

// A renewal counts from when it was asked for: the engine may have done it then, and its answer be late.
func TestALeaseIsReliedOnFromWhenItWasAskedFor(t *testing.T) {
	members := etcdtest.Start(t, 1)
	link := members.Link()
	lease := hold(t, link.Engine(t), nil)
	renewed := func() {
		t.Helper()
		before := lease.Until()
		until(t, "it is not renewed", func() bool { return lease.Until() > before })
	}
	renewed()
	renewed()
	link.Cut() // The next one is asked for after a quarter of the time.
	const late = 600 * time.Millisecond
	time.Sleep(engine.Relied/4 + late)
	link.Mend()
	renewed()
	if left := lease.Until() - clock.Now(); left > engine.Relied-late/2 {
		t.Errorf("it is relied on for %v after an answer that was late by %v", left, late)
	}
}
