package cluster

import (
	"flag"
	"runtime"
	"testing"
	"time"
)

var sleeps = flag.Int("sleeps", 3_000, "how often the goroutines of a cluster sleep and are woken")

// isAsleep is whether somebody sleeps on a bell: who took its channel sleeps until it rings.
func isAsleep(b *bell) bool {
	b.lock.Lock()
	defer b.lock.Unlock()
	return b.woken != nil
}

// Of each update the applier, the caller, whose update is the head, and a reader sleep before it, and each is woken.
func TestEachSleeperIsWoken(t *testing.T) {
	setup := Setup{}
	setup.Object("x", 0)
	setup.Site("a", 4)
	setup.Limit(0, Count, 0)
	c := opened(t, setup)
	late := time.NewTimer(time.Hour)
	defer late.Stop()
	slept, updates := 0, 0
	awaited, calls, ends := make(chan uint64), make(chan struct{}), make(chan error)
	defer close(awaited)
	defer close(calls)
	go func() {
		var session Session
		for range calls {
			_, err := c.Propose(always, &session, Add(0, 1))
			ends <- err
		}
	}()
	go func() {
		for number := range awaited {
			seen, err := c.ReadWhenLevel(always, &Session{number}, 0, 0)
			if err == nil && seen != (Seen{int64(number), number}) {
				t.Errorf("%v is read after update %d", seen, number)
			}
			ends <- err
		}
	}()
	comesToSleep := func(b *bell) {
		for !isAsleep(b) {
			runtime.Gosched()
		}
		slept++
	}
	here := &c.sites[0]
	for slept < *sleeps {
		comesToSleep(&c.sent)
		awaited <- uint64(updates + 1)
		comesToSleep(&here.moved)
		here.lock.Lock()
		calls <- struct{}{}
		comesToSleep(&c.told)
		here.lock.Unlock()
		late.Reset(time.Minute)
		for range [2]int{} {
			select {
			case err := <-ends:
				isGiven(t, nil, nil, err)
			case <-late.C:
				t.Fatalf("after %d updates somebody was not woken", updates)
			}
		}
		updates++
	}
	isGiven(t, Numbers{0, uint64(updates), uint64(updates)}, c.Numbers(), nil)
	t.Logf("%d sleeps, %d updates: each was woken", slept, updates)
}
