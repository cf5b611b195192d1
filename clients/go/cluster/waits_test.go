package cluster

import (
	"context"
	"errors"
	"os"
	"regexp"
	"runtime"
	"strconv"
	"strings"
	"sync"
	"sync/atomic"
	"syscall"
	"testing"
	"time"
)

// own is how many goroutines are there that Open started.
func own() int {
	room := make([]byte, 1<<22)
	room = room[:runtime.Stack(room, true)]
	count := 0
	for _, stack := range strings.Split(string(room), "\n\n") {
		if strings.Contains(stack, "created by ordup.dev/ordup/cluster.open") {
			count++
		}
	}
	return count
}

// comes waits until something is so.
func comes(t *testing.T, what string, is func() bool) {
	t.Helper()
	for tries := 0; !is(); tries++ {
		if tries == 10_000 {
			t.Fatalf("it did not come that %s", what)
		}
		time.Sleep(time.Millisecond)
	}
}

// waits has a call for each wait, which fails with these errors where the context ends, or the cluster is stopped.
var waits = []struct {
	name string
	wait func(context.Context, *Cluster) error
	is   func(error) bool
}{
	{"Propose, not the head", func(ctx context.Context, c *Cluster) error {
		_, err := c.Propose(ctx, nil, Add(tea, 1))
		return err
	}, isNotYet},
	{"Settle, the head", func(ctx context.Context, c *Cluster) error { return c.Settle(ctx, nil, 1) }, isNotYet},
	{"Finish", func(ctx context.Context, c *Cluster) error { return c.Finish(ctx) }, isNotYet},
	{"ReadWhenLevel", func(ctx context.Context, c *Cluster) error {
		_, err := c.ReadWhenLevel(ctx, &Session{99}, yard, tea)
		return err
	}, isBehind},
	{"ReadManyWhenLevel", func(ctx context.Context, c *Cluster) error {
		_, _, err := c.ReadManyWhenLevel(ctx, &Session{99}, yard, tea, rye)
		return err
	}, isBehind},
}

func isNotYet(err error) bool {
	var notYet ErrNotYet
	return errors.As(err, &notYet) && notYet.Number > 0 && notYet.Number < 99
}

func isBehind(err error) bool {
	var behind ErrBehind
	return errors.As(err, &behind) && behind.Applied < 99
}

// held is a cluster whose site shop applies nothing until it is let go, with an update that waits for it.
func held(t *testing.T) (c *Cluster, letGo func()) {
	c = opened(t, declared())
	c.sites[shop].lock.Lock()
	number, err := c.Submit(nil, Add(tea, 1))
	isGiven(t, uint64(1), number, err)
	var once sync.Once
	letGo = func() { once.Do(c.sites[shop].lock.Unlock) }
	t.Cleanup(letGo)
	return c, letGo
}

func TestAContextEndsEachWait(t *testing.T) {
	for _, it := range waits {
		t.Run(it.name, func(t *testing.T) {
			c, letGo := held(t)
			begun := time.Now()
			err := it.wait(soon(t), c)
			if took := time.Since(begun); !it.is(err) || !errors.Is(err, context.DeadlineExceeded) || took < 30*time.Millisecond {
				t.Errorf("%v after %v", err, took)
			}
			ctx, cancel := context.WithCancel(always)
			ended := make(chan error)
			go func() { ended <- it.wait(ctx, c) }()
			time.Sleep(10 * time.Millisecond)
			select {
			case err := <-ended:
				t.Errorf("it did not wait: %v", err)
			default:
			}
			cancel()
			if err := <-ended; !it.is(err) || !errors.Is(err, context.Canceled) {
				t.Error(err)
			}
			letGo()
			// What was given up stands.
			isGiven(t, nil, nil, c.Finish(always))
			if numbers := c.Numbers(); numbers.Acknowledged != numbers.Length {
				t.Error(numbers)
			}
		})
	}
}

func TestAContextThatHasEnded(t *testing.T) {
	c, letGo := held(t)
	ctx, cancel := context.WithCancel(always)
	cancel()
	number, err := c.Propose(ctx, nil, Add(tea, 1))
	fails(t, context.Canceled, err)
	isGiven(t, uint64(0), number, nil)
	isGiven(t, uint64(1), c.Numbers().Length, nil)
	for _, it := range waits[1:] {
		if err := it.wait(ctx, c); !it.is(err) || !errors.Is(err, context.Canceled) {
			t.Errorf("%s: %v", it.name, err)
		}
	}
	letGo()
	isGiven(t, nil, nil, c.Settle(always, nil, 1))
	isGiven(t, nil, nil, c.Finish(always))
	isGiven(t, nil, nil, c.Settle(ctx, nil, 1))
	seen, err := c.ReadWhenLevel(ctx, &Session{1}, shop, tea)
	isGiven(t, Seen{41, 1}, seen, err)
}

func TestStopEndsEachWait(t *testing.T) {
	c, letGo := held(t)
	ended := make(chan error)
	for _, it := range waits {
		it := it
		go func() {
			err := it.wait(always, c)
			if !it.is(err) || !errors.Is(err, ErrStopped) {
				t.Errorf("%s: %v", it.name, err)
			}
			ended <- err
		}()
	}
	comes(t, "all sleep", func() bool {
		asleep := c.told.sleepers.Load() + c.heads[2%headBells].sleepers.Load() + c.sites[yard].moved.sleepers.Load()
		return asleep == int32(len(waits))
	})
	c.Stop()
	for range waits {
		<-ended
	}
	_, err := c.Propose(always, nil, Add(tea, 1))
	fails(t, ErrStopped, err)
	letGo()
	_, err = c.Close()
	isGiven(t, nil, nil, err)
	isGiven(t, Numbers{0, 2, 2}, c.Numbers(), nil)
}

// Who waits is woken by what he waits for, with no other call.
func TestWhoWaitsIsWoken(t *testing.T) {
	c, letGo := held(t)
	var session Session
	ended := make(chan error)
	go func() {
		_, err := c.Propose(always, &session, Add(tea, 1))
		ended <- err
	}()
	go func() { ended <- c.Settle(always, nil, 1) }()
	go func() { ended <- c.Finish(always) }()
	go func() {
		_, err := c.ReadWhenLevel(always, &Session{2}, yard, tea)
		ended <- err
	}()
	time.Sleep(20 * time.Millisecond)
	letGo()
	for range [4]int{} {
		isGiven(t, nil, nil, <-ended)
	}
}

func seconds() float64 {
	var used syscall.Rusage
	syscall.Getrusage(syscall.RUSAGE_SELF, &used)
	return float64(used.Utime.Nano()+used.Stime.Nano()) / 1e9
}

// A cluster at rest takes nothing, with callers and readers that wait: no bell rings, and no processor is used.
func TestARestTakesNothing(t *testing.T) {
	c, letGo := held(t)
	ctx, cancel := context.WithCancel(always)
	ended := make(chan error)
	for _, it := range waits {
		it := it
		go func() { ended <- it.wait(ctx, c) }()
	}
	time.Sleep(100 * time.Millisecond)
	runtime.GC()
	rings := func() uint64 {
		return c.sent.listen() + c.told.listen() + c.work.listen() + c.sites[shop].moved.listen() + c.sites[yard].moved.listen()
	}
	rung, used := rings(), seconds()
	time.Sleep(time.Second)
	used = seconds() - used
	isGiven(t, rung, rings(), nil)
	t.Logf("%.4f seconds of a processor in a second, with %d that wait", used, len(waits))
	if used > 0.05 {
		t.Errorf("%.4f seconds of a processor in a second", used)
	}
	cancel()
	for range waits {
		<-ended
	}
	letGo()
}

// threadsOfSystem is how many the process has.
func threadsOfSystem(t *testing.T) int {
	told, err := os.ReadFile("/proc/self/status")
	if err != nil {
		t.Skip("not tried: the threads of the system, since there is no /proc/self/status")
	}
	count, err := strconv.Atoi(regexp.MustCompile(`(?m)^Threads:\s+(\d+)$`).FindStringSubmatch(string(told))[1])
	if err != nil {
		t.Fatal(err)
	}
	return count
}

func TestAThousandGoroutinesWaitOnFewThreads(t *testing.T) {
	const callers = 1000
	c, letGo := held(t)
	var woken atomic.Int32
	ended := make(chan error)
	for caller := 0; caller < callers; caller++ {
		go func() {
			var session Session
			number, err := c.Propose(always, &session, Add(tea, 1))
			if err == nil && (number < 2 || session.Seen != number) {
				t.Errorf("update %d, and the session has seen %d", number, session.Seen)
			}
			woken.Add(1)
			ended <- err
		}()
	}
	asleep := func() (asleep int32) {
		for at := range c.heads {
			asleep += c.heads[at].sleepers.Load()
		}
		return asleep
	}
	comes(t, "all sleep", func() bool { return asleep() == callers })
	isGiven(t, int32(0), woken.Load(), nil)
	threads := threadsOfSystem(t)
	begun := time.Now()
	letGo()
	for caller := 0; caller < callers; caller++ {
		isGiven(t, nil, nil, <-ended)
	}
	t.Logf("%d goroutines wait in Propose on %d threads of the system; all were answered %v after the site went on, with %d threads", callers,
		threads, time.Since(begun), threadsOfSystem(t))
	if threads > 40 || threadsOfSystem(t) > 60 {
		t.Error("these are too many threads")
	}
	isGiven(t, Numbers{0, callers + 1, callers + 1}, c.Numbers(), nil)
}

func TestNoGoroutineIsLeft(t *testing.T) {
	comes(t, "other tests have ended", func() bool { return own() == 0 })
	c, err := Open(declared())
	isGiven(t, nil, nil, err)
	comes(t, "two appliers and a keeper run", func() bool { return own() == 3 })
	_, err = c.Close()
	isGiven(t, nil, nil, err)
	// Close waits until each has said that it ends, which is a moment before it is gone.
	comes(t, "none is left", func() bool { return own() == 0 })
	_, err = Open(Setup{})
	fails(t, ErrEmpty, err)
	isGiven(t, 0, own(), nil)
}

// Goroutines come while the cluster is closed: each update that was numbered is acknowledged and applied as Close ends, and each other one is
// refused.
func TestCloseAmidCalls(t *testing.T) {
	for round := 0; round < 200; round++ {
		c, err := Open(declared())
		isGiven(t, nil, nil, err)
		var numbered atomic.Int64
		var group sync.WaitGroup
		for caller := 0; caller < 4; caller++ {
			group.Add(1)
			go func(caller int) {
				defer group.Done()
				for {
					var err error
					if caller%2 == 0 {
						_, err = c.Propose(always, nil, Add(tea, 1))
					} else {
						_, err = c.Submit(nil, Add(tea, 1))
					}
					var notYet ErrNotYet
					if err == nil || errors.As(err, &notYet) {
						numbered.Add(1)
					}
					if errors.Is(err, ErrStopped) {
						return
					}
					if err != nil {
						t.Error(err)
						return
					}
				}
			}(caller)
		}
		time.Sleep(time.Duration(round) * 5 * time.Microsecond)
		closed, err := c.Close()
		if err != nil {
			t.Fatal(err)
		}
		numbers := c.Numbers()
		group.Wait()
		if numbers != c.Numbers() || numbers.Acknowledged != numbers.Length || numbers.Length != uint64(numbered.Load()) {
			t.Fatalf("%v, and %d numbered", numbers, numbered.Load())
		}
		for _, at := range []Site{shop, yard} {
			seen, err := c.Read(&Session{numbers.Length}, at, tea)
			isGiven(t, Seen{40 + numbered.Load(), numbers.Length}, seen, err)
		}
		next, err := closed.Successor()
		isGiven(t, nil, nil, err)
		_, err = next.Close()
		isGiven(t, nil, nil, err)
	}
}

// A lost wake-up is a test that hangs: two goroutines hand a turn to one another.
func TestManySleepsAndWakes(t *testing.T) {
	rounds := 20_000
	if testing.Short() {
		rounds = 1_000
	}
	c := opened(t, declared())
	for caller := 0; caller < 2; caller++ {
		defer func(ended chan error) { isGiven(t, nil, nil, <-ended) }(func() chan error {
			ended := make(chan error, 1)
			go func() {
				var session Session
				for round := 0; round < rounds; round++ {
					if _, err := c.Propose(always, &session, Add(rye, 1)); err != nil {
						ended <- err
						return
					}
					if _, err := c.ReadWhenLevel(always, &session, yard, rye); err != nil {
						ended <- err
						return
					}
				}
				ended <- nil
			}()
			return ended
		}())
	}
}
