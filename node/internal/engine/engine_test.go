package engine_test

import (
	"context"
	"errors"
	"fmt"
	"strings"
	"syscall"
	"testing"
	"time"

	"ordup.dev/node/internal/engine"
	"ordup.dev/node/internal/etcdtest"
)

func within(t *testing.T, most time.Duration) context.Context {
	ctx, cancel := context.WithTimeout(context.Background(), most)
	t.Cleanup(cancel)
	return ctx
}

func is(t *testing.T, wants, has any) {
	t.Helper()
	if fmt.Sprint(wants) != fmt.Sprint(has) {
		t.Errorf("%v instead of %v", has, wants)
	}
}

func write(t *testing.T, to *engine.Engine, number int64, text string, absent ...string) error {
	return to.Write(within(t, 10*time.Second), &engine.Write{Number: number, Text: []byte(text), Absent: absent})
}

func TestAnEntryIsWrittenOnce(t *testing.T) {
	members := etcdtest.Start(t, 1)
	one, other := members.Engine(), members.Engine()
	ctx := within(t, 20*time.Second)
	var taken *engine.TakenError
	var missing *engine.MissingError
	var served *engine.ServedError
	is(t, true, errors.As(write(t, one, 2, "b"), &missing))
	is(t, nil, one.Write(ctx, &engine.Write{Number: 1, Text: []byte("a"), Epoch: 1, First: 1}))
	is(t, nil, one.Write(ctx, &engine.Write{Number: 1, Text: []byte("a"), Epoch: 1, First: 1})) // The answer was lost.
	is(t, true, errors.As(write(t, other, 1, "x"), &taken))
	is(t, nil, write(t, one, 2, "b"))
	is(t, true, errors.As(write(t, other, 4, "d"), &missing))
	members.Put("site/south/south", "by hand")
	is(t, true, errors.As(write(t, one, 3, "c", "south"), &served))
	is(t, nil, write(t, one, 3, "c", "sout", "south2", "north"))
	is(t, nil, one.Write(ctx, &engine.Write{Number: 4, Text: []byte("d"), Epoch: 2, First: 4}))
	epoch, first, err := other.Epoch(ctx)
	is(t, []any{2, 4, nil}, []any{epoch, first, err})
	removed, err := one.RemoveEpoch(ctx, 1, nil, engine.Archive{From: 1, Before: 4})
	is(t, []any{true, nil}, []any{removed, err})
	is(t, true, errors.As(write(t, other, 1, "x"), &taken))
	is(t, true, errors.As(write(t, other, 3, "x"), &taken))
	is(t, nil, write(t, other, 5, "e"))
	found, err := one.First(ctx)
	is(t, []any{4, nil}, []any{found, err})
}

// A write may come when its whole epoch was archived and removed, and the last entry of the epoch before was not.
func TestAWriteThatIsLateByAnEpochIsRefused(t *testing.T) {
	members, ctx := etcdtest.Start(t, 1), within(t, 20*time.Second)
	own := members.Engine()
	for _, write := range []*engine.Write{{Number: 1, Epoch: 1, First: 1}, {Number: 2, Last: 1, Since: 1}, {Number: 3, Epoch: 2, First: 3, Last: 1, Since: 1},
		{Number: 4, Last: 2, Since: 3}, {Number: 5, Epoch: 3, First: 5, Last: 2, Since: 3}} {
		write.Text = []byte(fmt.Sprint("entry ", write.Number))
		is(t, nil, own.Write(ctx, write))
		is(t, nil, own.Write(ctx, write)) // The answer was lost.
	}
	removed, err := own.RemoveEpoch(ctx, 2, nil, engine.Archive{From: 3, Before: 5})
	is(t, []any{true, nil}, []any{removed, err})
	for _, late := range []*engine.Write{{Number: 3, Last: 1, Since: 1}, {Number: 3, Epoch: 2, First: 3, Last: 1, Since: 1}, {Number: 6, Last: 2, Since: 3}} {
		late.Text = []byte("late")
		var taken *engine.TakenError
		is(t, true, errors.As(own.Write(ctx, late), &taken))
	}
	epoch, first, err := own.Epoch(ctx)
	is(t, []any{3, 5, nil}, []any{epoch, first, err})
}

func TestKeysOfAnyBytesArePassedOver(t *testing.T) {
	members := etcdtest.Start(t, 1)
	own := members.Engine()
	ctx := within(t, 20*time.Second)
	for _, key := range []string{"script/\xff\xfe", "script/0", "script/00000000000a", "script/0000000000001", "script/abc", "script/",
		"archive/\xff", "archive/000000000001/", "site/\xff/\xff"} {
		members.Put(key, "\xff\x00")
	}
	for number := int64(1); number <= 30; number++ {
		is(t, nil, own.Write(ctx, &engine.Write{Number: number, Text: []byte(strings.Repeat("x", 1000)), Epoch: 1, First: 1}))
		members.Put(fmt.Sprintf("script/%012dx", number), "foreign")
	}
	next, revision := int64(1), int64(0)
	for more := true; more; {
		entries, goesOn, at, err := own.Entries(ctx, next, revision)
		if err != nil {
			t.Fatal(err)
		}
		for _, entry := range entries {
			is(t, next, entry.Number)
			next++
		}
		more, revision = goesOn, at
	}
	is(t, 31, next)
	last, err := own.Last(ctx, 7)
	is(t, []any{30, nil}, []any{last, err})
	first, err := own.First(ctx)
	is(t, []any{1, nil}, []any{first, err})
	archives, err := own.Archives(ctx)
	is(t, []any{0, nil}, []any{len(archives), err})
	members.Put("epoch", "\xff")
	_, _, err = own.Epoch(ctx)
	var wrong *engine.WrongError
	is(t, true, errors.As(err, &wrong))
}

func TestFollowSurvivesCompaction(t *testing.T) {
	members := etcdtest.Start(t, 1)
	own, writer := members.Engine(), members.Engine()
	ctx, stop := context.WithCancel(within(t, 30*time.Second))
	is(t, nil, writer.Write(ctx, &engine.Write{Number: 1, Text: []byte("1"), Epoch: 1, First: 1}))
	came, done := make(chan int64, 1000), make(chan error, 1)
	go func() {
		done <- own.Follow(ctx, 1, func(entries []engine.Raw) error {
			for _, entry := range entries {
				came <- entry.Number
			}
			return nil
		})
	}()
	for number := int64(2); number <= 60; number++ {
		is(t, nil, write(t, writer, number, "x"))
		if number%20 == 0 {
			status, err := members.Client().Get(ctx, "epoch")
			is(t, nil, err)
			_, err = members.Client().Compact(ctx, status.Header.Revision)
			is(t, nil, err)
		}
	}
	for number := int64(1); number <= 60; number++ {
		is(t, number, <-came)
	}
	stop()
	is(t, context.Canceled, <-done)
}

// Entries come over a thin link too, those that are there and those that are written later, though one takes longer than a call may.
func TestAThinLink(t *testing.T) {
	members := etcdtest.Start(t, 1)
	writer, link := members.Engine(), members.Link()
	own := link.Engine(t)
	large := strings.Repeat("x", 400_000)
	is(t, nil, writer.Write(within(t, 10*time.Second), &engine.Write{Number: 1, Text: []byte(large), Epoch: 1, First: 1}))
	for number := int64(2); number <= 20; number++ {
		is(t, nil, write(t, writer, number, "small"))
	}
	link.Rate(100_000)
	ctx, cancel := context.WithCancel(within(t, 60*time.Second))
	defer cancel()
	next := int64(1)
	for next <= 22 && ctx.Err() == nil {
		err := own.Follow(ctx, next, func(entries []engine.Raw) error {
			for _, entry := range entries {
				is(t, next, entry.Number)
				next++
			}
			if next == 21 {
				is(t, nil, write(t, writer, 21, large))
				is(t, nil, write(t, writer, 22, "small"))
			}
			if next == 23 {
				cancel()
			}
			return nil
		})
		is(t, true, engine.IsAway(err) || next == 23)
	}
	is(t, 23, next)
	t.Logf("%d calls failed", own.Failures())
	is(t, true, own.Failures() < 10)
}

func TestAMemberThatIsAwayIsLeft(t *testing.T) {
	members := etcdtest.Start(t, 3)
	own := members.Engine()
	ctx := within(t, 60*time.Second)
	is(t, nil, own.Write(ctx, &engine.Write{Number: 1, Text: []byte("1"), Epoch: 1, First: 1}))
	members.Kill(0)
	members.Signal(1, syscall.SIGSTOP)
	_, _, err := own.Epoch(ctx)
	is(t, true, engine.IsAway(err)) // There is no majority.
	is(t, true, errors.Unwrap(err) != nil && strings.HasSuffix(err.Error(), errors.Unwrap(err).Error()))
	members.Signal(1, syscall.SIGCONT)
	asked := time.Now()
	for err = errors.New("not asked"); err != nil; err = write(t, own, 2, "2") {
		if time.Since(asked) > 30*time.Second {
			t.Fatal(err)
		}
	}
	is(t, true, own.Failures() > 0)
	stopped, cancel := context.WithCancel(ctx)
	cancel()
	_, _, err = own.Epoch(stopped)
	is(t, context.Canceled, err)
}

func TestOneProcessHasALease(t *testing.T) {
	members := etcdtest.Start(t, 1)
	own := members.Engine()
	run := func(name string) (*engine.Lease, context.CancelFunc, chan struct{}) {
		lease := own.NewLease(engine.SiteKey("far", "east"), name, nil, nil)
		ctx, cancel := context.WithCancel(within(t, 60*time.Second))
		done := make(chan struct{})
		go func() { lease.Run(ctx); close(done) }()
		return lease, cancel, done
	}
	relies := func(lease *engine.Lease, most time.Duration) bool {
		for until := time.Now().Add(most); time.Now().Before(until); time.Sleep(10 * time.Millisecond) {
			if lease.Lives(1) {
				return true
			}
		}
		return false
	}
	one, stopOne, doneOne := run("one")
	is(t, true, relies(one, 5*time.Second))
	other, stopOther, doneOther := run("other")
	is(t, false, relies(other, time.Second))
	keys, err := own.SiteKeys(within(t, 5*time.Second), "far")
	is(t, []any{1, true, "site/far/east", nil}, []any{len(keys), keys[0].IsLeased, keys[0].Name, err})
	stopOne()
	<-doneOne
	is(t, false, one.Lives(1))
	is(t, true, relies(other, 2*time.Second)) // It was given back, and need not run out.
	// A key that is taken away by hand is lost. Then the process takes it again, in another term.
	if _, err := members.Client().Delete(within(t, 5*time.Second), engine.SiteKey("far", "east")); err != nil {
		t.Fatal(err)
	}
	for until := time.Now().Add(10 * time.Second); !other.Lives(2) && time.Now().Before(until); time.Sleep(10 * time.Millisecond) {
	}
	is(t, []bool{false, true}, []bool{other.Lives(1), other.Lives(2)})
	stopOther()
	<-doneOther
	keys, err = own.SiteKeys(within(t, 5*time.Second), "far")
	is(t, []any{0, nil}, []any{len(keys), err})
}

func TestAKeyIsRemovedAsItIs(t *testing.T) {
	members := etcdtest.Start(t, 1)
	own, ctx := members.Engine(), within(t, 20*time.Second)
	for _, key := range []string{"site/far/\xff", "site/far/", "site/far0", "site/fas/a", "site/fa/r"} {
		members.Put(key, "by hand")
	}
	keys, err := own.SiteKeys(ctx, "far")
	is(t, []any{2, "site/far/", false, "site/far/\xff", nil}, []any{len(keys), keys[0].Name, keys[0].IsLeased, keys[1].Name, err})
	members.Put("site/far/", "again")
	for at, key := range keys {
		removed, err := own.RemoveKey(ctx, key)
		is(t, []any{at == 1, nil}, []any{removed, err})
	}
	keys, err = own.SiteKeys(ctx, "far")
	is(t, []any{1, nil}, []any{len(keys), err})
}
