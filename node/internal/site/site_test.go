package site

import (
	"context"
	"crypto/sha256"
	"errors"
	"fmt"
	"sync"
	"testing"
	"time"

	"ordup.dev/node/internal/engine"
	"ordup.dev/node/internal/epoch"
	"ordup.dev/node/internal/etcdtest"
	"ordup.dev/node/internal/script"
)

type nowhere struct{}

func (nowhere) Tell(context.Context, epoch.Place) error { return nil }

var until = etcdtest.Until

// A process serves what it has once that is as far as the script was when it got the lease, in that term of the lease alone.
func TestFromWhereOnASiteServes(t *testing.T) {
	members := etcdtest.Start(t, 1)
	writer := members.Engine()
	ctx, cancel := context.WithTimeout(context.Background(), 30*time.Second)
	defer cancel()
	write := func(number int64) {
		t.Helper()
		is(t, nil, writer.Write(ctx, &engine.Write{Number: number, Text: []byte("x"), Epoch: 1, First: 1}))
	}
	for number := int64(1); number <= 5; number++ {
		write(number)
	}
	site, err := New(Config{Engine: members.Engine(), Open: openStore, Name: "north", Host: "h", Versions: []string{"1"}, Teller: nowhere{}})
	is(t, nil, err)
	serves := func(entry int64) bool {
		site.show(&Shown{Entry: entry, Epoch: 1})
		now, _ := site.now()
		site.wasTaken(now.Term)
		_, err := site.Read(ctx, Seen{})
		is(t, true, err == nil || err == ErrNotServing)
		return err == nil
	}
	is(t, false, serves(5)) // It has no lease.
	leased, giveUp := context.WithCancel(ctx)
	done := make(chan struct{})
	go func() { site.lease.Run(leased); close(done) }()
	until(t, "it gets no lease", site.lease.Relies)
	is(t, []bool{false, true}, []bool{serves(4), serves(5)})
	write(6)
	is(t, true, serves(5)) // The lease is older than that entry.
	// The key is taken away by hand. In the next term the entry counts.
	members.Delete("site/north")
	until(t, "it does not lose the lease", func() bool { return !serves(5) })
	until(t, "it gets no lease again", func() bool { return serves(6) })
	is(t, false, serves(5))
	giveUp()
	<-done
	is(t, false, serves(6))
}

// A listener keeps the places that it is told.
type listener struct {
	lock   sync.Mutex
	places []epoch.Place
}

func (l *listener) Tell(_ context.Context, place epoch.Place) error {
	l.lock.Lock()
	defer l.lock.Unlock()
	l.places = append(l.places, place)
	return nil
}

func (l *listener) told() []epoch.Place {
	l.lock.Lock()
	defer l.lock.Unlock()
	return append([]epoch.Place{}, l.places...)
}

// A process that follows the script without the lease tells nothing. Another one may serve readers, and has not shown as much.
func TestASiteTellsNothingWithoutTheLease(t *testing.T) {
	members, listener, script := etcdtest.Start(t, 1), &listener{}, newWritten(t)
	ctx, cancel := context.WithTimeout(context.Background(), 30*time.Second)
	defer cancel()
	script.ask("ann", 1, "add:tea:-5")
	script.write()
	for at, entry := range script.entries {
		is(t, nil, members.Engine().Write(ctx, &engine.Write{Number: int64(at + 1), Text: entry.Text(), Epoch: 1, First: 1}))
	}
	other := members.Engine().NewLease(engine.SiteKey("north", "north"), "other", nil, nil)
	leased, giveUp := context.WithCancel(ctx)
	done := make(chan struct{})
	go func() { other.Run(leased); close(done) }()
	until(t, "the other process has no lease", other.Relies)
	site, err := New(Config{Engine: members.Engine(), Open: openStore, Name: "north", Host: "h", Versions: []string{"1"}, Teller: listener})
	is(t, nil, err)
	ended := make(chan error, 1)
	go func() { ended <- site.Run(ctx) }()
	until(t, "it does not follow", func() bool { return site.Status().Place == 1 })
	time.Sleep(3 * tellAgain)
	is(t, "[]", listener.told())
	giveUp()
	<-done
	until(t, "it tells nothing with the lease", func() bool { return len(listener.told()) > 0 })
	digest := fmt.Sprintf("%x", sha256.Sum256(script.entries[1].Text()))[:16]
	is(t, epoch.Place{Site: "north", Member: "north", Epoch: 1, Applied: 1, Entry: 2, Digest: digest}, listener.told()[0])
	cancel()
	is(t, nil, <-ended)
}

// limitsOf are limits as declarations have them.
func limitsOf(texts []string) script.Limits {
	limits := script.Limits{}
	for _, text := range texts {
		limit, _ := script.ParseLimit(text)
		limits = append(limits, limit)
	}
	return limits
}

// A place is told at once where somebody may wait for it, and else so often at most.
func TestWhenAPlaceIsTold(t *testing.T) {
	for _, row := range []struct {
		limits      []string
		place, told int64
		isNew       bool
		since       time.Duration
		isDue       bool
		again       time.Duration
	}{
		{nil, 9, 0, true, 10 * time.Millisecond, false, tellPace},
		{nil, 9, 0, true, tellPace, true, 0},
		{[]string{"count 40"}, 10, 0, true, 0, false, tellPace},
		{[]string{"count 40"}, 11, 0, true, 0, true, 0},
		{[]string{"count 3"}, 1, 0, true, 0, true, 0},
		{[]string{"count 40", "object tea 1000"}, 1, 0, true, 0, true, 0},
		{nil, 9, 8, false, 100 * time.Millisecond, false, tellAgain},
		{nil, 9, 8, false, tellAgain, true, 0},
		{[]string{"count 3"}, 9, 9, false, time.Second, false, tellStill},
		{nil, 9, 9, false, tellStill, true, 0},
	} {
		t.Run(fmt.Sprint(row), func(t *testing.T) {
			shown, told := &Shown{Epoch: 1, Place: row.place, Told: row.told, Limits: limitsOf(row.limits)}, &epoch.Place{Epoch: 1, Applied: row.place}
			if row.isNew {
				told.Applied--
			}
			isDue, again := IsDue(shown, told, row.since)
			if isDue != row.isDue || !isDue && again != row.again-row.since {
				t.Errorf("%v: %v, %v", row, isDue, again)
			}
		})
	}
	isDue, again := IsDue(nil, &epoch.Place{}, 0)
	is(t, []any{false, tellAgain}, []any{isDue, again})
}

// While many entries come, a site without limits tells some places, and the last one soon.
func TestASiteThatNobodyWaitsForTellsSeldom(t *testing.T) {
	members, listener, script := etcdtest.Start(t, 1), &listener{}, newWritten(t)
	ctx, cancel := context.WithTimeout(context.Background(), 30*time.Second)
	defer cancel()
	writer, count := members.Engine(), 0
	write := func() {
		for ; count < len(script.entries); count++ {
			is(t, nil, writer.Write(ctx, &engine.Write{Number: int64(count + 1), Text: script.entries[count].Text(), Epoch: 1, First: 1}))
		}
	}
	write()
	site, err := New(Config{Engine: members.Engine(), Open: openStore, Name: "south", Host: "h", Versions: []string{"1"}, Teller: listener})
	is(t, nil, err)
	go site.Run(ctx)
	until(t, "it does not serve", func() bool { return site.Status().Serves && len(listener.told()) > 0 })
	const updates = 100
	begun, before := time.Now(), len(listener.told())
	for number := int64(1); number <= updates; number++ {
		script.ask("ann", number, "add:tea:1")
		script.write()
		write()
	}
	until(t, "it does not follow", func() bool { return site.Status().Place == updates })
	most := int(time.Since(begun)/tellPace) + 2
	until(t, "it does not tell the last place", func() bool { told := listener.told(); return told[len(told)-1].Applied == updates })
	if told := len(listener.told()) - before; told > most {
		t.Errorf("it told %d places of %d, and not %d at most", told, updates, most)
	}
}

func TestAReaderSeesNoLessThanBefore(t *testing.T) {
	members := etcdtest.Start(t, 1)
	site, err := New(Config{Engine: members.Engine(), Open: openStore, Name: "north", Host: "h", Versions: []string{"1"}, Teller: nowhere{}})
	is(t, nil, err)
	ctx, cancel := context.WithTimeout(context.Background(), 30*time.Second)
	defer cancel()
	go site.lease.Run(ctx)
	until(t, "it gets no lease", site.lease.Relies)
	site.show(&Shown{Entry: 7, Epoch: 2, Place: 5})
	site.wasTaken(1)
	for _, seen := range []Seen{{}, {1, 99}, {2, 5}} {
		reading, err := site.Read(ctx, seen)
		is(t, []any{5, nil}, []any{reading.Place, err})
	}
	short, cancelShort := context.WithTimeout(ctx, 20*time.Millisecond)
	defer cancelShort()
	_, err = site.Read(short, Seen{2, 6})
	var behind *BehindError
	is(t, true, errors.As(err, &behind) && behind.Has == Seen{2, 5})
	_, err = site.Read(ctx, Seen{4, 0}) // It can be of no honest reader, and waits for nothing.
	is(t, true, errors.As(err, &behind) && behind.Has == Seen{2, 5})
	_, err = site.Read(short, Seen{3, 0})
	is(t, true, errors.As(err, &behind) && behind.Has == Seen{2, 5})
	read := make(chan any, 2)
	ask := func(seen Seen) {
		waits := func() int { site.lock.Lock(); defer site.lock.Unlock(); return len(site.waiting) }
		before := waits()
		go func() {
			if reading, err := site.Read(ctx, seen); err != nil {
				read <- err
			} else {
				read <- reading.Entry
			}
		}()
		until(t, "a reader does not wait", func() bool { return waits() > before })
	}
	ask(Seen{3, 1})
	ask(Seen{3, 9})
	site.show(&Shown{Entry: 8, Epoch: 3, Place: 0})
	is(t, 2, len(site.waiting))
	site.show(&Shown{Entry: 9, Epoch: 3, Place: 1})
	is(t, int64(9), <-read)
	is(t, 1, len(site.waiting))
	site.show(nil)
	is(t, ErrNotServing, <-read)
	is(t, []int{0, 4}, []int{len(site.waiting), int(site.Status().Readers)})
}

func TestWhatIsNoSite(t *testing.T) {
	members := etcdtest.Start(t, 1)
	for _, config := range []Config{{Name: "North", Host: "h"}, {Name: "", Host: "h"}, {Name: "a/b", Host: "h"}, {Name: "a", Fleet: "\xff", Host: "h"},
		{Name: "a", Host: "h h"}} {
		config.Engine = members.Engine()
		if _, err := New(config); err == nil {
			t.Errorf("%v is a site", config)
		}
	}
}
