package cluster

import (
	"errors"
	"flag"
	"fmt"
	"math"
	"math/rand"
	"os"
	"path/filepath"
	"runtime"
	"sync"
	"sync/atomic"
	"testing"
)

var (
	epochs  = flag.Int("epochs", 3, "how many clusters follow one another in the test of goroutines")
	sets    = flag.Int("sets", 600, "how many updates each of its callers makes in one")
	records = flag.String("records", "", "the folder that gets the records: EPOCH_SITE.csv")
)

const (
	siteCount, callerCount, readerCount = 4, 4, 4
	shared                              = Object(callerCount)
	objectCount                         = callerCount + 2
	first                               = 1000
)

// What an update added: 1 to its caller's own object, and something to the two that all share.
type added struct {
	caller Object
	shared [2]int64
}

// A sample is what somebody read.
type sample struct {
	object Object
	seen   Seen
}

// An epoch is a cluster with callers that propose, settle and read what they wrote, readers whose values are compared with the log afterwards,
// queries, a changer of limits, and one who looks at the numbers.
type epoch struct {
	*testing.T
	cluster *Cluster
	over    atomic.Bool
	changes []added // by their numbers
	samples [readerCount][]sample
	*counts
}

// counts are what the goroutines of all epochs did.
type counts struct {
	waited, unmet, reads, compared, behind, queries, imported, relimits atomic.Int64
}

func (c *counts) String() string {
	return fmt.Sprintf("%d settled later, %d with conditions not met, %d limits changed, %d reads, %d of them compared with the log, %d behind, "+
		"%d queries, %d over", c.waited.Load(), c.unmet.Load(), c.relimits.Load(), c.reads.Load(), c.compared.Load(), c.behind.Load(),
		c.queries.Load(), c.imported.Load())
}

type caller struct {
	me      Object
	session Session
	chance  *rand.Rand
	own     int64
}

func (e *epoch) must(is bool, format string, words ...any) {
	if !is {
		e.Helper()
		e.Errorf(format, words...)
	}
}

func (e *epoch) call(it *caller) {
	for set := 0; set < *sets && !e.Failed(); set++ {
		made := added{it.me, [2]int64{it.chance.Int63n(7), it.chance.Int63n(3)}}
		list := []Change{Add(it.me, 1), Add(shared, made.shared[0]), Add(shared+1, made.shared[1])}
		seen := it.session.Seen
		if set%16 == 5 {
			number, err := e.cluster.ProposeIf(always, &it.session, []Condition{AtLeast(shared, math.MaxInt64)}, list...)
			e.must(errors.Is(err, ErrUnmet{0}) && number == 0 && it.session.Seen == seen, "%d, %v", number, err)
			e.unmet.Add(1)
		}
		// Each fourth time it does not wait, and settles what it then has to.
		var number uint64
		var err error
		if it.chance.Intn(4) > 0 {
			number, err = e.cluster.Propose(always, &it.session, list...)
		} else if number, err = e.cluster.Submit(nil, list...); err == nil {
			e.must(it.session.Seen == seen, "a session has seen what is not settled")
			err = e.cluster.Settle(always, &it.session, number)
			e.waited.Add(1)
		}
		if err != nil || it.session.Seen < number || number <= seen {
			e.Errorf("update %d, %v: the session has seen %d, and %d before", number, err, it.session.Seen, seen)
			return
		}
		e.changes[number] = made
		it.own++
		if set%8 == 0 {
			out, err := e.cluster.ReadWhenLevel(always, &it.session, Site(it.me+1)%siteCount, it.me)
			e.must(err == nil && out.Applied >= number && out.Value == it.own && it.session.Seen == out.Applied, "%v, %v", out, err)
			values, applied, err := e.cluster.ReadManyWhenLevel(always, &it.session, Site(it.me), it.me, shared, shared+1)
			e.must(err == nil && applied >= out.Applied && values[0] == it.own, "%v, %v", values, err)
			e.reads.Add(2)
		}
	}
}

// A reader goes from site to site with one session. The shared objects only grow, so they never shrink for it.
func (e *epoch) read(me int) {
	chance, session, last := rand.New(rand.NewSource(int64(me))), Session{}, [2]int64{}
	for !e.over.Load() {
		runtime.Gosched() // or who is woken waits for the end of its slice
		at, object, seen := Site(me), Object(chance.Intn(objectCount)), session.Seen
		if chance.Intn(8) == 0 {
			at = Site(chance.Intn(siteCount))
		}
		out, err := e.cluster.Read(&session, at, object)
		var behind ErrBehind
		if errors.As(err, &behind) {
			e.must(behind.Applied < seen && behind.Cause == nil && session.Seen == seen, "%v", err)
			e.behind.Add(1)
			continue
		}
		e.must(err == nil && out.Applied >= seen && session.Seen == out.Applied, "%v, %v", out, err)
		e.reads.Add(1)
		if object >= shared {
			e.must(out.Value >= last[object-shared], "%v after %d", out, last[object-shared])
			last[object-shared] = out.Value
		}
		if len(e.samples[me]) < 1<<16 && chance.Intn(8) == 0 {
			e.samples[me] = append(e.samples[me], sample{object, out})
		}
		if chance.Intn(64) == 0 {
			e.ask(at, uint64(chance.Intn(40)))
		}
	}
}

func (e *epoch) ask(at Site, limit uint64) {
	q, err := e.cluster.Query(at, limit)
	if err != nil {
		e.Error(err)
		return
	}
	var wanted Ended
	for object := Object(0); object < objectCount; object++ {
		answer, err := q.Read(object)
		if err == nil {
			wanted.Total, wanted.Sum, wanted.Reads = wanted.Total+answer.Import, wanted.Sum+answer.Value, wanted.Reads+1
			e.must(answer.Total == wanted.Total && answer.Total <= limit, "%v", answer)
		} else {
			e.must(errors.Is(err, ErrOverImport), "%v", err)
			e.imported.Add(1)
		}
	}
	ended, err := q.End()
	wanted.Place = ended.Place
	e.must(err == nil && ended == wanted && ended.Place >= first, "%v, %v", ended, err)
	e.queries.Add(1)
}

func (e *epoch) changeLimits() {
	chance := rand.New(rand.NewSource(99))
	for !e.over.Load() {
		place, err := e.cluster.Relimit(Site(2+chance.Intn(2)), All, uint64(5+chance.Intn(30)))
		switch {
		case err == nil:
			e.must(place > first, "a limit from %d on", place)
			e.relimits.Add(1)
		case errors.Is(err, ErrHeadPending) || errors.Is(err, ErrLagOver) || errors.Is(err, ErrTooMany):
			e.must(place == 0, "a limit from %d on", place)
		default:
			e.Error(err)
		}
		for turn := 0; turn < 64 && !e.over.Load(); turn++ {
			runtime.Gosched()
		}
	}
}

func (e *epoch) count() {
	was := e.cluster.Numbers()
	for !e.over.Load() {
		is := e.cluster.Numbers()
		e.must(is.Before == was.Before && is.Length >= was.Length && is.Acknowledged >= was.Acknowledged && is.Acknowledged <= is.Length,
			"%v after %v", is, was)
		was = is
		for at := Site(0); at < siteCount; at++ {
			numbers, err := e.cluster.SiteNumbers(at)
			e.must(err == nil && numbers.Reported <= numbers.Applied && numbers.Applied <= numbers.Sent, "%v, %v", numbers, err)
			lags, err := e.cluster.Lags(at)
			e.must(err == nil && len(lags) <= 4, "%v, %v", lags, err)
			for _, lag := range lags {
				e.must(lag.Weight <= lag.Amount, "%v", lag)
			}
		}
		runtime.Gosched()
	}
}

// compare compares what was read with what the updates add up to.
func (e *epoch) compare(length uint64) {
	after := make([][objectCount]int64, length+1)
	for number := uint64(first + 1); number <= length; number++ {
		after[number] = after[number-1]
		after[number][e.changes[number].caller]++
		after[number][shared] += e.changes[number].shared[0]
		after[number][shared+1] += e.changes[number].shared[1]
	}
	for reader := range e.samples {
		for _, it := range e.samples[reader] {
			e.must(it.seen.Applied >= first && it.seen.Applied <= length && it.seen.Value == after[it.seen.Applied][it.object], "%v", it)
		}
		e.compared.Add(int64(len(e.samples[reader])))
	}
	for at := Site(0); at < siteCount; at++ {
		for object := Object(0); object < objectCount; object++ {
			out, err := e.cluster.Read(&Session{length}, at, object)
			e.must(err == nil && out == Seen{after[length][object], length}, "%v, %v", out, err)
		}
	}
}

// all runs functions, each in a goroutine of its own.
func all(functions ...func()) *sync.WaitGroup {
	var group sync.WaitGroup
	for _, it := range functions {
		group.Add(1)
		go func(it func()) {
			defer group.Done()
			it()
		}(it)
	}
	return &group
}

func TestGoroutinesShareAClusterAndItsSuccessors(t *testing.T) {
	setup := Setup{Before: first}
	for object := 0; object < objectCount; object++ {
		setup.Object(fmt.Sprintf("x%d", object), 0)
	}
	for at, capacity := range []uint64{16, 1, 16, 16} {
		setup.Site(fmt.Sprintf("s%d", at), capacity)
	}
	// Each update waits for the first site; the second one has no limit and a feed of one; the others have limits that are changed.
	setup.Limit(0, Count, 0)
	setup.Limit(2, All, 10)
	setup.Limit(3, All, 20)
	setup.Limit(3, OfObject(0), 3)
	cluster := opened(t, setup)
	changes := make([]added, first+*epochs*callerCount**sets+1)
	var callers [callerCount]*caller
	var counts counts
	for me := range callers {
		callers[me] = &caller{me: Object(me), chance: rand.New(rand.NewSource(int64(88 + me)))}
	}
	for at := 0; at < *epochs && !t.Failed(); at++ {
		e := &epoch{T: t, cluster: cluster, changes: changes, counts: &counts}
		calls := all()
		others := all(e.changeLimits, e.count)
		for me := 0; me < readerCount; me++ {
			me := me
			others.Add(1)
			go func() { defer others.Done(); e.read(me) }()
		}
		for _, it := range callers {
			it := it
			calls.Add(1)
			go func() { defer calls.Done(); e.call(it) }()
		}
		calls.Wait()
		isGiven(t, nil, nil, cluster.Finish(always))
		e.over.Store(true)
		others.Wait()
		closed, err := cluster.Close()
		if err != nil {
			t.Fatal(err)
		}
		length := uint64(first + (at+1)*callerCount**sets)
		numbers := cluster.Numbers()
		e.must(numbers.Length == length && numbers.Acknowledged == length, "%v", numbers)
		e.compare(length)
		for at := range [siteCount]int{} {
			rows, err := closed.Record(Site(at))
			isGiven(t, nil, nil, err)
			if *records != "" {
				name := fmt.Sprintf("%d_%d.csv", (int(length)-first)/(callerCount**sets)-1, at)
				isGiven(t, nil, nil, os.WriteFile(filepath.Join(*records, name), rows, 0o666))
			}
		}
		next, err := closed.Successor()
		if err != nil {
			t.Fatal(err)
		}
		closed.Release()
		cluster = next
		t.Logf("%d updates, %v", length-first, &counts)
	}
	_, err := cluster.Close()
	isGiven(t, nil, nil, err)
}
