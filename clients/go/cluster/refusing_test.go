//go:build refusing

package cluster

// Memory that is refused, by a library whose heap is that of clients/c/refusing.c: go test -tags refusing -run Refused ./cluster

import (
	"errors"
	"math"
	"reflect"
	"runtime"
	"strings"
	"testing"

	"ordup.dev/ordup/cluster/internal/refusing"
)

// A refusal is one run in which memory is refused: an allocation of it, and all later ones or not; or of each call the first, the second, and so
// on until it is done.
type refusal struct {
	*testing.T
	at     int
	later  bool
	ofEach bool
	said   map[string]int // how often each call said so, over all runs
}

func (r *refusal) must(is bool, format string, words ...interface{}) {
	if !is {
		r.Helper()
		r.Logf("allocation %d is refused, and all later ones: %v; those of each call: %v", r.at, r.later, r.ofEach)
		r.Fatalf(format, words...)
	}
}

// isShort is whether a call says that memory was refused. No more is refused then.
func (r *refusal) isShort(name string, err error) bool {
	if !errors.Is(err, ErrNoMemory) {
		return false
	}
	r.must(refusing.Refused() > 0, "%s: %v, and no memory was refused", name, err)
	r.said[name]++
	refusing.At(0, false)
	return true
}

// again makes a call, again where memory was refused, after which something is as it was.
func (r *refusal) again(name string, call func() error, asItWas func() bool) {
	r.Helper()
	err := r.call(1, call)
	for attempt := 2; r.isShort(name, err); attempt++ {
		r.must(asItWas(), "%s: something is not as it was", name)
		err = r.call(attempt, call)
	}
	r.must(err == nil, "%s: %v", name, err)
}

func (r *refusal) call(attempt int, call func() error) error {
	if r.ofEach {
		refusing.At(attempt, false)
		defer refusing.At(0, false)
	}
	return call()
}

// finish finishes what is numbered. Where memory was refused after that the update stands, and Settle and Finish go on.
func (r *refusal) finish(c *Cluster) {
	r.again("Finish", func() error { return c.Finish(always) }, func() bool { return true })
}

// What comes of a run, whatever was refused.
type result struct {
	values  [2][]int64
	applied [2]uint64
	changes [2]string // those rows of the records
	place   uint64
	charged Charged
	ended   Ended
	numbers Numbers
	last    Numbers
}

const updates = 12

func (r *refusal) propose(c *Cluster) {
	var session Session
	for i := 0; i < updates; i++ {
		changes := []Change{Add(0, int64(i)), Mul(1, 2)}
		is := c.Numbers().Length
		asItWas := func() bool { return c.Numbers().Length == is && session.Seen <= is }
		r.again("ProposeIf, unmet", func() error {
			_, err := c.ProposeIf(always, &session, []Condition{AtMost(1, math.MinInt64)}, changes...)
			r.must(err != nil && asItWas(), "a proposal whose condition is not met was numbered")
			if errors.Is(err, ErrUnmet{0}) {
				return nil
			}
			return err
		}, asItWas)
		var number uint64
		r.again("ProposeIf", func() (err error) {
			number, err = c.ProposeIf(always, &session, []Condition{AtMost(0, 1000), AtLeast(1, 0)}, changes...)
			var notYet ErrNotYet
			if !errors.As(err, &notYet) {
				return err
			}
			// It stands.
			r.must(r.isShort("ProposeIf, numbered", err) && notYet.Number == is+1 && session.Seen <= is, "%v", err)
			return c.Settle(always, &session, number)
		}, asItWas)
		r.must(number == is+1 && session.Seen == number, "update %d", number)
	}
}

func (r *refusal) calls() (out result) {
	setup := Setup{Before: 3}
	x, y := setup.Object("x", 0), setup.Object("y", 5)
	both := setup.Group("both", x, y)
	a := setup.Site("a", 4)
	setup.Site("b", 64)
	setup.Limit(a, All, 1_000_000)
	setup.Limit(a, OfGroup(both), 1_000_000)
	var c, next *Cluster
	var q *Query
	var closed *Closed
	var err error
	r.again("Open", func() error { c, err = Open(setup); return err }, func() bool { return c == nil })
	r.propose(c)
	r.finish(c)
	r.again("Query", func() error { q, err = c.Query(a, 1_000_000); return err }, func() bool { return q == nil })
	out.charged, err = q.Read(x)
	r.must(err == nil, "%v", err)
	out.ended, err = q.End()
	r.must(err == nil, "%v", err)
	// What a read imports hangs on what the site has applied, so these are those of any site.
	out.charged.Import, out.charged.Total, out.ended.Total, out.charged.Value, out.ended.Sum = 0, 0, 0, 0, 0
	r.again("Relimit", func() error { out.place, err = c.Relimit(a, Count, 50); return err }, func() bool { return out.place == 0 })
	out.numbers = c.Numbers()
	r.again("Close", func() error { closed, err = c.Close(); return err }, func() bool { return closed == nil && c.Numbers() == out.numbers })
	for at := range out.values {
		var rows []byte
		r.again("Record", func() error { rows, err = closed.Record(Site(at)); return err }, func() bool { return rows == nil })
		for _, row := range strings.SplitAfter(string(rows), "\n") {
			if strings.HasPrefix(row, "change,") {
				out.changes[at] += row
			}
		}
		out.values[at], out.applied[at], err = c.ReadMany(nil, Site(at), x, y)
		r.must(err == nil, "%v", err)
	}
	r.again("Successor", func() error { next, err = closed.Successor(); return err }, func() bool { return next == nil })
	r.propose(next)
	r.finish(next)
	closed.Release()
	r.again("Close", func() error { closed, err = next.Close(); return err }, func() bool { return true })
	out.last = next.Numbers()
	refusing.At(0, false)
	closed.Release()
	runtime.KeepAlive(q)
	r.must(refusing.Blocks() == 0, "%d blocks of memory are not given back", refusing.Blocks())
	return out
}

func TestRefusedMemoryLosesNothing(t *testing.T) {
	r := &refusal{T: t, said: map[string]int{}}
	refusing.At(0, false)
	r.calls()
	refusing.At(1_000_000_000, false)
	wanted := r.calls()
	// 0 + 1 + .. + 11, and 5 doubled 12 times.
	isGiven(t, []int64{66, 20480}, wanted.values[0], nil)
	isGiven(t, wanted.values[0], wanted.values[1], nil)
	isGiven(t, Numbers{3, 15, 15}, wanted.numbers, nil)
	isGiven(t, Numbers{15, 27, 27}, wanted.last, nil)
	all := refusing.Asked()
	tried := 0
	for _, r.later = range []bool{false, true} {
		for r.at = 1; ; r.at++ {
			refusing.At(r.at, r.later)
			given := r.calls()
			r.must(reflect.DeepEqual(given, wanted), "%v instead of %v", given, wanted)
			if refusing.Refused() == 0 {
				break
			}
			tried++
		}
		r.must(r.at > all/2, "no more memory was asked for, and of a run in which nothing is refused that is %d times", all)
	}
	// Beside a keeper at work the first allocation may be another's, and then it is refused nothing: so this is tried some times.
	r.ofEach, r.said = true, map[string]int{}
	for run := 0; run < 8; run++ {
		given := r.calls()
		r.must(reflect.DeepEqual(given, wanted), "%v instead of %v", given, wanted)
	}
	for _, name := range []string{
		"Open", "ProposeIf, unmet", "ProposeIf", "ProposeIf, numbered", "Query", "Relimit", "Close", "Record", "Successor",
	} {
		if r.said[name] == 0 {
			t.Errorf("%s never said that memory was refused", name)
		}
	}
	t.Logf("%d refusals, and of each call: %v", tried, r.said)
}
