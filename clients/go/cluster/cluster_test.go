package cluster

import (
	"context"
	"errors"
	"fmt"
	"math"
	"os"
	"path/filepath"
	"reflect"
	"runtime"
	"strings"
	"testing"
	"time"
)

const (
	tea, rye   = Object(0), Object(1)
	shop, yard = Site(0), Site(1)
)

// declared has two objects and two sites. Each update waits for the first site; the feed of the second one holds one.
func declared() (setup Setup) {
	setup.Object("tea", 40)
	setup.Object("rye", 0)
	setup.Site("shop", 4)
	setup.Site("yard", 1)
	setup.Limit(shop, Count, 0)
	return setup
}

func opened(t *testing.T, setup Setup) *Cluster {
	t.Helper()
	c, err := Open(setup)
	if err != nil {
		t.Fatal(err)
	}
	t.Cleanup(func() { c.Close() })
	return c
}

// isGiven fails the test where a call gave something else, or an error.
func isGiven(t *testing.T, wanted, given any, err error) {
	t.Helper()
	if err != nil || !reflect.DeepEqual(given, wanted) {
		t.Errorf("%#v, %v instead of %#v", given, err, wanted)
	}
}

// fails fails the test where an error is not this one.
func fails(t *testing.T, wanted, err error) {
	t.Helper()
	if !errors.Is(err, wanted) {
		t.Errorf("%v instead of %v", err, wanted)
	}
}

var always = context.Background()

// soon is a context that ends after a while.
func soon(t *testing.T) context.Context {
	ctx, cancel := context.WithTimeout(always, 30*time.Millisecond)
	t.Cleanup(cancel)
	return ctx
}

func TestAnUpdateIsSeenAtEachSite(t *testing.T) {
	c := opened(t, declared())
	var session Session
	number, err := c.Propose(always, &session, Add(tea, -3), Set(rye, 7))
	isGiven(t, uint64(1), number, err)
	isGiven(t, uint64(1), session.Seen, nil)
	for _, at := range []Site{shop, yard} {
		seen, err := c.ReadWhenLevel(always, &session, at, tea)
		isGiven(t, Seen{37, 1}, seen, err)
		values, applied, err := c.ReadManyWhenLevel(always, &session, at, rye, tea)
		isGiven(t, []int64{7, 37}, values, err)
		isGiven(t, uint64(1), applied, nil)
	}
	seen, err := c.Read(nil, shop, tea)
	isGiven(t, Seen{37, 1}, seen, err)
	values, applied, err := c.ReadMany(nil, shop)
	isGiven(t, []int64{}, values, err)
	isGiven(t, uint64(1), applied, nil)
}

func TestEachOperation(t *testing.T) {
	c := opened(t, declared())
	var session Session
	for _, it := range []struct {
		change Change
		wanted int64
	}{
		{Add(tea, 2), 42}, {Set(tea, 5), 5}, {Mul(tea, -3), -15}, {Max(tea, -20), -15}, {Max(tea, 9), 9}, {Min(tea, 12), 9}, {Min(tea, 4), 4},
		{Take(tea, rye), 0},
	} {
		if _, err := c.Propose(always, &session, it.change); err != nil {
			t.Fatal(err)
		}
		seen, err := c.Read(&session, shop, tea)
		isGiven(t, it.wanted, seen.Value, err)
	}
}

func TestWhatMayNotBeDeclared(t *testing.T) {
	with := func(change func(*Setup)) Setup {
		setup := declared()
		change(&setup)
		return setup
	}
	for _, it := range []struct {
		name   string
		setup  Setup
		wanted error
		what   string
	}{
		{"nothing", Setup{}, ErrEmpty, ""},
		{"a name that is taken", with(func(s *Setup) { s.Object("tea", 1) }), Refused{5, "NameTaken"}, `object "tea"`},
		{"a name that is none", with(func(s *Setup) { s.Site("", 1) }), Refused{4, "BadName"}, `site ""`},
		{"a value out of range", with(func(s *Setup) { s.Object("oat", 1_000_000_001) }), ErrOutOfRange, `object "oat"`},
		{"a feed of nothing", with(func(s *Setup) { s.Site("dock", 0) }), ErrOutOfRange, `site "dock"`},
		{"a limit of no site", with(func(s *Setup) { s.Limit(9, All, 1) }), ErrUnknownSite, "limit of site 9"},
		{"a limit on no object", with(func(s *Setup) { s.Limit(yard, OfObject(9), 1) }), ErrUnknownObject, "limit of site 1"},
		{"a limit on no group", with(func(s *Setup) { s.Limit(yard, OfGroup(0), 1) }), ErrUnknownGroup, "limit of site 1"},
		{"a limit twice", with(func(s *Setup) { s.Limit(shop, Count, 2) }), ErrRepeated, "limit of site 0"},
		{"too many before", Setup{Before: mostBefore + 1}, ErrLogFull, ""},
	} {
		t.Run(it.name, func(t *testing.T) {
			c, err := Open(it.setup)
			if c != nil || !errors.Is(err, it.wanted) || !strings.Contains(err.Error(), it.what) {
				t.Errorf("%v, %v instead of %v", c, err, it.wanted)
			}
		})
	}
}

func TestASetupOpensManyClusters(t *testing.T) {
	setup := declared()
	setup.Before = 5
	first := opened(t, setup)
	more := setup
	more.Object("oat", 3)
	setup.Object("bran", 4)
	second := opened(t, more)
	number, err := first.Propose(always, nil, Add(tea, 1))
	isGiven(t, uint64(6), number, err)
	seen, err := second.Read(nil, yard, 2)
	isGiven(t, Seen{3, 5}, seen, err)
	seen, err = opened(t, setup).Read(nil, yard, 2)
	isGiven(t, Seen{4, 5}, seen, err)
}

func TestMisuse(t *testing.T) {
	setup := declared()
	setup.Before = 5
	c, other := opened(t, setup), opened(t, setup)
	var session Session
	for _, it := range []struct {
		wanted  error
		changes []Change
	}{
		{ErrUnknownObject, []Change{Add(9, 1)}}, {ErrUnknownObject, []Change{Take(tea, 9)}}, {Refused{1, "Syntax"}, []Change{{0, 9, 1}}},
		{ErrRepeated, []Change{Add(tea, 1), Add(tea, 1)}}, {ErrEmpty, nil}, {ErrOutOfRange, []Change{Set(tea, math.MaxInt64)}},
	} {
		number, err := c.Propose(always, &session, it.changes...)
		fails(t, it.wanted, err)
		_, second := c.Submit(nil, it.changes...)
		fails(t, it.wanted, second)
		isGiven(t, uint64(0), number, nil)
	}
	for _, number := range []uint64{0, 6, math.MaxUint64} {
		fails(t, ErrOutOfRange, c.Settle(always, &session, number))
	}
	isGiven(t, nil, nil, c.Settle(always, nil, 5))
	for _, at := range []Site{2, math.MaxUint32} {
		_, err := c.Read(&session, at, tea)
		fails(t, ErrUnknownSite, err)
		_, err = c.ReadWhenLevel(always, &session, at, tea)
		fails(t, ErrUnknownSite, err)
		_, _, err = c.ReadMany(&session, at, tea)
		fails(t, ErrUnknownSite, err)
		_, _, err = c.ReadManyWhenLevel(always, &session, at, tea)
		fails(t, ErrUnknownSite, err)
		_, err = c.Query(at, 1)
		fails(t, ErrUnknownSite, err)
		_, err = c.Relimit(at, All, 1)
		fails(t, ErrUnknownSite, err)
		_, err = c.SiteNumbers(at)
		fails(t, ErrUnknownSite, err)
		_, err = c.Lags(at)
		fails(t, ErrUnknownSite, err)
		_, err = c.Record(at)
		fails(t, ErrUnknownSite, err)
	}
	_, err := c.Read(&session, shop, 9)
	fails(t, ErrUnknownObject, err)
	_, _, err = c.ReadMany(&session, shop, tea, math.MaxUint32)
	fails(t, ErrUnknownObject, err)
	_, err = c.Relimit(shop, OfObject(9), 1)
	fails(t, ErrUnknownObject, err)
	_, err = c.Relimit(shop, OfGroup(0), 1)
	fails(t, ErrUnknownGroup, err)
	_, err = c.Relimit(shop, All, mostBefore+1)
	fails(t, ErrOutOfRange, err)
	_, err = c.Query(shop, mostBefore+1)
	fails(t, ErrOutOfRange, err)
	isGiven(t, Session{}, session, nil)
	isGiven(t, Numbers{5, 5, 5}, c.Numbers(), nil)

	// A query of one cluster at a site of another.
	q, err := c.Query(shop, 1)
	isGiven(t, nil, nil, err)
	q.cluster = other
	if _, err := q.Read(tea); err == nil || err.Error() != "ordup: status 11" {
		t.Error(err)
	}
	q.cluster = c
	_, err = q.Read(9)
	fails(t, ErrUnknownObject, err)
	charged, err := q.Read(tea)
	isGiven(t, Charged{40, 0, 0, 5, 1}, charged, err)
}

func TestAnUpdateHasAtMost64Changes(t *testing.T) {
	var setup Setup
	var many []Change
	for len(many) < 65 {
		many = append(many, Add(setup.Object(fmt.Sprintf("x%d", len(many)), 0), 1))
	}
	setup.Site("shop", 1)
	c := opened(t, setup)
	_, err := c.Propose(always, nil, many...)
	fails(t, ErrTooMany, err)
	_, err = c.Propose(always, nil, many[1:]...)
	isGiven(t, nil, nil, err)
}

func TestAQueryImportsNoMoreThanItsLimit(t *testing.T) {
	c := opened(t, declared())
	var session Session
	c.sites[yard].lock.Lock()
	for _, change := range []int64{-3, -4} {
		if _, err := c.Propose(always, &session, Add(tea, change)); err != nil {
			t.Fatal(err)
		}
	}
	applied := c.sites[yard].site
	seen, _ := applied.read(tea, 0)
	isGiven(t, Seen{40, 0}, seen, nil)
	ends := make(chan struct{})
	for _, it := range []struct {
		limit, total uint64
		wanted       error
		ended        Ended
	}{{7, 7, nil, Ended{2, 40, 7, 1}}, {6, 0, ErrOverImport, Ended{2, 0, 0, 0}}} {
		q, err := c.Query(yard, it.limit)
		isGiven(t, nil, nil, err)
		charged, status := q.query.read(&c.sites[yard].site, tea)
		fails(t, it.wanted, status.fault())
		if it.wanted == nil {
			isGiven(t, Charged{40, 7, 7, 2, 1}, charged, nil)
		}
		ended, err := q.End()
		isGiven(t, it.ended, ended, err)
		_, err = q.End()
		fails(t, ErrClosed, err)
		go func() {
			_, err := q.Read(tea)
			fails(t, ErrClosed, err)
			ends <- struct{}{}
		}()
	}
	c.sites[yard].lock.Unlock()
	<-ends
	<-ends
}

func TestConditionsAreTestedWhereTheUpdateIsNumbered(t *testing.T) {
	c := opened(t, declared())
	var session Session
	number, err := c.ProposeIf(always, &session, []Condition{AtLeast(tea, math.MaxInt64)}, Add(tea, -3))
	var unmet ErrUnmet
	if !errors.As(err, &unmet) || unmet.Index != 0 || number != 0 || session.Seen != 0 {
		t.Errorf("%d, %v", number, err)
	}
	sale := []Change{Add(tea, -30), Add(rye, 1)}
	kept := []Condition{AtMost(rye, 1), AtLeast(tea, 0)}
	_, err = c.ProposeIf(always, &session, []Condition{AtLeast(9, 0)}, sale...)
	fails(t, ErrUnknownObject, err)
	number, err = c.ProposeIf(always, &session, kept, sale...)
	isGiven(t, uint64(1), number, err)
	_, err = c.ProposeIf(always, &session, kept, sale...)
	fails(t, ErrUnmet{0}, err)
	_, err = c.ProposeIf(always, &session, kept, sale[0])
	fails(t, ErrUnmet{1}, err)
	_, err = c.Submit(kept, sale[0])
	fails(t, ErrUnmet{1}, err)
	isGiven(t, Numbers{0, 1, 1}, c.Numbers(), nil)
}

func TestGroupsAndTheNumbersOfSites(t *testing.T) {
	setup := declared()
	setup.Before = 7
	both := setup.Group("both", tea, rye)
	setup.Limit(yard, OfGroup(both), 100)
	setup.Limit(yard, All, 200)
	c := opened(t, setup)
	number, err := c.Propose(always, nil, Add(tea, 1), Add(rye, 2))
	isGiven(t, uint64(8), number, err)
	isGiven(t, nil, nil, c.Finish(always))
	_, err = c.Close()
	isGiven(t, nil, nil, err)
	numbers, err := c.SiteNumbers(shop)
	isGiven(t, SiteNumbers{8, 8, 8, 1}, numbers, err)
	numbers, err = c.SiteNumbers(yard)
	isGiven(t, SiteNumbers{8, 8, 8, 0}, numbers, err)
	lags, err := c.Lags(shop)
	isGiven(t, []Lag{{Count, 0, 0}}, lags, err)
	lags, err = c.Lags(yard)
	if err != nil || len(lags) != 2 || lags[0].Amount+lags[1].Amount != 300 || lags[0].Weight+lags[1].Weight != 0 {
		t.Errorf("%v, %v", lags, err)
	}
}

func TestALimitIsChanged(t *testing.T) {
	c := opened(t, declared())
	place, err := c.Relimit(yard, All, 9)
	isGiven(t, uint64(1), place, err)
	c.sites[shop].lock.Lock()
	number, err := c.Submit(nil, Add(tea, 1))
	isGiven(t, uint64(1), number, err)
	_, err = c.Relimit(yard, All, 10)
	fails(t, ErrHeadPending, err)
	c.sites[shop].lock.Unlock()
	isGiven(t, nil, nil, c.Settle(always, nil, 1))
	isGiven(t, nil, nil, c.Finish(always))
}

func TestACloseFinishesAndASuccessorGoesOn(t *testing.T) {
	c := opened(t, declared())
	var session Session
	for number := uint64(1); number <= 50; number++ {
		given, err := c.Submit(nil, Add(tea, -1))
		isGiven(t, number, given, err)
	}
	isGiven(t, Session{}, session, nil)
	closed, err := c.Close()
	if err != nil {
		t.Fatal(err)
	}
	again, err := c.Close()
	isGiven(t, closed, again, err)
	isGiven(t, Numbers{0, 50, 50}, c.Numbers(), nil)
	_, err = c.Propose(always, &session, Add(tea, 1))
	fails(t, ErrStopped, err)
	_, err = c.Submit(nil, Add(tea, 1))
	fails(t, ErrStopped, err)
	isGiven(t, nil, nil, c.Settle(always, &session, 50))
	for _, at := range []Site{shop, yard} {
		seen, err := c.Read(&session, at, tea)
		isGiven(t, Seen{-10, 50}, seen, err)
	}
	rows, err := closed.Record(shop)
	if err != nil || !strings.HasPrefix(string(rows), "ordup,") || !strings.Contains(string(rows), ",shop,") {
		t.Errorf("%q, %v", rows, err)
	}
	_, err = closed.Record(9)
	fails(t, ErrUnknownSite, err)

	next, err := closed.Successor()
	if err != nil {
		t.Fatal(err)
	}
	q, err := c.Query(yard, 0)
	isGiven(t, nil, nil, err)
	closed.Release()
	closed.Release()
	_, err = c.Read(&session, shop, tea)
	fails(t, ErrClosed, err)
	_, err = closed.Record(shop)
	fails(t, ErrClosed, err)
	_, err = closed.Successor()
	fails(t, ErrClosed, err)
	_, err = c.Query(shop, 1)
	fails(t, ErrClosed, err)
	_, err = c.Lags(shop)
	fails(t, ErrClosed, err)
	_, err = c.SiteNumbers(shop)
	fails(t, ErrClosed, err)
	_, err = c.Relimit(shop, All, 1)
	fails(t, ErrClosed, err)
	_, _, err = c.ReadMany(nil, shop, tea)
	fails(t, ErrClosed, err)
	_, err = q.Read(tea)
	fails(t, ErrClosed, err)
	ended, err := q.End()
	isGiven(t, Ended{50, 0, 0, 0}, ended, err)

	seen, err := next.Read(&session, shop, tea)
	isGiven(t, Seen{-10, 50}, seen, err)
	isGiven(t, nil, nil, next.Settle(always, &session, 50))
	number, err := next.Propose(always, &session, Add(tea, 1))
	isGiven(t, uint64(51), number, err)
	isGiven(t, Numbers{50, 51, 51}, next.Numbers(), nil)
	_, err = next.Close()
	isGiven(t, nil, nil, err)
}

func TestACloseBeforeAnythingCame(t *testing.T) {
	c := opened(t, declared())
	closed, err := c.Close()
	isGiven(t, nil, nil, err)
	next, err := closed.Successor()
	isGiven(t, nil, nil, err)
	_, err = next.Close()
	isGiven(t, nil, nil, err)
}

// The error of each refusal has its name in docs/FORMATS.md.
func TestTheNamesOfRefusals(t *testing.T) {
	page, err := os.ReadFile(filepath.FromSlash("../../../docs/FORMATS.md"))
	if err != nil {
		t.Skip("not tried: the names of the page, which is not here")
	}
	for number := 1; number < len(names); number++ {
		refused := (statusRefused + status(number)).fault().(Refused)
		if row := "| " + strings.TrimPrefix(refused.Error(), "ordup: refused "); !strings.Contains(string(page), strings.Replace(row, refused.Name, "`"+refused.Name+"`", 1)+" |") {
			t.Errorf("the page has no row of %v", refused)
		}
	}
}

func TestWhatIsForgottenIsCollected(t *testing.T) {
	collected := make(chan string, 2)
	func() {
		c, err := Open(declared())
		isGiven(t, nil, nil, err)
		q, err := c.Query(shop, 1)
		isGiven(t, nil, nil, err)
		_, err = c.Close()
		isGiven(t, nil, nil, err)
		runtime.SetFinalizer(q, nil)
		runtime.SetFinalizer(q, func(q *Query) { q.forget(); collected <- "a query" })
	}()
	c, err := Open(declared())
	isGiven(t, nil, nil, err)
	_, err = c.Close()
	isGiven(t, nil, nil, err)
	runtime.SetFinalizer(c, nil)
	runtime.SetFinalizer(c, func(c *Cluster) { c.release(); collected <- "a cluster" })
	c = nil
	for tries, found := 0, 0; found < 2; tries++ {
		runtime.GC()
		select {
		case <-collected:
			found++
		case <-time.After(10 * time.Millisecond):
		}
		if tries > 500 {
			t.Fatal("something stays")
		}
	}
}
