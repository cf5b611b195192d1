package lease_test

import (
	"testing"
	"time"

	"ordup.dev/node/internal/lease"
)

const second = time.Second

// own is the key with the name of the process, under a lease.
func own(id lease.ID) lease.Found { return lease.Found{IsThere: true, Value: "one", ID: id} }

// A run is a key with what is said of it.
type run struct {
	t *testing.T
	lease.Key
}

func newRun(t *testing.T) *run { return &run{t, lease.New("site/north/north", "one")} }

// next asks for the next step, which is to be this one.
func (r *run) next(now time.Duration, kind lease.Kind, id lease.ID, term lease.Term) {
	r.t.Helper()
	if step := r.Next(now); step != (lease.Step{Kind: kind, ID: id, Term: term}) {
		r.t.Fatalf("at %v the next step is %+v", now, step)
	}
}

// lives says up to when the term is to live.
func (r *run) lives(term lease.Term, until time.Duration) {
	r.t.Helper()
	if !r.Lives(term, until-1) || r.Lives(term, until) || r.Lives(term+1, until-1) || !r.Relies(until-1) || r.Relies(until) {
		r.t.Fatalf("the term %d lives until %v", term, r.Until())
	}
}

// create has the key created at a time.
func (r *run) create(now time.Duration, id lease.ID, term lease.Term) {
	r.t.Helper()
	r.next(now-1, lease.Find, 0, 0)
	r.Found(lease.Found{})
	r.next(now, lease.Create, 0, 0)
	r.Created(id, true)
	r.next(now+second, lease.Begin, id, term)
}

func TestAKeyIsReliedOnFromBeforeItWasAskedFor(t *testing.T) {
	r := newRun(t)
	r.create(10*second, 7, 1)
	if r.Held() || r.Relies(11*second) || r.Lives(1, 11*second) {
		t.Fatal("it relies on the key before its work is done")
	}
	r.Begun(true)
	r.lives(1, 13*second)
	r.next(12*second, lease.Renew, 7, 0)
	r.lives(1, 13*second)
	if err := r.Renewed(true, own(7)); err != nil {
		t.Fatal(err)
	}
	r.lives(1, 15*second)
	r.next(16*second, lease.Rest, 0, 0)
	r.Waited()
	r.next(17*second, lease.Renew, 7, 0)
	r.Failed()
	r.lives(1, 15*second)
	r.next(18*second, lease.Renew, 7, 0)
	r.Renewed(true, own(7))
	r.lives(1, 21*second)
}

func TestALeaseThatIsLost(t *testing.T) {
	for name, came := range map[string]struct {
		isKept bool
		found  lease.Found
	}{
		"the engine has ended it":           {false, lease.Found{}},
		"the key is gone":                   {true, lease.Found{}},
		"another process has the key":       {true, lease.Found{IsThere: true, Value: "other", ID: 7}},
		"the key is under another lease":    {true, own(8)},
		"the key was written over by hands": {true, lease.Found{IsThere: true, Value: "one"}},
	} {
		r := newRun(t)
		r.create(10*second, 7, 1)
		r.Begun(true)
		r.next(11*second, lease.Renew, 7, 0)
		if err := r.Renewed(came.isKept, came.found); err == nil || r.Held() || r.Lives(1, 11*second) {
			t.Errorf("%s: it is held", name)
		}
		r.next(11*second, lease.Revoke, 7, 0)
		r.Revoked()
		r.create(12*second, 9, 2)
	}
}

// What was given back, or was to be, is not taken up again. What an earlier call created is, from when it was looked for.
func TestAKeyThatIsItsOwn(t *testing.T) {
	r := newRun(t)
	r.create(10*second, 7, 1)
	r.Begun(false)
	r.next(12*second, lease.Revoke, 7, 0)
	r.Revoked()
	r.next(13*second, lease.Find, 0, 0)
	r.Found(own(7))
	r.next(13*second, lease.Await, 0, 0)
	r.Waited()
	r.next(14*second, lease.Find, 0, 0)
	r.Found(own(8))
	r.next(16*second, lease.Renew, 8, 0)
	r.Renewed(true, own(8))
	r.next(16*second, lease.Begin, 8, 2)
	r.Begun(true)
	r.lives(2, 17*second)
}

func TestAKeyThatCannotBeHad(t *testing.T) {
	r := newRun(t)
	r.next(0, lease.Find, 0, 0)
	r.Found(lease.Found{IsThere: true, Value: "other", ID: 3})
	r.next(0, lease.Await, 0, 0)
	r.Waited()
	for _, found := range []lease.Found{{Excludes: "site/far/far"}, {IsThere: true, Value: "one"}} {
		r.next(0, lease.Find, 0, 0)
		if r.Found(found) == nil {
			t.Errorf("%+v has no error", found)
		}
	}
	r.next(0, lease.Find, 0, 0)
	r.Found(lease.Found{})
	r.next(0, lease.Create, 0, 0)
	r.Created(5, false)
	r.next(0, lease.Revoke, 5, 0)
}

func TestAKeyThatIsGivenUp(t *testing.T) {
	r := newRun(t)
	r.GiveUp()
	r.create(10*second, 7, 1)
	r.GiveUp()
	r.next(11*second, lease.Revoke, 7, 0)
	r.Revoked()
	r.create(12*second, 8, 2)
	r.Begun(true)
	r.GiveUp()
	if r.Held() || r.Relies(12*second) || r.Lives(2, 12*second) {
		t.Fatal("it relies on what it gives back")
	}
	r.next(13*second, lease.Revoke, 8, 0)
}
