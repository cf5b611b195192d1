package site

import (
	"context"
	"errors"
	"fmt"
	"time"

	"ordup.dev/node/internal/clock"
	"ordup.dev/node/internal/script"
)

// ErrNotServing says that this process serves no reader: it has no lease, has not reached the end that the script had when it got it, or
// nobody has taken a place of it since.
var ErrNotServing = errors.New("this process serves no reader now")

// Seen is what a reader has seen: a place of an epoch.
type Seen struct{ Epoch, Place int64 }

// A BehindError says that the site has not shown what the reader has seen.
type BehindError struct{ Has Seen }

func (e *BehindError) Error() string {
	return fmt.Sprintf("the site is at place %d of epoch %d", e.Has.Place, e.Has.Epoch)
}

// A Reading is what a reader is told.
type Reading struct {
	*Shown
	// Lease is for how long the process may still rely on its lease.
	Lease time.Duration
}

// now is what may be told, and what is closed when that may have passed.
func (s *Site) now() (now Moment, changed <-chan struct{}) {
	now = Look(func() View {
		s.lock.Lock()
		defer s.lock.Unlock()
		changed = s.changed
		return s.view
	}, s.lease.Lives)
	return now, changed
}

// served is what readers are served, or nil.
func (s *Site) served() *Shown {
	now, _ := s.now()
	return now.Served()
}

// Read gives the values that the site shows, which are no less than what the reader has seen. For that it waits, until the context ends:
// then it is a BehindError. While the process serves nobody it fails at once with ErrNotServing. What is more than one epoch ahead fails at
// once too: the site has told all of an epoch before the one after the next begins.
func (s *Site) Read(ctx context.Context, seen Seen) (Reading, error) {
	for {
		shown := s.served()
		switch {
		case shown == nil:
			return Reading{}, ErrNotServing
		case shown.covers(seen):
			s.readers.Add(1)
			return Reading{shown, s.lease.Until() - clock.Now()}, nil
		case seen.Epoch > shown.Epoch+1 || ctx.Err() != nil:
			return Reading{}, &BehindError{Seen{shown.Epoch, shown.Place}}
		}
		s.await(ctx, seen)
	}
}

// await waits until the process shows what a reader has seen, or nothing any more, or the context ends.
func (s *Site) await(ctx context.Context, seen Seen) {
	came := make(chan struct{})
	s.lock.Lock()
	if shown := s.view.shown; shown == nil || shown.covers(seen) {
		close(came)
	} else {
		s.waiting[came] = seen
	}
	s.lock.Unlock()
	select {
	case <-came:
	case <-ctx.Done():
		s.lock.Lock()
		defer s.lock.Unlock()
		delete(s.waiting, came)
	}
}

// covers is whether a reader who has seen this sees no less.
func (s *Shown) covers(seen Seen) bool {
	return s.Epoch > seen.Epoch || s.Epoch == seen.Epoch && s.Place >= seen.Place
}

// isFar is whether what the script does not have as told is at most a quarter of what the limits of the site allow. A limit that is not of
// a count may be reached by one update.
func (s *Shown) isFar() bool {
	for _, limit := range s.Limits {
		if limit.Scope != "count" || s.Place-s.Told > limit.Amount/4 {
			return false
		}
	}
	return true
}

// A Status is what an operator may see of a site.
type Status struct {
	Serves              bool
	Entry, Epoch, Place int64
	// Acknowledged is how many updates are acknowledged. Limits are those of the site.
	Acknowledged int64
	Limits       script.Limits
	// Values and imports are those that readers are served. Nobody changes them.
	Values, Imports map[string]int64
	// Told is how much of it stands in the script as told. ToldSince is since when a place was taken, if one was.
	Told      int64
	ToldSince time.Duration
	HasTold   bool
	// Since is since when the last entry came that this process saw, if one did.
	Since   time.Duration
	HasSeen bool
	// Lease is for how long the process may rely on its lease.
	Lease          time.Duration
	Readers        int64
	EngineFailures int64
}

// Lag is how many acknowledged updates the script does not have as told.
func (s *Status) Lag() int64 {
	if s.Acknowledged < s.Told {
		return 0
	}
	return s.Acknowledged - s.Told
}

// Status tells what there is.
func (s *Site) Status() Status {
	status := Status{Readers: s.readers.Load(), EngineFailures: s.config.Engine.Failures()}
	if served := s.served(); served != nil {
		status.Serves, status.Values, status.Imports = true, served.Values, served.Imports
	}
	s.lock.Lock()
	if shown := s.view.shown; shown != nil {
		status.Since, status.HasSeen = clock.Now()-s.shownAt, true
		status.Entry, status.Epoch, status.Place, status.Told = shown.Entry, shown.Epoch, shown.Place, shown.Told
		status.Acknowledged, status.Limits = shown.Acknowledged, shown.Limits
	}
	s.lock.Unlock()
	if told := s.toldAt.Load(); told > 0 {
		status.ToldSince, status.HasTold = clock.Now()-time.Duration(told), true
	}
	if left := s.lease.Until() - clock.Now(); left > 0 {
		status.Lease = left
	}
	return status
}
