package site

import (
	"context"
	"errors"
	"fmt"
	"os"
	"sync"
	"sync/atomic"
	"time"

	"ordup.dev/node/internal/clock"
	"ordup.dev/node/internal/engine"
	"ordup.dev/node/internal/epoch"
	"ordup.dev/node/internal/exit"
	"ordup.dev/node/internal/follower"
	"ordup.dev/node/internal/lease"
	"ordup.dev/node/internal/logs"
	"ordup.dev/node/internal/script"
	"ordup.dev/node/internal/store"
)

const (
	// afterFailure is how long the site waits after a failure before it asks again.
	afterFailure = 200 * time.Millisecond
	// tellPace is how often a site tells new places at most that is far from its limits, so that nobody waits for them.
	tellPace = 50 * time.Millisecond
	// tellAgain is after how long a place is told again that the script does not have.
	tellAgain = 500 * time.Millisecond
	// tellStill is after how long a place is told again that is nothing new, so that operators see that the site is there.
	tellStill = 3 * time.Second
	// tellTime is how long telling a place may take.
	tellTime = 3 * time.Second
)

// A Teller takes the place of a site to the primary that writes, or of a site of a fleet to whoever tells for the fleet.
type Teller interface {
	Tell(ctx context.Context, place epoch.Place) error
}

// A Config is what a site is made with.
type Config struct {
	Engine *engine.Engine
	Open   store.Open
	// Name is the site, and Fleet the name that it has in the script, where that is another one.
	Name, Fleet string
	// Host is one word that tells this process from others in the engine.
	Host     string
	Versions []string
	Teller   Teller
	Log      *logs.Log
}

// A Site is one process of a site. One of them serves its readers.
type Site struct {
	config Config
	inName string
	lease  *engine.Lease
	// How many readers were served, and when a place was taken last.
	readers atomic.Int64
	toldAt  atomic.Int64

	// What stands below lock up to the blank line is under it.
	lock sync.Mutex
	// What is shown, and since when. Changed is closed with each change.
	view    View
	shownAt time.Duration
	changed chan struct{}
	// The readers that wait, with what they have seen.
	waiting map[chan struct{}]Seen

	// Of the goroutine of Run alone: what was run, and the last entry that there was when the process first asked. From there on it wants
	// the lease.
	follower follower.Follower
	replica  *Replica
	end      int64
}

// New gives a site, which Run runs.
func New(config Config) (*Site, error) {
	site := &Site{config: config, inName: config.Fleet, changed: make(chan struct{}), waiting: map[chan struct{}]Seen{}}
	site.follower = follower.Follower{Engine: config.Engine, Log: config.Log, Pause: afterFailure}
	if site.inName == "" {
		site.inName = config.Name
	}
	own := fmt.Sprintf("%s-%d-%d", config.Host, os.Getpid(), clock.Now())
	if !script.IsName(site.inName) || !script.IsName(config.Name) || !script.IsWord(own, script.MostWriterBytes) {
		return nil, exit.With(exit.Words, fmt.Errorf("%q of %q at %q is no site", config.Name, site.inName, config.Host))
	}
	if config.Fleet == config.Name {
		return nil, exit.With(exit.Words, fmt.Errorf("the site %s has the name of its fleet", config.Name))
	}
	site.lease = config.Engine.NewSiteLease(site.inName, config.Name, own, config.Log, site.mayServe)
	return site, nil
}

// mayServe begins a term with what is the end of the script by then.
func (s *Site) mayServe(ctx context.Context, term lease.Term) error {
	s.lock.Lock()
	next := int64(1)
	if shown := s.view.shown; shown != nil {
		next = shown.Entry + 1
	}
	s.lock.Unlock()
	last, err := s.config.Engine.Last(ctx, next)
	if err != nil {
		return fmt.Errorf("read the end of the script: %w", err)
	}
	s.lock.Lock()
	defer s.lock.Unlock()
	s.view.Begin(term, last)
	return nil
}

// Run follows the script and serves, until the context ends or an error ends the process. Then the lease is given back.
func (s *Site) Run(ctx context.Context) error {
	// It ends once nothing is shown any more, so that the lease is given back last.
	beside, cancel := context.WithCancel(context.Background())
	var others sync.WaitGroup
	defer others.Wait()
	defer cancel()
	defer s.forget()
	defer s.show(nil)
	failed := make(chan error, 1)
	following, stop := context.WithCancel(ctx)
	defer stop()
	others.Add(1)
	go func() {
		defer others.Done()
		if err := s.tellAll(beside); err != nil {
			failed <- err
			stop()
		}
	}()
	isLeased := false
	for following.Err() == nil {
		err := s.follow(following, func() {
			if isLeased {
				return
			}
			isLeased = true
			others.Add(1)
			go func() { defer others.Done(); s.lease.Run(beside) }()
		})
		if err = s.follower.Heed(following, err, s.forget); err != nil {
			return err
		}
	}
	select {
	case err := <-failed:
		return err
	default:
		return nil
	}
}

// forget drops what was run.
func (s *Site) forget() {
	if s.replica != nil {
		s.replica.Close()
	}
	s.replica, s.follower.Mark = nil, engine.Mark{}
}

// follow runs and shows the script as it comes. It says once that the site has reached the end that there was at first.
func (s *Site) follow(ctx context.Context, reached func()) error {
	if err := s.start(ctx); err != nil {
		return err
	}
	return s.follower.Follow(ctx, s.replica.Next(), func(entries []engine.Raw) error {
		for _, raw := range entries {
			if err := s.run(raw); err != nil {
				return err
			}
		}
		shown, err := s.replica.Show()
		if err != nil {
			return err
		}
		if shown != nil {
			shown.Digest = s.follower.Mark.Digest().String()
		}
		s.show(shown)
		if shown != nil && shown.Entry >= s.end {
			reached()
		}
		return nil
	})
}

func (s *Site) run(raw engine.Raw) error {
	begun := s.replica.Epoch()
	if _, err := s.follower.Run(s.replica, raw); err != nil {
		return err
	}
	if s.replica.Epoch() > begun {
		s.config.Log.Info("epoch", "epoch", s.replica.Epoch(), "entry", raw.Number)
	}
	return nil
}

// start gives a replica before the last epoch, where there is none. Else it looks whether the script still has what was run.
func (s *Site) start(ctx context.Context) error {
	first, err := s.follower.Start(ctx)
	if err != nil || s.replica != nil {
		return err
	}
	s.end, err = s.config.Engine.Last(ctx, first)
	if err != nil {
		return fmt.Errorf("read the end of the script: %w", err)
	}
	s.replica = NewReplica(s.config.Open, s.config.Versions, s.inName, first)
	return nil
}

// show shows values to readers, if they are served. It wakes those that waited for them.
func (s *Site) show(shown *Shown) {
	s.lock.Lock()
	defer s.lock.Unlock()
	s.view.Show(shown)
	s.shownAt = clock.Now()
	close(s.changed)
	s.changed = make(chan struct{})
	for came, seen := range s.waiting {
		if shown == nil || shown.covers(seen) {
			close(came)
			delete(s.waiting, came)
		}
	}
}

// tellAll tells places that were shown under the lease, until the context ends. One that is refused for good ends the process.
func (s *Site) tellAll(ctx context.Context) error {
	var told epoch.Place
	for ctx.Err() == nil {
		relies := s.lease.Changed()
		now, changed := s.now()
		isDue, again := IsDue(now.Shown, &told, clock.Now()-time.Duration(s.toldAt.Load()))
		if !isDue && (now.Shown == nil || now.IsTaken) {
			timer := time.NewTimer(again)
			select {
			case <-ctx.Done():
			case <-changed:
			case <-relies:
			case <-timer.C:
			}
			timer.Stop()
			continue
		}
		place := PlaceOf(s.inName, s.config.Name, now.Shown)
		switch err := s.tell(ctx, place); {
		case err == nil:
			told = place
			s.wasTaken(now.Term)
		case IsRefused(err):
			return fmt.Errorf("tell the place %d of epoch %d: %w", place.Applied, place.Epoch, err)
		case ctx.Err() == nil:
			s.config.Log.Warn("place-not-told", "why", err)
			clock.Pause(ctx, afterFailure)
		}
	}
	return nil
}

// IsRefused is whether an error says of a place that nobody ever takes it. It ends the process that told the place.
func IsRefused(err error) bool {
	var cannotBe *epoch.CannotBeError
	return errors.As(err, &cannotBe) || errors.Is(err, epoch.ErrOtherScript) || errors.Is(err, epoch.ErrNoSite)
}

// wasTaken notes that a place was taken which was told in a term.
func (s *Site) wasTaken(term lease.Term) {
	s.toldAt.Store(int64(clock.Now()))
	s.lock.Lock()
	defer s.lock.Unlock()
	s.view.Take(term)
}

func (s *Site) tell(ctx context.Context, place epoch.Place) error {
	limited, cancel := context.WithTimeout(ctx, tellTime)
	defer cancel()
	return s.config.Teller.Tell(limited, place)
}
