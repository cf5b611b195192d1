package main

import (
	"context"
	"time"

	"ordup.dev/node/internal/engine"
	"ordup.dev/node/internal/epoch"
	"ordup.dev/node/internal/fleet"
	"ordup.dev/node/internal/site"
)

// A siteModel applies and shows what a watch brings. Meanwhile it tells a place, and the next one once it has the answer to that.
type siteModel struct {
	world  *world
	name   string
	fleet  *fleetModel
	oneWay time.Duration
	// What came, and what is shown.
	came, shown    *site.Shown
	told           epoch.Place
	taken, alarm   time.Duration
	applies, tells bool
}

// bring has an entry come, as what is to be shown after it.
func (s *siteModel) bring(shown *site.Shown) {
	if shown.Entry > s.came.Entry {
		s.came = shown
	}
	if came := s.came; !s.applies && came != s.shown {
		s.applies = true
		s.world.after(update*time.Duration(came.Place-s.shown.Place), func() {
			s.shown, s.applies = came, false
			s.tell()
			s.bring(s.came)
		})
	}
}

// tell tells what is shown, if that is due.
func (s *siteModel) tell() {
	if s.tells {
		return
	}
	if isDue, again := site.IsDue(s.shown, &s.told, s.world.now-s.taken); !isDue {
		s.world.wake(&s.alarm, again, s.tell)
		return
	}
	s.tells = true
	place := site.PlaceOf(s.fleet.name, s.name, s.shown)
	s.world.after(s.oneWay, func() {
		s.fleet.take(place, func() {
			s.world.after(s.oneWay, func() {
				s.told, s.taken, s.tells = place, s.world.now, false
				s.tell()
			})
		})
	})
}

// A fleetModel is a site in the script, which takes the places of its sites. Where it is one site, that tells the primary.
type fleetModel struct {
	world *world
	name  string
	names []string
	fleet *fleet.Fleet
	least *epoch.Place
	// How much the script says that it has told.
	told int64
}

// Tell notes the place that the fleet tells.
func (f *fleetModel) Tell(_ context.Context, place epoch.Place) error {
	f.least = &place
	return nil
}

// SiteKeys are none: nobody serves but members.
func (*fleetModel) SiteKeys(context.Context, string) ([]engine.Key, error) { return nil, nil }

// take takes the place of a site, and answers.
func (f *fleetModel) take(place epoch.Place, answer func()) {
	if len(f.names) == 1 {
		f.world.hear(place, answer)
		return
	}
	f.least = nil
	f.world.check("tell a fleet", f.fleet.Tell(context.Background(), place))
	if f.least == nil {
		answer()
		return
	}
	least := *f.least
	f.world.after(near/2, func() {
		f.world.hear(least, func() { f.world.after(near/2, answer) })
	})
}
