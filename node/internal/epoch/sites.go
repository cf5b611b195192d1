package epoch

import (
	"errors"
	"fmt"
	"time"

	"ordup.dev/node/internal/exit"
	"ordup.dev/node/internal/script"
)

// Near is how many updates a site may lack at the end of an epoch and still be here.
const Near = 1000

// Away is after how long a site that lacks updates and tells nothing is away.
const Away = 5 * time.Second

// A Place is what a site told: how many updates of an epoch it has applied and shown, and the last entry that it has run. The digest of that
// says of which script it is.
type Place struct {
	// Site is the name in the script. Member is the site itself, which has another name where Site is its fleet.
	Site, Member string

	Epoch   int64
	Applied int64
	Entry   int64
	Digest  string
}

// Why a place is not taken.
var (
	// ErrNoSite says that the script, or the fleet, has no such site, or that it is taken out.
	ErrNoSite = exit.With(exit.NotInScript, errors.New("there is no such site"))
	// ErrOtherScript says that a place names an entry which is another one here: the site is of another deployment, or of a past from which
	// the script was restored.
	ErrOtherScript = exit.With(exit.NoPlace, errors.New("the place is of another script"))
	// ErrBehind says that this core has not run the script as far as the site has. It may tell the place again.
	ErrBehind = errors.New("the script was not run as far yet")
)

// A CannotBeError says that no site can have applied so many updates.
type CannotBeError struct {
	Place   Place
	Updates int64
}

func (e *CannotBeError) Error() string {
	return fmt.Sprintf("the site %s told %d updates of epoch %d up to the entry %d, and there are %d",
		e.Place.Site, e.Place.Applied, e.Place.Epoch, e.Place.Entry, e.Updates)
}

// ExitStatus is that of a process which meets it.
func (*CannotBeError) ExitStatus() exit.Status { return exit.NoPlace }

// A site is what is known of a site of the epoch.
type site struct {
	name string
	// What stands in the script, and what the site told and does not stand there yet.
	applied, told int64
	rounds        int64
	// When it told a place that was new, and whether it has.
	heard    time.Duration
	wasHeard bool
	// When it told any place, and whether it has.
	spoke     time.Duration
	spokeOnce bool
	// Whether it is taken out, by which entry, and whether no process serves it any more.
	leaves, gone bool
	left         int64
	// Its limits, and of those that were changed since when they are so.
	limits script.Limits
	since  map[string]since
}

// sites has the sites of an epoch, in the order of their declarations.
type sites struct{ all []*site }

func (s *sites) add(name string) { s.all = append(s.all, &site{name: name}) }

// leave takes the site of a name out, if there is one.
func (s *sites) leave(name string, entry int64) {
	if site := s.of(name); site != nil {
		site.leaves, site.left = true, entry
	}
}

// of is the site of a name, or nil. There are at most 16.
func (s *sites) of(name string) *site {
	for _, site := range s.all {
		if site.name == name {
			return site
		}
	}
	return nil
}

// isHere is whether a site has told all of so many updates, or has told much of it, and something a short time ago.
func (s *site) isHere(updates int64, now time.Duration) bool {
	missing := updates - s.known()
	return missing <= 0 || missing <= Near && s.wasHeard && now-s.heard < Away
}

// holdsUp is whether an epoch with so many updates cannot end yet for the site.
func (s *site) holdsUp(updates int64) bool {
	return s.applied < updates || s.leaves && !s.gone
}

// known is how many updates the site has applied, whether or not it stands in the script.
func (s *site) known() int64 {
	if s.told > s.applied {
		return s.told
	}
	return s.applied
}

// Tell takes the place of a site, which has shown it under its lease. It goes into an entry by Work.
func (c *Core) Tell(place Place, now time.Duration) error {
	if place.Epoch > c.epoch {
		return ErrBehind
	}
	if place.Epoch < c.epoch {
		return nil
	}
	site := c.sites.of(place.Site)
	switch {
	case site == nil && c.begun > c.written || site != nil && site.left > c.written:
		return ErrBehind // That it is no site is not written yet.
	case site == nil || site.leaves:
		return fmt.Errorf("%w: the script has no site %s", ErrNoSite, place.Site)
	case place.Applied < 0 || place.Applied > c.updates && place.Entry <= c.written:
		return &CannotBeError{place, c.updates}
	case place.Applied > c.updates:
		return ErrBehind
	case place.Applied > site.known():
		site.told, site.heard, site.wasHeard = place.Applied, now, true
	}
	site.spoke, site.spokeOnce = now, true
	return nil
}
