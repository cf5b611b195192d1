package epoch

import (
	"fmt"

	"ordup.dev/node/internal/script"
)

// A state is what an epoch came to by its entries. Before the first one the epoch is 0.
type state struct {
	epoch    int64
	settings script.Settings
	sites    sites
	// How many requests the epoch took, how many updates its log has, and how many are acknowledged.
	asks, updates, acknowledged int64
	// What an operator wishes of the next epoch, and the entry that has it.
	wish   *Wish
	wished int64
}

// isDue is whether the epoch is to end.
func (s *state) isDue() bool { return s.wish != nil || s.asks >= s.settings.Every }

// nextSettings are those of the next epoch.
func (s *state) nextSettings() script.Settings {
	if s.wish == nil {
		return s.settings
	}
	return s.wish.Settings
}

func (s *state) noteWish(step *script.Step, entry int64) {
	s.wish, s.wished = &Wish{From: s.epoch, Settings: *step.Settings}, entry
}

// belongs is whether a step of this kind may be in an entry, after the epoch has ended or before, which begins an epoch or does not.
func belongs(kind script.Kind, ended, begins bool) bool {
	switch kind {
	case script.Begin, script.Declare:
		return ended && begins
	case script.Known:
		return ended && !begins
	default:
		return !ended
	}
}

// asksAgain tells why a client cannot ask under a number.
func asksAgain(step *script.Step, last int64) string {
	return fmt.Sprintf("%s asks under %d after %d", step.Client, step.Number, last)
}

// lawless tells why a step cannot come now, whatever the store answers, or "".
func (s *state) lawless(step *script.Step) string {
	if step.Kind != script.Tell && step.Kind != script.Gone {
		return ""
	}
	switch site := s.sites.of(step.Site); {
	case site == nil:
		return fmt.Sprintf("there is no site %s", step.Site)
	case step.Count > s.updates-site.applied:
		return fmt.Sprintf("the site %s tells %d updates after %d, and there are %d", step.Site, step.Count, site.applied, s.updates)
	case step.Kind == script.Gone && !site.leaves:
		return fmt.Sprintf("the site %s is gone, and was not taken out", step.Site)
	}
	return ""
}

// unended tells why the epoch cannot end with what stands in the script, or "".
func (s *state) unended() string {
	if !s.isDue() {
		return fmt.Sprintf("the epoch %d is not to end yet", s.epoch)
	}
	if s.acknowledged < s.updates {
		return fmt.Sprintf("the epoch %d has %d updates, of which %d are acknowledged", s.epoch, s.updates, s.acknowledged)
	}
	for _, site := range s.sites.all {
		if site.holdsUp(s.updates) {
			return fmt.Sprintf("the site %s has told %d of the %d updates of epoch %d, or may still serve", site.name, site.applied,
				s.updates, s.epoch)
		}
	}
	return ""
}

// checkSettings tells why the next epoch cannot have these settings, or "".
func (s *state) checkSettings(begins *script.Settings) string {
	if begins.Began != s.settings.Began {
		return fmt.Sprintf("the script began with %v, and not with %v", s.settings.Began, begins.Began)
	}
	if next := s.nextSettings(); *begins != next {
		return fmt.Sprintf("it begins with the settings %v, and not with %v", *begins, next)
	}
	return ""
}

// checkBeginning looks whether an epoch begins with what the one before ended with, and what was wished.
func (c *Core) checkBeginning(number int64, entry *script.Entry) error {
	if why := c.checkSettings(entry.Steps[0].Settings); why != "" {
		return &BrokenError{number, why}
	}
	_, declarations, err := c.following()
	if err != nil {
		return err
	}
	begins := entry.Steps[1:]
	for at := 0; at < len(begins) || at < len(declarations); at++ {
		if at == len(begins) || at == len(declarations) || begins[at].Words != declarations[at] {
			return &BrokenError{number, fmt.Sprintf("its declarations differ at line %d from those that come after the epoch %d", at+1, c.epoch)}
		}
	}
	return nil
}
