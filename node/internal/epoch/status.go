package epoch

import (
	"time"

	"ordup.dev/node/internal/script"
)

// A Status is what an operator may see of a core.
type Status struct {
	Epoch int64
	// Entries were run or sealed, and Written of them are known to be in the script.
	Entries, Written int64
	// Of the epoch: what it took, what its log has, what of it is acknowledged, and how many clients are remembered.
	Requests, Updates, Acknowledged int64
	Clients                         int
	// For how long the head has waited for a round, as far as this core saw.
	HeadWaits time.Duration
	// Whether the next epoch is due, since when, as far as this core saw, and whether its beginning is being written.
	Due      bool
	DueSince time.Duration
	Ending   bool
	Sites    []SiteStatus
}

// A SiteStatus is what is known of a site.
type SiteStatus struct {
	Name string
	// Applied is what the site told, and Missing how many updates are acknowledged beyond that.
	Applied, Missing, Rounds int64
	// Told is since when it told nothing. Before it told this core anything HasTold is false.
	Told    time.Duration
	HasTold bool
	// Waited is whether the head waits for the site.
	Waited bool
	// NextWaits is whether the next epoch waits for it.
	NextWaits bool
	// Leaves is whether it is taken out, and Gone whether no process has a lease of it any more.
	Leaves, Gone bool
	// Limits are those in force, and Lags, where they were asked for, what of each is used: see Core.Lags.
	Limits script.Limits
	Lags   []int64
}

// Status tells what there is.
func (c *Core) Status(now time.Duration) Status {
	status := Status{
		Epoch: c.epoch, Entries: c.entries, Written: c.written, Requests: c.asks, Updates: c.updates,
		Acknowledged: c.acknowledged, Clients: len(c.clients), Due: c.store != nil && c.isDue(), Ending: c.carry != nil,
	}
	if status.Due && c.dueSince > 0 {
		status.DueSince = now - c.dueSince
	}
	if c.roundSince > 0 {
		status.HeadWaits = now - c.roundSince
	}
	for _, site := range c.sites.all {
		seen := SiteStatus{Name: site.name, Applied: site.known(), Rounds: site.rounds, HasTold: site.spokeOnce,
			Leaves: site.leaves, Gone: site.gone, Limits: site.limits, NextWaits: status.Due && c.carry == nil && site.holdsUp(c.updates)}
		if missing := c.acknowledged - site.known(); missing > 0 {
			seen.Missing = missing
		}
		if site.spokeOnce {
			seen.Told = now - site.spoke
		}
		for _, name := range c.round {
			seen.Waited = seen.Waited || name == site.name && site.known() <= c.acknowledged
		}
		status.Sites = append(status.Sites, seen)
	}
	return status
}

// IsWritten is whether the entry of this number, and so all before it, is known to be in the script.
func (c *Core) IsWritten(number int64) bool { return number <= c.written }

// IsIdle is whether all that was run is in the script.
func (c *Core) IsIdle() bool {
	return len(c.batch.steps) == 0 && len(c.decided) == 0 && c.written == c.entries
}

// Failure is the error by which the core is of no more use, if there was one.
func (c *Core) Failure() error { return c.failure }
