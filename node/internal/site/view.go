package site

import (
	"time"

	"ordup.dev/node/internal/epoch"
	"ordup.dev/node/internal/lease"
)

// A View is what a process of a site shows, and from where on that is told and served in which term of its lease. It has no lock, no lease
// and no clock.
type View struct {
	shown *Shown
	// From which entry on it may be told in which term of the lease, and the last term in which a place was taken: from then on it is served.
	first int64
	term  lease.Term
	taken lease.Term
}

// Show has other values shown, or none.
func (v *View) Show(shown *Shown) { v.shown = shown }

// Begin begins a term, with the entry that was the last one of the script once the process had the key. Places are told and readers served
// from there on: the process before has told no place after this one.
func (v *View) Begin(term lease.Term, last int64) { v.first, v.term = last, term }

// Take notes that a place was taken which was told in a term.
func (v *View) Take(term lease.Term) { v.taken = term }

// A Moment is what there was to show under the lease when it was looked at, or nothing.
type Moment struct {
	Shown *Shown
	// Term is that of the lease, and IsTaken whether a place of the site was taken in it.
	Term    lease.Term
	IsTaken bool
}

// Look gives what may be told. The lease is looked at after the values are taken, so it lived when they were the last ones.
func Look(take func() View, lives func(lease.Term) bool) Moment {
	view := take()
	if view.shown == nil || view.shown.Entry < view.first || !lives(view.term) {
		view.shown = nil
	}
	return Moment{view.shown, view.term, view.taken == view.term}
}

// Served is what readers are served, or nil: what may be told, once a place was taken in this term.
func (m Moment) Served() *Shown {
	if !m.IsTaken {
		return nil
	}
	return m.Shown
}

// PlaceOf is the place that a site has shown, under its name in the script and its own.
func PlaceOf(inName, name string, shown *Shown) epoch.Place {
	return epoch.Place{Site: inName, Member: name, Epoch: shown.Epoch, Applied: shown.Place, Entry: shown.Entry, Digest: shown.Digest}
}

// IsDue is whether what is shown is to be told now, after what was told last and so long after a place was taken last, and else after how
// long it may be.
func IsDue(shown *Shown, told *epoch.Place, since time.Duration) (isDue bool, again time.Duration) {
	if shown == nil {
		return false, tellAgain
	}
	isNew := shown.Epoch > told.Epoch || shown.Epoch == told.Epoch && shown.Place > told.Applied
	switch {
	case isNew && shown.isFar():
		return since >= tellPace, tellPace - since
	case shown.Told < shown.Place:
		return isNew || since >= tellAgain, tellAgain - since
	}
	return isNew || since >= tellStill, tellStill - since
}
