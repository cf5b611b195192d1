package writer

import (
	"time"

	"ordup.dev/node/internal/engine"
	"ordup.dev/node/internal/epoch"
)

// Digests are those of the entries of an epoch, which a process has read or sealed. By them the place of a site that ran another script is
// told.
type Digests struct {
	first int64
	all   []engine.Digest
}

// Add notes the digest of the next entry. The one that begins an epoch is the first.
func (d *Digests) Add(mark *engine.Mark, begins bool) {
	if begins || len(d.all) == 0 {
		d.first, d.all = mark.Number(), d.all[:0]
	}
	d.all = append(d.all, mark.Digest())
}

// Tell has the core take the place of a site, if the script has the entry that the place names.
func (d *Digests) Tell(core *epoch.Core, place epoch.Place, now time.Duration) error {
	if place.Epoch == core.Epoch() {
		if err := d.check(&place, core.IsWritten(place.Entry)); err != nil {
			return err
		}
	}
	return core.Tell(place, now)
}

// check is whether the script has the entry that a place of its epoch names, which is known to be written or not. Before it is written
// another primary may be faster with an entry of its number, which a site has run then.
func (d *Digests) check(place *epoch.Place, isWritten bool) error {
	at := place.Entry - d.first
	switch {
	case at >= int64(len(d.all)):
		return epoch.ErrBehind
	case at >= 0 && d.all[at].String() == place.Digest:
		return nil
	case at >= 0 && !isWritten:
		return epoch.ErrBehind
	}
	return epoch.ErrOtherScript
}
