package writer

import (
	"time"

	"ordup.dev/node/internal/lease"
)

// Unleased are keys without a lease, which were put by hand, and since when they are there as they are. A Key is one as it is, so it is
// another one after each change.
type Unleased[Key comparable] struct{ before, now map[Key]time.Duration }

// Look begins a look. What it does not see is forgotten.
func (u *Unleased[Key]) Look() { u.before, u.now = u.now, map[Key]time.Duration{} }

// See sees a key, and tells whether it has been there for so long that nobody relies on a lease any more which had it before.
func (u *Unleased[Key]) See(key Key, now time.Duration) bool {
	since, isKnown := u.before[key]
	if !isKnown {
		since = now
	}
	u.now[key] = since
	return now-since >= lease.Time
}
