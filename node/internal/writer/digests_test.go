package writer

import (
	"testing"

	"ordup.dev/node/internal/engine"
	"ordup.dev/node/internal/epoch"
)

// A place is of this script where it names an entry of the epoch as it is here.
func TestAPlaceNamesAnEntryOfThisScript(t *testing.T) {
	t.Parallel()
	digests, mark := Digests{}, engine.Mark{}
	add := func(number int64, text string, begins bool) string {
		mark.Set(number, []byte(text))
		digests.Add(&mark, begins)
		return mark.Digest().String()
	}
	written := int64(8)
	is := func(wants error, entry int64, digest string) {
		t.Helper()
		if has := digests.check(&epoch.Place{Epoch: 1, Entry: entry, Digest: digest}, entry <= written); has != wants {
			t.Errorf("%v instead of %v", has, wants)
		}
	}
	is(epoch.ErrBehind, 1, "")
	before := add(7, "carried over", false)
	is(nil, 7, before)
	begun := add(8, "begins", true)
	is(nil, 8, begun)
	is(epoch.ErrOtherScript, 7, before)
	is(epoch.ErrOtherScript, 8, before)
	is(epoch.ErrOtherScript, 8, "")
	is(epoch.ErrBehind, 9, begun)
	is(nil, 9, add(9, "next", false))
	is(nil, 8, begun)
	// The entry 9 is on its way, and another primary may have been faster with that.
	is(epoch.ErrBehind, 9, begun)
	written = 9
	is(epoch.ErrOtherScript, 9, begun)
}
