package primary

import (
	"testing"

	"ordup.dev/node/internal/epoch"
)

func TestRoundsNeverGetLess(t *testing.T) {
	t.Parallel()
	rounds := rounds{}
	of := func(number, count int64) *epoch.Status {
		return &epoch.Status{Epoch: number, Sites: []epoch.SiteStatus{{Name: "north", Rounds: count}}}
	}
	for _, row := range []struct {
		status *epoch.Status
		ends   bool
		want   int64
	}{{of(1, 0), false, 0}, {of(1, 3), true, 3}, {of(2, 0), false, 3}, {of(2, 2), false, 5},
		// The core is dropped, and runs the last epoch again.
		{&epoch.Status{}, false, 0}, {of(2, 0), false, 5}, {of(2, 2), true, 5}, {of(3, 1), false, 6}} {
		if sum := rounds.over(row.status)["north"]; sum != row.want {
			t.Errorf("%d in epoch %d, and not %d", sum, row.status.Epoch, row.want)
		}
		if row.ends {
			rounds.end(row.status.Epoch, map[string]int64{"north": row.status.Sites[0].Rounds})
			rounds.end(row.status.Epoch, map[string]int64{"north": row.status.Sites[0].Rounds})
		}
	}
}
