package main

import (
	"fmt"
	"math"
	"strings"
	"testing"
	"time"
)

// Each row is worked by hand from what is done one after another. Before the requests come nothing is on its way.
//
// A request is `near/2` on its way, and taken by a call. The lines propose and settle are run. The entry is near/2 on its way, a command and
// fsync later it is written, and near/2 later the primary hears that, which is near/2 from the client.
//
// Where the head waits for a site, the engine sends the entry to the sites: to the first one by a command of its own, and then to all others
// at once, each for a command. A site applies the update between two ways of half its round trip, the primary takes its place by a call, and
// runs send, apply and report for each site that has told, and settle. Then it writes again. Through a fleet a place is near/2 longer on its way.
func TestTheFirstWait(t *testing.T) {
	t.Parallel()
	write := near/2 + command + fsync + near/2
	alone := near/2 + call + 2*line + write + near/2
	// From the time when the engine has the entry until it has the next one.
	round := func(sites, lines int, factor float64) time.Duration {
		oneWay := time.Duration(factor * float64(5*time.Millisecond))
		return time.Duration(sites)*command + oneWay + update + oneWay + call + time.Duration(lines)*line + near/2 + command + fsync
	}
	// The distances of the farthest of 1, 2 and 32 sites: normal quantiles of 1/2, 3/4 and 63/64, from a table, and 4.3 at the quantile 0.99.
	distance := func(normal float64) float64 { return math.Pow(4.3, normal/2.32635) }
	for _, row := range []struct {
		name         string
		sites, limit int
		requests     int
		between      time.Duration
		wait         time.Duration
	}{
		{"no round", 1, 1, 1, 0, alone},
		{"members at a distance", 1, 1, 1, inMs(3), alone + inMs(3)},
		{"the second one goes by the next entry", 1, 2, 2, 0, alone + write},
		{"a round", 1, 0, 1, 0, alone + round(1, 4, 1)},
		{"a round of two sites", 2, 0, 1, 0, alone + round(2, 7, distance(0.67449))},
		{"a round of 16 fleets", 32, 0, 1, 0, alone + round(32, 49, distance(2.15387)) + near/2},
		{"a round of members at a distance", 1, 0, 1, inMs(3), alone + round(1, 4, 1) + 2*inMs(3)},
	} {
		row := row
		t.Run(row.name, func(t *testing.T) {
			t.Parallel()
			w := newWorld(setup{sites: row.sites, trip: inMs(10), limit: row.limit, fsync: fsync, between: row.between}, 1)
			for count := 0; count < row.requests; count++ {
				w.after(time.Second, w.ask)
			}
			w.until(row.requests)
			if w.err != nil {
				t.Fatal(w.err)
			}
			if wait := w.waits[row.requests-1]; wait < row.wait-time.Microsecond || wait > row.wait+time.Microsecond {
				t.Errorf("%v instead of %v", wait, row.wait)
			}
		})
	}
}

// Two runs of one seed are the same, entry by entry and wait by wait, and one of another seed is not.
func TestASeedDecidesAll(t *testing.T) {
	t.Parallel()
	for _, row := range []struct {
		name string
		of   setup
	}{
		{"at a rate", setup{sites: 16, trip: inMs(5), limit: 10, rate: 500, fsync: fsync}},
		{"through fleets, at a rate", setup{sites: 40, trip: inMs(5), limit: 10, rate: 500, fsync: fsync}},
		{"clients that ask again", setup{sites: 3, trip: inMs(5), limit: 10, clients: 20, fsync: fsync, between: inMs(2)}},
	} {
		row := row
		t.Run(row.name, func(t *testing.T) {
			t.Parallel()
			run := func(seed int64) string {
				w := newWorld(row.of, seed)
				w.start()
				w.until(300)
				return fmt.Sprint(w.waits, w.follower.Mark.Number(), w.follower.Mark.Digest(), w.store.rounds, w.err)
			}
			once := run(1)
			if again := run(1); again != once || strings.HasSuffix(once, " 0 <nil>") || !strings.HasSuffix(once, " <nil>") {
				t.Errorf("%s, and then %s", once, again)
			}
			if row.of.rate > 0 && run(2) == once {
				t.Error("the seed decides nothing")
			}
		})
	}
}
