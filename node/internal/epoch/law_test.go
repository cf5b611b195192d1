package epoch

import (
	"errors"
	"fmt"
	"strings"
	"testing"

	"ordup.dev/node/internal/script"
)

// begun are the settings of an epoch of a script that began with those of the tests.
func begun() script.Settings {
	begun := settings
	begun.Began = script.Began{Every: settings.Every, Remembers: settings.Remembers, Origin: settings.Origin}
	return begun
}

func asks(client string, number int64) script.Step {
	return script.Step{Kind: script.Ask, Client: client, Number: number, Words: "add:tea:-1"}
}

// Entries that no primary without a mistake writes are refused by all who run the script, with this in what they say. Before each the shop
// has one update, which is acknowledged, and the next epoch is wished for. North has told nothing, and south has told all.
func TestWhoRunsTheScriptDoesNotBelieveItsWriter(t *testing.T) {
	t.Parallel()
	ends := append([]string{"object tea 99"}, shop[1:]...)
	known := script.Step{Kind: script.Known, Client: "ann", Number: 7, Digest: script.DigestOf("add:tea:-1"), Epoch: 1,
		Answer: script.Answer{Place: 1, Epoch: 1}}
	other := begun()
	other.Every = 7
	tell := script.Step{Kind: script.Tell, Site: "north", Count: 1}
	for name, row := range map[string]struct {
		entries []script.Entry
		why     string
	}{
		"a number again":                {[]script.Entry{{Epoch: 1, Steps: []script.Step{asks("ann", 7)}}}, "ann asks under 7 after 7"},
		"a number before the last one":  {[]script.Entry{{Epoch: 1, Steps: []script.Step{asks("ann", 6)}}}, "ann asks under 6 after 7"},
		"a number again in the entry":   {[]script.Entry{{Epoch: 1, Steps: []script.Step{asks("bob", 1), asks("bob", 1)}}}, "bob asks under 1 after 1"},
		"one before it in the entry":    {[]script.Entry{{Epoch: 1, Steps: []script.Step{asks("bob", 5), asks("bob", 3)}}}, "bob asks under 3 after 5"},
		"a site that was not taken out": {[]script.Entry{{Epoch: 1, Steps: []script.Step{{Kind: script.Gone, Site: "north"}}}}, "north is gone, and was not taken out"},
		"more than there is":            {[]script.Entry{{Epoch: 1, Steps: []script.Step{{Kind: script.Tell, Site: "north", Count: 2}}}}, "north tells 2 updates after 0, and there are 1"},
		"a limit from no head on": {[]script.Entry{{Epoch: 1, Steps: []script.Step{{Kind: script.Relimit, Site: "north",
			Limit: script.Limit{Scope: "count", Amount: 9}, Answer: script.Answer{Place: 3}}}}}, "the step relimit"},
		"carried over before all told": {[]script.Entry{{Epoch: 2, Steps: []script.Step{known}}}, "north has told 0 of the 1 updates"},
		"a beginning before all told":  {[]script.Entry{{Epoch: 2, Steps: beginning(begun(), ends)}}, "north has told 0 of the 1 updates"},
		"a beginning with a site not gone": {[]script.Entry{{Epoch: 1, Steps: []script.Step{tell, {Kind: script.Leave, Site: "north"}}},
			{Epoch: 2, Steps: []script.Step{known}}}, "may still serve"},
		"a beginning with other values": {[]script.Entry{{Epoch: 1, Steps: []script.Step{tell}}, {Epoch: 2, Steps: []script.Step{known}},
			{Epoch: 2, Steps: beginning(begun(), shop)}}, "its declarations differ at line 1"},
		"a beginning without a site": {[]script.Entry{{Epoch: 1, Steps: []script.Step{tell}}, {Epoch: 2, Steps: []script.Step{known}},
			{Epoch: 2, Steps: beginning(begun(), []string{ends[0], ends[1], ends[3], ends[5]})}}, "its declarations differ at line 3"},
		"a beginning with one line more": {[]script.Entry{{Epoch: 1, Steps: []script.Step{tell}}, {Epoch: 2, Steps: []script.Step{known}},
			{Epoch: 2, Steps: beginning(begun(), append(ends[:6:6], "start"))}}, "its declarations differ at line 7"},
		"a beginning with other settings": {[]script.Entry{{Epoch: 1, Steps: []script.Step{tell}}, {Epoch: 2, Steps: []script.Step{known}},
			{Epoch: 2, Steps: beginning(other, ends)}}, "it begins with the settings"},
	} {
		t.Run(name, func(t *testing.T) {
			world := newWorld(t, settings, shop)
			world.ask("ann", 7, "add:tea:-1")
			world.next()
			world.keep(world.seal())
			world.tell("south", 1)
			world.now += Later
			world.keep(world.seal())
			for who, replay := range world.readers() {
				if strings.Contains(row.why, "declarations differ") && who == "judge" {
					continue // A site compares the values of objects itself.
				}
				err := take(replay, row.entries...)
				var broken *BrokenError
				is(t, true, errors.As(err, &broken))
				has(t, row.why, fmt.Sprint(who, err))
			}
		})
	}
}

// An epoch ends because of a wish, or of so many requests, and once all is acknowledged.
func TestAnEpochThatIsNotDueDoesNotEnd(t *testing.T) {
	t.Parallel()
	world := newWorld(t, settings, shop)
	world.ask("ann", 1, "add:tea:-1")
	world.ask("ann", 2, "add:tea:-1")
	world.keep(world.seal())
	beginning := script.Entry{Epoch: 2, Steps: beginning(world.core.settings, shop)}
	for _, replay := range world.readers() {
		has(t, "the epoch 1 is not to end yet", fmt.Sprint(take(replay, beginning)))
	}
	world.next()
	world.keep(world.seal())
	for _, replay := range world.readers() {
		has(t, "has 2 updates, of which 1 are acknowledged", fmt.Sprint(take(replay, beginning)))
	}
}

// An answer in the script is that of the client, the number and the changes, and not only of the same text.
func TestAnAnswerIsOfWhoAsked(t *testing.T) {
	t.Parallel()
	for name, change := range map[string]func(*script.Step){
		"client":  func(answer *script.Step) { answer.Client = "bob" },
		"number":  func(answer *script.Step) { answer.Number = 2 },
		"changes": func(answer *script.Step) { answer.Digest = script.DigestOf("add:milk:-2") },
	} {
		t.Run(name, func(t *testing.T) {
			world := newWorld(t, settings, shop)
			core := world.replay(config("p2"))
			world.ask("ann", 1, "add:milk:-1")
			entry, err := script.Parse(world.seal().Text)
			is(t, nil, err)
			change(&entry.Answers()[0])
			has(t, "its answers are not those", fmt.Sprint(core.Replay(2, entry)))
		})
	}
}

// readers have run the script, each in its way, and take the next entry by its text.
func (w *world) readers() map[string]func(*script.Entry) error {
	w.t.Helper()
	core, judge := w.replay(config("p2")), &Judge{}
	for at, text := range w.script {
		entry, err := script.Parse(text)
		is(w.t, nil, err)
		is(w.t, nil, judge.Take(int64(at+1), entry))
	}
	judged := core.Next()
	return map[string]func(*script.Entry) error{
		"core":  func(entry *script.Entry) error { return core.Replay(core.Next(), entry) },
		"judge": func(entry *script.Entry) error { judged++; return judge.Take(judged-1, entry) },
	}
}

// take has a reader take entries, and returns the error of the last one.
func take(replay func(*script.Entry) error, entries ...script.Entry) (err error) {
	for at := range entries {
		if err != nil {
			return fmt.Errorf("the entry before: %v", err)
		}
		entry := entries[at]
		entry.Ordup, entry.Writer = "1", "p9"
		read, wrong := script.Parse(entry.Text())
		if wrong != nil {
			return wrong
		}
		err = replay(read)
	}
	return err
}
