package site

import (
	"errors"
	"fmt"
	"strings"
	"testing"
	"time"

	"ordup.dev/node/internal/epoch"
	"ordup.dev/node/internal/modelstore"
	"ordup.dev/node/internal/script"
	"ordup.dev/node/internal/store"
)

// openStore gives the stores of the tests. With the tag library it is that of the program.
var openStore store.Open = modelstore.Open

var declared = []string{"object tea 100", "object till 0", "site north 1", "site south 1", "limit north count 1000", "start"}

func is(t *testing.T, wants, has any) {
	t.Helper()
	if fmt.Sprint(wants) != fmt.Sprint(has) {
		t.Errorf("%v instead of %v", has, wants)
	}
}

// written is a script that a core writes: requests, and then the batches.
type written struct {
	t       *testing.T
	core    *epoch.Core
	entries []*script.Entry
}

func newWritten(t *testing.T) *written { return newScript(t, declared) }

func newScript(t *testing.T, declared []string) *written {
	config := epoch.Config{Open: openStore, Writer: "p1", Versions: []string{"1"}}
	batch, err := epoch.FirstBatch(config, script.Settings{Every: 100_000, Remembers: 1, Origin: "0", Ordup: "1"}, declared)
	is(t, nil, err)
	core := epoch.New(config, 1)
	is(t, nil, core.Replay(1, batch.Entry()))
	return &written{t, core, []*script.Entry{batch.Entry()}}
}

func (w *written) write() {
	w.t.Helper()
	for count := 0; count < 1000; count++ {
		_, err := w.core.Work(time.Hour)
		is(w.t, nil, err)
		batch, err := w.core.Seal(time.Hour)
		is(w.t, nil, err)
		if batch == nil {
			return
		}
		w.core.Written(batch.Number)
		w.entries = append(w.entries, batch.Entry())
	}
	w.t.Fatal("there is always one more batch")
}

func (w *written) ask(client string, number int64, changes string) {
	w.t.Helper()
	replies, err := w.core.Ask([]epoch.Request{{Client: client, Number: number, Changes: changes}}, time.Hour)
	is(w.t, nil, err)
	is(w.t, epoch.Waits, replies[0].Kind)
}

func (w *written) tell(site string, applied int64) {
	w.t.Helper()
	is(w.t, nil, w.core.Tell(epoch.Place{Site: site, Epoch: w.core.Epoch(), Applied: applied}, time.Hour))
}

// replay runs the script at a site, and returns what it shows and the error.
func (w *written) replay(replica *Replica) (*Shown, error) {
	for at, entry := range w.entries {
		if err := replica.Replay(int64(at+1), entry); err != nil {
			return nil, err
		}
	}
	return replica.Show()
}

func at(name string) *Replica { return NewReplica(openStore, []string{"1"}, name, 1) }

func TestASiteShowsWhatTheScriptComesTo(t *testing.T) {
	t.Parallel()
	script := newWritten(t)
	script.ask("ann", 1, "add:tea:-5 add:till:20")
	script.ask("bob", 1, "add:tea:2000000000")
	script.ask("cec", 1, "nonsense")
	script.write()
	script.tell("south", 1)
	script.ask("ann", 2, "set:till:7")
	script.write()
	shown, err := script.replay(at("south"))
	is(t, nil, err)
	is(t, "{3 1 2 1 2 map[tea:95 till:7] map[] [] }", *shown)
	shown, err = script.replay(at("north"))
	is(t, nil, err)
	is(t, int64(0), shown.Told)
}

// A reader is told the limits that are in force, and how far the updates that are not acknowledged move the values.
func TestWhatASiteTellsBesideTheValues(t *testing.T) {
	t.Parallel()
	written := newWritten(t)
	to := epoch.Limiting{Site: "north", Limit: script.Limit{Scope: "count", Amount: 1}}
	limited, err := written.core.AskLimit(to, time.Hour)
	is(t, nil, err)
	is(t, epoch.Limited{Entry: 2, Answer: script.Answer{Place: 1, Epoch: 1}}, limited)
	written.ask("ann", 1, "add:tea:-5")
	written.ask("ann", 2, "add:tea:3 add:till:1")
	written.ask("ann", 3, "add:tea:-4")
	written.write()
	shown, err := written.replay(at("north"))
	is(t, nil, err)
	is(t, "{2 1 3 0 1 map[tea:94 till:1] map[tea:7 till:1] [count 1] }", *shown)
	shown, err = written.replay(at("south"))
	is(t, nil, err)
	is(t, "[]", shown.Limits.Texts())
	// Once all is acknowledged no value is off.
	written.tell("north", 3)
	written.write()
	shown, err = written.replay(at("north"))
	is(t, nil, err)
	is(t, []any{int64(3), 0}, []any{shown.Acknowledged, len(shown.Imports)})
	// What no store takes is not believed.
	forged := *written.entries[len(written.entries)-1]
	forged.Steps = []script.Step{{Kind: script.Relimit, Site: "north", Limit: script.Limit{Scope: "object milk", Amount: 1}, Answer: script.Answer{Place: 4}}}
	written.entries = append(written.entries, &forged)
	var broken *epoch.BrokenError
	if _, err = written.replay(at("north")); !errors.As(err, &broken) {
		t.Error(err)
	}
}

func TestMoreUpdatesThanTheFeedHas(t *testing.T) {
	t.Parallel()
	script := newWritten(t)
	for number := int64(1); number <= 2*feed+7; number++ {
		script.ask("ann", number, "add:tea:1")
	}
	script.write()
	shown, err := script.replay(at("south"))
	is(t, nil, err)
	is(t, fmt.Sprintf("map[tea:%d till:0]", 100+2*feed+7), shown.Values)
}

func TestASiteAcrossEpochs(t *testing.T) {
	t.Parallel()
	script := newWritten(t)
	script.ask("ann", 1, "add:tea:-5")
	script.write()
	script.tell("south", 1)
	script.tell("north", 1)
	is(t, nil, script.core.AskNext(epoch.Wish{From: 1}))
	script.write()
	shown, err := script.replay(at("south"))
	is(t, nil, err)
	is(t, []int64{2, 0, 0}, []int64{shown.Epoch, shown.Place, shown.Told})
	is(t, "map[tea:95 till:0]", shown.Values)
	// A site with another update notices it as the next epoch begins, and one that lacks it as more is told than it has.
	wrong := *script.entries[1]
	script.entries[1] = &wrong
	wrong.Steps = append(wrong.Steps[:0:0], wrong.Steps...)
	wrong.Steps[0].Words = "add:tea:-4"
	_, err = script.replay(at("south"))
	is(t, true, strings.Contains(fmt.Sprint(err), "tea begins with 95, and had 96 here"))
	wrong.Steps = nil
	_, err = script.replay(at("south"))
	is(t, true, strings.Contains(fmt.Sprint(err), "tells 1 updates after 0, and there are 0"))
}

func TestASiteThatIsTakenOut(t *testing.T) {
	t.Parallel()
	script := newWritten(t)
	is(t, nil, script.core.AskNext(epoch.Wish{From: 1, Declarations: []string{"object tea 1", "site south 1", "start"}}))
	script.write()
	var left *LeftError
	_, err := script.replay(at("north"))
	is(t, true, errors.As(err, &left))
	_, err = script.replay(at("west"))
	is(t, true, errors.As(err, &left))
	_, err = script.replay(at("south"))
	is(t, nil, err)
}

func TestWhatIsNoScriptAtASite(t *testing.T) {
	t.Parallel()
	script := newWritten(t)
	script.ask("ann", 1, "add:tea:-5")
	script.ask("bob", 1, "nonsense")
	script.write()
	var gap *epoch.GapError
	is(t, true, errors.As(at("south").Replay(2, script.entries[1]), &gap))
	var version *epoch.VersionError
	is(t, true, errors.As(NewReplica(openStore, []string{"2"}, "south", 1).Replay(1, script.entries[0]), &version))
	var broken *epoch.BrokenError
	is(t, true, errors.As(NewReplica(openStore, []string{"1"}, "south", 2).Replay(2, script.entries[1]), &broken))
	other := *script.entries[1]
	other.Epoch = 3
	replica := at("south")
	is(t, nil, replica.Replay(1, script.entries[0]))
	is(t, true, errors.As(replica.Replay(2, &other), &broken))
	// A store that takes what the primary's refused, or refuses what that took, or shows another place.
	for _, wrong := range [][2]string{{"refused 1 Syntax", "ok proposed 2"}, {"ok proposed 1", "refused 9 OutOfRange"},
		{"refused 1 Syntax", "refused 2 Syntax"}, {"applied 1", "applied 2"}, {"ok sent", "refused 14 NothingToSend"}, {"ok start", "no"}, {"tea=95", "tea=x"}} {
		t.Run(wrong[1]+" for "+wrong[0], func(t *testing.T) {
			open := modelstore.OpenWrong(func(line, answer string) string { return strings.Replace(answer, wrong[0], wrong[1], 1) })
			_, err := script.replay(NewReplica(open, []string{"1"}, "south", 1))
			is(t, true, errors.As(err, &broken))
		})
	}
}
