package epoch

import (
	"errors"
	"fmt"
	"strings"
	"testing"
	"time"

	"ordup.dev/node/internal/modelstore"
	"ordup.dev/node/internal/script"
	"ordup.dev/node/internal/store"
)

var shop = []string{"object tea 100", "object till 0", "site north 1", "site south 1", "limit north count 1", "start"}

var settings = script.Settings{Every: 1000, Remembers: 1, Origin: DigestOf(shop), Ordup: "1"}

// openStore gives the stores of the tests. With the tag library it is that of the program.
var openStore store.Open = modelstore.Open

func config(writer string) Config {
	return Config{Open: openStore, Writer: writer, Versions: []string{"1"}}
}

// A world is a script, and a core that writes it.
type world struct {
	t      *testing.T
	script [][]byte
	first  int64
	core   *Core
	now    time.Duration
	absent []string
	told   []string
	config func(writer string) Config
}

func newWorld(t *testing.T, settings script.Settings, declarations []string) *world {
	t.Helper()
	batch, err := FirstBatch(config("p1"), settings, declarations)
	if err != nil {
		t.Fatal(err)
	}
	world := &world{t: t, script: [][]byte{batch.Text}, first: 1, now: time.Hour, config: config}
	world.core = world.replay(config("p1"))
	return world
}

// replay gives a core that has run the script.
func (w *world) replay(config Config) *Core {
	w.t.Helper()
	core := New(config, w.first)
	for at, text := range w.script[w.first-1:] {
		entry, err := script.Parse(text)
		if err != nil {
			w.t.Fatal(err)
		}
		if err = core.Replay(w.first+int64(at), entry); err != nil {
			w.t.Fatal(err)
		}
	}
	return core
}

func (w *world) work() {
	w.t.Helper()
	if _, err := w.core.Work(w.now); err != nil {
		w.t.Fatal(err)
	}
}

// seal closes the open batch, and returns the batch.
func (w *world) seal() *Batch {
	w.t.Helper()
	w.work()
	batch, err := w.core.Seal(w.now)
	if err != nil {
		w.t.Fatal(err)
	}
	return batch
}

// keep writes a batch into the script.
func (w *world) keep(batch *Batch) {
	w.script = append(w.script, batch.Text)
	w.core.Written(batch.Number)
	w.absent = append(w.absent, batch.Absent...)
	if batch.First > 0 {
		w.first = batch.First
	}
	for _, answer := range batch.Answers {
		w.told = append(w.told, fmt.Sprintf("%s %d %s", answer.Client, answer.Number, answer.Answer))
	}
}

// mostBatches is more than any test has in a row.
const mostBatches = 1000

// write writes batches until there is nothing to write, and returns how many.
func (w *world) write() int {
	w.t.Helper()
	for count := 0; count < mostBatches; count++ {
		batch := w.seal()
		if batch == nil {
			return count
		}
		w.keep(batch)
	}
	w.t.Fatal("there is always one more batch")
	return 0
}

func (w *world) ask(client string, number int64, changes string) Reply {
	w.t.Helper()
	replies, err := w.core.Ask([]Request{{client, number, changes}}, w.now)
	if err != nil {
		w.t.Fatal(err)
	}
	return replies[0]
}

func (w *world) tell(site string, applied int64) {
	w.t.Helper()
	if err := w.core.Tell(Place{Site: site, Epoch: w.core.Epoch(), Applied: applied, Entry: w.core.written}, w.now); err != nil {
		w.t.Fatal(err)
	}
}

// answer is what the client was told last.
func (w *world) answer() string {
	if len(w.told) == 0 {
		return ""
	}
	return w.told[len(w.told)-1]
}

func is(t *testing.T, wants, has any) {
	t.Helper()
	if fmt.Sprint(wants) != fmt.Sprint(has) {
		t.Errorf("%v instead of %v", has, wants)
	}
}

func TestEachNumberIsAnsweredOnce(t *testing.T) {
	t.Parallel()
	world := newWorld(t, settings, shop)
	is(t, Reply{Kind: Waits}, world.ask("ann", 5, "add:tea:-1"))
	is(t, Reply{Kind: Waits}, world.ask("ann", 5, "add:tea:-1"))
	is(t, Reply{Kind: NotNow}, world.ask("ann", 5, "add:tea:-2"))
	is(t, 1, world.write())
	is(t, "ann 5 ok acked 1 epoch 1", world.answer())
	is(t, Reply{Kind: Answered, Answer: script.Answer{Place: 1, Epoch: 1}}, world.ask("ann", 5, "add:tea:-1"))
	is(t, Reply{Kind: Differs}, world.ask("ann", 5, "add:tea:-2"))
	is(t, Reply{Kind: Passed, Last: 5}, world.ask("ann", 4, "add:tea:-1"))
	is(t, 0, world.write())
	is(t, Reply{Kind: Waits}, world.ask("bob", 1, "add:coffee:1"))
	is(t, 1, world.write())
	is(t, "bob 1 refused 6 UnknownObject", world.answer())
	is(t, Reply{Kind: Answered, Answer: script.Answer{Refusal: script.Refusal{Number: 6, Name: "UnknownObject"}}}, world.ask("bob", 1, "add:coffee:1"))
	for _, request := range []Request{{"Ann", 1, "x"}, {"", 1, "x"}, {"ann", 0, "x"}, {"ann", -1, "x"}, {"ann", 7, "\xff"},
		{"ann", 7, "add:tea:1\nsettle"}, {"\xff/1", 7, "x"}, {"ann", 7, strings.Repeat("x", 4001)}} {
		is(t, Reply{Kind: Malformed}, world.ask(request.Client, request.Number, request.Changes))
	}
	is(t, Reply{Kind: Waits}, world.ask("ann", 7, ""))
	world.write()
	is(t, "ann 7 refused 11 Empty", world.answer())
}

func TestAClientThatDoesNotWait(t *testing.T) {
	t.Parallel()
	world := newWorld(t, settings, shop)
	replies, err := world.core.Ask([]Request{{"ann", 1, "add:tea:-1"}, {"ann", 1, "add:tea:-1"}, {"ann", 2, "add:tea:-1"},
		{"ann", 1, "add:tea:-1"}, {"ann", 2, "add:tea:-3"}}, world.now)
	is(t, nil, err)
	is(t, []Reply{{Kind: Waits}, {Kind: Waits}, {Kind: Waits}, {Kind: NotNow}, {Kind: NotNow}}, replies)
	world.keep(world.seal())
	is(t, Reply{Kind: Passed, Last: 2}, world.ask("ann", 1, "add:tea:-1"))
	is(t, Reply{Kind: Differs}, world.ask("ann", 2, "add:tea:-3"))
	world.ask("ann", 3, "add:tea:-1")
	world.write()
	is(t, 3, world.count("ask"))
	world.tell("north", 2)
	world.write()
	is(t, "ann 3 ok acked 3 epoch 1", world.answer())
	world.ask("ann", 4, "add:tea:-1")
	world.ask("ann", 5, "add:milk:-1")
	world.write()
	world.tell("north", 4)
	world.write()
	is(t, "ann 4 ok acked 4 epoch 1", world.answer())
	is(t, Reply{Kind: Answered, Answer: script.Answer{Refusal: script.Refusal{Number: 6, Name: "UnknownObject"}}}, world.ask("ann", 5, "add:milk:-1"))
}

func TestAnAnswerIsToldOnceItsEntryIsWritten(t *testing.T) {
	t.Parallel()
	world := newWorld(t, settings, shop)
	world.ask("ann", 1, "add:tea:-1")
	first := world.seal()
	is(t, 1, len(first.Answers))
	is(t, Reply{Kind: Waits}, world.ask("ann", 1, "add:tea:-1"))
	// The next batch is run while the first is on its way.
	world.tell("south", 0)
	is(t, Reply{Kind: Waits}, world.ask("bob", 1, "add:tea:-1"))
	world.keep(first)
	is(t, Reply{Kind: Answered, Answer: script.Answer{Place: 1, Epoch: 1}}, world.ask("ann", 1, "add:tea:-1"))
	is(t, Reply{Kind: Waits}, world.ask("bob", 1, "add:tea:-1"))
	second := world.seal()
	is(t, 0, len(second.Answers)) // The limit of north is 1, and it told nothing.
	world.keep(second)
	is(t, "ann 1 ok acked 1 epoch 1", world.answer())
	world.tell("north", 2)
	is(t, 1, world.write())
	is(t, "bob 1 ok acked 2 epoch 1", world.answer())
}

// What a client is told for good stands in the script: where the batch is lost, the other request may be done.
func TestNothingIsToldForGoodOfWhatIsNotWritten(t *testing.T) {
	t.Parallel()
	world := newWorld(t, settings, shop)
	world.ask("ann", 1, "add:tea:-1")
	world.ask("bob", 2, "add:tea:-1")
	for _, isSealed := range []bool{false, true} {
		if isSealed {
			world.seal()
		}
		is(t, NotNow, world.ask("ann", 1, "add:tea:-2").Kind)
		is(t, NotNow, world.ask("bob", 1, "add:tea:-1").Kind)
	}
	world.core = world.replay(config("p2")) // The batch is lost.
	is(t, Waits, world.ask("ann", 1, "add:tea:-2").Kind)
	is(t, Waits, world.ask("bob", 1, "add:tea:-1").Kind)
	world.ask("bob", 2, "add:tea:-1")
	world.write()
	for _, core := range []*Core{world.core, world.replay(config("p3"))} {
		world.core = core
		is(t, Reply{Kind: Differs}, world.ask("ann", 1, "add:tea:-1"))
		is(t, Reply{Kind: Passed, Last: 2}, world.ask("bob", 1, "add:tea:-1"))
	}
}

func TestPlacesThatCannotBe(t *testing.T) {
	t.Parallel()
	world := newWorld(t, settings, shop)
	world.ask("ann", 1, "add:tea:-1")
	batch := world.seal()
	core := world.core
	is(t, nil, core.Tell(Place{Site: "south", Epoch: 1, Applied: 1, Entry: batch.Number}, world.now))
	is(t, ErrBehind, core.Tell(Place{Site: "north", Epoch: 1, Applied: 2, Entry: batch.Number}, world.now))
	is(t, ErrBehind, core.Tell(Place{Site: "north", Epoch: 2, Applied: 0, Entry: batch.Number + 9}, world.now))
	world.keep(batch)
	for _, place := range []Place{{Applied: 2, Entry: batch.Number}, {Applied: 1 << 62}, {Applied: -1}, {Applied: -1 << 63, Entry: 1 << 62}} {
		place.Site, place.Epoch = "north", 1
		if _, cannotBe := core.Tell(place, world.now).(*CannotBeError); !cannotBe {
			t.Errorf("%v is taken", place)
		}
	}
	for _, name := range []string{"east", "\xff"} {
		is(t, true, errors.Is(core.Tell(Place{Site: name, Epoch: 1, Applied: 0, Entry: 1}, world.now), ErrNoSite))
	}
	is(t, nil, core.Tell(Place{Site: "north", Epoch: 0, Applied: 77, Entry: 1}, world.now))
	is(t, int64(0), core.Status(world.now).Sites[0].Applied)
}

func TestWhatNobodyWaitsForIsWrittenLater(t *testing.T) {
	t.Parallel()
	world := newWorld(t, settings, shop)
	world.ask("ann", 1, "add:tea:-1")
	world.write()
	world.tell("south", 1)
	again, err := world.core.Work(world.now)
	is(t, []any{Later, nil}, []any{again, err})
	is(t, 0, world.write())
	world.now += Later
	is(t, 1, world.write())
	// With a request it comes at once.
	world.tell("north", 1)
	world.ask("ann", 2, "add:tea:-1")
	is(t, 1, world.write())
	is(t, int64(1), world.core.sites.of("north").applied)
}

func TestAnotherCoreComesToTheSame(t *testing.T) {
	t.Parallel()
	world := newWorld(t, settings, shop)
	for number := int64(1); number < 20; number++ {
		world.ask("ann", number, "add:tea:-1 add:till:2")
		world.ask("bob", number, fmt.Sprintf("set:tea:%d", number%3*1_000_000_000))
		world.tell("south", world.core.updates/2)
		if number%3 == 0 {
			world.tell("north", world.core.updates)
		}
		world.write()
	}
	other := world.replay(config("p2"))
	is(t, fmt.Sprint(world.core.clients), fmt.Sprint(other.clients))
	is(t, world.core.waiting.askers[world.core.waiting.front:], other.waiting.askers[other.waiting.front:])
	is(t, []int64{world.core.updates, world.core.acknowledged, world.core.asks, world.core.entries},
		[]int64{other.updates, other.acknowledged, other.asks, other.entries})
	is(t, world.core.round, other.round)
}

func TestWhatIsNoScript(t *testing.T) {
	t.Parallel()
	world := newWorld(t, settings, shop)
	world.ask("ann", 1, "add:tea:-1")
	world.write()
	core, entry := New(config("p2"), 1), func(at int) *script.Entry {
		entry, _ := script.Parse(world.script[at])
		return entry
	}
	if _, isGap := core.Replay(2, entry(1)).(*GapError); !isGap {
		t.Error("no gap")
	}
	if _, isBroken := New(config("p2"), 2).Replay(2, entry(1)).(*BrokenError); !isBroken {
		t.Error("an epoch begins without declarations")
	}
	if _, isOther := New(Config{Open: modelstore.Open, Versions: []string{"2"}}, 1).Replay(1, entry(0)).(*VersionError); !isOther {
		t.Error("another version")
	}
	is(t, nil, core.Replay(1, entry(0)))
	if _, isBroken := core.Replay(2, entry(0)).(*BrokenError); !isBroken {
		t.Error("an epoch begins twice")
	}
	wrong := *entry(1)
	wrong.Steps = append([]script.Step{}, wrong.Steps...)
	wrong.Steps[len(wrong.Steps)-1].Answer = script.Answer{Place: 2, Epoch: 1}
	core = New(config("p2"), 1)
	is(t, nil, core.Replay(1, entry(0)))
	if _, isBroken := core.Replay(2, &wrong).(*BrokenError); !isBroken {
		t.Error("an answer differs")
	}
}

func has(t *testing.T, part, text string) {
	t.Helper()
	if !strings.Contains(text, part) {
		t.Errorf("%q is not in %q", part, text)
	}
}
