package epoch

import (
	"errors"
	"fmt"
	"strings"
	"testing"
	"time"

	"ordup.dev/node/internal/exit"
	"ordup.dev/node/internal/modelstore"
	"ordup.dev/node/internal/script"
)

func (w *world) next(declarations ...string) {
	w.t.Helper()
	if err := w.core.AskNext(Wish{From: w.core.Epoch(), Declarations: declarations}); err != nil {
		w.t.Fatal(err)
	}
}

// count is how many lines of the script begin so.
func (w *world) count(begins string) int {
	count := 0
	for _, text := range w.script {
		count += strings.Count(string(text), "\n"+begins+" ")
	}
	return count
}

func (w *world) tellAll() {
	w.t.Helper()
	for _, site := range w.core.sites.all {
		if !site.leaves {
			w.tell(site.name, w.core.updates)
		}
	}
}

func TestAnEpochEndsOnceAllSitesAreThere(t *testing.T) {
	t.Parallel()
	short := settings
	short.Every = 2
	world := newWorld(t, short, shop)
	world.ask("ann", 1, "add:tea:-1")
	world.ask("bob", 1, "add:tea:-1")
	is(t, Reply{Kind: Waits}, world.ask("cec", 1, "add:tea:-1")) // Since sites have told nothing, it goes on.
	world.write()
	is(t, int64(1), world.core.Epoch())
	world.tell("north", 1)
	world.tell("south", 2)
	world.write()
	is(t, Reply{Kind: NotNow}, world.ask("dan", 1, "add:tea:-1"))
	is(t, Reply{Kind: Answered, Answer: script.Answer{Place: 1, Epoch: 1}}, world.ask("ann", 1, "add:tea:-1"))
	world.now += Away // Nobody is here any more, so it goes on.
	is(t, Reply{Kind: Waits}, world.ask("dan", 1, "add:coffee:-1"))
	world.write()
	world.tellAll()
	is(t, 3, world.write()) // the places, the clients, the beginning
	is(t, []int64{2, 2}, []int64{world.core.Epoch(), world.core.Begun()})
	is(t, "cec 1 ok acked 3 epoch 1", world.answer())
	entry, err := script.Parse(world.script[len(world.script)-1])
	is(t, nil, err)
	is(t, "object tea 97", entry.Steps[1].Words)
	is(t, int64(2), entry.Epoch)
	other := world.replay(config("p2"))
	is(t, len(world.script)-1, other.First())
	is(t, fmt.Sprint(world.core.clients), fmt.Sprint(other.clients))
	is(t, Reply{Kind: Answered, Answer: script.Answer{Place: 1, Epoch: 1}}, world.ask("ann", 1, "add:tea:-1"))
	is(t, Reply{Kind: Answered, Answer: script.Answer{Refusal: script.Refusal{Number: 6, Name: "UnknownObject"}}}, world.ask("dan", 1, "add:coffee:-1"))
	is(t, Reply{Kind: Differs}, world.ask("ann", 1, "add:tea:-2"))
}

func TestAnEpochDoesNotEndBeforeASiteThatIsHereHasToldAll(t *testing.T) {
	t.Parallel()
	world := newWorld(t, settings, shop)
	world.ask("ann", 1, "add:tea:-1")
	world.ask("ann", 2, "add:tea:-1")
	world.tell("south", 1)
	world.tell("north", 2)
	world.next()
	world.write()
	is(t, int64(1), world.core.Epoch())
	is(t, Reply{Kind: NotNow}, world.ask("ann", 3, "add:tea:-1"))
	world.tell("south", 2)
	world.write()
	is(t, int64(2), world.core.Epoch())
}

// A site is here by what it tells that is new: one that tells the same again holds up no client.
func TestASiteThatTellsNothingNewIsAway(t *testing.T) {
	t.Parallel()
	short := settings
	short.Every = 2
	world := newWorld(t, short, shop)
	world.ask("ann", 1, "add:tea:-1")
	world.ask("bob", 1, "add:tea:-1")
	world.write()
	world.tell("north", 1)
	world.tell("south", 2)
	world.write()
	is(t, NotNow, world.ask("dan", 1, "add:tea:-1").Kind)
	world.now += Away
	world.tell("north", 1)
	is(t, Waits, world.ask("dan", 1, "add:tea:-1").Kind)
}

func TestAClientIsForgottenAtItsAge(t *testing.T) {
	t.Parallel()
	world := newWorld(t, settings, shop)
	world.ask("ann", 1, "add:tea:-1")
	for _, kind := range []ReplyKind{Answered, Answered, Waits} {
		world.write()
		is(t, kind, world.ask("ann", 1, "add:tea:-1").Kind)
		world.next()
		world.write()
		world.tellAll()
		world.write()
	}
	is(t, int64(4), world.core.Epoch())
}

func TestOneWishEndsOneEpoch(t *testing.T) {
	t.Parallel()
	world := newWorld(t, settings, shop)
	world.next()
	world.next()
	is(t, 2, world.write()) // the wish, the beginning
	is(t, 1, world.count("wish"))
	is(t, int64(2), world.core.Epoch())
	is(t, nil, world.core.AskNext(Wish{From: 1}))
	is(t, ErrNotYet, world.core.AskNext(Wish{From: 3}))
	is(t, ErrOtherWish, world.core.AskNext(Wish{From: 1, Declarations: shop[1:]}))
	is(t, 0, world.write())
	world.ask("ann", 1, "add:tea:-1")
	world.write()
	world.next()
	is(t, 1, world.write())
	is(t, ErrOtherWish, world.core.AskNext(Wish{From: 2, Declarations: shop[1:]}))
	is(t, ErrOtherWish, world.core.AskNext(Wish{From: 2, Settings: script.Settings{Every: 7}}))
	is(t, int64(2), world.core.Epoch())
	// Another writer has the wish from the script.
	world.core = world.replay(config("p2"))
	world.tellAll()
	world.write()
	is(t, int64(3), world.core.Epoch())
}

// A wish is over once its epoch has begun, for whoever writes then.
func TestAWishIsMetOnce(t *testing.T) {
	t.Parallel()
	world := newWorld(t, settings, shop)
	world.next()
	world.keep(world.seal()) // the wish
	is(t, true, world.core.Status(world.now).Due)
	world.keep(world.seal()) // the beginning
	for _, core := range []*Core{world.core, world.replay(config("p2"))} {
		is(t, []any{int64(2), false}, []any{core.Epoch(), core.Status(world.now).Due})
		if batch, err := core.Seal(world.now); batch != nil || err != nil {
			t.Errorf("%s is written, %v", batch.Text, err)
		}
	}
}

func TestEachEpochTellsWithWhatTheScriptBegan(t *testing.T) {
	t.Parallel()
	world := newWorld(t, settings, shop)
	is(t, nil, world.core.AskNext(Wish{From: 1, Settings: script.Settings{Every: 7}, Declarations: append(shop[:5:5], "object milk 1", "start")}))
	world.write()
	is(t, []int64{2, 7}, []int64{world.core.Epoch(), world.core.Settings().Every})
	is(t, script.Began{Every: settings.Every, Remembers: settings.Remembers, Origin: DigestOf(shop)}, world.core.Settings().Began)
	core, last := New(config("p2"), 1), len(world.script)-1
	for at, text := range world.script {
		entry, _ := script.Parse(text)
		if at == last {
			entry.Steps[0].Settings.Began.Every++
		}
		err := core.Replay(int64(at+1), entry)
		var broken *BrokenError
		is(t, at == last, errors.As(err, &broken))
	}
}

func TestAWishReplacesAnother(t *testing.T) {
	t.Parallel()
	world := newWorld(t, settings, append(shop[:4:4], "site east 1", "start"))
	world.ask("ann", 1, "add:tea:-1")
	world.next("object tea 1", "site north 1", "site south 1", "start")
	world.write()
	is(t, nil, world.core.Gone("east"))
	world.tell("south", 1)
	world.write() // North is away for good.
	wish := Wish{From: 1, Declarations: []string{"object tea 1", "site south 1", "site east 1", "start"}}
	is(t, ErrOtherWish, world.core.AskNext(wish))
	wish.Replaces = true
	is(t, nil, world.core.AskNext(wish))
	is(t, nil, world.core.AskNext(wish))
	world.write()
	is(t, []int{2, 2}, []int{world.count("wish"), world.count("leave")})
	is(t, nil, world.core.Gone("north"))
	world.write()
	is(t, int64(2), world.core.Epoch())
	is(t, nil, world.core.AskNext(wish))
	is(t, ErrOtherWish, world.core.AskNext(Wish{From: 1, Declarations: shop}))
	is(t, []string{"south", "east"}, []string{world.core.sites.all[0].name, world.core.sites.all[1].name})
	is(t, fmt.Sprint(world.core.clients), fmt.Sprint(world.replay(config("p2")).clients))
}

// The rules for lines are those of docs/FORMATS.md, 'Lines', by which `ordup run` goes.
func TestDeclarationsAreLinesOfAScript(t *testing.T) {
	t.Parallel()
	for text, wants := range map[string][]string{
		"":                                  {},
		"object  tea 4\n\n  \n start ":      {"object tea 4", "start"},
		"# of Windows, \u00e9\t\r\nstart\n": {"start"},
		"#start":                            {},
	} {
		lines, err := Declarations(text)
		is(t, []any{wants, nil}, []any{lines, err})
	}
	for text, says := range map[string]string{
		"object tea 4\nstart\r\n": `line 2 of the declarations, "start\r", ends with CRLF`,
		"\r\nstart\n":             `line 1 of the declarations, "\r", ends with CRLF`,
		"object\ttea 4\n":         "has a byte that is not from space to ~",
		"\ufeffobject tea 4\n":    "line 1 of",
		"\u00a0\n":                "line 1 of",
		"start\n # the end\n":     "line 2 of the declarations, \" # the end\", is no comment",
	} {
		lines, err := Declarations(text)
		if lines != nil || err == nil || !strings.Contains(err.Error(), says) {
			t.Errorf("%q is %v, %v", text, lines, err)
		}
	}
}

func TestWishesThatCannotBe(t *testing.T) {
	t.Parallel()
	world := newWorld(t, settings, shop)
	for _, wish := range []Wish{
		{From: 1, Declarations: []string{"start"}}, {From: 1, Declarations: shop[:5]}, {From: 1, Declarations: []string{"\xff"}},
		{From: 1, Declarations: append([]string{"propose add:tea:1"}, shop...)}, {From: 1, Declarations: append(shop[:6:6], "settle")},
		{From: 1, Declarations: []string{strings.Repeat("x ", 3000)}}, {From: 1, Settings: script.Settings{Every: -1}},
		{From: 1, Settings: script.Settings{Every: MostEvery + 1}}, {From: 1, Settings: script.Settings{Ordup: "2"}},
	} {
		if world.core.AskNext(wish) == nil {
			t.Errorf("%v is taken", wish)
		}
	}
	is(t, 0, world.write())
	_, err := FirstBatch(config("p1"), script.Settings{Every: 0, Remembers: 1, Origin: "0", Ordup: "1"}, shop)
	is(t, true, err != nil)
}

func TestASiteLeavesOnceItHasNoLease(t *testing.T) {
	t.Parallel()
	world := newWorld(t, settings, shop)
	world.ask("ann", 1, "add:tea:-1")
	world.ask("ann", 2, "add:tea:-1")
	world.write()
	world.tell("south", 2)
	without := []string{"object tea 5", "object milk 7", "site south 1", "start"}
	world.next(without...)
	is(t, ErrBehind, world.core.Tell(Place{Site: "north", Epoch: 1, Applied: 2, Entry: 2}, world.now)) // Another primary may never hear of it.
	world.write()
	is(t, []string{"north"}, world.core.Leaving())
	is(t, true, errors.Is(world.core.Tell(Place{Site: "north", Epoch: 1, Applied: 2, Entry: 2}, world.now), ErrNoSite))
	is(t, int64(1), world.core.acknowledged) // Its limit holds as long as a process may serve.
	is(t, 0, world.write())
	is(t, nil, world.core.Gone("south"))
	is(t, nil, world.core.Gone("east"))
	is(t, 0, world.write())
	is(t, nil, world.core.Gone("north"))
	batch := world.seal()
	is(t, []string{"north"}, batch.Absent)
	world.keep(batch)
	is(t, "ann 2 ok acked 2 epoch 1", world.answer())
	world.write()
	is(t, []string{"north"}, world.absent)
	is(t, int64(2), world.core.Epoch())
	entry, _ := script.Parse(world.script[len(world.script)-1])
	is(t, "object tea 98", entry.Steps[1].Words)
	is(t, "object milk 7", entry.Steps[2].Words)
	is(t, DigestOf(without), world.core.Settings().Origin)
}

func TestASiteThatLeavesIdleWaitsForItsLeaseToo(t *testing.T) {
	t.Parallel()
	world := newWorld(t, settings, shop)
	world.next("object tea 5", "site south 1", "start")
	is(t, 1, world.write())
	world.now += time.Hour
	is(t, 0, world.write())
	is(t, int64(1), world.core.Epoch())
	is(t, nil, world.core.Gone("north"))
	world.write()
	is(t, int64(2), world.core.Epoch())
	is(t, []string{"north"}, world.absent)
}

func TestAfterASiteIsGoneTheEpochMayGoOn(t *testing.T) {
	t.Parallel()
	world := newWorld(t, settings, shop)
	world.ask("ann", 1, "add:tea:-1")
	world.write()
	world.next("object tea 5", "site south 1", "start")
	is(t, nil, world.core.Gone("north"))
	world.write()
	for number := int64(2); number < 9; number++ {
		is(t, Reply{Kind: Waits}, world.ask("ann", number, "add:tea:-1")) // South is away.
		world.write()
	}
	is(t, "ann 8 ok acked 8 epoch 1", world.answer())
	world.tellAll()
	world.write()
	is(t, int64(2), world.core.Epoch())
}

func TestClientsAreCarriedOverByManyEntries(t *testing.T) {
	t.Parallel()
	world := newWorld(t, script.Settings{Every: MostEvery, Remembers: 1, Origin: "0", Ordup: "1"}, []string{"object tea 0", "site a 1", "start"})
	requests := []Request{}
	for client := 0; client < 9000; client++ {
		requests = append(requests, Request{fmt.Sprintf("client-%d-%s", client, strings.Repeat("x", 40)), 1, "x"})
	}
	for len(requests) > 0 {
		replies, err := world.core.Ask(requests, world.now)
		is(t, nil, err)
		left := []Request{}
		for at, reply := range replies {
			if reply.Kind == NotNow {
				left = append(left, requests[at])
			}
		}
		requests = left
		world.write()
	}
	largest := 0
	for _, text := range world.script {
		if len(text) > largest {
			largest = len(text)
		}
	}
	is(t, true, largest < script.MostEntryBytes && largest > batchBytes/2)
	world.next()
	entries := len(world.script)
	world.keep(world.seal())
	world.keep(world.seal())
	is(t, true, world.core.Status(world.now).Ending)
	is(t, int64(1), world.core.Begun())
	// Another writer goes on with what is carried over.
	world.core = world.replay(config("p2"))
	over := world.core.TakeOver()
	is(t, nil, world.core.Replay(over.Number, over.Entry()))
	world.keep(over)
	world.write()
	is(t, int64(2), world.core.Epoch())
	is(t, 9000, len(world.core.clients))
	is(t, entries+2, world.core.First())
	is(t, 9000, len(world.replay(config("p3")).clients))
	is(t, 9000, world.count("known"))
	is(t, Reply{Kind: Answered, Answer: script.Answer{Refusal: script.Refusal{Number: 1, Name: "Syntax"}}}, world.ask("client-77-"+strings.Repeat("x", 40), 1, "x"))
}

// A program that has two versions runs the old one until an operator wishes for the new one. Who has the old one alone ends there.
func TestAnotherVersionOfOrdup(t *testing.T) {
	t.Parallel()
	world := newWorld(t, settings, shop)
	both := config("p2")
	both.Versions = []string{"2", "1"}
	world.core = world.replay(both)
	world.next()
	world.write()
	world.ask("ann", 1, "x")
	is(t, []string{"1", "1"}, []string{world.core.Settings().Ordup, world.replay(config("p1")).Settings().Ordup})
	wish := Wish{From: 2, Settings: script.Settings{Ordup: "2"}}
	var version *VersionError
	is(t, true, errors.As(world.replay(config("p1")).AskNext(wish), &version))
	is(t, nil, world.core.AskNext(wish))
	world.keep(world.seal())
	// The old one may take over with this wish in the script. It begins no epoch that it cannot run, unless another wish replaces this one.
	old := world.replay(config("p1"))
	batch, err := old.Seal(world.now)
	is(t, []any{(*Batch)(nil), true, exit.Words}, []any{batch, errors.As(err, &version), exit.Of(err)})
	is(t, nil, old.AskNext(Wish{From: 2, Settings: script.Settings{Every: 7, Ordup: "1"}, Replaces: true}))
	for batch == nil || batch.First == 0 {
		batch, err = old.Seal(world.now)
		is(t, nil, err)
	}
	is(t, []any{"1", 3, 3}, []any{batch.Entry().Ordup, batch.Epoch, old.Epoch()})
	world.write()
	is(t, []any{"2", 3}, []any{world.core.Settings().Ordup, world.core.Epoch()})
	// All entries of an epoch have its version, also those that carry clients over.
	is(t, int64(len(world.script)-1), world.first)
	for number := world.first; number <= int64(len(world.script)); number++ {
		entry, err := script.Parse(world.script[number-1])
		is(t, []any{"2", nil}, []any{entry.Ordup, err})
		err = New(config("p1"), number).Replay(number, entry)
		is(t, true, errors.As(err, &version))
		is(t, exit.Words, exit.Of(err))
	}
}

func TestAStoreThatAnswersOtherwiseIsNoticed(t *testing.T) {
	t.Parallel()
	world := newWorld(t, settings, shop)
	world.ask("ann", 1, "add:tea:-1")
	world.write()
	wrong := Config{Writer: "p2", Versions: []string{"1"}, Open: modelstore.OpenWrong(func(line, answer string) string {
		return strings.Replace(answer, "acked 1", "waiting 1 north", 1)
	})}
	core := New(wrong, 1)
	for at, text := range world.script {
		entry, _ := script.Parse(text)
		if err := core.Replay(int64(at+1), entry); err != nil {
			return
		}
	}
	t.Error("nothing is noticed")
}
