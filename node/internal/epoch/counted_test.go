package epoch

import (
	"fmt"
	"testing"
	"time"

	"ordup.dev/node/internal/exit"
	"ordup.dev/node/internal/modelstore"
	"ordup.dev/node/internal/script"
	"ordup.dev/node/internal/store"
)

// grown is a script with so many updates, of sites without limits, over a store that computes nothing.
func grown(t *testing.T, updates int, sites ...string) *world {
	plainConfig := func(writer string) Config {
		return Config{Open: func() (store.Store, error) { return &plain{places: map[string]int64{}}, nil }, Writer: writer, Versions: []string{"1"}}
	}
	declarations := []string{"object tea 0"}
	for _, site := range sites {
		declarations = append(declarations, "site "+site+" 1")
	}
	world := &world{t: t, first: 1, now: time.Hour, config: plainConfig}
	begin := &script.Entry{Epoch: 1, Ordup: "1", Writer: "p1", Steps: beginning(
		script.Settings{Every: MostEvery, Remembers: 1, Origin: "0", Ordup: "1", Began: script.Began{Every: 1, Remembers: 1, Origin: "0"}}, append(declarations, "start"))}
	world.script = [][]byte{begin.Text()}
	world.core = world.replay(world.config("p1"))
	for done := 0; done < updates; done += 2000 {
		requests := make([]Request, 2000)
		for at := range requests {
			requests[at] = Request{fmt.Sprintf("c%d", at), int64(done/2000 + 1), "add:tea:1"}
		}
		if _, err := world.core.Ask(requests, world.now); err != nil {
			t.Fatal(err)
		}
		world.keep(world.seal())
	}
	return world
}

// leave takes a site out, by the step that a wish would write.
func (w *world) leave(sites ...string) {
	steps := []script.Step{}
	for _, site := range sites {
		steps = append(steps, script.Step{Kind: script.Leave, Site: site})
	}
	if err := w.core.add(steps); err != nil {
		w.t.Fatal(err)
	}
	w.keep(w.seal())
}

// However much comes while one batch is on its way, what is written is read by all.
func TestNoEntryCountsMoreThanItsReaderTakes(t *testing.T) {
	t.Parallel()
	const updates = 520_000 // Of two sites that is more than an entry counts.
	world := grown(t, updates, "a", "b", "c", "d", "e", "f")
	for _, row := range []struct {
		name string
		come func()
	}{
		{"two sites tell", func() { world.tell("a", updates); world.tell("b", updates) }},
		{"one is gone and one tells", func() {
			world.leave("c")
			world.tell("d", updates)
			world.workLong()
			is(t, nil, world.core.Gone("c"))
		}},
		{"two are gone", func() {
			world.leave("e", "f")
			is(t, nil, world.core.Gone("e"))
			is(t, nil, world.core.Gone("f"))
		}},
	} {
		t.Run(row.name, func(t *testing.T) {
			before := len(world.script)
			row.come()
			world.workLong()
			for world.now += Later; world.write() > 0; {
				world.now += Later
			}
			for _, text := range world.script[before:] {
				if _, err := script.Parse(text); err != nil {
					t.Errorf("nobody reads %.200s: %v", text, err)
				}
			}
		})
	}
	for _, core := range []*Core{world.core, world.replay(world.config("p2"))} {
		is(t, core.updates, core.acknowledged)
		for _, site := range core.sites.all {
			is(t, updates, site.applied)
		}
	}
}

// workLong is as many wakes as come while a batch is on its way for some time.
func (w *world) workLong() {
	for wakes := 0; wakes < 60; wakes++ {
		w.work()
	}
}

// Wishes that replace one another would be too large for the engine in one entry. It changes openStore, so no other test runs beside it.
func TestAWishWaitsForRoom(t *testing.T) {
	defer func(before store.Open) { openStore = before }(openStore)
	openStore = modelstore.Open
	world := newWorld(t, settings, shop)
	many := append([]string{}, shop[:4]...)
	for len(many) < 9000 {
		many = append(many, "limit north count 123456789")
	}
	for count := 1; count <= 4; count++ {
		wish := Wish{From: 1, Declarations: append(many[:len(many):len(many)], fmt.Sprintf("limit south count %d", count), "start"), Replaces: true}
		if count > 1 {
			is(t, ErrNotNow, world.core.AskNext(wish))
			world.keep(world.seal())
		}
		is(t, nil, world.core.AskNext(wish))
	}
	world.keep(world.seal())
	for _, text := range world.script {
		is(t, true, len(text) <= script.MostEntryBytes)
	}
	is(t, 4, world.count("wish"))
	is(t, "limit south count 4", world.replay(config("p2")).wish.Declarations[9000])
}

// What this program could not read is never given out to be written, and the core is of no more use.
func TestWhatNobodyReadsIsNotWritten(t *testing.T) {
	t.Parallel()
	for name, steps := range map[string][]script.Step{
		"it counts too much": {{Kind: script.Settle, Count: 1_000_001}},
		"it is no step":      {{Kind: script.Leave, Site: "North"}},
		"it is too large":    make([]script.Step, 1<<18),
	} {
		t.Run(name, func(t *testing.T) {
			world := newWorld(t, settings, shop)
			for at := range steps {
				if steps[at].Kind == 0 {
					steps[at] = script.Step{Kind: script.Leave, Site: "x"}
				}
			}
			world.core.batch.steps = steps
			batch, err := world.core.Seal(world.now)
			is(t, []any{true, exit.Gap}, []any{batch == nil, exit.Of(err)})
			is(t, err, world.core.Failure())
		})
	}
}
