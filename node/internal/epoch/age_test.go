package epoch

import (
	"fmt"
	"testing"
	"time"

	"ordup.dev/node/internal/script"
)

// passEpoch ends the epoch.
func (w *world) passEpoch() {
	w.t.Helper()
	before := w.core.Epoch()
	w.next()
	w.write()
	w.tellAll()
	w.write()
	is(w.t, before+1, w.core.Epoch())
}

func aged(t *testing.T) *world {
	aged := settings
	aged.Seconds = 600
	world := newWorld(t, aged, shop)
	world.ask("ann", 1, "add:tea:-1")
	world.write()
	return world
}

// Whoever has run the script decides alike who is forgotten: this core, and one that begins with the last epoch.
func (w *world) remembers(kind ReplyKind) {
	w.t.Helper()
	other := w.replay(config("p2"))
	is(w.t, fmt.Sprint(w.core.clients), fmt.Sprint(other.clients))
	is(w.t, kind, w.ask("ann", 1, "add:tea:-1").Kind)
}

// Epochs that follow one another fast forget nobody, and so does time without epochs.
func TestAClientIsForgottenOnceItsEpochsAndItsSecondsAreOver(t *testing.T) {
	t.Parallel()
	for _, row := range []struct {
		name   string
		epochs int
		after  time.Duration
		kind   ReplyKind
	}{
		{"many epochs in some seconds", 11, 53 * time.Second, Answered},
		{"one epoch after a long time", 1, 10000 * time.Second, Answered},
		{"two epochs after a long time", 2, 300 * time.Second, Waits},
		{"some seconds too few", 2, 299 * time.Second, Answered},
	} {
		t.Run(row.name, func(t *testing.T) {
			world := aged(t)
			for epoch := 0; epoch < row.epochs; epoch++ {
				world.now += row.after
				world.passEpoch()
			}
			world.remembers(row.kind)
		})
	}
}

// What a client asks counts from when it asked, however long nothing was written before.
func TestARequestIsNoOlderThanItIs(t *testing.T) {
	t.Parallel()
	world := aged(t)
	world.now += 700 * time.Second
	is(t, Waits, world.ask("bob", 1, "nonsense").Kind)
	world.passEpoch()
	world.passEpoch()
	is(t, Answered, world.ask("bob", 1, "nonsense").Kind)
	is(t, Waits, world.ask("ann", 1, "add:tea:-1").Kind)
}

// The time between two writers counts for nobody, and neither does what another one noted.
func TestATakeOverForgetsNobody(t *testing.T) {
	t.Parallel()
	world := aged(t)
	for _, writer := range []string{"p2", "p1"} {
		world.now += time.Hour
		if writer == "p2" {
			world.core = world.replay(config(writer))
		}
		batch := world.core.TakeOver()
		is(t, nil, world.core.Replay(batch.Number, batch.Entry()))
		world.keep(batch)
		world.work()
		world.now += 200 * time.Second
		world.passEpoch()
	}
	world.remembers(Answered)
	world.now += 400 * time.Second
	world.passEpoch()
	is(t, Waits, world.ask("ann", 1, "add:tea:-1").Kind)
}

// A script that began without seconds goes by epochs alone.
func TestAScriptWithoutSeconds(t *testing.T) {
	t.Parallel()
	world := newWorld(t, settings, shop)
	world.ask("ann", 1, "add:tea:-1")
	world.write()
	is(t, script.Began{Every: 1000, Remembers: 1, Origin: DigestOf(shop)}, world.core.Settings().Began)
	world.passEpoch()
	world.passEpoch()
	is(t, Waits, world.ask("ann", 1, "add:tea:-1").Kind)
}
