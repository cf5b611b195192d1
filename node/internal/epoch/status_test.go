package epoch

import (
	"testing"
	"time"

	"ordup.dev/node/internal/script"
)

func TestAStatusSaysWhatIsWaitedFor(t *testing.T) {
	t.Parallel()
	world := newWorld(t, settings, shop)
	of := func(name string) SiteStatus {
		for _, site := range world.core.Status(world.now).Sites {
			if site.Name == name {
				return site
			}
		}
		t.Fatal(name)
		return SiteStatus{}
	}
	is(t, false, of("south").HasTold)
	is(t, script.Limits{{Scope: "count", Amount: 1}}, of("north").Limits)
	world.ask("ann", 1, "add:tea:-1")
	world.write()
	world.tell("south", 1)
	is(t, true, of("south").HasTold)
	world.next()
	world.write()
	is(t, []bool{true, false}, []bool{of("north").NextWaits, of("south").NextWaits})
	// A place that is not new says that the site is there, and does not count as something new.
	world.now += time.Minute
	is(t, time.Minute, of("south").Told)
	world.tell("south", 1)
	is(t, time.Duration(0), of("south").Told)
	status := world.core.Status(world.now)
	is(t, []any{true, time.Minute}, []any{status.Due, status.DueSince})
}

// Each head waits for its own round, and between two of them none does.
func TestAHeadWaitsSinceItsOwnRound(t *testing.T) {
	t.Parallel()
	world := newWorld(t, settings, shop)
	waits := func() time.Duration { return world.core.Status(world.now).HeadWaits }
	for round := int64(1); round <= 2; round++ {
		world.ask("ann", 2*round-1, "add:tea:-1")
		world.ask("ann", 2*round, "add:tea:-1")
		world.write()
		is(t, time.Duration(0), waits())
		world.now += time.Minute
		is(t, time.Minute, waits())
		world.tell("north", world.core.updates)
		world.write()
		is(t, time.Duration(0), waits())
	}
}

func TestACoreIsIdleOnceAllIsWritten(t *testing.T) {
	t.Parallel()
	world := newWorld(t, settings, shop)
	is(t, true, world.core.IsIdle())
	world.ask("ann", 1, "add:tea:-1")
	is(t, false, world.core.IsIdle())
	batch := world.seal()
	is(t, false, world.core.IsIdle())
	world.keep(batch)
	is(t, true, world.core.IsIdle())
}
