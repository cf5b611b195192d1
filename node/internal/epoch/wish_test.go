package epoch

import (
	"testing"

	"ordup.dev/node/internal/script"
)

var otherWish = script.Settings{Every: 7}

func TestAnEpochHasBegunOnceItsEntryIsWritten(t *testing.T) {
	t.Parallel()
	world := newWorld(t, settings, shop)
	world.next()
	world.keep(world.seal()) // the wish
	beginning := world.seal()
	is(t, []int64{2, 1}, []int64{world.core.Epoch(), world.core.Begun()})
	world.keep(beginning)
	is(t, []int64{2, 2}, []int64{world.core.Epoch(), world.core.Begun()})
}

// An operator is refused by a wish that is written: where the batch is lost, the other wish may come true.
func TestAWishIsRefusedByOneThatIsWritten(t *testing.T) {
	t.Parallel()
	world := newWorld(t, settings, shop)
	world.next()
	is(t, ErrNotNow, world.core.AskNext(Wish{From: 1, Settings: otherWish}))
	world.seal()
	is(t, ErrNotNow, world.core.AskNext(Wish{From: 1, Settings: otherWish}))
	world.core = world.replay(config("p2")) // The batch is lost.
	is(t, nil, world.core.AskNext(Wish{From: 1, Settings: otherWish}))
	world.keep(world.seal())
	is(t, ErrOtherWish, world.core.AskNext(Wish{From: 1}))
	beginning := world.seal()
	is(t, int64(2), world.core.Epoch())
	is(t, ErrNotNow, world.core.AskNext(Wish{From: 1, Settings: script.Settings{Every: 8}}))
	world.keep(beginning)
	is(t, ErrOtherWish, world.core.AskNext(Wish{From: 1, Settings: script.Settings{Every: 8}}))
	is(t, nil, world.core.AskNext(Wish{From: 1, Settings: otherWish}))
}

// While clients are carried over the same wish is the same, and after an epoch that was due without one a wish has to wait.
func TestAWishWhileClientsAreCarriedOver(t *testing.T) {
	t.Parallel()
	for name, row := range map[string]struct {
		wished               bool
		same, other, replace error
	}{
		"wished for":      {true, nil, ErrOtherWish, ErrOtherWish},
		"due by requests": {false, ErrNotNow, ErrNotNow, ErrNotNow},
	} {
		t.Run(name, func(t *testing.T) {
			short := settings
			short.Every = 1
			world := newWorld(t, short, shop)
			world.ask("ann", 1, "add:tea:-1")
			if row.wished {
				world.next()
			}
			world.keep(world.seal())
			world.tellAll()
			world.keep(world.seal())
			carried := world.seal()
			is(t, true, world.core.Status(world.now).Ending)
			for try := 0; try < 2; try++ {
				is(t, row.same, world.core.AskNext(Wish{From: 1}))
				is(t, row.other, world.core.AskNext(Wish{From: 1, Settings: otherWish}))
				is(t, row.replace, world.core.AskNext(Wish{From: 1, Settings: otherWish, Replaces: true}))
				if try == 0 {
					world.keep(carried)
				}
			}
			world.write()
			is(t, int64(2), world.core.Begun())
			is(t, nil, world.core.AskNext(Wish{From: 1}))
			is(t, ErrOtherWish, world.core.AskNext(Wish{From: 1, Settings: otherWish}))
		})
	}
}
