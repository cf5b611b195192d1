package epoch

import "testing"

// What of a limit is used is what the acknowledged updates weigh that a site has not told in the script: a path, and no net change.
func TestHowMuchOfALimitIsUsed(t *testing.T) {
	t.Parallel()
	world := newWorld(t, settings, []string{"object tea 100", "object till 0", "site north 1", "site south 1", "limit south count 7", "start"})
	for number, changes := range []string{"add:tea:-5", "add:tea:3 add:till:2", "add:till:4"} {
		world.ask("ann", int64(number+1), changes)
	}
	world.write()
	used := func() int64 {
		lags, err := world.core.Lags()
		is(t, nil, err)
		return lags["south"][0]
	}
	is(t, int64(3), used())
	weights := map[string]int64{}
	is(t, nil, world.core.weigh("south", []string{"tea", "till"}, weights))
	is(t, map[string]int64{"tea": 8, "till": 6}, weights)
	// What it told counts once that is in the script.
	world.tell("south", 1)
	is(t, int64(3), used())
	world.now += Later
	world.write()
	is(t, int64(2), used())
	weights = map[string]int64{}
	is(t, nil, world.core.weigh("south", []string{"tea", "till"}, weights))
	is(t, map[string]int64{"tea": 3, "till": 6}, weights)
	// Who reads does not change what the script comes to.
	world.ask("ann", 4, "add:tea:-1")
	world.write()
	is(t, "ann 4 ok acked 4 epoch 1", world.answer())
	world.replay(config("p2")).Close()
}

func TestOnWhichObjectsALimitWeighs(t *testing.T) {
	t.Parallel()
	core := &Core{objects: []string{"tea", "till"}, groups: map[string][]string{"goods": {"tea"}}}
	for scope, wants := range map[string][]string{"count": nil, "object till": {"till"}, "group goods": {"tea"}, "all": {"tea", "till"}} {
		is(t, wants, core.objectsOf(scope))
	}
}
