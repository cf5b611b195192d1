package sim

// A chance draws numbers, the same ones for a seed.
type chance uint64

func (c *chance) next() uint64 {
	*c += 0x9e3779b97f4a7c15
	mixed := uint64(*c)
	mixed = (mixed ^ mixed>>30) * 0xbf58476d1ce4e5b9
	mixed = (mixed ^ mixed>>27) * 0x94d049bb133111eb
	return mixed ^ mixed>>31
}

func (c *chance) below(count int) int { return int(c.next() >> 33 % uint64(count)) }

// pick draws by weights.
func (c *chance) pick(weights []int) int {
	sum := 0
	for _, weight := range weights {
		sum += weight
	}
	dice := c.below(sum)
	for at, weight := range weights {
		if dice < weight {
			return at
		}
		dice -= weight
	}
	return 0
}

// weights are how often what happens.
var weights = [kinds]int{Passes: 20, Calms: 12, Leads: 5, Lapses: 2, Drops: 3, Stands: 4, Works: 16, Writes: 18, Dies: 2, Looks: 6, Comes: 7, Leases: 28,
	Follows: 20, Tells: 16, Arrives: 16, Reads: 20, Falls: 4, Asks: 28, Wishes: 7, Hands: 2, Ends: 10, Archives: 3, Lists: 2, Finds: 4, Forges: 1, Relimits: 6}

var fateWeights = [fates]int{done: 12, doneAndSlow: 3, doneAndLost: 2, late: 3, never: 1}

// start is how a run begins: with nothing, or with a deployment that works, of which a site is taken out, or which does not list one.
func (c *chance) start() []Event {
	calm, alone := Event{Kind: Calms, How: byte(c.below(8)) | 4<<3}, Event{Kind: Lists, How: 1}
	switch c.below(8) {
	case 0:
		return nil
	case 4:
		return []Event{calm, {Kind: Wishes, Who: calm.How % primaries, How: 3}}
	case 5:
		return []Event{calm, alone}
	case 6:
		return []Event{alone, calm}
	case 7:
		return []Event{calm, alone, {Kind: Finds}}
	}
	return []Event{calm}
}

// Generate gives the run of a seed. Of each seed some things happen often, and others never. Of a quarter of the seeds some happen in scenes.
func Generate(seed int64) *Run {
	c := chance(seed)
	c.next()
	run := &Run{Limits: [2]byte{byte(c.below(3)), byte(c.below(3))}, Every: []byte{2, 4, 6, 100}[c.below(4)]}
	for at := range run.Rates {
		run.Rates[at] = []byte{61, 80, 100, 130}[c.below(4)]
	}
	weights := weights
	for at := range weights {
		weights[at] *= []int{0, 1, 2, 2, 4, 8}[c.below(6)]
	}
	weights[Passes]++ // Something happens.
	count := 60 + c.below(90)
	run.Events = make([]Event, 0, count)
	var scenes *cast
	if c.below(4) == 0 {
		scenes = c.cast()
		run.Events = append(run.Events, c.stage(scenes)...)
	} else {
		run.Events = append(run.Events, c.start()...)
	}
	for len(run.Events) < count {
		if scenes != nil && c.below(8) > 0 {
			run.Events = append(run.Events, c.scene(scenes)...)
			continue
		}
		event := Event{Kind: Kind(c.pick(weights[:]))}
		switch event.Kind {
		case Writes, Leases:
			event.How = byte(c.pick(fateWeights[:]))
		case Tells, Reads:
			if c.below(3) == 0 {
				event.How = byte(1 + c.below(4))
			}
		case Follows:
			event.How = []byte{0, 0, 1, 8}[c.below(4)]
		case Arrives, Comes:
			event.How = byte(c.below(4))
			event.Who = []byte{0, 0, 0, 1, 2, 5}[c.below(6)]
		default:
			event.How = byte(c.below(128))
		}
		if event.Kind != Arrives && event.Kind != Comes {
			event.Who = byte(c.below(4))
		}
		run.Events = append(run.Events, event)
	}
	return run
}

// Shrink gives a run with fewer and plainer events that breaks the same property.
func Shrink(run *Run) *Run {
	return shrink(run, func(tried *Run) *Failure { return Try(tried, false).Failure })
}

func shrink(run *Run, try func(*Run) *Failure) *Run {
	failure := try(run)
	if failure == nil {
		return run
	}
	breaks := func(tried *Run) bool {
		came := try(tried)
		return came != nil && came.Property == failure.Property
	}
	shrunk := *run
	for size := len(shrunk.Events); size > 0; {
		before := len(shrunk.Events)
		for from := 0; from < len(shrunk.Events); {
			tried := shrunk
			tried.Events = without(shrunk.Events, from, size)
			if breaks(&tried) {
				shrunk = tried
			} else {
				from += size
			}
		}
		if size > 1 || len(shrunk.Events) == before {
			size /= 2
		}
	}
	return simplify(&shrunk, breaks)
}

// without gives events but for so many of them from one on.
func without(events []Event, from, count int) []Event {
	left := append([]Event{}, events[:from]...)
	if from+count < len(events) {
		left = append(left, events[from+count:]...)
	}
	return left
}

// simplify has each event happen in the plainest way, and all clocks run alike, where that breaks the same property.
func simplify(run *Run, breaks func(*Run) bool) *Run {
	simple := *run
	simple.Events = append([]Event{}, run.Events...)
	for at, event := range simple.Events {
		for _, plainer := range []Event{{event.Kind, event.Who, 0}, {event.Kind, 0, event.How}, {event.Kind, 0, 0}} {
			before := simple.Events[at]
			if simple.Events[at] = plainer; !breaks(&simple) {
				simple.Events[at] = before
			}
		}
	}
	for at, rate := range simple.Rates {
		if simple.Rates[at] = 100; !breaks(&simple) {
			simple.Rates[at] = rate
		}
	}
	return &simple
}

// Add adds what another run came to.
func (c *Counts) Add(other *Counts) {
	c.Events, c.Entries, c.TakeOvers = c.Events+other.Events, c.Entries+other.Entries, c.TakeOvers+other.TakeOvers
	c.Refusals, c.Epochs, c.Rounds = c.Refusals+other.Refusals, c.Epochs+other.Epochs, c.Rounds+other.Rounds
	c.Answers, c.Passed, c.Differs = c.Answers+other.Answers, c.Passed+other.Passed, c.Differs+other.Differs
	c.Terms, c.Places, c.Reads = c.Terms+other.Terms, c.Places+other.Places, c.Reads+other.Reads
	c.Gones, c.Left, c.LateCalls = c.Gones+other.Gones, c.Left+other.Left, c.LateCalls+other.LateCalls
	c.Forged, c.Removed, c.Wishes = c.Forged+other.Forged, c.Removed+other.Removed, c.Wishes+other.Wishes
	c.Relimits, c.RefusedLimits, c.Imports = c.Relimits+other.Relimits, c.RefusedLimits+other.RefusedLimits, c.Imports+other.Imports
}
