package sim

// Some mistakes break nothing but in one order of many events, which events that are drawn one by one seldom come in. So some runs have
// scenes: what happens in a row to the same few processes.

// A cast is to whom a run has its scenes happen: two processes of one site of the script, and a primary.
type cast struct{ one, other, primary byte }

func (c *chance) cast() *cast {
	one := byte(c.below(processes))
	return &cast{one, one ^ 1, byte(c.below(primaries))}
}

// Who of an event of a scene is the first process of the cast, or the other one. Of primaries it is that of the cast.
var scenes = [...][]Event{
	// What is asked for a key is late, and asked again.
	{{Kind: Leases}, {Kind: Leases, How: late}, {Kind: Leases}, {Kind: Leases}, {Kind: Leases}},
	{{Kind: Leases}, {Kind: Leases}, {Kind: Leases, How: late}, {Kind: Leases}, {Kind: Leases}, {Kind: Leases}},
	{{Kind: Comes}},
	// A lease is over, and the engine ends it; what was late comes then.
	{{Kind: Passes, How: byte(len(durations) - 1)}, {Kind: Ends, How: 1}},
	{{Kind: Passes, How: byte(len(durations) - 1)}, {Kind: Ends, How: 1}, {Kind: Comes}},
	// Leases end while an answer for a key is on its way.
	{{Kind: Leases, How: doneAndSlow}, {Kind: Ends}, {Kind: Leases}},
	// The other process gets its key.
	{{Kind: Follows, Who: 1, How: 8}, {Kind: Leases, Who: 1}, {Kind: Leases, Who: 1}, {Kind: Leases, Who: 1}},
	// A client asks.
	{{Kind: Asks}, {Kind: Works}, {Kind: Writes}},
	// A place is told.
	{{Kind: Follows, How: 8}, {Kind: Tells}, {Kind: Arrives}, {Kind: Works}, {Kind: Writes}},
	{{Kind: Reads}, {Kind: Reads, Who: 1}},
	// An operator puts keys by hand, and takes a site out.
	{{Kind: Hands}, {Kind: Hands, Who: 1}},
	{{Kind: Wishes, How: 3}, {Kind: Works}, {Kind: Writes}},
	{{Kind: Looks}, {Kind: Looks}, {Kind: Works}, {Kind: Writes}},
	// The fleet does not list its site west any more.
	{{Kind: Lists, How: 1}, {Kind: Finds}},
}

// stage is how a run with scenes begins: with a script and no key, or with a deployment that works, but for the other process of the cast
// perhaps, which the fleet may not list.
func (c *chance) stage(by *cast) []Event {
	asleep := Event{Kind: Calms, How: by.primary | by.other<<3}
	switch c.below(4) {
	case 0:
		return []Event{{Leads, by.primary, 0}, {Writes, by.primary, 0}, {Follows, by.one, 8}, {Follows, by.other, 8}}
	case 1:
		return []Event{asleep}
	case 2:
		return []Event{asleep, {Kind: Lists, How: 1}, {Kind: Finds}}
	}
	return []Event{{Kind: Calms, How: by.primary | processes<<3}}
}

// scene draws one, and gives it to the cast.
func (c *chance) scene(by *cast) []Event {
	scene := append([]Event{}, scenes[c.below(len(scenes))]...)
	for at := range scene {
		switch event := &scene[at]; event.Kind {
		case Works, Writes, Looks, Wishes:
			event.Who = by.primary
		case Asks, Arrives:
			event.How |= by.primary
		case Leases, Follows, Tells, Reads, Ends, Hands:
			event.Who = []byte{by.one, by.other}[event.Who]
		}
	}
	return scene
}
