package sim

import (
	"fmt"
	"strings"
	"time"
)

// A Kind is one of what may happen.
type Kind byte

// What may happen, to whom, and how. Of a process that is not in the state for it nothing happens.
const (
	// Passes has time pass: of How, see durations.
	Passes Kind = iota
	// Calms has all of a deployment do what it does where nothing fails, but for what bits of How say.
	Calms
	// Leads has the primary Who get the lease of the one that writes, Lapses has it rely on that no more, and Drops has it lose that.
	Leads
	Lapses
	Drops
	// Stands has the primary Who run some entries while it stands by.
	Stands
	// Works has the primary Who make one round of its loop: it takes what came, seals, and sends.
	Works
	// Writes has the engine meet the entry that the primary Who has on its way, as How says: see fates.
	Writes
	// Dies has the primary Who die, and another be started.
	Dies
	// Looks has the primary Who look for the keys of sites that are taken out.
	Looks
	// Comes has the engine do a call that was given up: the one that Who counts back.
	Comes
	// Leases has the process Who of a site take the next step for its key, as How says: see fates.
	Leases
	// Follows has the process Who of a site run How more entries than one, and show what that comes to.
	Follows
	// Tells has the process Who of a site tell its place. How events happen between its look at the values and at the lease.
	Tells
	// Arrives has a place come to the primary, and its answer back, by bits of How. Who counts back from the last one that was told.
	Arrives
	// Reads has a reader come to the process Who of a site. How events happen between its look at the values and at the lease.
	Reads
	// Falls has the process Who of a site end cleanly, where How is odd, or die and another be started. Where it has ended another is started.
	Falls
	// Asks has the client Who ask: the primary, and what it asks, by bits of How.
	Asks
	// Wishes has an operator wish for the next epoch, at the primary Who: which one, by How.
	Wishes
	// Hands has an operator put a key by hand, over that of the process Who or where there is none.
	Hands
	// Ends has the engine end each lease whose time is over, or that of the process Who alone, by How.
	Ends
	// Archives has the engine lose the entries of epochs that have ended.
	Archives
	// Lists has the process of the fleet be started anew, with the members by How, and Finds has it look for their keys.
	Lists
	Finds
	// Forges has processes be given entries that no right primary writes, of the kind How.
	Forges
	// Relimits has an operator ask the primary Who for another limit of a site, by bits of How.
	Relimits
	kinds
)

var kindNames = [kinds]string{"passes", "calms", "leads", "lapses", "drops", "stands", "works", "writes", "dies", "looks", "comes", "leases",
	"follows", "tells", "arrives", "reads", "falls", "asks", "wishes", "hands", "ends", "archives", "lists", "finds", "forges", "relimits"}

// What may become of a call: it is done and answered; it is done, and its answer comes by the next event of the process; it is done, and
// its answer is lost; its answer is lost, and it may be done later; it is never done.
const (
	done = iota
	doneAndSlow
	doneAndLost
	late
	never
	fates
)

var durations = [...]time.Duration{50 * time.Millisecond, 300 * time.Millisecond, 800 * time.Millisecond, 1500 * time.Millisecond,
	2500 * time.Millisecond, 3 * time.Second, 5 * time.Second}

// An Event is one thing that happens.
type Event struct {
	Kind     Kind
	Who, How byte
}

// The processes: two primaries, two of the site north, and of the fleet far one each of its sites east and west.
const primaries, processes = 2, 4

// A Run is a deployment, and what happens to it.
type Run struct {
	// Limits are those with which the sites north and far begin, and Every is how many requests an epoch takes.
	Limits [2]byte
	Every  byte
	// Rates are those of the clocks of the processes of sites, in hundredths of the engine's.
	Rates  [processes]byte
	Events []Event
}

// String is the text of a run, which ParseRun reads.
func (r *Run) String() string {
	text := fmt.Sprintf("limits %d %d every %d rates %d %d %d %d\n", r.Limits[0], r.Limits[1], r.Every, r.Rates[0], r.Rates[1], r.Rates[2], r.Rates[3])
	for _, event := range r.Events {
		text += event.String() + "\n"
	}
	return text
}

func (e Event) String() string { return fmt.Sprintf("%s %d %d", kindNames[e.Kind], e.Who, e.How) }

// ParseRun reads the text of a run. What stands behind a # is a comment.
func ParseRun(text string) (*Run, error) {
	run, hasHead := &Run{}, false
	for at, line := range strings.Split(text, "\n") {
		line, _, _ = strings.Cut(line, "#")
		if line = strings.TrimSpace(line); line == "" {
			continue
		}
		if !hasHead {
			hasHead = true
			if _, err := fmt.Sscanf(line, "limits %d %d every %d rates %d %d %d %d", &run.Limits[0], &run.Limits[1], &run.Every,
				&run.Rates[0], &run.Rates[1], &run.Rates[2], &run.Rates[3]); err != nil {
				return nil, fmt.Errorf("line %d: %w", at+1, err)
			}
			continue
		}
		var name string
		event := Event{Kind: kinds}
		if _, err := fmt.Sscanf(line, "%s %d %d", &name, &event.Who, &event.How); err != nil {
			return nil, fmt.Errorf("line %d: %w", at+1, err)
		}
		for kind, known := range kindNames {
			if name == known {
				event.Kind = Kind(kind)
			}
		}
		if event.Kind == kinds {
			return nil, fmt.Errorf("line %d: there is no event %s", at+1, name)
		}
		run.Events = append(run.Events, event)
	}
	return run, nil
}
