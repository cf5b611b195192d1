package epoch

import (
	"fmt"
	"strings"

	"ordup.dev/node/internal/script"
)

// A Judge refuses entries that no right primary writes, by what stands in them alone. It is for a process that has no core, as a site.
type Judge struct {
	state
	// The last number of each client, and those that are carried over once the epoch has ended. A map keeps the name under which it was
	// written last, so a number is not written under the name in an entry.
	numbers, carried map[string]*int64
	ended            bool
	// How many acknowledgements the entry asks for up to the step.
	settled int64
}

// Take refuses an entry by a BrokenError, or takes it.
func (j *Judge) Take(number int64, entry *script.Entry) error {
	if why := j.take(number, entry); why != "" {
		return &BrokenError{number, why}
	}
	return nil
}

func (j *Judge) take(number int64, entry *script.Entry) string {
	if why := j.enter(entry); why != "" {
		return why
	}
	j.settled = 0
	for at := range entry.Steps {
		step := &entry.Steps[at]
		if !belongs(step.Kind, j.ended, entry.Begins()) {
			return fmt.Sprintf("the step %s does not belong there", step.Kind)
		}
		if why := j.lawless(step); why != "" {
			return why
		}
		if why := j.note(number, step); why != "" {
			return why
		}
	}
	if entry.Begins() {
		j.ended = false
	}
	for _, site := range j.sites.all {
		if site.applied > j.updates {
			return fmt.Sprintf("the site %s has told %d updates, and there are %d", site.name, site.applied, j.updates)
		}
	}
	return ""
}

// enter looks at the epoch of an entry.
func (j *Judge) enter(entry *script.Entry) string {
	switch {
	case j.ended && entry.Epoch == j.epoch:
		return fmt.Sprintf("the epoch %d has ended before it", j.epoch)
	case j.ended || entry.Epoch == j.epoch:
	default:
		if why := j.unended(); why != "" && j.epoch > 0 {
			return why
		}
		j.ended, j.carried = true, map[string]*int64{}
	}
	if !entry.Begins() {
		return ""
	}
	if why := j.checkSettings(entry.Steps[0].Settings); why != "" && j.epoch > 0 {
		return why
	}
	j.state = state{epoch: entry.Epoch, settings: *entry.Steps[0].Settings}
	j.numbers = j.carried
	return ""
}

// note notes a step, or tells why a client cannot ask under the number.
func (j *Judge) note(number int64, step *script.Step) string {
	switch step.Kind {
	case script.Declare:
		if words := strings.Fields(step.Words); len(words) > 1 && words[0] == "site" {
			j.sites.add(strings.Clone(words[1]))
		} else {
			j.sites.declareLimit(words)
		}
	case script.Known:
		numberOf(j.carried, step.Client, step.Number)
	case script.Ask:
		last := numberOf(j.numbers, step.Client, 0)
		if step.Number <= *last {
			return asksAgain(step, *last)
		}
		*last, j.asks, j.updates = step.Number, j.asks+1, j.updates+1
	case script.Answered:
		if step.Answer.IsRefused() {
			j.updates--
		} else {
			j.acknowledged++
		}
	case script.Settle:
		j.settled += step.Count
	case script.Wish:
		j.noteWish(step, number)
	case script.Leave:
		j.sites.leave(step.Site, number)
	case script.Relimit:
		return j.noteRelimit(number, step)
	case script.Tell, script.Gone:
		site := j.sites.of(step.Site)
		site.applied, site.gone = site.applied+step.Count, site.gone || step.Kind == script.Gone
	}
	return ""
}

// numberOf is where the last number of a client is kept, which is this one if there was none.
func numberOf(numbers map[string]*int64, name string, first int64) *int64 {
	last := numbers[name]
	if last == nil {
		last = &first
		numbers[strings.Clone(name)] = last
	}
	return last
}
