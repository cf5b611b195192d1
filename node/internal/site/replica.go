// Package site has the process that shows the values of a site to its readers.
//
// A Replica is what the script comes to at a site. It has no engine, no threads and no clock. A Site follows the script by it, shows
// what it has run while its lease lives, and tells the place that it has shown.
package site

import (
	"bytes"
	"errors"
	"fmt"
	"strconv"
	"strings"

	"ordup.dev/ordup/answer"

	"ordup.dev/node/internal/epoch"
	"ordup.dev/node/internal/exit"
	"ordup.dev/node/internal/script"
	"ordup.dev/node/internal/store"
)

// feed is how many updates the own store of a site has under way: the capacity that it declares.
const feed = 1024

// Shown is what a site shows after so many entries. Nobody changes it.
type Shown struct {
	// Entry is the last entry that was run, Epoch its epoch, and Place how many updates of the epoch are applied.
	Entry, Epoch, Place int64
	// Told is how many updates the script says that the site has told.
	Told int64
	// Acknowledged is how many updates are acknowledged.
	Acknowledged int64
	// Values are those of all objects. Imports says how far those that differ from what the acknowledged updates make of them may do so.
	Values, Imports map[string]int64
	// Limits are those of the site.
	Limits script.Limits
	// Digest is that of the entry, as the engine has it.
	Digest string
}

// A LeftError says that the site is not among those of the script.
type LeftError struct {
	Site  string
	Epoch int64
}

func (e *LeftError) Error() string {
	return fmt.Sprintf("the script has no site %s in epoch %d", e.Site, e.Epoch)
}

// ExitStatus is that of a process which meets it.
func (*LeftError) ExitStatus() exit.Status { return exit.NotInScript }

// A Replica is what entries come to at a site.
type Replica struct {
	open     store.Open
	versions []string
	// The name in the script, which is that of the fleet where the site is of one.
	name  string
	store store.Store
	judge epoch.Judge
	entry int64
	epoch int64
	sites map[string]bool
	place int64
	told  int64
	// How many updates the store knows as acknowledged.
	acked int64
	text  []byte
}

// NewReplica gives one before the entry of a number, which is the first one of an epoch.
func NewReplica(open store.Open, versions []string, name string, first int64) *Replica {
	return &Replica{open: open, versions: versions, name: name, entry: first - 1}
}

// Close gives the store back.
func (r *Replica) Close() {
	if r.store != nil {
		r.store.Close()
		r.store = nil
	}
}

// Next is the number of the entry that comes next.
func (r *Replica) Next() int64 { return r.entry + 1 }

// Epoch is the epoch, or 0 before the first one.
func (r *Replica) Epoch() int64 { return r.epoch }

// Replay runs an entry. A LeftError says that no reader may be served any more.
func (r *Replica) Replay(number int64, entry *script.Entry) error {
	if number != r.entry+1 {
		return &epoch.GapError{Number: r.entry + 1, Instead: number}
	}
	if !epoch.Runs(r.versions, entry.Ordup) {
		return &epoch.VersionError{Number: number, Version: entry.Ordup, Supported: r.versions}
	}
	if entry.Epoch != r.epoch && entry.Epoch != r.epoch+1 && r.epoch > 0 {
		return &epoch.BrokenError{Number: number, Why: fmt.Sprintf("it is of epoch %d after %d", entry.Epoch, r.epoch)}
	}
	if err := r.judge.Take(number, entry); err != nil {
		return err
	}
	if entry.Begins() {
		if err := r.begin(number, entry); err != nil {
			return err
		}
	}
	r.entry = number
	if err := r.propose(entry); err != nil {
		return err
	}
	if err := r.acknowledge(); err != nil {
		return err
	}
	if err := r.relimit(entry); err != nil {
		return err
	}
	return r.heed(entry)
}

// begin begins an epoch. Its values must be those that the epoch before ended with here.
func (r *Replica) begin(number int64, entry *script.Entry) error {
	before, err := r.values()
	if err != nil {
		return err
	}
	r.Close()
	r.store, err = r.open()
	if err != nil {
		return fmt.Errorf("begin the epoch %d: %w", entry.Epoch, err)
	}
	r.epoch, r.place, r.told, r.acked, r.sites = entry.Epoch, 0, 0, 0, map[string]bool{}
	lines := []byte{}
	for at := range entry.Steps {
		step := &entry.Steps[at]
		words := strings.Fields(step.Words)
		switch {
		case step.Kind != script.Declare || len(words) < 3:
		case words[0] == "site":
			r.sites[words[1]] = true
		case words[0] == "group":
			lines = step.AppendLines(lines)
		case words[0] == "object":
			lines = step.AppendLines(lines)
			if value, isThere := before[words[1]]; isThere && strconv.FormatInt(value, 10) != words[2] {
				return &epoch.BrokenError{Number: number, Why: fmt.Sprintf("%s begins with %s, and had %d here", words[1], words[2], value)}
			}
		}
	}
	lines = append(lines, fmt.Sprintf("site %s %d\nstart\n", r.name, feed)...)
	return r.run(lines, isDone)
}

// isDone is whether an answer is no refusal.
func isDone(given answer.Answer) bool {
	_, isRefused := given.(*answer.Refused)
	return !isRefused
}

// run runs lines, each of whose answers must be as it is looked for.
func (r *Replica) run(lines []byte, isRight func(answer.Answer) bool) error {
	if r.store == nil {
		return &epoch.BrokenError{Number: r.entry, Why: "it comes before the beginning of its epoch"}
	}
	answers, err := r.answers(lines)
	if err != nil {
		return err
	}
	for _, given := range answers {
		if !isRight(given) {
			return &epoch.BrokenError{Number: r.entry, Why: fmt.Sprintf("the store of this site answers %T %+v", given, given)}
		}
	}
	if len(answers) != bytes.Count(lines, []byte{'\n'}) {
		return &epoch.BrokenError{Number: r.entry, Why: fmt.Sprintf("the store of this site gives %d answers", len(answers))}
	}
	return nil
}

// answers asks the store. What is none of its answers is not of this script.
func (r *Replica) answers(lines []byte) ([]answer.Answer, error) {
	answers, err := r.store.Answers(lines)
	var unknown *answer.UnknownError
	switch {
	case err == nil:
		return answers, nil
	case errors.As(err, &unknown):
		return nil, &epoch.BrokenError{Number: r.entry, Why: unknown.Error()}
	}
	return nil, fmt.Errorf("run the lines of the entry %d: %w", r.entry, err)
}

// propose runs the requests of an entry. Those that the primary refused are refused here, since the values are the same.
func (r *Replica) propose(entry *script.Entry) error {
	r.text = r.text[:0]
	for at := range entry.Steps {
		if entry.Steps[at].Kind == script.Ask {
			r.text = entry.Steps[at].AppendLines(r.text)
		}
	}
	if len(r.text) == 0 {
		return nil
	}
	refused := refusals(entry.Answers())
	updates := int64(0)
	err := r.run(r.text, func(given answer.Answer) bool {
		switch given := given.(type) {
		case answer.Proposed:
			updates++
			return true
		case *answer.Refused:
			isSame := len(refused) > 0 && refused[0] == epoch.RefusalOf(given)
			if isSame {
				refused = refused[1:]
			}
			return isSame
		}
		return false
	})
	if err == nil && len(refused) > 0 {
		err = &epoch.BrokenError{Number: r.entry, Why: fmt.Sprintf("the store of this site does not refuse as %s", refused[0].Name)}
	}
	if err != nil {
		return err
	}
	return r.apply(updates)
}

// refusals are those among the answers of an entry.
func refusals(answers []script.Step) []script.Refusal {
	refused := []script.Refusal{}
	for at := range answers {
		if answers[at].Answer.IsRefused() {
			refused = append(refused, answers[at].Answer.Refusal)
		}
	}
	return refused
}

// apply applies updates, as many at once as the feed has room for.
func (r *Replica) apply(updates int64) error {
	for updates > 0 {
		some := updates
		if some > feed {
			some = feed
		}
		r.text = r.text[:0]
		for _, kind := range []string{"send ", "apply "} {
			for count := int64(0); count < some; count++ {
				r.text = append(append(append(r.text, kind...), r.name...), '\n')
			}
		}
		if err := r.run(r.text, isDone); err != nil {
			return err
		}
		r.place, updates = r.place+some, updates-some
	}
	return nil
}

// heed looks whether the site is still among those of the script, and what it has told.
func (r *Replica) heed(entry *script.Entry) error {
	for at := range entry.Steps {
		step := &entry.Steps[at]
		switch {
		case step.Kind == script.Leave:
			delete(r.sites, step.Site)
		case step.Kind == script.Tell && step.Site == r.name:
			r.told += step.Count
		}
	}
	if r.epoch > 0 && !r.sites[r.name] {
		return &LeftError{r.name, r.epoch}
	}
	return nil
}

// Show gives what the site shows, or nil before the first epoch.
func (r *Replica) Show() (*Shown, error) {
	values, err := r.values()
	if err != nil || r.store == nil {
		return nil, err
	}
	imports, err := r.imports(values)
	if err != nil {
		return nil, err
	}
	return &Shown{Entry: r.entry, Epoch: r.epoch, Place: r.place, Told: r.told, Acknowledged: r.acked, Values: values, Imports: imports,
		Limits: r.judge.LimitsOf(r.name)}, nil
}

// values are those that the store shows.
func (r *Replica) values() (map[string]int64, error) {
	if r.store == nil {
		return nil, nil
	}
	answers, err := r.answers([]byte("show " + r.name + "\n"))
	if err != nil {
		return nil, err
	}
	if len(answers) == 1 {
		if shown, isShown := answers[0].(answer.Shown); isShown && int64(shown.Applied) == r.place {
			return shown.Values, nil
		}
	}
	return nil, &epoch.BrokenError{Number: r.entry, Why: fmt.Sprintf("the store of this site shows %+v", answers)}
}
