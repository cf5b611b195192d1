// Package fsck checks a script from its first epoch to the last: in the archives of hosts, and in the engine.
//
// Each entry is run as a primary runs it, so its answers must be those of the store of this program. Each epoch begins with what the one
// before it ended with, and each client that is remembered is carried over with its last answer. The record of each site must be `yes`
// to the checker of records, alone and behind the one of the epoch before.
package fsck

import (
	"fmt"
	"sort"
	"strings"

	"ordup.dev/ordup/answer"

	"ordup.dev/node/internal/epoch"
	"ordup.dev/node/internal/script"
	"ordup.dev/node/internal/store"
)

// An Epoch says what an epoch had that was found right.
type Epoch struct {
	Number, First, Last int64
	Requests, Updates   int64
	Clients             int
	// Rounds are those of each site, of which its record shows that no schedule has fewer.
	Rounds map[string]uint64
}

// String is a line.
func (e Epoch) String() string {
	text := fmt.Sprintf("epoch %d entries %d-%d requests %d updates %d clients %d", e.Number, e.First, e.Last,
		e.Requests, e.Updates, e.Clients)
	names := []string{}
	for name := range e.Rounds {
		names = append(names, name)
	}
	sort.Strings(names)
	for _, name := range names {
		text += fmt.Sprintf(" %s yes %d", name, e.Rounds[name])
	}
	return text
}

// An Audit checks entries one after another. It keeps one epoch, and the records of the one before.
type Audit struct {
	config Config
	core   *epoch.Core
	// The store of the core.
	store  store.Store
	before map[string]string
	// The last entry, and the last one of the epoch that is not carried over to the next one.
	last, lastOf int64
}

// New gives an audit that begins with the entry of this number, and tells each epoch that was found right.
func New(config Config, first int64) *Audit {
	audit := &Audit{config: config, last: first - 1}
	audit.core = epoch.New(epoch.Config{Open: audit.open, Writer: "fsck", Versions: config.Versions}, first)
	return audit
}

// open gives the core a store, which the audit asks too.
func (a *Audit) open() (store.Store, error) {
	opened, err := a.config.Open()
	if err != nil {
		return nil, fmt.Errorf("open a store: %w", err)
	}
	a.store = opened
	return opened, nil
}

// Close gives back what the audit has.
func (a *Audit) Close() { a.core.Close() }

// Next is the number of the entry that comes next.
func (a *Audit) Next() int64 { return a.last + 1 }

// Core is what the entries came to.
func (a *Audit) Core() *epoch.Core { return a.core }

// Take checks an entry.
func (a *Audit) Take(number int64, entry *script.Entry) error {
	if a.store != nil && entry.Begins() {
		if err := a.follows(number, entry); err != nil {
			return err
		}
		if err := a.endEpoch(isSame(a.core, entry)); err != nil {
			return err
		}
	}
	if err := a.core.Replay(number, entry); err != nil {
		return err
	}
	a.last = number
	if entry.Epoch == a.core.Epoch() {
		a.lastOf = number
	}
	return nil
}

// isSame is whether no operator gave other declarations for the epoch that an entry begins. Then records of a site go on.
func isSame(core *epoch.Core, entry *script.Entry) bool {
	return entry.Steps[0].Settings.Origin == core.Settings().Origin
}

// follows looks whether an epoch begins with what the one before ended with.
func (a *Audit) follows(number int64, entry *script.Entry) error {
	text, err := a.store.NextDeclarations()
	if err != nil {
		return &epoch.BrokenError{Number: number, Why: fmt.Sprintf("the epoch before it has not ended: %v", err)}
	}
	ends, err := epoch.Declarations(text)
	if err != nil {
		return &epoch.BrokenError{Number: number, Why: err.Error()}
	}
	values := map[string]string{}
	for _, line := range ends {
		if words := strings.Fields(line); words[0] == "object" {
			values[words[1]] = line
		}
	}
	begins := []string{}
	for _, step := range entry.Steps[1:] {
		if step.Kind != script.Declare {
			continue
		}
		begins = append(begins, step.Words)
		words := strings.Fields(step.Words)
		if len(words) == 3 && words[0] == "object" && values[words[1]] != "" && values[words[1]] != step.Words {
			return &epoch.BrokenError{Number: number,
				Why: fmt.Sprintf("it begins with `%s`, and the epoch before ended with `%s`", step.Words, values[words[1]])}
		}
	}
	if isSame(a.core, entry) && strings.Join(begins, "\n") != strings.Join(ends, "\n") {
		return &epoch.BrokenError{Number: number, Why: "it has other declarations than the epoch before ended with, and no operator gave them"}
	}
	return nil
}

// endEpoch checks the records of an epoch. Those of an epoch are kept for the next one, if they go on there.
func (a *Audit) endEpoch(goesOn bool) error {
	status := a.core.Status(0)
	checked := Epoch{Number: status.Epoch, First: a.core.First(), Last: a.lastOf, Requests: status.Requests, Updates: status.Updates,
		Clients: status.Clients, Rounds: map[string]uint64{}}
	records := map[string]string{}
	for _, site := range status.Sites {
		record, err := a.store.Record(site.Name)
		if err != nil {
			return fmt.Errorf("the record of %s in the epoch %d: %w", site.Name, status.Epoch, err)
		}
		rounds, err := a.check(status.Epoch, site.Name, record)
		if err != nil {
			return err
		}
		checked.Rounds[site.Name], records[site.Name] = rounds, record
	}
	a.before = nil
	if goesOn {
		a.before = records
	}
	a.config.Tell(checked)
	return nil
}

// check has a record checked, alone and behind that of the epoch before.
func (a *Audit) check(number int64, site, record string) (uint64, error) {
	verdict, err := a.config.Checker.Check([]byte(record))
	if err != nil {
		return 0, fmt.Errorf("check the record of %s in the epoch %d: %w", site, number, err)
	}
	if verdict.Kind != answer.Yes {
		return 0, &RecordError{number, site, fmt.Sprintf("%s %d %s", verdict.Kind, verdict.Row, verdict.Reason)}
	}
	before, isThere := a.before[site]
	if !isThere {
		return verdict.Rounds, nil
	}
	series, err := a.config.Checker.CheckSeries([]byte(before + record))
	if err != nil {
		return 0, fmt.Errorf("check the records of %s up to the epoch %d: %w", site, number, err)
	}
	if series.Kind != answer.Yes {
		return 0, &RecordError{number, site, fmt.Sprintf("with the one before: %s %d %d %s", series.Kind, series.Record, series.Row, series.Reason)}
	}
	return verdict.Rounds, nil
}

// HasEnded is whether the last epoch is over: its end was due, all is acknowledged, and it waits for no site.
func (a *Audit) HasEnded() bool {
	status := a.core.Status(0)
	hasEnded := status.Due && status.Acknowledged == status.Updates
	for _, site := range status.Sites {
		hasEnded = hasEnded && !site.NextWaits
	}
	return hasEnded
}

// End checks the last epoch up to its last entry.
func (a *Audit) End() error {
	if a.store == nil || a.core.Epoch() == 0 {
		return nil
	}
	return a.endEpoch(false)
}
