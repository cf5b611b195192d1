package epoch

import (
	"errors"
	"fmt"
	"time"

	"ordup.dev/node/internal/exit"
	"ordup.dev/node/internal/script"
	"ordup.dev/node/internal/store"
)

// A Config is what a core is made with.
type Config struct {
	// Open gives a store for each epoch.
	Open store.Open
	// Writer names the process, as one word, in the entries that it writes.
	Writer string
	// Versions are the versions of ordup whose answers the stores give.
	Versions []string
	// Ended, if it is there, is told of each epoch that ends in this core, with the forced rounds of its sites.
	Ended func(epoch int64, rounds map[string]int64)
	// What the steps of a batch count at most. Tests make it small.
	room script.Room
}

// A Core is what the entries of a script come to, up to one of them, and an open batch after them.
type Core struct {
	config Config
	// How many entries were run or sealed, and how many of them are known to be in the script.
	entries, written int64
	// What the epoch came to, and the numbers of its first entry and of the one that begins it.
	state
	first, begun int64
	store        store.Store
	clients      clients
	// The objects of the epoch, and its groups with their members.
	objects []string
	groups  map[string][]string
	// Who waits for the updates that are not acknowledged.
	waiting queue
	// The sites that the head waits for, and since when.
	round      []string
	roundSince time.Duration
	// Since when the next epoch is due.
	dueSince time.Duration
	// How many seconds the entries of the epoch note, and up to when this writer has noted them: it begins anew with each take-over.
	clock int64
	timed time.Duration
	// What is carried over to the next epoch, from which entry on, and which clients are still to come.
	carry *carry
	// The entry whose steps are run, and what was decided in it.
	running int64
	decided []script.Step
	batch   openBatch
	// When the last entry was sealed.
	sealed  time.Duration
	lines   []byte
	failure error
}

// An openBatch is what was run and not sealed yet.
type openBatch struct {
	steps  []script.Step
	bytes  int
	room   script.Room
	absent []string
}

// most is as much of a count as the batch has room for.
func (o *openBatch) most(count int64) int64 {
	if room := int64(o.room); room < count {
		return room
	}
	return count
}

// A GapError says that the script lacks an entry.
type GapError struct{ Number, Instead int64 }

func (e *GapError) Error() string {
	return fmt.Sprintf("the script has the entry %d where %d comes", e.Instead, e.Number)
}

// ExitStatus is that of a process which meets it.
func (*GapError) ExitStatus() exit.Status { return exit.Gap }

// A BrokenError says that an entry cannot be of this script, or that a store gave other answers than the one that wrote it.
type BrokenError struct {
	Number int64
	Why    string
}

func (e *BrokenError) Error() string { return fmt.Sprintf("the entry %d: %s", e.Number, e.Why) }

// ExitStatus is that of a process which meets it.
func (*BrokenError) ExitStatus() exit.Status { return exit.Gap }

// A VersionError says that an entry is run by a version of ordup which this program has not. Of a wish the number is 0.
type VersionError struct {
	Number    int64
	Version   string
	Supported []string
}

func (e *VersionError) Error() string {
	if e.Number == 0 {
		return fmt.Sprintf("the next epoch cannot be run by ordup %s: this program has %v; upgrade the primaries first", e.Version, e.Supported)
	}
	return fmt.Sprintf("the entry %d is run by ordup %s, and this program has %v: take one that has %s; a deployment goes back "+
		"to an older one by `ordup-node next --ordup VERSION`", e.Number, e.Version, e.Supported, e.Version)
}

// ExitStatus is that of a process which meets it.
func (*VersionError) ExitStatus() exit.Status { return exit.Words }

// Parse reads an entry of the script. Where the text is none that is a BrokenError, and of another format a script.FormatError.
func Parse(number int64, text []byte) (*script.Entry, error) {
	entry, err := script.Parse(text)
	var format *script.FormatError
	if err == nil || errors.As(err, &format) {
		return entry, err
	}
	return nil, &BrokenError{number, err.Error()}
}

// New gives a core before the entry of this number, which is the first one of an epoch.
func New(config Config, first int64) *Core {
	if config.room == 0 {
		config.room = batchCounts
	}
	return &Core{config: config, entries: first - 1, written: first - 1, clients: clients{}, batch: openBatch{room: config.room}}
}

// Close gives the store back.
func (c *Core) Close() {
	if c.store != nil {
		c.store.Close()
		c.store = nil
	}
}

// Next is the number of the entry that comes next.
func (c *Core) Next() int64 { return c.entries + 1 }

// Epoch is the epoch, or 0 before the script was begun.
func (c *Core) Epoch() int64 { return c.epoch }

// First is the number of the first entry of the epoch.
func (c *Core) First() int64 { return c.first }

// Begun is the last epoch whose beginning is in the script.
func (c *Core) Begun() int64 {
	if c.written < c.begun {
		return c.epoch - 1
	}
	return c.epoch
}

// Settings are those of the epoch.
func (c *Core) Settings() script.Settings { return c.settings }

// Replay runs an entry of the script.
func (c *Core) Replay(number int64, entry *script.Entry) error {
	if number != c.entries+1 {
		return &GapError{Number: c.entries + 1, Instead: number}
	}
	if !c.runs(entry.Ordup) {
		return &VersionError{number, entry.Ordup, c.config.Versions}
	}
	if err := c.enter(number, entry); err != nil {
		return err
	}
	answers := entry.Answers()
	c.entries, c.running, c.decided = number, number, nil
	if err := c.run(entry.Steps[:len(entry.Steps)-len(answers)]); err != nil {
		return err
	}
	if err := c.compare(answers); err != nil {
		return err
	}
	c.written, c.decided, c.timed = number, nil, 0
	return nil
}

// enter looks at the epoch of an entry. An entry of the next epoch, or the first one of all, carries over or begins it.
func (c *Core) enter(number int64, entry *script.Entry) error {
	if c.epoch == 0 && c.carry == nil {
		c.epoch, c.carry = entry.Epoch-1, &carry{first: number, clients: clients{}}
	}
	if c.carry == nil && entry.Epoch == c.epoch+1 {
		if why := c.unended(); why != "" {
			return &BrokenError{number, why}
		}
		c.startCarry(number)
	}
	if entry.Epoch != c.entryEpoch() {
		return &BrokenError{number, fmt.Sprintf("it is of epoch %d, and not of %d", entry.Epoch, c.entryEpoch())}
	}
	for at := range entry.Steps {
		if kind := entry.Steps[at].Kind; !belongs(kind, c.carry != nil, entry.Begins()) {
			return &BrokenError{number, fmt.Sprintf("the step %s does not belong there", kind)}
		}
	}
	if c.store != nil && c.carry != nil {
		return c.checkCarried(number, entry)
	}
	return c.takeAgain(number, entry)
}

// takeAgain takes the requests of an entry, each under a number that its client has not come to before.
func (c *Core) takeAgain(number int64, entry *script.Entry) error {
	clock := c.clock
	for at := range entry.Steps {
		step := &entry.Steps[at]
		if step.Kind == script.Elapsed {
			clock += step.Seconds
		}
		if step.Kind != script.Ask {
			continue
		}
		if last := c.clients[step.Client].number; step.Number <= last {
			return &BrokenError{number, asksAgain(step, last)}
		}
		step.Digest = script.DigestOf(step.Words)
		step.Client = c.clients.take(client{name: step.Client, number: step.Number, digest: step.Digest, epoch: c.epoch, asked: number, time: clock})
	}
	return nil
}

// compare looks whether the answers of an entry are those that were decided as it was run.
func (c *Core) compare(answers []script.Step) error {
	for at := 0; at < len(answers) || at < len(c.decided); at++ {
		if at == len(answers) || at == len(c.decided) || answers[at] != c.decided[at] {
			return &BrokenError{c.running, "its answers are not those that the store of this program gives"}
		}
	}
	return nil
}

// entryEpoch is the epoch of the next entry.
func (c *Core) entryEpoch() int64 {
	if c.carry != nil {
		return c.epoch + 1
	}
	return c.epoch
}

// entryVersion is the version of ordup that runs the epoch of the next entry.
func (c *Core) entryVersion() string {
	if c.carry != nil && c.wish != nil {
		return c.wish.Settings.Ordup
	}
	return c.settings.Ordup
}

func (c *Core) runs(version string) bool { return Runs(c.config.Versions, version) }

// Runs is whether a program of these versions of ordup runs what is of one.
func Runs(versions []string, version string) bool {
	for _, own := range versions {
		if version == own {
			return true
		}
	}
	return false
}
