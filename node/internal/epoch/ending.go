package epoch

import (
	"errors"
	"fmt"
	"sort"
	"strings"
	"time"

	"ordup.dev/ordup/answer"

	"ordup.dev/node/internal/script"
	"ordup.dev/node/internal/store"
)

// MostDeclarationsBytes is how many bytes declarations may have, and their lines that many as steps of an entry.
const MostDeclarationsBytes = 256 << 10

// MostEvery is how many requests an epoch may take: as many as the log of a store has updates.
const MostEvery = 1_000_000

// MostSeconds is for how many seconds a client may be remembered at least.
const MostSeconds = 1_000_000

// A Wish is what an operator wishes of the next epoch.
type Wish struct {
	// From is the epoch that is to end.
	From     int64
	Settings script.Settings
	// Declarations are those of the next epoch. Without any they stay, and with them an object that stays keeps its value.
	Declarations []string
	// Replaces is whether it takes the place of another wish for this epoch, which cannot come true while a site is away. Sites that the
	// other one took out have left all the same, up to the next epoch.
	Replaces bool
}

// Why a wish is not taken.
var (
	// ErrOtherWish says that another wish for this epoch was taken.
	ErrOtherWish = errors.New("somebody has asked already, and the epoch has not ended yet")
	// ErrNotNow says that what decides of the wish is not written yet, or that the batch is full: ask again in the next batch.
	ErrNotNow = errors.New("it is not decided yet what becomes of the wish")
	// ErrNotYet says that the epoch which is to end has not begun.
	ErrNotYet = errors.New("the epoch that is to end has not begun")
)

// Declarations are the lines of a text that are no comments and not blank, with one space between words. It refuses the lines in which
// `ordup run` finds no words: those with another byte than from space to `~`, as a CR or a tab.
func Declarations(text string) ([]string, error) {
	lines := []string{}
	for at, line := range strings.Split(text, "\n") {
		if strings.HasPrefix(line, "#") {
			continue
		}
		words := strings.Join(strings.Fields(line), " ")
		switch {
		case strings.HasSuffix(line, "\r"):
			return nil, fmt.Errorf("line %d of the declarations, %.60q, ends with CRLF, and not with LF alone: tr -d '\\r' makes it so", at+1, line)
		case !script.IsPrintable(line):
			return nil, fmt.Errorf("line %d of the declarations, %.60q, has a byte that is not from space to ~", at+1, line)
		case strings.HasPrefix(words, "#"):
			return nil, fmt.Errorf("line %d of the declarations, %.60q, is no comment: the # of one is its first byte", at+1, line)
		case words != "":
			lines = append(lines, words)
		}
	}
	return lines, nil
}

// Check tells why no store starts with these declarations, or why these settings are none.
func Check(open store.Open, settings *script.Settings, declarations []string) error {
	if err := checkSettings(settings); err != nil {
		return err
	}
	text := ""
	for _, line := range declarations {
		if !script.IsChanges(line) {
			return fmt.Errorf("%.60q is no declaration", line)
		}
		text += line + "\n"
	}
	if len(text) > MostDeclarationsBytes {
		return fmt.Errorf("declarations have at most %d bytes", MostDeclarationsBytes)
	}
	trial, err := open()
	if err != nil {
		return fmt.Errorf("try the declarations: %w", err)
	}
	defer trial.Close()
	answers, err := trial.Answers([]byte(text))
	if err != nil {
		return fmt.Errorf("try the declarations: %w", err)
	}
	for _, given := range answers {
		if refused, isRefused := given.(*answer.Refused); isRefused {
			return refused
		}
	}
	if len(answers) != len(declarations) || len(answers) == 0 || answers[len(answers)-1] != (answer.Started{}) {
		return errors.New("the last declaration does not start the store")
	}
	return nil
}

func checkSettings(settings *script.Settings) error {
	for _, number := range []int64{settings.Every, settings.Remembers} {
		if number < 1 || number > MostEvery {
			return fmt.Errorf("an epoch takes 1 to %d requests, and a client is remembered for so many epochs: not %d", MostEvery, number)
		}
	}
	if settings.Seconds < 0 || settings.Seconds > MostSeconds {
		return fmt.Errorf("a client is remembered for 0 to %d seconds: not %d", MostSeconds, settings.Seconds)
	}
	return nil
}

// DigestOf is what a script has of the declarations that an operator gave.
func DigestOf(declarations []string) string { return script.DigestOf(strings.Join(declarations, "\n")) }

// FirstBatch is the entry that begins an empty script, which keeps with what it began.
func FirstBatch(config Config, settings script.Settings, declarations []string) (*Batch, error) {
	if err := Check(config.Open, &settings, declarations); err != nil {
		return nil, err
	}
	settings.Began = script.Began{Every: settings.Every, Remembers: settings.Remembers, Seconds: settings.Seconds, Origin: settings.Origin}
	batch := &Batch{Number: 1, Epoch: 1, First: 1}
	batch.entry = &script.Entry{Epoch: 1, Ordup: settings.Ordup, Writer: config.Writer, Steps: beginning(settings, declarations)}
	return batch, batch.seal()
}

// TakeOver is an entry by which the writer takes over. It is not run: Replay it once it is written.
func (c *Core) TakeOver() *Batch {
	batch := &Batch{Number: c.entries + 1, Last: c.epoch, Since: c.first}
	batch.entry = &script.Entry{Epoch: c.entryEpoch(), Ordup: c.entryVersion(), Writer: c.config.Writer}
	batch.Text = batch.entry.Text()
	return batch
}

// Entry is what the batch writes.
func (b *Batch) Entry() *script.Entry { return b.entry }

func beginning(settings script.Settings, declarations []string) []script.Step {
	steps := []script.Step{{Kind: script.Begin, Settings: &settings}}
	for _, line := range declarations {
		steps = append(steps, script.Step{Kind: script.Declare, Words: line})
	}
	return steps
}

// AskNext takes the wish for the next epoch, or takes note that it was taken before. What is zero in its settings stays. The wish has
// come true once Begun is after wish.From.
func (c *Core) AskNext(wish Wish) error {
	c.complete(&wish)
	switch {
	case wish.From > c.epoch:
		return ErrNotYet
	case wish.From < c.epoch:
		return c.compareWish(&wish, &c.settings, c.begun)
	case c.wish != nil && (wish.Settings == c.wish.Settings || !wish.Replaces || c.carry != nil):
		return c.compareWish(&wish, &c.wish.Settings, c.wished)
	case c.carry != nil || c.batch.bytes >= askBytes:
		return ErrNotNow
	}
	if err := c.mayWish(&wish); err != nil {
		return err
	}
	steps := []script.Step{{Kind: script.Wish, Settings: &wish.Settings}}
	for _, line := range wish.Declarations {
		steps = append(steps, script.Step{Kind: script.Want, Words: line})
	}
	for _, site := range c.sites.all {
		if len(wish.Declarations) > 0 && !site.leaves && !declares(wish.Declarations, site.name) {
			steps = append(steps, script.Step{Kind: script.Leave, Site: site.name})
		}
	}
	return c.add(steps)
}

// compareWish tells whether a wish is for what an entry says. That it is not is told once the entry is written.
func (c *Core) compareWish(wish *Wish, instead *script.Settings, entry int64) error {
	switch {
	case wish.Settings == *instead:
		return nil
	case entry > c.written:
		return ErrNotNow
	}
	return ErrOtherWish
}

// complete fills in what stays. Then two wishes are for the same if their settings are, since these have the digest of declarations.
func (c *Core) complete(wish *Wish) {
	if wish.Settings.Every == 0 {
		wish.Settings.Every = c.settings.Every
	}
	if wish.Settings.Remembers == 0 {
		wish.Settings.Remembers = c.settings.Remembers
	}
	if wish.Settings.Seconds == 0 {
		wish.Settings.Seconds = c.settings.Seconds
	}
	if wish.Settings.Ordup == "" {
		wish.Settings.Ordup = c.settings.Ordup
	}
	wish.Settings.Origin, wish.Settings.Began = c.settings.Origin, c.settings.Began
	if len(wish.Declarations) > 0 {
		wish.Settings.Origin = DigestOf(wish.Declarations)
	}
}

// mayWish tells why the next epoch cannot be as it is wished.
func (c *Core) mayWish(wish *Wish) error {
	if !c.runs(wish.Settings.Ordup) {
		return &VersionError{0, wish.Settings.Ordup, c.config.Versions}
	}
	if len(wish.Declarations) == 0 {
		return checkSettings(&wish.Settings)
	}
	return Check(c.config.Open, &wish.Settings, wish.Declarations)
}

func declares(declarations []string, site string) bool {
	for _, line := range declarations {
		if words := strings.Fields(line); len(words) > 1 && words[0] == "site" && words[1] == site {
			return true
		}
	}
	return false
}

// Leaving are the sites that are taken out, and of which a process may still have a lease.
func (c *Core) Leaving() []string {
	names := []string{}
	for _, site := range c.sites.all {
		if site.leaves && !site.gone {
			names = append(names, site.name)
		}
	}
	return names
}

// Gone says that the engine had no lease of a site that is taken out. The entry that counts it as gone is written only where that is so
// still. The site counts as at the end from there on: a process that gets its lease later has read before that it is taken out. What the
// batch has no room for is told by Work later.
func (c *Core) Gone(name string) error {
	site := c.sites.of(name)
	if site == nil || !site.leaves || site.gone || c.carry != nil {
		return nil
	}
	c.batch.absent = append(c.batch.absent, name)
	return c.add([]script.Step{{Kind: script.Gone, Site: name, Count: c.batch.most(c.updates - site.applied)}})
}

// ends is whether no more requests are taken. While a site is away, which would hold all up, the epoch goes on.
func (c *Core) ends(now time.Duration) bool {
	if c.epoch == 0 || c.carry != nil {
		return true
	}
	if !c.isDue() {
		return false
	}
	for _, site := range c.sites.all {
		if !site.leaves && !site.isHere(c.updates, now) {
			return false
		}
	}
	return true
}

// isOver is whether the next epoch may be written.
func (c *Core) isOver(now time.Duration) bool {
	if c.carry != nil {
		return true
	}
	return c.ends(now) && c.unended() == ""
}

// A carry is what is carried over to the next epoch, and from which entry on.
type carry struct {
	first   int64
	clients clients
	// The names that are still to come, in order, once they were looked for.
	left   []string
	sorted bool
}

func (c *Core) startCarry(first int64) {
	c.carry = &carry{first: first, clients: clients{}}
}

// closing gives the next steps of the end of an epoch: clients that are carried over, or else the beginning of the next one. A program
// that took over and has not the version which is wished for begins none.
func (c *Core) closing(batch *Batch) ([]script.Step, int64, error) {
	if c.wish != nil && !c.runs(c.wish.Settings.Ordup) {
		return nil, 0, &VersionError{batch.Number, c.wish.Settings.Ordup, c.config.Versions}
	}
	c.running = batch.Number
	if c.carry == nil {
		c.startCarry(batch.Number)
	}
	epoch := c.entryEpoch()
	if steps := c.carried(); len(steps) > 0 {
		return steps, epoch, c.run(steps)
	}
	settings, declarations, err := c.following()
	if err != nil {
		return nil, 0, err
	}
	steps := beginning(settings, declarations)
	err = c.run(steps)
	batch.Epoch, batch.First = c.epoch, c.first
	return steps, epoch, err
}

// carried gives the next clients that are carried over, as many as an entry has room for.
func (c *Core) carried() []script.Step {
	carry := c.carry
	if !carry.sorted {
		for name, last := range c.clients {
			if _, isCarried := carry.clients[name]; !isCarried && c.remembers(&last) {
				carry.left = append(carry.left, name)
			}
		}
		sort.Strings(carry.left)
		carry.sorted = true
	}
	steps, bytes := []script.Step{}, 0
	for len(carry.left) > 0 && bytes < carryBytes {
		name := carry.left[0]
		last := c.clients[name]
		step := script.Step{Kind: script.Known, Client: name, Number: last.number, Digest: last.digest, Epoch: last.epoch,
			Age: c.clock - last.time, Answer: last.answer}
		c.lines = step.Append(c.lines[:0])
		steps, bytes, carry.left = append(steps, step), bytes+len(c.lines), carry.left[1:]
	}
	return steps
}

// following gives the settings and the declarations of the next epoch.
func (c *Core) following() (script.Settings, []string, error) {
	text, err := c.store.NextDeclarations()
	if err != nil {
		return script.Settings{}, nil, fmt.Errorf("declare what comes after the epoch %d: %w", c.epoch, err)
	}
	declarations, err := Declarations(text)
	if err != nil {
		return script.Settings{}, nil, err
	}
	if c.wish == nil || len(c.wish.Declarations) == 0 {
		return c.nextSettings(), declarations, nil
	}
	values := map[string]string{}
	for _, line := range declarations {
		if words := strings.Fields(line); words[0] == "object" {
			values[words[1]] = line
		}
	}
	wanted := append([]string{}, c.wish.Declarations...)
	for at, line := range wanted {
		if words := strings.Fields(line); words[0] == "object" && values[words[1]] != "" {
			wanted[at] = values[words[1]]
		}
	}
	return c.wish.Settings, wanted, nil
}

// ended has the epoch that has ended, and the forced rounds of its sites.
func (c *Core) ended() (epoch int64, rounds map[string]int64) {
	rounds = map[string]int64{}
	for _, site := range c.sites.all {
		rounds[site.name] = site.rounds
	}
	return c.epoch, rounds
}

// begin forgets the epoch before, and begins the next one with the clients that were carried over.
func (c *Core) begin(settings *script.Settings) error {
	if c.store != nil && c.config.Ended != nil {
		c.config.Ended(c.ended())
	}
	c.Close()
	opened, err := c.config.Open()
	if err != nil {
		return fmt.Errorf("begin the epoch %d: %w", c.epoch+1, err)
	}
	c.store, c.settings = opened, *settings
	c.epoch, c.first, c.begun = c.epoch+1, c.carry.first, c.running
	c.clients, c.carry, c.wish = c.carry.clients, nil, nil
	c.sites, c.waiting, c.round = sites{}, queue{}, nil
	c.objects, c.groups = nil, map[string][]string{}
	c.asks, c.updates, c.acknowledged, c.dueSince, c.clock = 0, 0, 0, 0, 0
	return nil
}
