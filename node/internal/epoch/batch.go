package epoch

import (
	"fmt"
	"time"

	"ordup.dev/node/internal/script"
)

const (
	// askBytes is how large the open batch is when it takes no more requests and no wish, and batchBytes when it asks for no more
	// acknowledgements. What one step adds then is small. So an entry is below script.MostEntryBytes.
	askBytes, batchBytes = 256 << 10, 512 << 10
	// carryBytes is how large an entry is that carries over clients. No request is taken until all have come, so they are few.
	carryBytes = 896 << 10
	// answerBytes is as much as an answer has, or more, beside what is counted for any step.
	answerBytes = 32
	// batchCounts is what the steps of a batch count at most: less than script.MostCounted, since who reads it runs it at once.
	batchCounts = 200_000
	// mostTold is how many updates that sites told are added by one call of Work.
	mostTold = 20_000
	// Later is how long after an entry sites are written that told something for which nobody waits.
	Later = 100 * time.Millisecond
)

// A Request is what a client asks.
type Request struct {
	Client  string
	Number  int64
	Changes string
}

// A Reply is what becomes of a request.
type Reply struct {
	Kind ReplyKind
	// Of Answered: what was decided. Last is, of Passed, the number under which the client asked last.
	Answer script.Answer
	Last   int64
}

// A ReplyKind is one of what may become of a request.
type ReplyKind uint8

const (
	// Waits says that the request was taken, now or before, and that its answer comes with a batch.
	Waits ReplyKind = iota + 1
	// Answered says that the request has its answer.
	Answered
	// Passed says that the client asked under a later number before.
	Passed
	// Differs says that the client asked for other changes under this number before.
	Differs
	// NotNow says that the batch is full, the epoch ends, or what decides is not written yet: ask again in the next batch.
	NotNow
	// Malformed says that the client, the number or the changes have not the form.
	Malformed
)

// A Batch is an entry that is to be written.
type Batch struct {
	Number int64
	Text   []byte
	// Absent are sites that must have no lease in the engine as the entry is written.
	Absent []string
	// Of an entry that begins an epoch: the epoch, and its first entry.
	Epoch, First int64
	// Last is the epoch of the script before the entry, and Since the first entry of that.
	Last, Since int64
	// Answers may be told once the entry is written.
	Answers []script.Step
	entry   *script.Entry
}

// Ask takes requests. The replies are in their order. With an error the core is of no more use.
func (c *Core) Ask(requests []Request, now time.Duration) ([]Reply, error) {
	replies := make([]Reply, len(requests))
	steps := c.elapsed(make([]script.Step, 0, len(requests)+1), now)
	clock, none := c.clock, len(steps)
	for at := range steps {
		clock += steps[at].Seconds
	}
	ends, bytes := c.ends(now), c.batch.bytes
	for at := range requests {
		reply := c.reply(&requests[at])
		switch {
		case reply.Kind != 0:
		case ends || bytes >= askBytes:
			reply.Kind = NotNow
		default:
			step := script.Step{Kind: script.Ask, Client: requests[at].Client, Number: requests[at].Number,
				Digest: script.DigestOf(requests[at].Changes), Words: requests[at].Changes}
			step.Client = c.clients.take(client{name: step.Client, number: step.Number, digest: step.Digest, epoch: c.epoch,
				asked: c.Next(), time: clock})
			steps = append(steps, step)
			bytes += sizeOf(&step)
			reply.Kind = Waits
		}
		replies[at] = reply
	}
	if len(steps) == none {
		return replies, nil
	}
	return replies, c.add(steps)
}

// elapsed appends the step for the whole seconds that have passed since this writer noted some.
func (c *Core) elapsed(steps []script.Step, now time.Duration) []script.Step {
	if c.timed == 0 {
		c.timed = now
	}
	seconds := int64((now - c.timed) / time.Second)
	if seconds > script.MostCounted {
		seconds = script.MostCounted
	}
	if seconds > 0 {
		steps = append(steps, script.Step{Kind: script.Elapsed, Seconds: seconds})
	}
	return steps
}

// reply is what becomes of a request, if it need not be run.
func (c *Core) reply(request *Request) Reply {
	if !script.IsClient(request.Client) || !script.IsNumber(request.Number) || !script.IsChanges(request.Changes) {
		return Reply{Kind: Malformed}
	}
	last := c.clients[request.Client]
	switch {
	case request.Number > last.number:
		return Reply{}
	case last.asked > c.written && (request.Number < last.number || script.DigestOf(request.Changes) != last.digest):
		return Reply{Kind: NotNow}
	case request.Number < last.number:
		return Reply{Kind: Passed, Last: last.number}
	case script.DigestOf(request.Changes) != last.digest:
		return Reply{Kind: Differs}
	case last.entry == 0 || last.entry > c.written:
		return Reply{Kind: Waits}
	}
	return Reply{Kind: Answered, Answer: last.answer}
}

// add runs steps in the open batch.
func (c *Core) add(steps []script.Step) error {
	if len(steps) == 0 {
		return nil
	}
	c.running = c.entries + 1
	decided := len(c.decided)
	if err := c.run(steps); err != nil {
		return err
	}
	c.batch.steps = append(c.batch.steps, steps...)
	for at := range steps {
		c.batch.bytes += sizeOf(&steps[at])
		c.batch.room.Take(&steps[at])
		if steps[at].Kind == script.Elapsed {
			c.timed += time.Duration(steps[at].Seconds) * time.Second
		}
	}
	for at := decided; at < len(c.decided); at++ {
		c.batch.bytes += sizeOf(&c.decided[at])
	}
	return nil
}

// sizeOf is at least how many bytes the line of a step has.
func sizeOf(step *script.Step) int {
	size := 64 + len(step.Client) + len(step.Site) + len(step.Digest) + len(step.Words) + len(step.Limit.Scope)
	if step.Kind == script.Answered {
		size += answerBytes
	}
	return size
}

// Work adds to the open batch what sites told, and asks for acknowledgements. It returns after how long it has more to do though
// nothing comes, or 0.
func (c *Core) Work(now time.Duration) (time.Duration, error) {
	if c.epoch == 0 || c.carry != nil {
		return 0, nil
	}
	if c.dueSince == 0 && c.isDue() {
		c.dueSince = now
	}
	again, err := c.addTold(now)
	if err != nil {
		return 0, err
	}
	if err := c.settle(); err != nil {
		return 0, err
	}
	if passed := c.elapsed(nil, now); len(c.batch.steps) > 0 {
		if err := c.add(passed); err != nil {
			return 0, err
		}
	}
	if c.round == nil {
		c.roundSince = 0
	} else if c.roundSince == 0 {
		c.roundSince = now
	}
	return again, nil
}

// addTold adds the steps for what sites told. Where nobody waits for them, that is later.
func (c *Core) addTold(now time.Duration) (time.Duration, error) {
	steps, left := []script.Step{}, c.batch.most(mostTold)
	for _, site := range c.sites.all {
		places := site.known()
		if site.gone {
			places = c.updates
		}
		if count := places - site.applied; count > 0 && left > 0 {
			if count > left {
				count = left
			}
			left -= count
			steps = append(steps, script.Step{Kind: script.Tell, Site: site.name, Count: count})
		}
	}
	if len(steps) == 0 {
		return 0, nil
	}
	somebodyWaits := len(c.batch.steps) > 0 || c.maySettle() || c.isDue()
	if later := c.sealed + Later - now; later > 0 && !somebodyWaits {
		return later, nil
	}
	if c.batch.bytes >= batchBytes {
		return 0, nil
	}
	return 0, c.add(steps)
}

// maySettle is whether the head waits for no site, as far as is known.
func (c *Core) maySettle() bool {
	if c.acknowledged == c.updates {
		return false
	}
	for _, name := range c.round {
		if site := c.sites.of(name); site != nil && !site.gone && site.known() <= c.acknowledged {
			return false
		}
	}
	return true
}

// settle asks for acknowledgements until the head waits.
func (c *Core) settle() error {
	step := script.Step{Kind: script.Settle, Count: 1}
	count := int64(0)
	for c.batch.bytes < batchBytes && c.batch.most(1) > 0 && c.headIsFree() {
		if err := c.addSettle(&step); err != nil {
			return err
		}
		count++
	}
	if count > 0 {
		step.Count = count
		c.batch.steps = append(c.batch.steps, step)
		c.batch.bytes += sizeOf(&step)
	}
	return nil
}

// addSettle runs one step, which is not in the open batch yet.
func (c *Core) addSettle(step *script.Step) error {
	c.running = c.entries + 1
	decided := len(c.decided)
	if err := c.run([]script.Step{*step}); err != nil {
		return err
	}
	c.batch.room.Take(step)
	for at := decided; at < len(c.decided); at++ {
		c.batch.bytes += sizeOf(&c.decided[at])
	}
	return nil
}

// headIsFree is whether an acknowledgement may be asked for: the head waits for no site, as it stands in the script.
func (c *Core) headIsFree() bool {
	if c.acknowledged == c.updates {
		return false
	}
	for _, name := range c.round {
		if site := c.sites.of(name); site != nil && site.applied <= c.acknowledged {
			return false
		}
	}
	return true
}

// Seal closes the open batch, and gives it as an entry. Where there is nothing to write it is nil.
func (c *Core) Seal(now time.Duration) (*Batch, error) {
	if c.store == nil {
		return nil, nil
	}
	batch := &Batch{Number: c.entries + 1, Absent: c.batch.absent, Last: c.epoch, Since: c.first}
	steps, epoch := c.batch.steps, c.entryEpoch()
	if len(steps) == 0 && c.isOver(now) {
		var err error
		steps, epoch, err = c.closing(batch)
		if err != nil {
			return nil, err
		}
	}
	if len(steps) == 0 {
		return nil, nil
	}
	batch.Answers = c.decided
	batch.entry = &script.Entry{Epoch: epoch, Ordup: c.entryVersion(), Writer: c.config.Writer, Steps: append(steps, batch.Answers...)}
	if err := batch.seal(); err != nil {
		c.failure = err
		return nil, err
	}
	c.entries, c.sealed, c.batch, c.decided = batch.Number, now, openBatch{room: c.config.room}, nil
	return batch, nil
}

// seal has the text of the entry. One that this program does not read, or that is too large for the engine, is never written.
func (b *Batch) seal() error {
	b.Text = b.entry.Text()
	if len(b.Text) > script.MostEntryBytes {
		return &BrokenError{b.Number, fmt.Sprintf("it is not written, since it has %d bytes", len(b.Text))}
	}
	if err := script.Check(b.Text); err != nil {
		return &BrokenError{b.Number, fmt.Sprintf("it is not written, since nobody reads it: %v", err)}
	}
	return nil
}

// Written says that the entry of this number, and so all before it, is in the script.
func (c *Core) Written(number int64) {
	if number > c.written {
		c.written = number
	}
}
