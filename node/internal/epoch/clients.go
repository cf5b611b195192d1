package epoch

import (
	"fmt"
	"strings"

	"ordup.dev/node/internal/script"
)

// An asker is a request without its changes.
type asker struct {
	name   string
	number int64
	digest string
}

// A client is the last request of a client: its number and the digest of its changes, the epoch and the entry that took it, and at which
// second of the epoch, its answer and the entry that has that. Without an answer it waits for one. The name is a copy of its own: a map
// keeps the name under which it was written last, and one that is a part of an entry would keep the whole entry in memory.
type client struct {
	name               string
	number             int64
	digest             string
	epoch, asked, time int64
	answer             script.Answer
	entry              int64
}

// clients has the last request of each client.
type clients map[string]client

// take notes a request, and returns the copy of its client's name.
func (c clients) take(last client) string {
	name := c[last.name].name
	if name == "" {
		name = strings.Clone(last.name)
	}
	last.name = name
	c[name] = last
	return name
}

// carry notes what an entry carries over.
func (c clients) carry(known *script.Step, entry int64) {
	name, decided := strings.Clone(known.Client), known.Answer
	decided.Refusal.Name = strings.Clone(decided.Refusal.Name)
	c[name] = client{name: name, number: known.Number, digest: strings.Clone(known.Digest), epoch: known.Epoch, asked: entry,
		time: -known.Age, answer: decided, entry: entry}
}

// answer notes the answer to a request. Where the client has asked under a later number since, nobody may ask for it.
func (c clients) answer(asked asker, decided script.Answer, entry int64) {
	if last := c[asked.name]; last.number == asked.number {
		last.answer, last.entry = decided, entry
		c[last.name] = last
	}
}

// remembers is whether a client is carried over to the epoch after this one.
func (c *Core) remembers(last *client) bool {
	return c.epoch-last.epoch < c.settings.Remembers || c.clock-last.time < c.settings.Seconds
}

// checkCarried looks whether an entry carries over the last requests of clients, and where it begins the next epoch whether none is missing,
// and whether it begins as it must.
func (c *Core) checkCarried(number int64, entry *script.Entry) error {
	for at := range entry.Steps {
		step := &entry.Steps[at]
		if step.Kind != script.Known {
			continue
		}
		last, isKnown := c.clients[step.Client]
		carried := last
		carried.number, carried.digest, carried.epoch, carried.answer = step.Number, step.Digest, step.Epoch, step.Answer
		carried.time = c.clock - step.Age
		if !isKnown || carried != last || !c.remembers(&last) {
			return &BrokenError{number, fmt.Sprintf("it does not carry over the last request of %s", step.Client)}
		}
	}
	if !entry.Begins() {
		return nil
	}
	for name, last := range c.clients {
		if _, isCarried := c.carry.clients[name]; !isCarried && c.remembers(&last) {
			return &BrokenError{number, fmt.Sprintf("the client %s is not carried over", name)}
		}
	}
	return c.checkBeginning(number, entry)
}

// A queue has who waits for acknowledgements, in the order of the log.
type queue struct {
	askers []asker
	front  int
}

func (q *queue) push(asked asker) { q.askers = append(q.askers, asked) }

func (q *queue) pop() asker {
	asked := q.askers[q.front]
	q.askers[q.front] = asker{}
	q.front++
	if q.front > len(q.askers)/2 {
		q.askers = append(q.askers[:0], q.askers[q.front:]...)
		q.front = 0
	}
	return asked
}
