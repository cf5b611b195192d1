package primary

import (
	"errors"
	"sync"

	"ordup.dev/node/internal/epoch"
	"ordup.dev/node/internal/script"
)

// MostQueued is how many requests wait to be taken at most, and MostWaiting how many of those that were taken wait for an answer.
const MostQueued, MostWaiting = 20_000, 100_000

// A call waits for what becomes of a request, until it is gone.
type call struct {
	request epoch.Request
	done    chan outcome
	isGone  bool
	// Where it is among those that wait for the answer to its request, if it is there.
	at int
}

type outcome struct {
	answer script.Answer
	err    error
}

// A nextCall waits until a wish has come true.
type nextCall struct {
	wish   epoch.Wish
	done   chan outcome
	isGone bool
}

type asked struct {
	client string
	number int64
}

// calls are those of other goroutines, which Run takes.
type calls struct {
	own  string
	wake chan struct{}

	// What stands below lock is under it.
	lock sync.Mutex
	// Whether this process writes, and else who does. Over is set once the process ends.
	open, over bool
	address    string
	// What is not taken yet, who waits for a batch, and who for an epoch.
	queue   []*call
	waiting map[asked][]*call
	waiters int
	nexts   []*nextCall
	wishes  []*nextCall
	// The changes of limits that are not taken yet, and those whose entry is not written yet.
	limits, limited []*limitCall
}

func (c *calls) init(own string) {
	c.own, c.waiting, c.wake = own, map[asked][]*call{}, make(chan struct{}, 1)
}

func (c *calls) isOpen() bool {
	c.lock.Lock()
	defer c.lock.Unlock()
	return c.open
}

func (c *calls) writer() string {
	c.lock.Lock()
	defer c.lock.Unlock()
	return c.address
}

func (c *calls) sizes() (waiting, queued int) {
	c.lock.Lock()
	defer c.lock.Unlock()
	return c.waiters + len(c.queue), len(c.queue)
}

// awaken has Run look at what came.
func (c *calls) awaken() {
	select {
	case c.wake <- struct{}{}:
	default:
	}
}

// set says whether this process writes, and who does. Where it does no more, all who wait are told. The address of another process is
// never its own, which wrote the last entry and does no more.
func (c *calls) set(open bool, address string) {
	c.lock.Lock()
	defer c.lock.Unlock()
	if !open && address == c.own {
		address = ""
	}
	c.open, c.address = open && !c.over, address
	if !c.open {
		c.failAllLocked(&NotWriterError{address})
	}
}

// end tells all who wait, and takes no more.
func (c *calls) end() {
	c.lock.Lock()
	defer c.lock.Unlock()
	c.open, c.over = false, true
	c.failAllLocked(&NotWriterError{})
}

// failAllLocked tells all who wait why they have no answer. Whoever calls it has the lock.
func (c *calls) failAllLocked(err error) {
	for _, call := range c.queue {
		call.done <- outcome{err: err}
	}
	for _, waiters := range c.waiting {
		for _, call := range waiters {
			call.done <- outcome{err: err}
		}
	}
	for _, next := range append(c.nexts, c.wishes...) {
		next.done <- outcome{err: err}
	}
	c.failLimitsLocked(err)
	c.queue, c.waiting, c.waiters, c.nexts, c.wishes = nil, map[asked][]*call{}, 0, nil, nil
}

// sort has each call wait for what its reply says, or tells it. It returns how many wait to be taken, as before.
func (c *calls) sort(came []*call, replies []epoch.Reply) int {
	c.lock.Lock()
	defer c.lock.Unlock()
	var later []*call
	for at, reply := range replies {
		call := came[at]
		if call.isGone {
			continue
		}
		switch reply.Kind {
		case epoch.Waits:
			key := asked{call.request.Client, call.request.Number}
			call.at = len(c.waiting[key])
			c.waiting[key] = append(c.waiting[key], call)
			c.waiters++
		case epoch.NotNow:
			later = append(later, call)
		case epoch.Answered:
			call.done <- outcome{answer: reply.Answer}
		case epoch.Passed:
			call.done <- outcome{err: &PassedError{reply.Last}}
		case epoch.Differs:
			call.done <- outcome{err: ErrDiffers}
		default:
			call.done <- outcome{err: ErrMalformed}
		}
	}
	if len(later) > 0 {
		c.queue = append(later, c.queue...)
	}
	return len(later)
}

// tell tells answers to who waits for them.
func (c *calls) tell(answers []script.Step) {
	c.lock.Lock()
	defer c.lock.Unlock()
	for at := range answers {
		key := asked{answers[at].Client, answers[at].Number}
		for _, call := range c.waiting[key] {
			call.done <- outcome{answer: answers[at].Answer}
			c.waiters--
		}
		delete(c.waiting, key)
	}
}

// keepWish has a call wait for its epoch, or to be taken in a later batch, or tells why it is not taken.
func (c *calls) keepWish(next *nextCall, err error) {
	c.lock.Lock()
	defer c.lock.Unlock()
	switch {
	case next.isGone:
	case err == nil:
		c.wishes = append(c.wishes, next)
	case errors.Is(err, epoch.ErrNotNow):
		c.nexts = append(c.nexts, next)
	default:
		next.done <- outcome{err: err}
	}
}

// tellWishes tells who waits for an epoch that has begun, whether it is as it was wished.
func (c *calls) tellWishes(core *epoch.Core) {
	c.lock.Lock()
	defer c.lock.Unlock()
	left := c.wishes[:0]
	for _, next := range c.wishes {
		if next.isGone {
			continue
		}
		if next.wish.From < core.Begun() {
			next.done <- outcome{err: core.AskNext(next.wish)}
		} else {
			left = append(left, next)
		}
	}
	c.wishes = left
}

// drop forgets a call for which nobody waits any more: at once if it was taken, and else as the queue is.
func (c *calls) drop(gone *call) {
	c.lock.Lock()
	defer c.lock.Unlock()
	gone.isGone = true
	key := asked{gone.request.Client, gone.request.Number}
	waiters, at := c.waiting[key], gone.at
	if at >= len(waiters) || waiters[at] != gone {
		return
	}
	last := len(waiters) - 1
	waiters[at], waiters[last].at = waiters[last], at
	waiters[last] = nil
	c.waiting[key] = waiters[:last]
	if last == 0 {
		delete(c.waiting, key)
	}
	c.waiters--
}

// dropNext forgets a call for an epoch for which nobody waits any more, as soon as it is looked at again.
func (c *calls) dropNext(gone *nextCall) {
	c.lock.Lock()
	defer c.lock.Unlock()
	gone.isGone = true
}

// takeLocked empties the queue, and gives those of it for which somebody waits. Whoever calls it has the lock.
func (c *calls) takeLocked() []*call {
	came := c.queue[:0]
	for _, call := range c.queue {
		if !call.isGone {
			came = append(came, call)
		}
	}
	c.queue = nil
	return came
}
