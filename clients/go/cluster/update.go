package cluster

import (
	"context"
	"fmt"
)

// A Change is a change of an object: Add(tea, -5). The changes of one update all read the values before it. Each number, and each value after
// the update, is from -1,000,000,000 to 1,000,000,000.
type Change struct {
	object, op uint32
	operand    int64
}

// Add adds a number to the value of an object.
func Add(object Object, number int64) Change { return Change{uint32(object), opAdd, number} }

// Set gives an object a value.
func Set(object Object, value int64) Change { return Change{uint32(object), opSet, value} }

// Mul multiplies the value of an object.
func Mul(object Object, number int64) Change { return Change{uint32(object), opMul, number} }

// Max raises the value of an object to at least a number.
func Max(object Object, number int64) Change { return Change{uint32(object), opMax, number} }

// Min lowers the value of an object to at most a number.
func Min(object Object, number int64) Change { return Change{uint32(object), opMin, number} }

// Take gives an object the value of another one.
func Take(object, other Object) Change { return Change{uint32(object), opTake, int64(other)} }

// A Condition is what an object must be after an update, and all before it, for the update to be numbered.
type Condition struct {
	object, bound uint32
	number        int64
}

// AtLeast is met where the value of an object is at least a number.
func AtLeast(object Object, number int64) Condition {
	return Condition{uint32(object), boundAtLeast, number}
}

// AtMost is met where the value of an object is at most a number.
func AtMost(object Object, number int64) Condition {
	return Condition{uint32(object), boundMax, number}
}

// A Session is how many updates its calls have seen, in all clusters that follow one another. What it has seen, it sees in each later read:
// its own updates, and all that it read. A new one has seen none. One goroutine at a time uses it. In place of a session each call takes nil,
// for one that has seen nothing.
type Session struct{ Seen uint64 }

func (s *Session) see(number uint64) {
	if s != nil && s.Seen < number {
		s.Seen = number
	}
}

// Propose numbers a set of 1 to 64 changes on distinct objects as the next update, and waits until it is acknowledged. The session has then
// seen it.
//
// ErrNotYet: it is numbered, its number is given too, and it is not acknowledged: the context ended, the cluster was stopped, or memory was
// refused after it was numbered. With each other error nothing was numbered: ErrStopped, that of a context that had ended before the call,
// ErrClosed, or a Refused, one of UnknownObject, OutOfRange, TooMany, Empty, Repeated, LogFull and NoMemory.
func (c *Cluster) Propose(ctx context.Context, session *Session, changes ...Change) (uint64, error) {
	return c.ProposeIf(ctx, session, nil, changes...)
}

// ProposeIf does the same, if each condition is met. They are tested in the hold that numbers it, so no other update comes between.
//
// ErrUnmet: one is not met, and nothing was numbered. The other errors are those of Propose, where UnknownObject may be of a condition.
func (c *Cluster) ProposeIf(ctx context.Context, session *Session, conditions []Condition, changes ...Change) (uint64, error) {
	if err := ctx.Err(); err != nil {
		return 0, fmt.Errorf("ordup: nothing was numbered: %w", err)
	}
	if c.stopped.Load() {
		return 0, ErrStopped
	}
	is, err := c.number(changes, conditions)
	if err != nil {
		return 0, err
	}
	number := c.before + is.number
	if is.isStarved {
		c.work.ring()
		if is.acked < is.number {
			return number, ErrNotYet{number, ErrNoMemory}
		}
	}
	if err := c.until(ctx, is.number); err != nil {
		return number, ErrNotYet{number, err}
	}
	session.see(number)
	return number, nil
}

// Submit numbers an update as ProposeIf does, and waits for nothing. No session has seen it before Settle has.
func (c *Cluster) Submit(conditions []Condition, changes ...Change) (uint64, error) {
	if c.stopped.Load() {
		return 0, ErrStopped
	}
	is, err := c.number(changes, conditions)
	if err != nil {
		return 0, err
	}
	if is.isStarved {
		c.work.ring()
	}
	return c.before + is.number, nil
}

// Settle waits until an update is acknowledged. The session has then seen it.
//
// ErrNotYet as for Propose. Refused OutOfRange: no update has this number.
func (c *Cluster) Settle(ctx context.Context, session *Session, number uint64) error {
	if number == 0 || number > c.before+c.logged.Load() {
		return ErrOutOfRange
	}
	if number > c.before {
		if err := c.until(ctx, number-c.before); err != nil {
			return ErrNotYet{number, err}
		}
	}
	session.see(number)
	return nil
}

// Finish waits until all updates are acknowledged and sent to each site, which then applies them, also after Stop. ErrNotYet as for Propose.
func (c *Cluster) Finish(ctx context.Context) error {
	if err := c.until(ctx, 0); err != nil {
		return ErrNotYet{c.Numbers().Length, err}
	}
	return nil
}
