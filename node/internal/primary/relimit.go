package primary

import (
	"context"
	"errors"

	"ordup.dev/node/internal/clock"
	"ordup.dev/node/internal/epoch"
	"ordup.dev/node/internal/script"
)

// A limitCall waits for what becomes of a change of a limit.
type limitCall struct {
	asked  epoch.Limiting
	done   chan outcome
	isGone bool
	// What became of it, once it was taken.
	limited epoch.Limited
}

// Relimit asks for another limit of a site, and waits for the answer: from which update on it is in force, or the refusal of the store.
// After an error it may be so or not: ask again.
func (p *Primary) Relimit(ctx context.Context, asked epoch.Limiting) (script.Answer, error) {
	call := &limitCall{asked: asked, done: make(chan outcome, 1)}
	if err := p.queueLimit(call); err != nil {
		return script.Answer{}, err
	}
	select {
	case done := <-call.done:
		return done.answer, done.err
	case <-ctx.Done():
		p.calls.lock.Lock()
		defer p.calls.lock.Unlock()
		call.isGone = true
		return script.Answer{}, ctx.Err()
	}
}

func (p *Primary) queueLimit(call *limitCall) error {
	calls := &p.calls
	calls.lock.Lock()
	defer calls.lock.Unlock()
	if err := p.mayTakeLocked(); err != nil {
		return err
	}
	if p.counts.full.Load() {
		return ErrFull
	}
	calls.limits = append(calls.limits, call)
	calls.awaken()
	return nil
}

// relimit has the core take changes of limits. Each is told once the entry is written that has it.
func (w *writing) relimit(core *epoch.Core, limits []*limitCall) error {
	for _, call := range limits {
		limited, err := core.AskLimit(call.asked, clock.Now())
		if err != nil && !errors.Is(err, epoch.ErrNotNow) {
			call.done <- outcome{err: &NotWriterError{}}
			return err
		}
		call.limited = limited
		w.calls.keepLimit(call, err == nil)
	}
	return nil
}

// keepLimit has a call wait for its entry, or to be taken in a later batch.
func (c *calls) keepLimit(call *limitCall, isTaken bool) {
	c.lock.Lock()
	defer c.lock.Unlock()
	switch {
	case call.isGone:
	case isTaken:
		c.limited = append(c.limited, call)
	default:
		c.limits = append(c.limits, call)
	}
}

// tellLimits tells those whose entry is written.
func (c *calls) tellLimits(core *epoch.Core) {
	c.lock.Lock()
	defer c.lock.Unlock()
	left := c.limited[:0]
	for _, call := range c.limited {
		if core.IsWritten(call.limited.Entry) {
			call.done <- outcome{answer: call.limited.Answer}
		} else if !call.isGone {
			left = append(left, call)
		}
	}
	c.limited = left
}

// takeLimitsLocked gives those that were not taken yet. Whoever calls it has the lock.
func (c *calls) takeLimitsLocked() []*limitCall {
	limits := c.limits
	c.limits = nil
	return limits
}

// failLimitsLocked tells all why they have no answer. Whoever calls it has the lock.
func (c *calls) failLimitsLocked(err error) {
	for _, call := range append(c.limits, c.limited...) {
		call.done <- outcome{err: err}
	}
	c.limits, c.limited = nil, nil
}
