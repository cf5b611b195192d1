package primary

import (
	"context"
	"errors"
	"fmt"
	"strings"

	"ordup.dev/node/internal/clock"
	"ordup.dev/node/internal/epoch"
	"ordup.dev/node/internal/script"
)

// Why a request has no answer. Each but the last three may be asked again under the same number, here or at another primary: it is done
// once.
var (
	// ErrBusy says that too many requests wait already.
	ErrBusy = errors.New("too many requests wait")
	// ErrFull says that the engine has no space for a write.
	ErrFull = errors.New("the engine is full, and takes no write")
	// ErrDiffers says that the client asked for other changes under this number before.
	ErrDiffers = errors.New("the client asked for other changes under this number before")
	// ErrMalformed says that the client, the number or the changes have not the form.
	ErrMalformed = errors.New("the client, the number or the changes have not the form")
)

// A NotWriterError says that this process does not write, and which one does, as far as it knows.
type NotWriterError struct{ Address string }

func (e *NotWriterError) Error() string {
	if e.Address == "" {
		return "this primary does not write, and knows of none that does"
	}
	return fmt.Sprintf("this primary does not write: %s does", e.Address)
}

// A PassedError says that the client asked under a later number before.
type PassedError struct{ Last int64 }

func (e *PassedError) Error() string {
	return fmt.Sprintf("the client asked under %d before", e.Last)
}

// mayTakeLocked tells why this process takes nothing now, or nil. Once it may not rely on its lease another process may write. Whoever
// calls it has the lock of the calls.
func (p *Primary) mayTakeLocked() error {
	switch {
	case !p.calls.open:
		return &NotWriterError{p.calls.address}
	case !p.lease.Relies():
		return &NotWriterError{}
	}
	return nil
}

// Submit asks for an update, and waits for its answer. While this process may not write it fails at once with a NotWriterError. After
// any error but a PassedError, ErrDiffers and ErrMalformed, also that of the context, the request may be done or not: ask again.
func (p *Primary) Submit(ctx context.Context, request epoch.Request) (script.Answer, error) {
	call := &call{request: request, done: make(chan outcome, 1)}
	if err := p.queue(call); err != nil {
		return script.Answer{}, err
	}
	select {
	case done := <-call.done:
		return done.answer, done.err
	case <-ctx.Done():
		p.calls.drop(call)
		return script.Answer{}, p.noAnswer(ctx.Err(), "the update", func(site *epoch.SiteStatus) bool { return site.Waited })
	}
}

// noAnswer is the error of what has none in time. It names the sites for which that waits: an update for those of the first one that has no
// answer, as all behind it do. While the core is at work it names none.
func (p *Primary) noAnswer(err error, what string, isWaited func(*epoch.SiteStatus) bool) error {
	if !p.coreLock.TryLock() {
		return err
	}
	defer p.coreLock.Unlock()
	if p.core == nil {
		return err
	}
	waited := []string{}
	for _, site := range p.core.Status(clock.Now()).Sites {
		if isWaited(&site) {
			waited = append(waited, site.Name)
		}
	}
	if len(waited) == 0 {
		return err
	}
	return fmt.Errorf("%s waits for %s: %w", what, strings.Join(waited, " and "), err)
}

func (p *Primary) queue(call *call) error {
	calls := &p.calls
	calls.lock.Lock()
	defer calls.lock.Unlock()
	if err := p.mayTakeLocked(); err != nil {
		return err
	}
	switch {
	case p.counts.full.Load():
		return ErrFull
	case len(calls.queue) >= MostQueued || calls.waiters >= MostWaiting:
		return ErrBusy
	}
	calls.queue = append(calls.queue, call)
	calls.awaken()
	return nil
}

// Tell takes the place of a site, which the site has shown under its lease. After an error it may be told again, but for
// epoch.ErrNoSite, epoch.ErrOtherScript and an epoch.CannotBeError.
func (p *Primary) Tell(_ context.Context, place epoch.Place) error {
	p.calls.lock.Lock()
	err := p.mayTakeLocked()
	p.calls.lock.Unlock()
	if err != nil {
		return err
	}
	err = p.with(func(core *epoch.Core) error {
		if core == nil {
			return epoch.ErrBehind
		}
		return p.digests.Tell(core, place, clock.Now())
	})
	p.calls.awaken()
	return err
}

// Next asks for the next epoch, and waits until it has begun. It returns the epoch that came after wish.From.
func (p *Primary) Next(ctx context.Context, wish epoch.Wish) (int64, error) {
	next := &nextCall{wish: wish, done: make(chan outcome, 1)}
	if err := p.queueNext(next); err != nil {
		return 0, err
	}
	select {
	case done := <-next.done:
		return wish.From + 1, done.err
	case <-ctx.Done():
		p.calls.dropNext(next)
		return 0, p.noAnswer(ctx.Err(), "the next epoch", func(site *epoch.SiteStatus) bool { return site.NextWaits })
	}
}

func (p *Primary) queueNext(next *nextCall) error {
	calls := &p.calls
	calls.lock.Lock()
	defer calls.lock.Unlock()
	if err := p.mayTakeLocked(); err != nil {
		return err
	}
	calls.nexts = append(calls.nexts, next)
	calls.awaken()
	return nil
}
