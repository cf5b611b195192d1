package primary

import (
	"context"
	"fmt"
	"time"

	"ordup.dev/node/internal/clock"
	"ordup.dev/node/internal/engine"
	"ordup.dev/node/internal/epoch"
	"ordup.dev/node/internal/writer"
)

// A writing is what one time as the writer needs: from a take-over to its end.
type writing struct {
	*Primary
	// What is on its way to the engine, and what became of it.
	writer  writer.Writer
	landed  chan error
	leaving *leaving
	again   time.Duration
}

// writeAll takes what comes and writes it, until the lease is lost, the context ends or something fails. What was run and not written is
// dropped with the core.
func (p *Primary) writeAll(ctx context.Context) error {
	writing := &writing{Primary: p, landed: make(chan error, 1), leaving: newLeaving(p)}
	p.calls.set(true, addressOf(p.own))
	p.config.Log.Info("writes", "writer", p.own)
	err := writing.run(ctx)
	isWhole := err == nil && ctx.Err() == nil && writing.isIdle()
	p.calls.set(false, "")
	p.config.Log.Info("stands-by", "writer", p.own)
	if !isWhole {
		p.forget()
	}
	return err
}

// isIdle is whether all that was run is written.
func (w *writing) isIdle() (isIdle bool) {
	w.see(func(core *epoch.Core) { isIdle = w.writer.IsIdle(core) })
	return isIdle
}

func (w *writing) run(ctx context.Context) error {
	// What is on its way is waited for some time after the context has ended.
	sending, cancel := context.WithCancel(context.Background())
	defer cancel()
	ends, ended := ctx.Done(), time.Duration(0)
	for {
		isHeld := w.lease.Held()
		if err := w.work(sending, isHeld, ended > 0); err != nil {
			return err
		}
		if w.writer.IsOver(isHeld, ended > 0, clock.Now() > ended) {
			return nil
		}
		timer := time.NewTimer(w.wait(ended > 0))
		var err error
		select {
		case landed := <-w.landed:
			err = w.land(landed)
		case site := <-w.leaving.gone:
			err = w.goes(site)
		case <-w.calls.wake:
		case <-w.lease.Changed():
		case <-timer.C:
		case <-ends:
			ends, ended = nil, clock.Now()+endTime
		}
		timer.Stop()
		if err != nil {
			return err
		}
	}
}

// work takes what came, unless the process ends, and sends the open batch. Without the lease it does neither.
func (w *writing) work(sending context.Context, isHeld, ends bool) error {
	if !isHeld {
		return nil
	}
	if !ends {
		if err := w.take(); err != nil {
			return err
		}
		w.leaving.start(sending)
	}
	return w.seal(sending)
}

// wait is after how long there is something to do though nothing comes.
func (w *writing) wait(ends bool) time.Duration {
	wait := 10 * time.Second
	for _, other := range []struct {
		isDue bool
		after time.Duration
	}{{w.again > 0, w.again}, {w.writer.Waits(), writer.RetryAfter}, {ends, writer.RetryAfter}} {
		if other.isDue && other.after < wait {
			wait = other.after
		}
	}
	return wait
}

// take hands the core what came, and has it work.
func (w *writing) take() error {
	calls, now := &w.calls, clock.Now()
	var came []*call
	calls.lock.Lock()
	if w.writer.Takes(now) {
		came = calls.takeLocked()
	}
	nexts := calls.nexts
	calls.nexts = nil
	limits := calls.takeLimitsLocked()
	calls.lock.Unlock()
	return w.with(func(core *epoch.Core) (err error) {
		for _, next := range nexts {
			calls.keepWish(next, core.AskNext(next.wish))
		}
		if err = w.relimit(core, limits); err != nil {
			return err
		}
		if err = w.ask(core, came, now); err != nil {
			return err
		}
		w.again, err = core.Work(now)
		calls.tellWishes(core)
		calls.tellLimits(core)
		if err != nil {
			return fmt.Errorf("run what sites told, and settle: %w", err)
		}
		return nil
	})
}

// ask has the core take requests. Who has an answer is told, and the others wait.
func (w *writing) ask(core *epoch.Core, came []*call, now time.Duration) error {
	if len(came) == 0 {
		return core.Failure()
	}
	requests := make([]epoch.Request, len(came))
	for at, call := range came {
		requests[at] = call.request
	}
	replies, err := core.Ask(requests, now)
	if err == nil {
		err = core.Failure()
	}
	if err != nil {
		for _, call := range came {
			call.done <- outcome{err: &NotWriterError{}}
		}
		return fmt.Errorf("take %d requests: %w", len(came), err)
	}
	later := w.calls.sort(came, replies)
	w.counts.requests.Add(int64(len(came) - later))
	if later > 0 {
		w.writer.Postpone(now)
	}
	return nil
}

// seal sends the open batch, where none is on its way.
func (w *writing) seal(ctx context.Context) error {
	var batch *epoch.Batch
	err := w.with(func(core *epoch.Core) (err error) {
		batch, err = w.writer.Seal(core, &w.digests, clock.Now())
		return err
	})
	if err != nil {
		return fmt.Errorf("seal the open batch: %w", err)
	}
	if batch != nil {
		go func() { w.landed <- w.send(ctx, batch) }()
	}
	return nil
}

// send writes a batch, and tries again until it is known what became of it.
func (p *Primary) send(ctx context.Context, batch *epoch.Batch) error {
	write := writer.WriteOf(batch)
	for {
		err := p.config.Engine.Write(ctx, write)
		if err == nil {
			p.counts.full.Store(false)
			return nil
		}
		err = fmt.Errorf("write the entry %d: %w", batch.Number, err)
		if !engine.IsAway(err) {
			p.counts.full.Store(false)
			return err
		}
		if engine.IsFull(err) {
			p.counts.full.Store(true)
		}
		p.config.Log.Warn("engine-away", "why", err)
		clock.Pause(ctx, afterFailure)
		if ctx.Err() != nil {
			return err
		}
	}
}

// land tells the answers of a batch that is written.
func (w *writing) land(err error) error {
	if err != nil {
		return err
	}
	var batch *epoch.Batch
	w.see(func(core *epoch.Core) {
		batch, w.follower.Mark = w.writer.Land(core)
		w.markAt = clock.Now()
	})
	w.counts.entries.Add(1)
	w.counts.bytes.Add(int64(len(batch.Text)))
	if batch.First > 0 {
		w.noteEpoch()
		w.config.Log.Info("epoch", "epoch", batch.Epoch, "entry", batch.Number)
	}
	w.calls.tell(batch.Answers)
	w.counts.answers.Add(int64(len(batch.Answers)))
	return nil
}

// goes counts a site as gone that had no key. The name "" ends a look.
func (w *writing) goes(site string) error {
	if site == "" {
		w.leaving.isUnder = false
		return nil
	}
	return w.with(func(core *epoch.Core) error { return core.Gone(site) })
}
