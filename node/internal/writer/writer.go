// Package writer has what a primary that writes has on its way to the engine, and what comes of it. It has no engine, no threads and no
// clock. Package epoch has the core that it writes of.
//
// One batch is on its way at a time, while the open one of the core takes what comes:
//
//	if w.Takes(now) { .. core.Ask .. }   requests are taken, unless they are to wait
//	batch, err := w.Seal(core, ..)       what is to be written now, or nil
//	batch := w.Land(core)                it is written, so its answers may be told
//	w.IsOver(isHeld)                     whether nothing more is written, since the lease is lost
package writer

import (
	"errors"
	"time"

	"ordup.dev/node/internal/engine"
	"ordup.dev/node/internal/epoch"
)

// RetryAfter is after how long requests are tried again that the batch had no room for, or the end of an epoch.
const RetryAfter = 50 * time.Millisecond

// A Writer is what one time as the writer has on its way.
type Writer struct {
	flying *epoch.Batch
	sealed engine.Mark
	// Until when no requests are taken, since the batch had no room for one, or the epoch ends.
	retry time.Duration
}

// Takes is whether requests are taken now.
func (w *Writer) Takes(now time.Duration) bool {
	if now < w.retry {
		return false
	}
	w.retry = 0
	return true
}

// Waits is whether requests wait to be taken.
func (w *Writer) Waits() bool { return w.retry > 0 }

// Postpone has requests wait that were not taken now.
func (w *Writer) Postpone(now time.Duration) { w.retry = now + RetryAfter }

// Flies is whether a batch is on its way.
func (w *Writer) Flies() bool { return w.flying != nil }

// Seal closes the open batch, where none is on its way, and notes its digest. It returns what is to be written, or nil.
func (w *Writer) Seal(core *epoch.Core, digests *Digests, now time.Duration) (*epoch.Batch, error) {
	if w.flying != nil {
		return nil, nil
	}
	batch, err := core.Seal(now)
	if err != nil || batch == nil {
		return nil, err
	}
	// A site may know the entry before this process knows that it is written.
	w.sealed.Set(batch.Number, batch.Text)
	digests.Add(&w.sealed, batch.First > 0)
	w.flying, w.retry = batch, 0 // The next batch has room.
	return batch, nil
}

// WriteOf is how a batch is written.
func WriteOf(batch *epoch.Batch) *engine.Write {
	return &engine.Write{Number: batch.Number, Text: batch.Text, Absent: batch.Absent, Epoch: batch.Epoch, First: batch.First,
		Last: batch.Last, Since: batch.Since}
}

// Land says that the batch which is on its way is written, so its answers may be told. It returns that, and its mark.
func (w *Writer) Land(core *epoch.Core) (*epoch.Batch, engine.Mark) {
	batch := w.flying
	w.flying = nil
	core.Written(batch.Number)
	return batch, w.sealed
}

// IsIdle is whether all that was run is written. Else what was run is dropped with the core.
func (w *Writer) IsIdle(core *epoch.Core) bool { return w.flying == nil && core.IsIdle() }

// IsOver is whether the process writes no more: the lease is lost, or the process has ended some time ago, and nothing is on its way, or the
// time for that is over.
func (w *Writer) IsOver(isHeld, hasEnded, isLate bool) bool {
	return (hasEnded || !isHeld) && (w.flying == nil || hasEnded && isLate)
}

// RunsAgain is whether an error of a write says that the core is dropped, and the script run again: it has another entry, or a process
// serves a site that is taken out.
func RunsAgain(err error) bool {
	var taken *engine.TakenError
	var served *engine.ServedError
	return errors.As(err, &taken) || errors.As(err, &served)
}
