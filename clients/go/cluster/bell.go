package cluster

import (
	"context"
	"sync"
	"sync/atomic"
)

// A bell is a count that sleepers compare with what it was. Who waits listens, then looks for what it waits for, and sleeps only where the
// bell did not ring since it listened. checks/waking/go_bell.pml is its model.
type bell struct {
	rung     atomic.Uint64
	sleepers atomic.Int32
	lock     sync.Mutex
	woken    chan struct{} // under lock: those who sleep wait for its end. It is none until somebody does
}

func (b *bell) listen() uint64 { return b.rung.Load() }

// ring counts, then looks whether somebody is counted as a sleeper, and ends the channel under the lock.
func (b *bell) ring() {
	b.rung.Add(1)
	if b.sleepers.Load() > 0 {
		b.lock.Lock()
		if b.woken != nil {
			close(b.woken)
			b.woken = nil
		}
		b.lock.Unlock()
	}
}

// waitFor sleeps until the bell rang after this was heard, or the context ended. It counts itself, then compares and takes the channel under the
// lock, and sleeps without it.
func (b *bell) waitFor(ctx context.Context, heard uint64) {
	b.sleepers.Add(1)
	b.lock.Lock()
	if b.listen() == heard {
		if b.woken == nil {
			b.woken = make(chan struct{})
		}
		woken := b.woken
		b.lock.Unlock()
		select {
		case <-woken:
		case <-ctx.Done():
		}
	} else {
		b.lock.Unlock()
	}
	b.sleepers.Add(-1)
}
