// Package clock has the time since the computer started, which also counts the time that it slept.
package clock

import (
	"context"
	"time"

	"golang.org/x/sys/unix"
)

// Now is the time since the computer started. What is decided by a lease is decided by it, since the wall clock jumps, and Go's own
// clock stands still while the computer sleeps.
func Now() time.Duration {
	var now unix.Timespec
	if err := unix.ClockGettime(unix.CLOCK_BOOTTIME, &now); err != nil {
		panic("clock: there is no CLOCK_BOOTTIME: " + err.Error())
	}
	return time.Duration(now.Nano())
}

// Pause waits so long, or until the context ends.
func Pause(ctx context.Context, most time.Duration) {
	select {
	case <-ctx.Done():
	case <-time.After(most):
	}
}
