package command

import (
	"context"
	"net"
	"os"
	"strconv"
	"time"

	"ordup.dev/node/internal/clock"
)

// tellSystemd tells systemd a state of the process, where it asks for that: `READY=1` once it listens, `STOPPING=1` once it ends.
func tellSystemd(state string) {
	socket := os.Getenv("NOTIFY_SOCKET")
	if socket == "" {
		return
	}
	if to, err := net.Dial("unixgram", socket); err == nil {
		to.Write([]byte(state))
		to.Close()
	}
}

// goOn tells systemd that the process goes on, twice in the time after which it would end it, until the context ends. A process whose work
// hangs does not come back from the look, and tells nothing.
func goOn(ctx context.Context, look func()) {
	microseconds, err := strconv.ParseInt(os.Getenv("WATCHDOG_USEC"), 10, 64)
	if err != nil {
		return
	}
	for ctx.Err() == nil {
		look()
		tellSystemd("WATCHDOG=1")
		clock.Pause(ctx, time.Duration(microseconds)*time.Microsecond/2)
	}
}
