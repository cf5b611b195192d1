package exit

import (
	"context"
	"os"
	"os/signal"
	"syscall"
)

// Until gives a context that ends once the process is asked to end: by SIGTERM, SIGINT, or SIGHUP, which is sent where its terminal goes.
// Who started it by nohup wants no end by that.
func Until() (context.Context, context.CancelFunc) {
	asks := []os.Signal{syscall.SIGTERM, syscall.SIGINT}
	if !signal.Ignored(syscall.SIGHUP) {
		asks = append(asks, syscall.SIGHUP)
	}
	return signal.NotifyContext(context.Background(), asks...)
}
