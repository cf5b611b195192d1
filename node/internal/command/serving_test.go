package command

import (
	"context"
	"net"
	"net/http"
	"path/filepath"
	"testing"
	"time"
)

// An ender notes that the process ends. Once it is told so, its look hangs, and says that it does.
type ender struct {
	http.Handler
	ends, hangs, looks chan struct{}
}

func newEnder() ender {
	return ender{http.NotFoundHandler(), make(chan struct{}), make(chan struct{}), make(chan struct{})}
}

func (e ender) End() { close(e.ends) }

func (e ender) Look() {
	select {
	case <-e.hangs:
		e.looks <- struct{}{}
		<-e.ends
	default:
	}
}

// A process is not ready any more while it still answers what is under way.
func TestTheHandlerKnowsThatTheProcessEnds(t *testing.T) {
	own, handler := &servingSettings{listen: "127.0.0.1:0", connections: 100}, newEnder()
	ctx, cancel := context.WithCancel(context.Background())
	err := own.run(ctx, nil, handler, func(context.Context) error {
		cancel()
		select {
		case <-handler.ends:
		case <-time.After(30 * time.Second):
			t.Error("it does not know")
		}
		return nil
	})
	if err != nil {
		t.Error(err)
	}
}

// Systemd is told that the process is ready, goes on and ends, and not that it goes on where its work hangs.
func TestSystemdIsToldHowTheProcessIs(t *testing.T) {
	socket := filepath.Join(t.TempDir(), "socket")
	heard, err := net.ListenPacket("unixgram", socket)
	if err != nil {
		t.Fatal(err)
	}
	defer heard.Close()
	t.Setenv("NOTIFY_SOCKET", socket)
	t.Setenv("WATCHDOG_USEC", "200000")
	next := func(most time.Duration) string {
		text := make([]byte, 100)
		heard.SetReadDeadline(time.Now().Add(most))
		count, _, _ := heard.ReadFrom(text)
		return string(text[:count])
	}
	own, handler := &servingSettings{listen: "127.0.0.1:0", connections: 100}, newEnder()
	err = own.run(context.Background(), nil, handler, func(context.Context) error {
		counts := map[string]int{}
		for count := 0; count < 6; count++ {
			counts[next(5*time.Second)]++
		}
		if counts["READY=1"] != 1 || counts["WATCHDOG=1"] != 5 {
			t.Error(counts)
		}
		close(handler.hangs)
		<-handler.looks
		for next(time.Millisecond) != "" { // What was told before.
		}
		if state := next(500 * time.Millisecond); state != "" {
			t.Errorf("it hangs, and tells %s", state)
		}
		return nil
	})
	state := next(5 * time.Second)
	if state == "WATCHDOG=1" { // The look is over too.
		state = next(5 * time.Second)
	}
	if err != nil || state != "STOPPING=1" {
		t.Error(err, state)
	}
}
