package serve_test

import (
	"net/http"
	"sync"
	"testing"
	"time"

	"ordup.dev/node/internal/serve"
)

// Who ends is well and not ready, and answers what comes by then.
func TestWhoEndsIsNotReady(t *testing.T) {
	t.Parallel()
	var handler serve.Handler
	address := listenAt(t, func(string) http.Handler {
		handler = serve.NewSite(config(nil), "north", &reader{place: 5})
		return handler
	})
	status, text := ask(t, "GET", address+"/readyz", "")
	is(t, "before", status, text, 200, "ok")
	handler.End()
	status, text = ask(t, "GET", address+"/readyz", "")
	is(t, "readiness", status, text, 503, "ends")
	for path, want := range map[string]string{"/healthz": "ok", "/value/tea": "995"} {
		status, text = ask(t, "GET", address+path, "")
		is(t, path, status, text, 200, want)
	}
}

// Whoever asks for numbers takes no room of health. Both say whether the process goes on, however many look at it.
func TestHealthHasARoomOfItsOwn(t *testing.T) {
	t.Parallel()
	goOn, config := make(chan struct{}), config(nil)
	config.Numbers = http.HandlerFunc(func(http.ResponseWriter, *http.Request) { <-goOn })
	address := listenAt(t, func(string) http.Handler { return serve.NewSite(config, "north", &reader{place: 5}) })
	var looking sync.WaitGroup
	for count := 0; count < 40; count++ {
		looking.Add(1)
		go func() { defer looking.Done(); ask(t, "GET", address+"/metrics", "") }()
	}
	busy := func() (isBusy bool) { status, _ := ask(t, "GET", address+"/", ""); return status == 503 }
	for tries := 0; !busy() && tries < 100; tries++ {
		time.Sleep(10 * time.Millisecond)
	}
	for _, path := range []string{"/healthz", "/readyz"} {
		status, text := ask(t, "GET", address+path, "")
		is(t, path, status, text, 200, "ok")
	}
	close(goOn)
	looking.Wait()
}
