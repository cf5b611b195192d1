package serve_test

import (
	"context"
	"io"
	"net/http"
	"net/http/httptrace"
	"sync"
	"sync/atomic"
	"testing"
	"time"

	"ordup.dev/node/internal/serve"
	"ordup.dev/node/internal/site"
)

func TestReadersThatWaitKeepNobodyOut(t *testing.T) {
	config := config(nil)
	config.Requests = 4
	address := listenAt(t, func(string) http.Handler { return serve.NewSite(config, "north", &reader{place: 5}) })
	var waiting sync.WaitGroup
	for count := 0; count < 2; count++ {
		waiting.Add(1)
		go func() {
			defer waiting.Done()
			status, text := ask(t, "GET", address+"/values?seen=9.9&wait=1", "")
			is(t, "it waits", status, text, 412, "Behind")
		}()
	}
	time.Sleep(200 * time.Millisecond)
	began := time.Now()
	status, text := ask(t, "GET", address+"/values?seen=9.9&wait=1", "")
	is(t, "one more", status, text, 412, "Behind")
	status, text = ask(t, "GET", address+"/values?seen=1.5", "")
	is(t, "one that need not wait", status, text, 200, "tea")
	if took := time.Since(began); took > 500*time.Millisecond {
		t.Error(took)
	}
	waiting.Wait()
}

// Who has waited makes room for the next one: else half of the room is gone for good.
func TestAReaderThatWaitedMakesRoom(t *testing.T) {
	config := config(nil)
	config.Requests = 4
	address := listenAt(t, func(string) http.Handler { return serve.NewSite(config, "north", &reader{place: 5}) })
	for count := 0; count < 3; count++ {
		began := time.Now()
		status, text := ask(t, "GET", address+"/values?seen=9.9&wait=0.2", "")
		is(t, "it waits", status, text, 412, "Behind")
		if took := time.Since(began); took < 150*time.Millisecond {
			t.Errorf("reader %d waited for %v", count, took)
		}
	}
}

// A crowd of readers waits until all are there.
type crowd struct {
	reader
	lock  sync.Mutex
	most  int
	count int
	all   chan struct{}
}

func (c *crowd) Read(ctx context.Context, seen site.Seen) (site.Reading, error) {
	if ctx.Err() != nil {
		return c.reader.Read(ctx, seen)
	}
	c.lock.Lock()
	all := c.all
	c.count++
	if c.count == c.most {
		close(all)
		c.count, c.all = 0, make(chan struct{})
	}
	c.lock.Unlock()
	select {
	case <-all:
	case <-ctx.Done():
	}
	return c.reader.Read(ctx, site.Seen{})
}

func TestAThousandReadersKeepTheirConnections(t *testing.T) {
	config, readers := config(nil), &crowd{reader: reader{place: 5}, most: 1000, all: make(chan struct{})}
	config.Requests = 2000
	address := listenAt(t, func(string) http.Handler { return serve.NewSite(config, "north", readers) })
	asker := &http.Client{Transport: &http.Transport{MaxIdleConnsPerHost: 1000}}
	var kept atomic.Int64
	trace := &httptrace.ClientTrace{GotConn: func(info httptrace.GotConnInfo) {
		if info.Reused {
			kept.Add(1)
		}
	}}
	for round := int64(0); round < 3; round++ {
		var readers sync.WaitGroup
		for count := 0; count < 1000; count++ {
			readers.Add(1)
			go func() {
				defer readers.Done()
				// All wait at the same time, each on a connection of its own.
				request, _ := http.NewRequest("GET", address+"/values?seen=9.9&wait=30", nil)
				answer, err := asker.Do(request.WithContext(httptrace.WithClientTrace(request.Context(), trace)))
				if err != nil {
					t.Error(err)
					return
				}
				io.Copy(io.Discard, answer.Body)
				answer.Body.Close()
			}()
		}
		readers.Wait()
		// On a busy machine a connection may also be free again before the last reader of a round has one.
		if was := kept.Swap(0); round > 0 && was < 1000 {
			t.Errorf("%d connections were kept, after round %d", was, round)
		}
	}
}
