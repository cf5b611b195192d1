package client_test

import (
	"context"
	"errors"
	"net/http"
	"net/http/httptest"
	"sync/atomic"
	"testing"
	"time"

	"ordup.dev/node/internal/client"
	"ordup.dev/node/internal/epoch"
	"ordup.dev/node/internal/exit"
	"ordup.dev/node/internal/wire"
)

// A server answers each request by the next of some functions, and by the last one from then on.
func server(t *testing.T, count *atomic.Int64, answers ...func(http.ResponseWriter)) string {
	t.Helper()
	server := httptest.NewServer(http.HandlerFunc(func(to http.ResponseWriter, _ *http.Request) {
		at := int(count.Add(1)) - 1
		if at >= len(answers) {
			at = len(answers) - 1
		}
		answers[at](to)
	}))
	t.Cleanup(server.Close)
	return server.URL
}

func acked(to http.ResponseWriter) {
	wire.Write(to, 200, wire.Acked{Client: "ann", Number: 1, Epoch: 1, Place: 3, Seen: "1.3"})
}

func failing(name wire.Name) func(http.ResponseWriter) {
	return func(to http.ResponseWriter) {
		told := wire.NewError(name, string(name))
		wire.Write(to, told.Status, told)
	}
}

// naming says that another primary writes.
func naming(writer string) func(http.ResponseWriter) {
	return func(to http.ResponseWriter) { wire.Write(to, 503, wire.Error{Name: wire.NotWriter, Writer: writer}) }
}

// passed is the answer of a primary that passed a request on to one that does not write any more.
func passed(writer string) func(http.ResponseWriter) {
	return func(to http.ResponseWriter) {
		to.Header().Set(wire.WriterHeader, writer)
		naming("")(to)
	}
}

func noNode(to http.ResponseWriter) { to.WriteHeader(502) }

func update(t *testing.T, most time.Duration, addresses ...string) (wire.Acked, error) {
	t.Helper()
	asker, err := client.New(client.Config{Addresses: addresses})
	if err != nil {
		t.Fatal(err)
	}
	ctx, cancel := context.WithTimeout(context.Background(), most)
	defer cancel()
	return asker.Update(ctx, wire.Update{Client: "ann", Number: 1, Changes: []string{"add:tea:-5"}})
}

func TestItAsksAgainElsewhere(t *testing.T) {
	t.Parallel()
	var one, other atomic.Int64
	nobody := "http://127.0.0.1:1"
	right := server(t, &other, failing(wire.Busy), failing(wire.Full), failing(wire.NoAnswer), acked)
	own := ""
	itself := server(t, &one, func(to http.ResponseWriter) { naming(own)(to) })
	own = itself
	for _, addresses := range [][]string{{nobody, right}, {right}, {server(t, &one, noNode), right}, {server(t, &one, naming("")), right},
		{server(t, &one, naming(right))}, {server(t, &one, passed(right))}, {itself, right},
		{server(t, &one, naming(nobody)), right}, {server(t, &one, failing(wire.NotServing)), right}} {
		other.Store(0)
		if answer, err := update(t, 10*time.Second, addresses...); err != nil || answer.Seen != "1.3" || other.Load() != 4 {
			t.Errorf("%v: %v, %v, %d", addresses, answer, err, other.Load())
		}
	}
}

// Where only the header names the primary that writes, that one is asked next, and not the one that passed the request on.
func TestTheHeaderNamesWhoIsAskedNext(t *testing.T) {
	t.Parallel()
	var one, other atomic.Int64
	first := server(t, &one, passed(server(t, &other, acked)))
	if answer, err := update(t, 5*time.Second, first); err != nil || answer.Seen != "1.3" || one.Load() != 1 || other.Load() != 1 {
		t.Error(answer, err, one.Load(), other.Load())
	}
}

// A token that came by TLS goes to no address without it, whoever names that.
func TestAnAddressOfAnotherSchemeIsNotAsked(t *testing.T) {
	t.Parallel()
	var plain, next atomic.Int64
	named := server(t, &plain, acked)
	for _, names := range []func(http.ResponseWriter){naming(named), passed(named)} {
		secure := httptest.NewTLSServer(http.HandlerFunc(func(to http.ResponseWriter, _ *http.Request) {
			next.Add(1)
			names(to)
		}))
		defer secure.Close()
		asker, err := client.New(client.Config{Addresses: []string{secure.URL}, Token: func() string { return "secret" },
			TLS: secure.Client().Transport.(*http.Transport).TLSClientConfig})
		if err != nil {
			t.Fatal(err)
		}
		ctx, cancel := context.WithTimeout(context.Background(), time.Second)
		defer cancel()
		_, err = asker.Update(ctx, wire.Update{Client: "ann", Number: 1})
		if err == nil || plain.Load() != 0 || next.Swap(0) == 0 {
			t.Error(err, plain.Load())
		}
	}
}

// Whatever is asked by POST says that it is JSON, since a node takes nothing else.
func TestABodySaysThatItIsJSON(t *testing.T) {
	t.Parallel()
	kinds := make(chan string, 3)
	server := httptest.NewServer(http.HandlerFunc(func(to http.ResponseWriter, asked *http.Request) {
		kinds <- asked.Header.Get("Content-Type")
		to.Write([]byte("{}"))
	}))
	defer server.Close()
	asker, err := client.New(client.Config{Addresses: []string{server.URL}})
	if err != nil {
		t.Fatal(err)
	}
	ctx := context.Background()
	_, err = asker.Update(ctx, wire.Update{})
	if err == nil {
		_, err = asker.Next(ctx, wire.Next{})
	}
	if err == nil {
		err = asker.Tell(ctx, epoch.Place{})
	}
	for count := 0; count < 3; count++ {
		if kind := <-kinds; kind != "application/json" || err != nil {
			t.Error(kind, err)
		}
	}
}

// A server that is there and has no answer may be cut off from the engine. Another one is not.
func TestItDoesNotStayWhereThereIsNoAnswer(t *testing.T) {
	t.Parallel()
	for _, answer := range []func(http.ResponseWriter){failing(wire.NoAnswer), failing(wire.Failed), failing(wire.TooSlow)} {
		var one, other atomic.Int64
		addresses := []string{server(t, &one, answer), server(t, &other, acked)}
		if told, err := update(t, 2*time.Second, addresses...); err != nil || told.Seen != "1.3" || one.Load() != 1 {
			t.Error(told, err, one.Load())
		}
	}
}

func TestWhatIsForGoodIsNotAskedAgain(t *testing.T) {
	t.Parallel()
	for _, name := range []wire.Name{wire.Refused, wire.Passed, wire.Differs, wire.Malformed, wire.NoToken, wire.Closed} {
		t.Run(string(name), func(t *testing.T) {
			var count atomic.Int64
			_, err := update(t, 10*time.Second, server(t, &count, failing(name)))
			var told *wire.Error
			if !errors.As(err, &told) || told.Name != name || told.Status != wire.NewError(name, "").Status || count.Load() != 1 {
				t.Error(name, err, count.Load())
			}
		})
	}
}

func TestItTellsTheLastReason(t *testing.T) {
	t.Parallel()
	var count atomic.Int64
	_, err := update(t, time.Second, server(t, &count, failing(wire.Busy)), "http://127.0.0.1:1")
	var none *client.NoAnswerError
	if !errors.As(err, &none) || none.Last == nil || count.Load() < 2 || count.Load() > 20 {
		t.Error(err, count.Load())
	}
	hangs := server(t, &count, func(http.ResponseWriter) { time.Sleep(300 * time.Millisecond) })
	_, err = update(t, 100*time.Millisecond, hangs)
	if !errors.As(err, &none) {
		t.Error(err)
	}
}

func TestAnAddressHasAForm(t *testing.T) {
	t.Parallel()
	for _, address := range []string{"", "127.0.0.1:7002", "ftp://a:1", "http://a", "http://a:1/", "http://u@a:1", "http://:1", "http://a:1?b"} {
		t.Run(address, func(t *testing.T) {
			if _, err := client.New(client.Config{Addresses: []string{address}}); exit.Of(err) != exit.Words {
				t.Errorf("%q: %v", address, err)
			}
		})
	}
	if _, err := client.New(client.Config{}); exit.Of(err) != exit.Words {
		t.Error(err)
	}
}
