package serve_test

import (
	"context"
	"errors"
	"fmt"
	"net"
	"net/http"
	"net/http/httptest"
	"strings"
	"sync"
	"testing"
	"time"

	"ordup.dev/node/internal/epoch"
	"ordup.dev/node/internal/fleet"
	"ordup.dev/node/internal/primary"
	"ordup.dev/node/internal/script"
	"ordup.dev/node/internal/serve"
	"ordup.dev/node/internal/site"
	"ordup.dev/node/internal/wire"
)

// handlerOf gives the handler of a kind of process.
func handlerOf(t *testing.T, kind wire.Process, config serve.Config, writer *writer, reader serve.Reader) http.Handler {
	t.Helper()
	switch kind {
	case wire.Primary:
		return serve.NewPrimary(config, writer, serve.NewPasser("http://127.0.0.1:1", nil), func(time.Duration) {})
	case wire.Site:
		return serve.NewSite(config, "north", reader)
	}
	far := fleet.New("far", []string{"east"}, writer)
	if err := far.Look(context.Background(), noKeys{}); err != nil {
		t.Fatal(err)
	}
	return serve.NewFleet(config, far)
}

// bodyOf is a good body for a path.
func bodyOf(path string) string {
	return map[string]string{wire.UpdatePath: good, wire.NextPath: `{"from":1}`, wire.LimitPath: `{"site":"far","limit":"count 3"}`,
		wire.PlacePath: `{"site":"far","member":"far","epoch":1,"applied":1,"entry":1}`}[path]
}

// whole is a path with an object of the reader's, where it wants one.
func whole(path *wire.Path) string {
	if path.Rest != "" {
		return path.Path + "tea"
	}
	return path.Path
}

// A process has the paths that the table says, each for its method and with its words, and no others.
func TestEachProcessHasThePathsOfTheTable(t *testing.T) {
	t.Parallel()
	for _, kind := range []wire.Process{wire.Primary, wire.Site, wire.Fleet} {
		writer := &writer{answer: script.Answer{Place: 1, Epoch: 1}, status: primary.Status{Writes: true, Lease: time.Second}}
		config := config(nil)
		config.Numbers = http.HandlerFunc(func(to http.ResponseWriter, _ *http.Request) { fmt.Fprint(to, "ok") })
		config.Page = config.Numbers
		address := listenAt(t, func(string) http.Handler { return handlerOf(t, kind, config, writer, &reader{place: 5}) })
		for at := range wire.Paths {
			path, isThere := &wire.Paths[at], false
			for _, each := range wire.Paths[at].At {
				isThere = isThere || each == kind
			}
			t.Run(string(kind)+" "+path.Path, func(t *testing.T) {
				if !isThere {
					status, text := ask(t, http.MethodGet, address+whole(path), "")
					is(t, "it is not there", status, text, 404, `"error":"NoSuchPath"`)
					return
				}
				body := strings.ReplaceAll(bodyOf(path.Path), `"member":"far"`, map[wire.Process]string{wire.Primary: `"member":"far"`,
					wire.Fleet: `"member":"east"`}[kind])
				status, text := ask(t, path.Method, address+whole(path), body)
				is(t, "it is there", status, text, 200, "")
				other := map[string]string{http.MethodGet: http.MethodPost, http.MethodPost: http.MethodGet}[path.Method]
				for _, method := range []string{other, http.MethodPut, http.MethodDelete} {
					status, text = ask(t, method, address+whole(path), "")
					is(t, method, status, text, 405, `"error":"NoSuchMethod"`)
				}
				for word, value := range map[string]string{"wait": "1", "seen": "1.1", "sites": "north"} {
					want := path.Type != ""
					for _, known := range path.Words {
						want = want || known.Name == word
					}
					status, text = ask(t, path.Method, address+whole(path)+"?"+word+"="+value, body)
					if isKnown := !strings.Contains(text, "no word of this path"); isKnown != want || isKnown != (status == 200) {
						t.Errorf("it knows %s: %d %s", word, status, text)
					}
				}
			})
		}
	}
}

// The errors that came, each by its path and its name.
type errorsThatCame struct {
	lock sync.Mutex
	all  map[string]bool
}

// A trial of the errors of the table is one of a path, or of some.
type errorsTrial struct {
	*testing.T
	came *errorsThatCame
}

// note sees that an error came as the table has it.
func (e *errorsTrial) note(path string, name wire.Name, status int, text string) {
	e.Helper()
	is(e.T, path+" "+string(name), status, text, name.Status(), `"error":"`+string(name)+`"`)
	e.came.lock.Lock()
	defer e.came.lock.Unlock()
	e.came.all[path+" "+string(name)] = true
}

// asks asks at a path of a process of the first kind that has it.
func (e *errorsTrial) asks(path *wire.Path, guard *serve.Guard, writer *writer, query string, headers ...string) (int, string) {
	e.Helper()
	address := listenAt(e.T, func(string) http.Handler { return handlerOf(e.T, path.At[0], config(guard), writer, &reader{place: 5}) })
	return ask(e.T, path.Method, address+whole(path)+query, bodyOf(path.Path), headers...)
}

// Each error that the table has of a path comes there, and no other one does.
func TestEachErrorOfTheTableComes(t *testing.T) {
	came := &errorsThatCame{all: map[string]bool{}}
	t.Run("by path", func(t *testing.T) {
		for at := range wire.Paths {
			path := &wire.Paths[at]
			t.Run(path.Path, func(t *testing.T) {
				t.Parallel()
				trial := &errorsTrial{t, came}
				trial.ofItsKind(path)
				trial.ofItsTokens(path)
				trial.ofItsRoom(path)
			})
		}
	})
	(&errorsTrial{t, came}).ofTheirWork()
	for at := range wire.Paths {
		path := &wire.Paths[at]
		for _, name := range path.Errors() {
			key := path.Path + " " + string(name)
			if !came.all[key] {
				t.Errorf("the table has %s, and nothing brings it about", key)
			}
			delete(came.all, key)
		}
	}
	for key := range came.all {
		t.Errorf("the table has no %s, which came", key)
	}
}

// ofItsKind has the errors come that each path has, or each that is answered in JSON, or that takes a body.
func (e *errorsTrial) ofItsKind(path *wire.Path) {
	writer := &writer{answer: script.Answer{Place: 1, Epoch: 1}}
	address := listenAt(e.T, func(string) http.Handler { return handlerOf(e.T, path.At[0], config(nil), writer, &reader{place: 5}) })
	status, text := ask(e.T, http.MethodPut, address+whole(path), "")
	e.note(path.Path, wire.NoSuchMethod, status, text)
	if path.Answer == nil {
		return
	}
	status, text = ask(e.T, path.Method, address+whole(path)+"?nowhere=1", bodyOf(path.Path))
	e.note(path.Path, wire.Malformed, status, text)
	head := path.Method + " " + whole(path) + " HTTP/1.1\r\nHost: a\r\n" + isJSON
	status, text = sent(e.T, address, func(to net.Conn) error {
		_, err := fmt.Fprintf(to, "%sExpect: 100-continue\r\nContent-Length: %d\r\n\r\n", head, large)
		return err
	})
	e.note(path.Path, wire.TooLarge, status, text)
	status, text = sent(e.T, address, func(to net.Conn) error {
		_, err := fmt.Fprint(to, head+"Transfer-Encoding: chunked\r\n\r\n")
		return err
	})
	e.note(path.Path, wire.TooSlow, status, text)
	if path.Body == nil {
		return
	}
	status, text = ask(e.T, path.Method, address+whole(path), bodyOf(path.Path), "Origin", "https://evil.example")
	e.note(path.Path, wire.OtherOrigin, status, text)
	status, text = ask(e.T, path.Method, address+whole(path), bodyOf(path.Path), "Content-Type", "text/plain")
	e.note(path.Path, wire.NotJSON, status, text)
}

// ofItsTokens has the errors come of a path that takes tokens.
func (e *errorsTrial) ofItsTokens(path *wire.Path) {
	if path.Role == wire.Anybody {
		return
	}
	for _, role := range []wire.Role{wire.Clients, wire.Sites, wire.Operators} {
		guard := &serve.Guard{}
		if err := guard.Load(role, tokens(e.T, "a-token-of-the-role\n")); err != nil {
			e.Fatal(err)
		}
		status, text := e.asks(path, guard, &writer{}, "")
		if role == path.Role {
			e.note(path.Path, wire.NoToken, status, text)
		} else {
			e.note(path.Path, wire.Closed, status, text)
		}
	}
}

// A held reader answers once it is let go.
type held struct{ goes chan struct{} }

func (h held) Read(context.Context, site.Seen) (site.Reading, error) {
	<-h.goes
	return site.Reading{}, site.ErrNotServing
}

// ofItsRoom asks at a path whose requests are held, until one more is refused.
func (e *errorsTrial) ofItsRoom(path *wire.Path) {
	if path.Path == wire.HealthPath {
		return // It has room for all.
	}
	goes, writer := make(chan struct{}), &writer{}
	waits := http.HandlerFunc(func(http.ResponseWriter, *http.Request) { <-goes })
	config := serve.Config{Requests: 10, Ready: func() error { <-goes; return nil }, Numbers: waits, Page: waits}
	server := httptest.NewServer(handlerOf(e.T, path.At[0], config, writer, held{goes}))
	defer server.Close()
	type answer struct {
		status int
		text   string
	}
	answers, asking := make(chan answer, 1), sync.WaitGroup{}
	writer.lock.Lock()
	for count, isOver := 0, false; count < 1500 && !isOver; count++ {
		asking.Add(1)
		go func() {
			defer asking.Done()
			status, text := ask(e.T, path.Method, server.URL+whole(path), bodyOf(path.Path))
			select {
			case answers <- answer{status, text}:
			default:
			}
		}()
		select {
		case first := <-answers:
			e.note(path.Path, wire.Busy, first.status, first.text)
			isOver = true
		case <-time.After(time.Millisecond):
		}
	}
	writer.lock.Unlock()
	close(goes)
	asking.Wait()
}

// ofTheirWork has the errors come that are a path's own.
func (e *errorsTrial) ofTheirWork() {
	for _, row := range []struct {
		path  string
		name  wire.Name
		err   error
		query string
	}{
		{wire.UpdatePath, wire.Passed, &primary.PassedError{Last: 9}, ""},
		{wire.UpdatePath, wire.Differs, primary.ErrDiffers, ""},
		{wire.UpdatePath, wire.Failed, errors.New("something"), ""},
		{wire.UpdatePath, wire.NotWriter, &primary.NotWriterError{}, ""},
		{wire.UpdatePath, wire.NoAnswer, nil, "?wait=0"},
		{wire.UpdatePath, wire.Full, primary.ErrFull, ""},
		{wire.NextPath, wire.OtherWish, epoch.ErrOtherWish, ""},
		{wire.NextPath, wire.NoSuchEpoch, epoch.ErrNotYet, ""},
		{wire.NextPath, wire.NoWish, errors.New("limit north all 5: refused"), ""},
		{wire.NextPath, wire.NotWriter, &primary.NotWriterError{}, ""},
		{wire.NextPath, wire.NoAnswer, context.DeadlineExceeded, ""},
		{wire.LimitPath, wire.Failed, errors.New("something"), ""},
		{wire.LimitPath, wire.NotWriter, &primary.NotWriterError{}, ""},
		{wire.LimitPath, wire.NoAnswer, context.DeadlineExceeded, ""},
		{wire.LimitPath, wire.Full, primary.ErrFull, ""},
		{wire.PlacePath, wire.NoSite, epoch.ErrNoSite, ""},
		{wire.PlacePath, wire.CannotBe, &epoch.CannotBeError{}, ""},
		{wire.PlacePath, wire.OtherScript, epoch.ErrOtherScript, ""},
		{wire.PlacePath, wire.Failed, errors.New("something"), ""},
		{wire.PlacePath, wire.NotWriter, &primary.NotWriterError{}, ""},
		{wire.PlacePath, wire.NotYet, epoch.ErrBehind, ""},
		{wire.PlacePath, wire.NoAnswer, context.DeadlineExceeded, ""},
		{wire.EpochPath, wire.NotWriter, nil, ""},
		{wire.ValuePath, wire.Behind, nil, "?seen=1.6&wait=0"},
		{wire.ValuesPath, wire.Behind, nil, "?seen=1.6&wait=0"},
	} {
		status, text := e.asks(wire.PathOf(row.path), nil, &writer{err: row.err}, row.query)
		e.note(row.path, row.name, status, text)
	}
	refused := script.Answer{Refusal: script.Refusal{Number: 13, Name: "LogFull"}}
	for _, path := range []string{wire.UpdatePath, wire.LimitPath} {
		status, text := e.asks(wire.PathOf(path), nil, &writer{answer: refused}, "")
		e.note(path, wire.Refused, status, text)
	}
	away := listenAt(e.T, func(string) http.Handler { return serve.NewSite(config(nil), "north", &reader{place: -1}) })
	for _, path := range []string{wire.ValuePath, wire.ValuesPath} {
		status, text := ask(e.T, http.MethodGet, away+path, "")
		e.note(path, wire.NotServing, status, text)
	}
	// The primary that writes has no answer for the one that passes the request on.
	hangs := httptest.NewServer(http.HandlerFunc(func(_ http.ResponseWriter, asked *http.Request) { <-asked.Context().Done() }))
	defer hangs.Close()
	status, text := e.asks(wire.PathOf(wire.EpochPath), nil, &writer{status: primary.Status{Writer: hangs.URL}}, "?wait=0.2")
	e.note(wire.EpochPath, wire.NoAnswer, status, text)
	guard := &serve.Guard{}
	if err := guard.Load(wire.Sites, tokens(e.T, "a-token-of-north north\n")); err != nil {
		e.Fatal(err)
	}
	status, text = e.asks(wire.PathOf(wire.PlacePath), guard, &writer{}, "", "Authorization", "Bearer a-token-of-north")
	e.note(wire.PlacePath, wire.OtherSite, status, text)
	address := listenAt(e.T, func(string) http.Handler { return serve.NewSite(config(nil), "north", &reader{place: 5}) })
	status, text = ask(e.T, http.MethodGet, address+"/value/milk", "")
	e.note(wire.ValuePath, wire.NoSuchObject, status, text)
	status, text = ask(e.T, http.MethodGet, address+"/nowhere", "")
	e.note(wire.PagePath, wire.NoSuchPath, status, text)
}
