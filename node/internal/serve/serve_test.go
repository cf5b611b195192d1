package serve_test

import (
	"context"
	"errors"
	"fmt"
	"io"
	"net/http"
	"strings"
	"sync"
	"testing"
	"time"

	"ordup.dev/node/internal/client"
	"ordup.dev/node/internal/engine"
	"ordup.dev/node/internal/epoch"
	"ordup.dev/node/internal/fleet"
	"ordup.dev/node/internal/listen"
	"ordup.dev/node/internal/primary"
	"ordup.dev/node/internal/script"
	"ordup.dev/node/internal/serve"
	"ordup.dev/node/internal/site"
	"ordup.dev/node/internal/wire"
)

// A writer stands in for a primary.
type writer struct {
	lock   sync.Mutex
	err    error
	answer script.Answer
	asked  []epoch.Request
	places []epoch.Place
	wishes []epoch.Wish
	limits []epoch.Limiting
	status primary.Status
}

func (w *writer) Submit(ctx context.Context, request epoch.Request) (script.Answer, error) {
	w.lock.Lock()
	defer w.lock.Unlock()
	w.asked = append(w.asked, request)
	if w.answer == (script.Answer{}) && w.err == nil {
		w.lock.Unlock()
		<-ctx.Done()
		w.lock.Lock()
		return script.Answer{}, fmt.Errorf("the update waits for north: %w", ctx.Err())
	}
	return w.answer, w.err
}

func (w *writer) Tell(_ context.Context, place epoch.Place) error {
	w.lock.Lock()
	defer w.lock.Unlock()
	w.places = append(w.places, place)
	return w.err
}

func (w *writer) Next(_ context.Context, wish epoch.Wish) (int64, error) {
	w.lock.Lock()
	defer w.lock.Unlock()
	w.wishes = append(w.wishes, wish)
	return wish.From + 1, w.err
}

func (w *writer) Relimit(_ context.Context, asked epoch.Limiting) (script.Answer, error) {
	w.lock.Lock()
	defer w.lock.Unlock()
	w.limits = append(w.limits, asked)
	return w.answer, w.err
}

func (w *writer) Status() primary.Status {
	w.lock.Lock()
	defer w.lock.Unlock()
	return w.status
}

func (w *writer) set(answer script.Answer, err error) {
	w.lock.Lock()
	defer w.lock.Unlock()
	w.answer, w.err = answer, err
}

// A handler may be given once the address is known.
type later struct{ http.Handler }

func listenAt(t *testing.T, make func(address string) http.Handler) string {
	t.Helper()
	handler := &later{}
	server, err := listen.Start("127.0.0.1:0", nil, 1000, handler, nil)
	if err != nil {
		t.Fatal(err)
	}
	t.Cleanup(func() { server.Stop(time.Second) })
	address := "http://" + server.Address()
	handler.Handler = make(address)
	return address
}

func config(guard *serve.Guard) serve.Config {
	return serve.Config{Guard: guard, Requests: 100, Ready: func() error { return nil }, Numbers: http.NotFoundHandler()}
}

func startPrimary(t *testing.T, guard *serve.Guard, writer *writer) string {
	return listenAt(t, func(address string) http.Handler {
		return serve.NewPrimary(config(guard), writer, serve.NewPasser(address, nil), func(time.Duration) {})
	})
}

// ask gives the status and the body of an answer.
func ask(t *testing.T, method, url, body string, headers ...string) (int, string) {
	t.Helper()
	request, err := http.NewRequest(method, url, strings.NewReader(body))
	if err != nil {
		t.Fatal(err)
	}
	request.Header.Set("Content-Type", "application/json")
	for at := 0; at < len(headers); at += 2 {
		request.Header.Set(headers[at], headers[at+1])
	}
	answer, err := http.DefaultClient.Do(request)
	if err != nil {
		t.Fatal(err)
	}
	defer answer.Body.Close()
	text, _ := io.ReadAll(answer.Body)
	return answer.StatusCode, strings.TrimSuffix(string(text), "\n")
}

func is(t *testing.T, what string, status int, text string, wantStatus int, want string) {
	t.Helper()
	if status != wantStatus || !strings.Contains(text, want) {
		t.Errorf("%s: %d %s, and not %d %s", what, status, text, wantStatus, want)
	}
}

const good = `{"client":"ann","number":7,"changes":["add:tea:-5","add:till:20"]}`

func TestAnUpdateIsAnswered(t *testing.T) {
	t.Parallel()
	writer := &writer{}
	address := startPrimary(t, nil, writer)
	for _, row := range []struct {
		answer script.Answer
		err    error
		status int
		want   string
	}{
		{script.Answer{Place: 3, Epoch: 2}, nil, 200, `{"client":"ann","number":7,"epoch":2,"place":3,"seen":"2.3"}`},
		{script.Answer{Refusal: script.Refusal{Number: 13, Name: "LogFull"}}, nil, 422,
			`"message":"refused 13 LogFull","refused":13,"refusal":"LogFull"`},
		{script.Answer{}, nil, 504, `"error":"NoAnswer"`},
		{script.Answer{}, &primary.PassedError{Last: 9}, 409, `"error":"Passed","message":"the client asked under 9 before","last":9`},
		{script.Answer{}, primary.ErrDiffers, 409, `"error":"Differs"`},
		{script.Answer{}, primary.ErrMalformed, 400, `"error":"Malformed"`},
		{script.Answer{}, primary.ErrBusy, 503, `"error":"Busy"`},
		{script.Answer{}, primary.ErrFull, 507, `"error":"Full"`},
		{script.Answer{}, &primary.NotWriterError{}, 503, `"error":"NotWriter"`},
		{script.Answer{}, errors.New("something"), 500, `"error":"Failed"`},
	} {
		t.Run(row.want, func(t *testing.T) {
			writer.set(row.answer, row.err)
			status, text := ask(t, "POST", address+"/update?wait=0.1", good)
			is(t, row.want, status, text, row.status, row.want)
		})
	}
	if asked := writer.asked[0]; asked != (epoch.Request{Client: "ann", Number: 7, Changes: "add:tea:-5 add:till:20"}) {
		t.Error(asked)
	}
}

func TestWhatIsNoRequestIsRefused(t *testing.T) {
	t.Parallel()
	writer := &writer{answer: script.Answer{Place: 1, Epoch: 1}}
	address := startPrimary(t, nil, writer)
	for _, row := range []struct {
		method, path, body string
		status             int
		want               string
	}{
		{"POST", "/update", ``, 400, "Malformed"},
		{"POST", "/update", `nonsense`, 400, "Malformed"},
		{"POST", "/update", good + "x", 400, "Malformed"},
		{"POST", "/update", `{"client":"ann","number":"7"}`, 400, "Malformed"},
		{"POST", "/update", `{"client":"ann","numbr":7}`, 400, "Malformed"},
		{"POST", "/update", `{"client":"ann","number":1e30}`, 400, "Malformed"},
		{"POST", "/update", `{"client":"ann","number":7,"changes":["add:tea:1 add:till:2"]}`, 400, "one word"},
		{"POST", "/update", `{"client":"ann","number":7,"changes":["\n"]}`, 400, "one word"},
		{"POST", "/update", `{"client":"` + strings.Repeat("a", wire.MostBody) + `"}`, 413, "TooLarge"},
		{"POST", "/update?wait=x", good, 400, "wait"},
		{"POST", "/update?wait=-1", good, 400, "wait"},
		{"POST", "/update?wait=-0.1", good, 400, "wait"},
		{"POST", "/update?wait=NaN", good, 400, "wait"},
		{"POST", "/update?wait=-Inf", good, 400, "wait"},
		{"POST", "/update?wait=1;seen=2", good, 400, "semicolon"},
		{"POST", "/update?wait=1&wait=2", good, 400, "twice"},
		{"POST", "/update?wait=%zz", good, 400, "Malformed"},
		{"POST", "/update?seen=1.1", good, 400, "no word of this path"},
		{"POST", "/place?weight=1", good, 400, "no word of this path"},
		{"GET", "/update", ``, 405, "NoSuchMethod"},
		{"POST", "/place", `{"site":"north","member":"north","epoch":0,"applied":1,"entry":1}`, 400, "Malformed"},
		{"POST", "/place", `{"site":"\u0000","member":"north","epoch":1,"applied":1,"entry":1}`, 400, "Malformed"},
		{"POST", "/place", `{"site":"north","member":"north","epoch":1,"applied":-1,"entry":1}`, 400, "Malformed"},
		{"POST", "/next", `{"from":1,"every":-1}`, 400, "Malformed"},
		{"POST", "/next", `{"every":1}`, 400, "Malformed"},
		{"POST", "/next", `[]`, 400, "Malformed"},
		{"POST", "/healthz", ``, 405, "NoSuchMethod"},
		{"GET", "/values", ``, 404, "NoSuchPath"},
		{"GET", "/../../etc/passwd", ``, 404, "NoSuchPath"},
		{"GET", "/%ff%00", ``, 404, "NoSuchPath"},
	} {
		t.Run(fmt.Sprintf("%s %s %.40s", row.method, row.path, row.body), func(t *testing.T) {
			status, text := ask(t, row.method, address+row.path, row.body)
			is(t, row.path+" "+row.body, status, text, row.status, row.want)
		})
	}
	if len(writer.asked)+len(writer.places)+len(writer.wishes) > 0 {
		t.Error(writer.asked, writer.places, writer.wishes)
	}
	for _, body := range []string{`{"from":3,"every":5,"remembers":2,"remembers_seconds":30,"ordup":"2","declarations":"# a\nobject tea 1\n","replaces":true}`} {
		status, text := ask(t, "POST", address+"/next", body)
		is(t, body, status, text, 200, `{"epoch":4}`)
	}
	if wish := writer.wishes[0]; fmt.Sprint(wish) != "{3 {5 2 30  2 {0 0 0 }} [object tea 1] true}" {
		t.Error(wish)
	}
}

func TestAnotherPrimaryPassesOn(t *testing.T) {
	t.Parallel()
	first, second := &writer{answer: script.Answer{Place: 3, Epoch: 2}}, &writer{}
	one := startPrimary(t, nil, first)
	other := startPrimary(t, nil, second)
	second.set(script.Answer{}, &primary.NotWriterError{Address: one})
	second.status.Writer, first.status.Writes, first.status.Core.Epoch = one, true, 2
	status, text := ask(t, "GET", one+"/epoch", ``)
	is(t, "without a lease", status, text, 503, `"error":"NotWriter"`)
	first.status.Lease = time.Second
	status, text = ask(t, "POST", other+"/update", good)
	is(t, "update", status, text, 200, `"seen":"2.3"`)
	status, text = ask(t, "POST", other+"/next", `{"from":2}`)
	is(t, "next", status, text, 200, `{"epoch":3}`)
	status, text = ask(t, "GET", other+"/epoch", ``)
	is(t, "epoch", status, text, 200, `{"epoch":2}`)
	place := epoch.Place{Site: "north", Member: "north", Epoch: 1, Applied: 7, Entry: 3}
	asker, err := client.New(client.Config{Addresses: []string{other}})
	if err != nil {
		t.Fatal(err)
	}
	if err := asker.Tell(context.Background(), place); err != nil || len(first.places) != 1 || first.places[0] != place {
		t.Error(err, first.places)
	}
	// From then on it asks the one that writes.
	asker.Tell(context.Background(), place)
	if len(second.places) != 1 || len(first.places) != 2 {
		t.Error(first.places, second.places)
	}
	// So do the sites for which there is no answer in time.
	first.set(script.Answer{}, nil)
	status, text = ask(t, "POST", other+"/update?wait=0.4", good)
	is(t, "no answer in time", status, text, 504, "the update waits for north")
	// A refusal comes through, and what was passed on goes no further.
	first.set(script.Answer{}, primary.ErrDiffers)
	status, text = ask(t, "POST", other+"/update", good)
	is(t, "differs", status, text, 409, "Differs")
	first.set(script.Answer{}, &primary.NotWriterError{Address: other})
	status, text = ask(t, "POST", other+"/update", good)
	is(t, "around", status, text, 503, `"writer":"`+other)
	second.set(script.Answer{}, &primary.NotWriterError{Address: "http://127.0.0.1:1"})
	status, text = ask(t, "POST", other+"/update", good)
	is(t, "nobody there", status, text, 503, `"writer":"http://127.0.0.1:1"`)
	second.set(script.Answer{}, &primary.NotWriterError{Address: "https://127.0.0.1:1"})
	status, text = ask(t, "POST", other+"/update", good)
	is(t, "another scheme", status, text, 503, `"error":"NotWriter"`)
}

// An engine without keys.
type noKeys struct{}

func (noKeys) SiteKeys(context.Context, string) ([]engine.Key, error) { return nil, nil }

// startFleet starts a fleet of one site. It gives who asks as that site does, and who asks the primary as the fleet does.
func startFleet(t *testing.T, primary string) (asker, upper *client.Client) {
	t.Helper()
	upper, err := client.New(client.Config{Addresses: []string{primary}})
	if err != nil {
		t.Fatal(err)
	}
	far := fleet.New("far", []string{"east"}, upper)
	if err = far.Look(context.Background(), noKeys{}); err != nil {
		t.Fatal(err)
	}
	address := listenAt(t, func(string) http.Handler { return serve.NewFleet(config(nil), far) })
	asker, err = client.New(client.Config{Addresses: []string{address}})
	if err != nil {
		t.Fatal(err)
	}
	return asker, upper
}

func TestAPlaceThatCannotBeComesBack(t *testing.T) {
	t.Parallel()
	place := epoch.Place{Site: "far", Member: "east", Epoch: 1, Applied: 7, Entry: 3}
	writer := &writer{err: &epoch.CannotBeError{Place: place, Updates: 5}}
	asker, upper := startFleet(t, startPrimary(t, nil, writer))
	var cannotBe *epoch.CannotBeError
	if err := asker.Tell(context.Background(), place); !errors.As(err, &cannotBe) || cannotBe.Updates != 5 {
		t.Error(err)
	}
	writer.set(script.Answer{}, epoch.ErrOtherScript)
	if err := asker.Tell(context.Background(), place); !errors.Is(err, epoch.ErrOtherScript) {
		t.Error(err)
	}
	writer.set(script.Answer{}, epoch.ErrNoSite)
	if err := asker.Tell(context.Background(), place); !errors.Is(err, epoch.ErrNoSite) {
		t.Error(err)
	}
	place.Member = "west"
	if err := asker.Tell(context.Background(), place); !errors.Is(err, epoch.ErrNoSite) {
		t.Error(err)
	}
	if err := upper.Tell(context.Background(), place); !errors.Is(err, epoch.ErrNoSite) || !strings.Contains(err.Error(), "the process of the fleet") {
		t.Error("a site of a fleet told a primary", err)
	}
	writer.set(script.Answer{}, epoch.ErrBehind)
	place.Member = "east"
	var told *wire.Error
	if err := asker.Tell(context.Background(), place); !errors.As(err, &told) || told.Name != "NotYet" {
		t.Error(err)
	}
}

func TestASiteOfAFleetStaysAtTheFleet(t *testing.T) {
	t.Parallel()
	first, second := &writer{}, &writer{}
	one, other := startPrimary(t, nil, first), startPrimary(t, nil, second)
	// While one takes over, each names the other one.
	first.set(script.Answer{}, &primary.NotWriterError{Address: other})
	second.set(script.Answer{}, &primary.NotWriterError{Address: one})
	asker, _ := startFleet(t, one)
	place := epoch.Place{Site: "far", Member: "east", Epoch: 1, Applied: 7, Entry: 3}
	var told *wire.Error
	if err := asker.Tell(context.Background(), place); !errors.As(err, &told) || told.Name != "NotYet" || told.Writer != "" {
		t.Error("the site is told", err)
	}
	first.set(script.Answer{}, nil)
	second.set(script.Answer{}, nil)
	if err := asker.Tell(context.Background(), place); err != nil {
		t.Error(err)
	}
	all := append(first.places, second.places...)
	for _, place := range all {
		if place.Member != "far" {
			t.Error("a primary was told by", place.Member)
		}
	}
	if len(all) == 0 {
		t.Error("nobody told a primary")
	}
}

// A reader stands in for a site.
type reader struct{ place int64 }

func (r *reader) Read(ctx context.Context, seen site.Seen) (site.Reading, error) {
	if r.place < 0 {
		return site.Reading{}, site.ErrNotServing
	}
	if seen.Epoch > 1 || seen.Epoch == 1 && seen.Place > r.place {
		<-ctx.Done()
		return site.Reading{}, &site.BehindError{Has: site.Seen{Epoch: 1, Place: r.place}}
	}
	return site.Reading{Shown: &site.Shown{Entry: 9, Epoch: 1, Place: r.place, Acknowledged: 4, Values: map[string]int64{"tea": 995},
		Imports: map[string]int64{"tea": 3}, Limits: script.Limits{{Scope: "count", Amount: 3}}},
		Lease: 2 * time.Second}, nil
}

func TestAReaderIsShownNoLess(t *testing.T) {
	t.Parallel()
	reader := &reader{place: 5}
	address := listenAt(t, func(string) http.Handler { return serve.NewSite(config(nil), "north", reader) })
	showing := `"site":"north","epoch":1,"place":5,"seen":"1.5","acknowledged":4,"lease_seconds":2,"limits":["count 3"]`
	for _, row := range []struct {
		path   string
		status int
		want   string
	}{
		{"/value/tea", 200, `{"object":"tea","value":995,"import":3,` + showing + `}`},
		{"/values?seen=1.5", 200, `{"values":{"tea":995},"imports":{"tea":3},` + showing + `}`},
		{"/values?seen=1.6&wait=0.05", 412, `"error":"Behind","message":"the site is at place 5 of epoch 1","epoch":1,"place":5`},
		{"/value/tea?seen=2.0&wait=0", 412, "Behind"},
		{"/value/milk", 404, "NoSuchObject"},
		{"/value/", 404, "NoSuchObject"},
		{"/value/%00%ff/..", 404, "NoSuchObject"},
		{"/values?wait=1;seen=2", 400, "semicolon"},
		{"/values?seen=1.5&seen=9.9", 400, "twice"},
		{"/values?sen=9.9", 400, "no word of this path"},
		{"/values?seen=1", 400, "EPOCH.PLACE"},
		{"/values?seen=-1.0", 400, "EPOCH.PLACE"},
		{"/values?seen=1.99999999999999999999", 400, "EPOCH.PLACE"},
		{"/update", 404, "NoSuchPath"},
		{"/healthz", 200, "ok"},
		{"/readyz", 200, "ok"},
	} {
		t.Run(row.path, func(t *testing.T) {
			status, text := ask(t, "GET", address+row.path, "")
			is(t, row.path, status, text, row.status, row.want)
		})
	}
	reader.place = -1
	status, text := ask(t, "GET", address+"/values", "")
	is(t, "no lease", status, text, 503, "NotServing")
}

func TestTooManyRequestsAreRefused(t *testing.T) {
	t.Parallel()
	writer := &writer{}
	address := startPrimary(t, nil, writer)
	var waiting sync.WaitGroup
	for count := 0; count < 100; count++ {
		waiting.Add(1)
		go func() { defer waiting.Done(); ask(t, "POST", address+"/update?wait=2", good) }()
	}
	for tries := 0; tries < 100; tries++ {
		writer.lock.Lock()
		count := len(writer.asked)
		writer.lock.Unlock()
		if count == 100 {
			break
		}
		time.Sleep(10 * time.Millisecond)
	}
	status, text := ask(t, "POST", address+"/update", good)
	is(t, "one more", status, text, 503, "Busy")
	status, text = ask(t, "POST", address+"/place", `{"site":"north","member":"north","epoch":1,"applied":1,"entry":1}`)
	is(t, "a place, for which the others may wait", status, text, 200, "{}")
	status, text = ask(t, "GET", address+"/healthz", "")
	is(t, "health", status, text, 200, "ok")
	waiting.Wait()
}
