// Package serve answers HTTP for a primary, a site and a fleet. Package wire says what travels.
package serve

import (
	"bytes"
	"context"
	"errors"
	"fmt"
	"math"
	"net/http"
	"net/url"
	"strconv"
	"sync/atomic"
	"time"

	"ordup.dev/node/internal/listen"
	"ordup.dev/node/internal/wire"
)

const (
	// mostNexts is how many requests for an epoch are under way at most, mostPlaces how many places, and mostLooks how many requests for
	// numbers and pages, or for readiness.
	mostNexts, mostPlaces, mostLooks = 4, 1000, 32
)

// A Config is what the servers of all kinds are made with.
type Config struct {
	Guard *Guard
	// Requests is how many requests of clients or readers are under way at most.
	Requests int
	// Ready tells why the process takes no requests now, or nil.
	Ready func() error
	// Numbers and Page answer at /metrics and at /.
	Numbers, Page http.Handler
}

// A Handler answers the requests of one process.
type Handler interface {
	http.Handler
	// End says that the process ends, so that it is not ready any more.
	End()
	// Look comes back once the process can say whether it is ready: not while its work hangs.
	Look()
}

// A server is the Handler of each kind of process.
type server struct {
	Config
	paths *http.ServeMux
	ends  atomic.Bool
}

// A route is a path that is answered in JSON.
type route struct {
	*wire.Path
	// Room is for how many requests are under way at once, and bodies too where these are large.
	room *room
	// Answer gives what is written.
	answer answer
}

type answer func(ctx context.Context, asked *request) (any, error)

// A request is one that was read.
type request struct {
	*http.Request
	body  []byte
	words url.Values
	// Site is the one for whose places alone the token is, or "".
	site string
	// Header is that of the answer.
	header http.Header
}

// A room counts what is under way, up to a limit.
type room struct {
	most  int64
	count atomic.Int64
}

func (r *room) enter() bool {
	if r.count.Add(1) <= r.most {
		return true
	}
	r.leave()
	return false
}

func (r *room) leave() { r.count.Add(-1) }

func newServer(config Config) *server {
	server := &server{Config: config, paths: http.NewServeMux()}
	// Nobody takes the room of health, so there is no limit, and that of readiness is its own.
	health, looks := &room{most: math.MaxInt64}, &room{most: mostLooks}
	server.plain(wire.HealthPath, health, http.HandlerFunc(func(to http.ResponseWriter, _ *http.Request) { to.Write([]byte("ok\n")) }))
	server.plain(wire.ReadyPath, &room{most: mostLooks}, http.HandlerFunc(server.ready))
	server.plain(wire.NumbersPath, looks, config.Numbers)
	server.plain(wire.PagePath, looks, exactly(wire.PagePath, config.Page))
	return server
}

// ServeHTTP answers a request.
func (s *server) ServeHTTP(to http.ResponseWriter, asked *http.Request) {
	to.Header().Set("X-Content-Type-Options", "nosniff")
	s.paths.ServeHTTP(to, asked)
}

// End has whoever balances requests send no more of them here, while those that are under way are answered.
func (s *server) End() { s.ends.Store(true) }

// Look asks whether the process is ready.
func (s *server) Look() { s.Ready() }

func (s *server) ready(to http.ResponseWriter, _ *http.Request) {
	err := errEnds
	if !s.ends.Load() {
		err = s.Ready()
	}
	if err != nil {
		http.Error(to, err.Error(), http.StatusServiceUnavailable)
		return
	}
	to.Write([]byte("ok\n"))
}

var errEnds = errors.New("the process ends")

// exactly answers at this path alone.
func exactly(path string, handler http.Handler) http.Handler {
	return http.HandlerFunc(func(to http.ResponseWriter, asked *http.Request) {
		if asked.URL.Path != path || handler == nil {
			fail(to, asked, wire.NewError(wire.NoSuchPath, "there is no such path"))
			return
		}
		handler.ServeHTTP(to, asked)
	})
}

// plain answers by a handler that writes the answer itself.
func (s *server) plain(path string, room *room, handler http.Handler) {
	role := wire.PathOf(path).Role
	s.paths.HandleFunc(path, func(to http.ResponseWriter, asked *http.Request) {
		listen.Hurry(asked)
		defer listen.Begin(asked)()
		if !isLook(asked) {
			to.Header().Set("Allow", http.MethodGet)
			fail(to, asked, errMethod)
		} else if _, err := s.Guard.admit(role, asked); err != nil {
			fail(to, asked, err)
		} else if !room.enter() {
			fail(to, asked, errBusy)
		} else {
			defer room.leave()
			handler.ServeHTTP(to, asked)
		}
	})
}

var errBusy = wire.NewError(wire.Busy, "too many requests are under way")

// answers answers a path of the table, by an answer that is written as JSON.
func (s *server) answers(path string, room *room, answer answer) {
	route := &route{wire.PathOf(path), room, answer}
	s.paths.HandleFunc(path, func(to http.ResponseWriter, asked *http.Request) {
		value, err := s.answer(to, asked, route)
		if err != nil {
			fail(to, asked, err)
			return
		}
		wire.Write(to, http.StatusOK, value)
	})
}

func (s *server) answer(to http.ResponseWriter, asked *http.Request, route *route) (any, error) {
	end := func() {}
	defer func() { end() }()
	listen.Hurry(asked)
	read, wait, err := s.headOf(to, asked, route)
	if err != nil {
		end = listen.Begin(asked)
		return nil, err
	}
	isLarge := route.MostBody > wire.MostBody
	if isLarge {
		if !route.room.enter() {
			return nil, errBusy
		}
		defer route.room.leave()
	}
	read.body, err = bodyOf(asked, route.MostBody)
	end = listen.Begin(asked)
	if err != nil {
		to.Header().Set("Connection", "close")
		return nil, err
	}
	if !isLarge {
		if !route.room.enter() {
			return nil, errBusy
		}
		defer route.room.leave()
	}
	ctx, cancel := context.WithTimeout(asked.Context(), wait)
	defer cancel()
	return route.answer(ctx, read)
}

// headOf reads what a request has before its body, and for how long its answer is waited for.
func (s *server) headOf(to http.ResponseWriter, asked *http.Request, route *route) (read *request, wait time.Duration, err error) {
	if asked.Method != route.Method {
		to.Header().Set("Allow", route.Method)
		return nil, 0, errMethod
	}
	read = &request{Request: asked, header: to.Header()}
	read.site, err = s.Guard.admit(route.Role, asked)
	if err == nil {
		read.words, err = wordsOf(asked, route.Words)
	}
	if err == nil {
		wait, err = waitOf(read.words)
	}
	return read, wait, err
}

func bodyOf(asked *http.Request, most int) ([]byte, error) {
	body, err := listen.Body(asked, most)
	switch {
	case errors.Is(err, listen.ErrTooLarge):
		return nil, wire.NewError(wire.TooLarge, err.Error())
	case errors.Is(err, listen.ErrTooSlow):
		return nil, wire.NewError(wire.TooSlow, err.Error())
	case err != nil:
		return nil, malformed(err)
	}
	return body, nil
}

func malformed(err error) error { return wire.NewError(wire.Malformed, err.Error()) }

// read reads the JSON of a body.
func (r *request) read(to any) error {
	if err := wire.Read(bytes.NewReader(r.body), to); err != nil {
		return malformed(err)
	}
	return nil
}

// wordsOf reads what stands behind the `?`: words that the path knows, each once.
func wordsOf(asked *http.Request, known []wire.Word) (url.Values, error) {
	words, err := url.ParseQuery(asked.URL.RawQuery)
	if err != nil {
		return nil, malformed(err)
	}
	for word, values := range words {
		isKnown := false
		for _, each := range known {
			isKnown = isKnown || each.Name == word
		}
		if !isKnown || len(values) != 1 {
			return nil, malformed(fmt.Errorf("%.40q is no word of this path, or stands there twice", word))
		}
	}
	return words, nil
}

// waitOf is how long the answer is waited for.
func waitOf(words url.Values) (time.Duration, error) {
	text := words.Get("wait")
	if text == "" {
		return wire.UsualWait, nil
	}
	seconds, err := strconv.ParseFloat(text, 64)
	if err != nil || !(seconds >= 0) {
		return 0, malformed(errors.New("wait is a number of seconds"))
	}
	if seconds > wire.MostWait.Seconds() {
		return wire.MostWait, nil
	}
	return time.Duration(seconds * float64(time.Second)), nil
}

var errMethod = wire.NewError(wire.NoSuchMethod, "the path takes another method")

// fail writes an error.
func fail(to http.ResponseWriter, asked *http.Request, err error) {
	told := ErrorOf(err, wire.Failed)
	switch told.Status {
	case http.StatusUnauthorized:
		to.Header().Set("WWW-Authenticate", "Bearer")
		if isLook(asked) {
			to.Header().Set("WWW-Authenticate", `Basic realm="ordup"`)
		}
	case http.StatusServiceUnavailable, http.StatusGatewayTimeout:
		to.Header().Set("Retry-After", "1")
	}
	wire.Write(to, told.Status, told)
}
