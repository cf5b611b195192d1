// Package node asks ordup-node: it updates at primaries and reads at sites. This file is all of it, and stands on Go's own packages alone.
//
// An update is asked again, under its number and at the next address, until there is an answer for good: so it is done once. A reading
// shows no less than each update and reading before. Who must be sure after a crash of its own notes a number and the changes before it
// asks by UpdateAs, and asks so again. The numbers of Update are greater than those before, by the clock: a restart asks for new updates
// alone. docs/HTTP.md of ordup has what travels.
package node

import (
	"bytes"
	"context"
	"crypto/tls"
	"encoding/json"
	"errors"
	"fmt"
	"io"
	"math"
	"net"
	"net/http"
	"net/url"
	"strconv"
	"strings"
	"sync"
	"time"
)

const (
	// tryWait is how long a node is asked to wait for an answer, and tryTime how long a try takes until the next address is asked.
	tryWait, tryTime = 4 * time.Second, 6 * time.Second
	connectTime      = 2 * time.Second
	// leastPause and mostPause are how long it pauses after each address has failed once, at first and later.
	leastPause, mostPause = 50 * time.Millisecond, time.Second
	mostAnswer            = 1 << 20
)

// A Name is that of an error in the table of docs/HTTP.md. It is an error too, for errors.Is.
type Name string

// Names that callers ask for. All others are there by their text, as Name("NoToken").
const (
	Refused      Name = "Refused"
	Passed       Name = "Passed"
	Differs      Name = "Differs"
	Behind       Name = "Behind"
	NoSuchObject Name = "NoSuchObject"
	notWriter    Name = "NotWriter"
)

func (n Name) Error() string { return string(n) }

// An Error is an answer that is none. errors.Is compares its Name.
type Error struct {
	Status  int    `json:"-"`
	Name    Name   `json:"error"`
	Message string `json:"message"`
	// Last is of Passed: the last number of the client. Refusal is of Refused. Epoch and Place are of Behind: how far the site is. Writer is
	// of NotWriter.
	Last    int64  `json:"last"`
	Refusal string `json:"refusal"`
	Epoch   int64  `json:"epoch"`
	Place   int64  `json:"place"`
	Writer  string `json:"writer"`
}

func (e *Error) Error() string {
	if e.Message == "" {
		return string(e.Name)
	}
	return e.Message
}

// Is has errors.Is(err, node.Refused) ask for the name.
func (e *Error) Is(target error) bool {
	name, isName := target.(Name)
	return isName && name == e.Name
}

// isForGood is whether the answer is the same wherever and whenever it is asked for.
func (e *Error) isForGood() bool {
	switch e.Status {
	case http.StatusRequestTimeout, http.StatusInternalServerError, http.StatusServiceUnavailable, http.StatusGatewayTimeout,
		http.StatusInsufficientStorage:
		return false
	}
	return true
}

// A NoAnswerError says that the context ended before there was an answer. An update may be done or not: ask again under its Number. That of
// a reading is 0.
type NoAnswerError struct {
	Number int64
	Last   error
}

func (e *NoAnswerError) Error() string { return fmt.Sprintf("there is no answer yet: %v", e.Last) }

func (e *NoAnswerError) Unwrap() error { return e.Last }

// A Config says who asks, and whom.
type Config struct {
	// Addresses are those of primaries, as http://10.0.0.1:7002.
	Addresses []string
	Client    string
	// Token gives the client's token, where it has one.
	Token func() string
	TLS   *tls.Config
}

// A Deployment is asked. Goroutines may share it to read. Two updates at once may overtake each other, so that one is Passed.
type Deployment struct {
	config Config
	http   *http.Client

	// What stands below lock is under it.
	lock   sync.Mutex
	writer string
	seen   string
	last   int64
}

// An Acked says that an update is acknowledged, as the update Place of Epoch. Seen is both.
type Acked struct {
	Client string `json:"client"`
	Number int64  `json:"number"`
	Epoch  int64  `json:"epoch"`
	Place  int64  `json:"place"`
	Seen   string `json:"seen"`
}

// A Reading is what a site shows: Place updates of Epoch. Lease is for how many seconds it may serve without hearing of the engine.
type Reading struct {
	Values map[string]int64 `json:"values"`
	Site   string           `json:"site"`
	Epoch  int64            `json:"epoch"`
	Place  int64            `json:"place"`
	Seen   string           `json:"seen"`
	Lease  float64          `json:"lease_seconds"`
	Limits []string         `json:"limits"`
}

// New gives a Deployment. It asks nobody yet.
func New(config Config) (*Deployment, error) {
	if len(config.Addresses) == 0 {
		return nil, errors.New("there is no address to ask at")
	}
	dialer := &net.Dialer{Timeout: connectTime, KeepAlive: 15 * time.Second}
	asks := &http.Client{
		Transport: &http.Transport{DialContext: dialer.DialContext, TLSClientConfig: config.TLS, TLSHandshakeTimeout: connectTime,
			MaxIdleConnsPerHost: 64, IdleConnTimeout: time.Minute, DisableCompression: true},
		// A token is for who was asked.
		CheckRedirect: func(*http.Request, []*http.Request) error { return http.ErrUseLastResponse },
	}
	return &Deployment{config: config, http: asks, writer: config.Addresses[0]}, nil
}

// Update asks for an update, until it is acknowledged or can never be done, or the context ends.
func (d *Deployment) Update(ctx context.Context, changes ...string) (Acked, error) {
	number := d.nextNumber()
	for {
		acked, tries, err := d.update(ctx, number, changes)
		var told *Error
		if tries > 1 || !errors.As(err, &told) || told.Name != Passed {
			return acked, err
		}
		// This number was asked for the first time, so nothing was done under it.
		d.lock.Lock()
		if d.last < told.Last {
			d.last = told.Last
		}
		d.last++
		number = d.last
		d.lock.Unlock()
	}
}

// UpdateAs asks for an update under a number of the caller, for the first time or again.
func (d *Deployment) UpdateAs(ctx context.Context, number int64, changes ...string) (Acked, error) {
	d.lock.Lock()
	if d.last < number {
		d.last = number
	}
	d.lock.Unlock()
	acked, _, err := d.update(ctx, number, changes)
	return acked, err
}

// nextNumber is above those of this Deployment, and by the clock above those before a restart.
func (d *Deployment) nextNumber() int64 {
	d.lock.Lock()
	defer d.lock.Unlock()
	d.last++
	if now := time.Now().UnixMicro(); d.last < now {
		d.last = now
	}
	return d.last
}

func (d *Deployment) update(ctx context.Context, number int64, changes []string) (acked Acked, tries int, err error) {
	body, err := json.Marshal(struct {
		Client  string   `json:"client"`
		Number  int64    `json:"number"`
		Changes []string `json:"changes"`
	}{d.config.Client, number, changes})
	if err != nil {
		return Acked{}, 0, fmt.Errorf("write the update: %w", err)
	}
	d.lock.Lock()
	first := d.writer
	d.lock.Unlock()
	asking := &asking{Deployment: d, number: number, address: first, addresses: d.config.Addresses, body: body}
	err = asking.untilAnswered(ctx, "/update", url.Values{}, &acked)
	d.lock.Lock()
	d.writer = asking.address
	d.lock.Unlock()
	if err == nil {
		d.See(acked.Seen)
	}
	return acked, asking.tries, err
}

// Read reads objects, or all, at a site: no less than was seen. Where the site does not get there in time the error is Behind.
func (d *Deployment) Read(ctx context.Context, site string, objects ...string) (Reading, error) {
	words := url.Values{}
	if seen := d.Seen(); seen != "" {
		words.Set("seen", seen)
	}
	var told struct {
		Reading
		Object string `json:"object"`
		Value  int64  `json:"value"`
	}
	path := "/values"
	if len(objects) == 1 {
		path = "/value/" + url.PathEscape(objects[0])
	}
	asking := &asking{Deployment: d, address: site, addresses: []string{site}}
	if err := asking.untilAnswered(ctx, path, words, &told); err != nil {
		return Reading{}, err
	}
	reading, all := told.Reading, told.Values
	if len(objects) == 1 {
		all = map[string]int64{told.Object: told.Value}
	}
	reading.Values = all
	if len(objects) > 0 {
		reading.Values = map[string]int64{}
	}
	for _, object := range objects {
		value, isThere := all[object]
		if !isThere {
			return Reading{}, &Error{Status: http.StatusNotFound, Name: NoSuchObject, Message: "the site has no object " + object}
		}
		reading.Values[object] = value
	}
	d.See(reading.Seen)
	return reading, nil
}

// Seen is what the updates and the readings have shown, for another client to See.
func (d *Deployment) Seen() string {
	d.lock.Lock()
	defer d.lock.Unlock()
	return d.seen
}

// See has later readings show no less than what was seen, also by another client.
func (d *Deployment) See(seen string) {
	d.lock.Lock()
	defer d.lock.Unlock()
	ownEpoch, ownPlace := parts(d.seen)
	if epoch, place := parts(seen); epoch > ownEpoch || epoch == ownEpoch && place > ownPlace {
		d.seen = seen
	}
}

// parts are the two of EPOCH.PLACE, or nothing.
func parts(seen string) (epoch, place int64) {
	one, other, _ := strings.Cut(seen, ".")
	epoch, _ = strconv.ParseInt(one, 10, 64)
	place, _ = strconv.ParseInt(other, 10, 64)
	return epoch, place
}

// An asking asks for one thing, at one address after the other.
type asking struct {
	*Deployment
	number    int64
	address   string
	addresses []string
	body      []byte
	tries     int
}

func (a *asking) untilAnswered(ctx context.Context, path string, words url.Values, to any) error {
	pause, last := leastPause, error(nil)
	for ctx.Err() == nil {
		a.tries++
		err := a.try(ctx, path, words, to)
		var told *Error
		if err == nil || errors.As(err, &told) && told.isForGood() {
			return err
		}
		if ctx.Err() == nil || last == nil {
			last = err
		}
		a.learn(told)
		if a.tries%(len(a.addresses)+1) == 0 {
			select {
			case <-time.After(pause):
			case <-ctx.Done():
			}
			if pause *= 2; pause > mostPause {
				pause = mostPause
			}
		}
	}
	if last == nil {
		last = ctx.Err()
	}
	return &NoAnswerError{a.number, last}
}

// learn has the next address asked, unless the one that answered has another answer later, or an answer named who is asked.
func (a *asking) learn(told *Error) {
	if told != nil {
		switch told.Name {
		case "Busy", "Full", "NotYet":
			return
		case notWriter:
			if a.follow(told.Writer) {
				return
			}
		}
	}
	next := 0
	for at, address := range a.addresses {
		if address == a.address {
			next = (at + 1) % len(a.addresses)
		}
	}
	a.address = a.addresses[next]
}

// follow has the address asked that an answer named, and not one of another scheme, since it would get the token.
func (a *asking) follow(writer string) bool {
	own, _, _ := strings.Cut(a.address, "://")
	scheme, _, isThere := strings.Cut(writer, "://")
	if !isThere || scheme != own || writer == a.address {
		return false
	}
	a.address = writer
	return true
}

// try asks once. An answer that is an error of a node is an Error.
func (a *asking) try(ctx context.Context, path string, words url.Values, to any) error {
	ctx, cancel := context.WithTimeout(ctx, tryTime)
	defer cancel()
	wait := tryWait
	if end, hasEnd := ctx.Deadline(); hasEnd && time.Until(end)*3/4 < wait {
		wait = time.Until(end) * 3 / 4
	}
	words.Set("wait", strconv.FormatFloat(math.Max(0, wait.Seconds()), 'f', 3, 64))
	method := http.MethodGet
	if a.body != nil {
		method = http.MethodPost
	}
	request, err := http.NewRequestWithContext(ctx, method, a.address+path+"?"+words.Encode(), bytes.NewReader(a.body))
	if err != nil {
		return fmt.Errorf("ask %s: %w", a.address, err)
	}
	if a.body != nil {
		request.Header.Set("Content-Type", "application/json")
	}
	if a.config.Token != nil {
		request.Header.Set("Authorization", "Bearer "+a.config.Token())
	}
	answer, err := a.http.Do(request)
	if err != nil {
		return err
	}
	defer answer.Body.Close()
	text, err := io.ReadAll(io.LimitReader(answer.Body, mostAnswer))
	if err != nil {
		return fmt.Errorf("read the answer of %s: %w", a.address, err)
	}
	writer := answer.Header.Get("Ordup-Writer")
	if answer.StatusCode == http.StatusOK {
		if err = json.Unmarshal(text, to); err != nil {
			return fmt.Errorf("read the answer of %s: %w", a.address, err)
		}
		a.follow(writer)
		return nil
	}
	told := &Error{}
	if json.Unmarshal(text, told) != nil || told.Name == "" {
		return fmt.Errorf("%s answers with status %d, and not as a node does", a.address, answer.StatusCode)
	}
	told.Status = answer.StatusCode
	if told.Writer == "" {
		told.Writer = writer
	}
	return told
}
