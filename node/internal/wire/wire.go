// Package wire has what travels by HTTP: the table of paths, bodies in JSON, and the table of errors. Servers take their routes from it,
// and clients what an answer means. docs/HTTP.md has the tables for users, and openapi.json for programs, both printed by
//
//	go test ./internal/wire -write
//
// One path more is a row of Paths, a call of `answers` by the server of a process, and in the tests of package serve what brings each of
// its errors about. One error more is a row of rows, which some path names.
package wire

import (
	"encoding/json"
	"errors"
	"fmt"
	"io"
	"net/http"
	"strconv"
	"strings"
	"time"
)

// Headers of answers and requests.
const (
	// WriterHeader names the primary that writes, for whoever asks again.
	WriterHeader = "Ordup-Writer"
	// PassedHeader says that another primary has passed the request on, so that it goes no further.
	PassedHeader = "Ordup-Passed"
)

const (
	// UsualWait is how long an answer is waited for where the request does not say it, and MostWait how long at most.
	UsualWait, MostWait = 10 * time.Second, 60 * time.Second
	// MostBody is how many bytes the body of a request may have, and MostNextBody how many that of Next, which has declarations.
	MostBody, MostNextBody = 16 << 10, 1 << 20
	// MostAnswer is how many bytes a client reads of an answer.
	MostAnswer = 1 << 20
)

// What each field is, for who sends or reads it, is its tag `says`.

// An Update is what a client asks.
type Update struct {
	Client  string   `json:"client" says:"the name of the client"`
	Number  int64    `json:"number" says:"the client's own number, greater than its last one"`
	Changes []string `json:"changes" says:"each one word, as add:tea:-5"`
}

// An Acked says that an update is acknowledged.
type Acked struct {
	Client string `json:"client" says:"as it was asked"`
	Number int64  `json:"number" says:"as it was asked"`
	Epoch  int64  `json:"epoch" says:"the epoch of the update"`
	Place  int64  `json:"place" says:"which update of the epoch it is"`
	Seen   string `json:"seen" says:"both, as a reader says that it has seen the update"`
}

// A Place is what a site tells.
type Place struct {
	Site    string `json:"site" says:"the site, or the fleet, in the script"`
	Member  string `json:"member" says:"the site in the fleet, and else the site again"`
	Epoch   int64  `json:"epoch" says:"the epoch that it shows"`
	Applied int64  `json:"applied" says:"how many updates of it"`
	Entry   int64  `json:"entry" says:"the number of the last entry that it has run"`
	Digest  string `json:"digest" says:"the digest of that entry"`
}

// A Done says that something is done.
type Done struct{}

// A Next asks for the epoch after From. What is zero or empty in it stays as it is.
type Next struct {
	From             int64  `json:"from" says:"the epoch that is to end"`
	Every            int64  `json:"every,omitempty" says:"after how many requests an epoch ends"`
	Remembers        int64  `json:"remembers,omitempty" says:"for how many whole epochs a client is remembered"`
	RemembersSeconds int64  `json:"remembers_seconds,omitempty" says:"and for how many seconds at least"`
	Ordup            string `json:"ordup,omitempty" says:"the version of ordup that runs the epoch"`
	Declarations     string `json:"declarations,omitempty" says:"the text of a file with declarations"`
	Replaces         bool   `json:"replaces,omitempty" says:"whether it takes the place of what was asked for before"`
}

// A Begun says which epoch has begun.
type Begun struct {
	Epoch int64 `json:"epoch" says:"the epoch that has begun"`
}

// A Relimit asks for a limit of a site, from the next update on that is acknowledged. It may be asked again: a limit that is so already
// stays.
type Relimit struct {
	Site  string `json:"site" says:"the site, or the fleet, that is to have it"`
	Limit string `json:"limit" says:"its limit, as count 3, or count none, which is as good as no limit"`
}

// A Limited says from which update of an epoch on a site has the limit.
type Limited struct {
	Site  string `json:"site" says:"as it was asked"`
	Limit string `json:"limit" says:"the limit, whose none is a number"`
	Epoch int64  `json:"epoch" says:"the epoch in which the site has it"`
	Place int64  `json:"place" says:"from which update of it on"`
}

// A Showing is what a reader is told beside the values, as the entries of the script say which the site has run.
//
// What is acknowledged later and not shown weighs at most Limits, unless an operator has given the site greater ones since.
type Showing struct {
	Site         string   `json:"site" says:"the site that was asked"`
	Epoch        int64    `json:"epoch" says:"the epoch that it shows"`
	Place        int64    `json:"place" says:"how many updates of it"`
	Seen         string   `json:"seen" says:"both, as a reader says that it has seen them"`
	Acknowledged int64    `json:"acknowledged" says:"how many of these are acknowledged, as far as the site knows"`
	Lease        float64  `json:"lease_seconds" says:"for how many seconds the site may serve without hearing of the engine"`
	Limits       []string `json:"limits" says:"the limits of the site, as count 3: what is acknowledged later and not shown weighs no more"`
}

// A Value is that of one object. It is no further than Import from what the acknowledged updates make of it.
type Value struct {
	Object string `json:"object" says:"the name of the object"`
	Value  int64  `json:"value" says:"its value"`
	Import int64  `json:"import" says:"how far the updates that are shown beyond the acknowledged ones move it"`
	Showing
}

// A Values is those of all objects. Imports has those that are not 0.
type Values struct {
	Values  map[string]int64 `json:"values" says:"the value of each object"`
	Imports map[string]int64 `json:"imports,omitempty" says:"the import of each value that has one but 0"`
	Showing
}

// SeenText is what a reader has seen, as it says it.
func SeenText(epoch, place int64) string {
	return strconv.FormatInt(epoch, 10) + "." + strconv.FormatInt(place, 10)
}

// ParseSeen reads EPOCH.PLACE.
func ParseSeen(text string) (epoch, place int64, err error) {
	one, other, isPair := strings.Cut(text, ".")
	epoch, err = strconv.ParseInt(one, 10, 64)
	if err == nil {
		place, err = strconv.ParseInt(other, 10, 64)
	}
	if err != nil || !isPair || epoch < 0 || place < 0 {
		return 0, 0, fmt.Errorf("%.40q is not EPOCH.PLACE", text)
	}
	return epoch, place, nil
}

// Read reads one value of JSON, and nothing else, into a struct that has a field for all that it has.
func Read(from io.Reader, to any) error {
	decoder := json.NewDecoder(from)
	decoder.DisallowUnknownFields()
	if err := decoder.Decode(to); err != nil {
		return err
	}
	if _, err := decoder.Token(); err != io.EOF {
		if err == nil {
			err = errors.New("something follows the JSON")
		}
		return err
	}
	return nil
}

// Write writes a value as JSON and a line feed.
func Write(to http.ResponseWriter, status int, value any) {
	text, err := json.Marshal(value)
	if err != nil {
		failed := NewError(Failed, "an answer is not written as JSON")
		status = failed.Status
		text, _ = json.Marshal(failed)
	}
	to.Header().Set("Content-Type", "application/json")
	to.Header().Set("Cache-Control", "no-store")
	to.WriteHeader(status)
	to.Write(append(text, '\n'))
}
