package client_test

import (
	"context"
	"errors"
	"fmt"
	"net/http"
	"net/http/httptest"
	"os/exec"
	"strings"
	"sync/atomic"
	"testing"
	"time"

	"ordup.dev/node/internal/wire"
	"ordup.dev/ordup/node"
)

// An asked is what a client in another language makes of the answers to one update: the name of an error, `NoAnswer` or "", and whose number
// or place it tells.
type asked func(t *testing.T, addresses string) (name, told string)

// Python asks by clients/python/ordup_node.py, for a second at most.
const inPython = `
import sys
sys.path.insert(0, "../../../clients/python")
from ordup_node import Deployment, Error, NoAnswer, Passed
try:
    print("", Deployment(sys.argv[1].split(","), "ann", token="secret", timeout=2.0).update(["add:tea:-5"], 1).seen)
except Passed as error:
    print(error.name, error.last)
except Error as error:
    print(error.name, error.status)
except NoAnswer as error:
    print("NoAnswer", error.number)
`

func askedInPython(t *testing.T, addresses string) (name, told string) {
	t.Helper()
	said, err := exec.Command("python3", "-B", "-c", inPython, addresses).CombinedOutput()
	name, told, _ = strings.Cut(strings.TrimSuffix(string(said), "\n"), " ")
	if err != nil {
		t.Error(err, string(said))
	}
	return name, told
}

func askedInGo(t *testing.T, addresses string) (name, told string) {
	t.Helper()
	shop, err := node.New(node.Config{Addresses: strings.Split(addresses, ","), Client: "ann", Token: func() string { return "secret" }})
	if err != nil {
		t.Fatal(err)
	}
	ctx, cancel := context.WithTimeout(context.Background(), 2*time.Second)
	defer cancel()
	acked, err := shop.UpdateAs(ctx, 1, "add:tea:-5")
	var failed *node.Error
	var none *node.NoAnswerError
	switch {
	case errors.As(err, &none):
		return "NoAnswer", fmt.Sprint(none.Number)
	case errors.As(err, &failed):
		if !errors.Is(err, failed.Name) || errors.Is(err, node.Name("Teapot")) {
			t.Error("it is compared by another name", err)
		}
		return string(failed.Name), ""
	case err != nil:
		t.Error(err)
	}
	return "", acked.Seen
}

func languages(t *testing.T) map[string]asked {
	t.Helper()
	all := map[string]asked{"Go": askedInGo}
	if _, err := exec.LookPath("python3"); err == nil {
		all["Python"] = askedInPython
	} else {
		t.Log("there is no python3 here")
	}
	return all
}

// The clients for users know each error of the table: one that is for good comes to the caller, and after all others they ask again.
func TestTheClientsKnowTheErrorsOfTheTable(t *testing.T) {
	t.Parallel()
	for language, ask := range languages(t) {
		ask := ask
		for _, each := range wire.Names() {
			each := each
			t.Run(language+" "+string(each), func(t *testing.T) {
				t.Parallel()
				var count atomic.Int64
				name, told := ask(t, server(t, &count, failing(each), acked))
				switch {
				case each.Again() == wire.Never && (name != string(each) || count.Load() != 1):
					t.Errorf("it is for good: %s %s after %d", name, told, count.Load())
				case each.Again() != wire.Never && (name != "" || told != "1.3" || count.Load() != 2):
					t.Errorf("it is asked again: %s %s after %d", name, told, count.Load())
				}
			})
		}
	}
}

// They go to the next address, or stay, or follow who writes, as the client of the node does.
func TestTheClientsGoOn(t *testing.T) {
	t.Parallel()
	const nobody = "http://127.0.0.1:1"
	page := func(to http.ResponseWriter) { to.WriteHeader(404); to.Write([]byte("<html>")) }
	for language, ask := range languages(t) {
		ask := ask
		t.Run(language, func(t *testing.T) {
			t.Parallel()
			for _, row := range []struct {
				what string
				// The first address answers by first, and the other one by acked. One is how often the first is asked.
				first func(other string) func(http.ResponseWriter)
				one   int64
			}{
				{"a node that fails", func(string) func(http.ResponseWriter) { return failing(wire.Failed) }, 1},
				{"what is no node", func(string) func(http.ResponseWriter) { return noNode }, 1},
				{"a page", func(string) func(http.ResponseWriter) { return page }, 1},
				{"another one writes", naming, 1},
				{"another one writes, by the header", passed, 1},
				{"nobody writes", func(string) func(http.ResponseWriter) { return naming("") }, 1},
			} {
				t.Run(row.what, func(t *testing.T) {
					var one, other atomic.Int64
					right := server(t, &other, acked)
					addresses := server(t, &one, row.first(right))
					if !strings.HasPrefix(row.what, "another") {
						addresses += "," + right
					}
					if name, told := ask(t, addresses); name != "" || told != "1.3" || one.Load() != row.one || other.Load() != 1 {
						t.Error(name, told, one.Load(), other.Load())
					}
				})
			}
			var count atomic.Int64
			if name, told := ask(t, nobody+","+server(t, &count, failing(wire.Busy), acked)); name != "" || told != "1.3" || count.Load() != 2 {
				t.Error("it stays where too many wait", name, told, count.Load())
			}
			if name, told := ask(t, nobody); name != "NoAnswer" || told != "1" {
				t.Error("nobody is there", name, told)
			}
			if name, told := ask(t, server(t, &count, naming("https://127.0.0.1:1"))); name != "NoAnswer" || told != "1" {
				t.Error("an address of another scheme", name, told)
			}
		})
	}
}

// What they send is what a node takes.
func TestTheClientsSendWhatANodeTakes(t *testing.T) {
	t.Parallel()
	for language, ask := range languages(t) {
		t.Run(language, func(t *testing.T) {
			var got wire.Update
			sent := make(http.Header)
			query := ""
			server := httptest.NewServer(http.HandlerFunc(func(to http.ResponseWriter, asked *http.Request) {
				sent, query = asked.Header, asked.URL.RawQuery
				if err := wire.Read(asked.Body, &got); err != nil || asked.URL.Path != wire.UpdatePath {
					t.Error(asked.URL, err)
				}
				acked(to)
			}))
			defer server.Close()
			ask(t, server.URL)
			if got.Client != "ann" || got.Number != 1 || len(got.Changes) != 1 || got.Changes[0] != "add:tea:-5" {
				t.Error(got)
			}
			if sent.Get("Content-Type") != "application/json" || sent.Get("Authorization") != "Bearer secret" || !strings.HasPrefix(query, "wait=1.") {
				t.Error(sent, query)
			}
		})
	}
}

// A shop stands in for a primary and a site. It notes what is asked.
type shop struct {
	numbers []int64
	seen    []string
	// Passed are the answers to the first updates: the last number of the client, or 0 where the answer is lost.
	passed []int64
	place  int64
}

func (s *shop) ServeHTTP(to http.ResponseWriter, asked *http.Request) {
	if asked.Method == http.MethodGet {
		s.seen = append(s.seen, asked.URL.Query().Get("seen"))
		s.place++
		showing := wire.Showing{Site: "north", Epoch: 1, Place: s.place, Seen: wire.SeenText(1, s.place), Limits: []string{"count 3"}}
		if asked.URL.Path == wire.ValuesPath {
			wire.Write(to, 200, wire.Values{Values: map[string]int64{"tea": 995, "till": 20}, Showing: showing})
		} else {
			wire.Write(to, 200, wire.Value{Object: strings.TrimPrefix(asked.URL.Path, wire.ValuePath), Value: 995, Showing: showing})
		}
		return
	}
	var update wire.Update
	if err := wire.Read(asked.Body, &update); err != nil {
		failing(wire.Malformed)(to)
		return
	}
	s.numbers = append(s.numbers, update.Number)
	switch at := len(s.numbers) - 1; {
	case update.Changes[0] == "add:milk:1":
		told := wire.NewError(wire.Refused, "refused 6 UnknownObject")
		told.Refused, told.Refusal = 6, "UnknownObject"
		wire.Write(to, told.Status, told)
	case at < len(s.passed) && s.passed[at] == 0:
		failing(wire.Failed)(to)
	case at < len(s.passed):
		told := wire.NewError(wire.Passed, "the client asked before")
		told.Last = s.passed[at]
		wire.Write(to, told.Status, told)
	default:
		wire.Write(to, 200, wire.Acked{Client: "ann", Number: update.Number, Epoch: 1, Place: 3, Seen: "1.3"})
	}
}

// visit updates, reads twice, sees 2.1, and reads again.
func visit(t *testing.T, language, address string) string {
	t.Helper()
	if language == "Python" {
		said, err := exec.Command("python3", "-B", "-c", `
import sys
sys.path.insert(0, "../../../clients/python")
from ordup_node import Deployment, Error
shop = Deployment([sys.argv[1]], "ann")
try:
    shop.update(["add:tea:-5"])
    values = [shop.read(sys.argv[1], "tea").values, shop.read([sys.argv[1]]).values]
    shop.see("2.1")
    shop.see("1.9")
    shop.read(sys.argv[1], "tea", "till")
    print(*(f"{key}={it[key]}" for it in values for key in sorted(it)))
except Error as error:
    print(error.name)
`, address).CombinedOutput()
		if err != nil {
			t.Error(err)
		}
		return strings.TrimSpace(string(said))
	}
	shop, err := node.New(node.Config{Addresses: []string{address}, Client: "ann"})
	if err != nil {
		t.Fatal(err)
	}
	ctx, cancel := context.WithTimeout(context.Background(), 20*time.Second)
	defer cancel()
	if _, err = shop.Update(ctx, "add:tea:-5"); err != nil {
		var failed *node.Error
		errors.As(err, &failed)
		return string(failed.Name)
	}
	one, err := shop.Read(ctx, address, "tea")
	if err != nil {
		t.Fatal(err)
	}
	all, err := shop.Read(ctx, address)
	shop.See("2.1")
	shop.See("1.9")
	if _, failure := shop.Read(ctx, address, "tea", "till"); err != nil || failure != nil {
		t.Fatal(err, failure)
	}
	return fmt.Sprintf("tea=%d tea=%d till=%d", one.Values["tea"], all.Values["tea"], all.Values["till"])
}

// A reading says what was seen before, by an update, a reading or another client.
func TestTheClientsAreShownNoLess(t *testing.T) {
	t.Parallel()
	for language := range languages(t) {
		t.Run(language, func(t *testing.T) {
			stands := &shop{place: 3}
			server := httptest.NewServer(stands)
			defer server.Close()
			if said := visit(t, language, server.URL); said != "tea=995 tea=995 till=20" || fmt.Sprint(stands.seen) != "[1.3 1.4 2.1]" {
				t.Error(said, stands.seen)
			}
		})
	}
}

// A number that they choose is above those before a restart. Where it is not, the next one is, unless an answer was lost under it: then an
// update may be done, and the caller is told.
func TestTheClientsGoOnAfterARestart(t *testing.T) {
	t.Parallel()
	const later = 4_000_000_000_000_000
	for language := range languages(t) {
		for _, row := range []struct {
			what   string
			passed []int64
			says   string
			asked  int
		}{
			{"the clock is right", nil, "tea=995 tea=995 till=20", 1},
			{"the clock went back", []int64{later}, "tea=995 tea=995 till=20", 2},
			{"an answer is lost", []int64{0, later}, "Passed", 2},
		} {
			t.Run(language+" "+row.what, func(t *testing.T) {
				stands := &shop{passed: row.passed}
				server := httptest.NewServer(stands)
				defer server.Close()
				before := time.Now().UnixMicro()
				said := visit(t, language, server.URL)
				if said != row.says || len(stands.numbers) != row.asked || stands.numbers[0] < before || stands.numbers[0] > time.Now().UnixMicro() {
					t.Error(said, stands.numbers)
				}
				if last := stands.numbers[len(stands.numbers)-1]; row.what == "the clock went back" && last != later+1 {
					t.Error(stands.numbers)
				}
			})
		}
	}
}

// The example of the module in Python is what it does.
func TestTheExampleInPython(t *testing.T) {
	t.Parallel()
	if _, isThere := languages(t)["Python"]; !isThere {
		t.Skip("there is no python3 here")
	}
	server := httptest.NewServer(&shop{})
	defer server.Close()
	said, err := exec.Command("python3", "-B", "-c", `
import doctest, re, sys
sys.path.insert(0, "../../../clients/python")
import ordup_node
text, count = re.subn(r"http://10\.0\.0\.\d:\d+", sys.argv[1], ordup_node.__doc__)
test = doctest.DocTestParser().get_doctest(text, vars(ordup_node), "example", None, 0)
result = doctest.DocTestRunner().run(test)
sys.exit(result.failed or count != 3 or result.attempted != 4)
`, server.URL).CombinedOutput()
	if err != nil {
		t.Error(err, string(said))
	}
}
