package serve_test

import (
	"bytes"
	"context"
	"fmt"
	"net/http"
	"os"
	"path/filepath"
	"strings"
	"testing"

	"ordup.dev/node/internal/client"
	"ordup.dev/node/internal/fleet"
	"ordup.dev/node/internal/logs"
	"ordup.dev/node/internal/script"
	"ordup.dev/node/internal/serve"
)

func tokens(t *testing.T, text string) string {
	t.Helper()
	file := filepath.Join(t.TempDir(), "tokens")
	if err := os.WriteFile(file, []byte(text), 0o600); err != nil {
		t.Fatal(err)
	}
	return file
}

func TestEachRoleHasItsTokens(t *testing.T) {
	t.Parallel()
	guard, writer := &serve.Guard{}, &writer{answer: script.Answer{Place: 1, Epoch: 1}}
	for role, text := range map[serve.Role]string{serve.Clients: "client-token-0001\n", serve.Sites: "site-token-00001\n",
		serve.Operators: "# old and new\noperator-token-1\noperator-token-2\n"} {
		if err := guard.Load(role, tokens(t, text)); err != nil {
			t.Fatal(err)
		}
	}
	address := startPrimary(t, guard, writer)
	place := `{"site":"north","member":"north","epoch":1,"applied":1,"entry":1}`
	given := map[string]bool{}
	for _, token := range []string{"", "client-token-0001", "site-token-00001", "operator-token-1", "operator-token-2", "client-token-0002", "client-token-00011"} {
		for _, path := range []string{"/update", "/place", "/next", "/epoch", "/metrics", "/", "/healthz", "/readyz"} {
			method, body := "POST", map[string]string{"/update": good, "/place": place, "/next": `{"from":1}`}[path]
			if body == "" {
				method = "GET"
			}
			status, _ := ask(t, method, address+path, body, "Authorization", "Bearer "+token)
			given[token+" "+path] = status != 401
		}
	}
	for call, allowed := range given {
		token, path, _ := strings.Cut(call, " ")
		want := path == "/healthz" || path == "/readyz" || token == "client-token-0001" && path == "/update" || token == "site-token-00001" && path == "/place" ||
			strings.HasPrefix(token, "operator-token") && path != "/update" && path != "/place"
		if allowed != want {
			t.Errorf("%s: %v", call, allowed)
		}
	}
	for role, texts := range map[serve.Role][]string{serve.Clients: {"", "# none\n", "short\n", "client-token-0001 north\n"},
		serve.Sites: {"three-words-are none here\n", "site-token-00001 North\n", "short north\n"}} {
		for _, text := range texts {
			if err := guard.Load(role, tokens(t, text)); err == nil {
				t.Errorf("%q has a token", text)
			}
		}
	}
	if err := guard.Load(serve.Clients, "/nowhere"); err == nil {
		t.Error("a file is there that is none")
	}
}

// Whoever may read a file of tokens has its roles, so it is said where that is each user of the host.
func TestAFileOfTokensThatAllReadIsTold(t *testing.T) {
	t.Parallel()
	var said bytes.Buffer
	guard := &serve.Guard{Log: logs.New(&said)}
	for mode, wants := range map[os.FileMode]int{0o600: 0, 0o640: 0, 0o644: 1} {
		said.Reset()
		file := tokens(t, "client-token-0001\n")
		if err := os.Chmod(file, mode); err != nil {
			t.Fatal(err)
		}
		if err := guard.Load(serve.Clients, file); err != nil || strings.Count(said.String(), "warn tokens-are-for-everybody file="+file) != wants {
			t.Error(mode, err, said.String())
		}
	}
}

// A browser keeps a password, and sends it for any page. So it is for what is read.
func TestAPasswordIsForWhatIsRead(t *testing.T) {
	t.Parallel()
	guard, writer := &serve.Guard{}, &writer{answer: script.Answer{Place: 1, Epoch: 1}}
	if err := guard.Load(serve.Operators, tokens(t, "operator-token-1\n")); err != nil {
		t.Fatal(err)
	}
	address := startPrimary(t, guard, writer)
	const password = "Basic YW5uOm9wZXJhdG9yLXRva2VuLTE=" // ann:operator-token-1
	status, text := ask(t, "GET", address+"/epoch", "", "Authorization", password)
	is(t, "it is read", status, text, 503, "NotWriter")
	status, text = ask(t, "POST", address+"/next", `{"from":1}`, "Authorization", password)
	is(t, "it is asked for", status, text, 401, "NoToken")
	status, text = ask(t, "POST", address+"/next", `{"from":1}`, "Authorization", "Bearer operator-token-1")
	is(t, "a token", status, text, 200, `{"epoch":2}`)
	if len(writer.wishes) != 1 {
		t.Error(writer.wishes)
	}
}

// A page of any origin may have a browser send what needs no header of its own. None of that changes something, with tokens or without.
func TestNoPageInABrowserChangesSomething(t *testing.T) {
	t.Parallel()
	writer := &writer{answer: script.Answer{Place: 1, Epoch: 1}}
	address := startPrimary(t, nil, writer)
	place := `{"site":"north","member":"north","epoch":1,"applied":1,"entry":1}`
	for path, body := range map[string]string{"/update": good, "/next": `{"from":1}`, "/place": place} {
		for _, row := range []struct {
			kind, origin string
			status       int
			want         string
		}{
			{"text/plain", "", 415, "NotJSON"},
			{"application/x-www-form-urlencoded", "", 415, "NotJSON"},
			{"", "", 415, "NotJSON"},
			{"application/jsonp", "", 415, "NotJSON"},
			{"application/json", "https://evil.example", 403, "OtherOrigin"},
			{"application/json", "null", 403, "OtherOrigin"},
			{"application/json", address, 403, "OtherOrigin"},
			{"text/plain", "https://evil.example", 403, "OtherOrigin"},
		} {
			t.Run(path+" "+row.kind+" "+row.origin, func(t *testing.T) {
				status, text := ask(t, "POST", address+path, body, "Content-Type", row.kind, "Origin", row.origin)
				is(t, path+row.kind+row.origin, status, text, row.status, `"error":"`+row.want+`"`)
			})
		}
	}
	if len(writer.asked)+len(writer.places)+len(writer.wishes) > 0 {
		t.Error(writer.asked, writer.places, writer.wishes)
	}
	status, text := ask(t, "POST", address+"/update", good, "Content-Type", "Application/JSON; charset=utf-8")
	is(t, "JSON", status, text, 200, "1.1")
}

// Once somebody needs a token, a role without one is closed, unless it is said to be open.
func TestARoleWithoutTokensIsClosed(t *testing.T) {
	t.Parallel()
	place := `{"site":"north","member":"north","epoch":1,"applied":1,"entry":1}`
	for _, row := range []struct {
		open                               []serve.Role
		update, place, next, look, healthz int
	}{
		{nil, 401, 403, 403, 403, 200},
		{[]serve.Role{serve.Operators}, 401, 403, 200, 404, 200},
		{[]serve.Role{serve.Sites, serve.Operators}, 401, 200, 200, 404, 200},
	} {
		t.Run(fmt.Sprint("open to ", row.open), func(t *testing.T) {
			guard := &serve.Guard{}
			if err := guard.Load(serve.Clients, tokens(t, "client-token-0001\n")); err != nil {
				t.Fatal(err)
			}
			for _, role := range row.open {
				if err := guard.Load(role, serve.Open); err != nil {
					t.Fatal(err)
				}
			}
			address := startPrimary(t, guard, &writer{answer: script.Answer{Place: 1, Epoch: 1}})
			for _, call := range []struct {
				method, path, body string
				want               int
			}{{"POST", "/update", good, row.update}, {"POST", "/place", place, row.place}, {"POST", "/next", `{"from":1}`, row.next},
				{"GET", "/metrics", "", row.look}, {"GET", "/healthz", "", row.healthz}} {
				if status, text := ask(t, call.method, address+call.path, call.body); status != call.want {
					t.Error(row.open, call.path, status, text)
				}
			}
		})
	}
	if asks := (&serve.Guard{}).Asks(serve.Sites); asks != serve.Open {
		t.Error(asks)
	}
}

// A token that names a site tells for it alone: at a primary under its name in the script, and at a fleet under its own.
func TestATokenOfASiteTellsForItAlone(t *testing.T) {
	t.Parallel()
	guard, writer := &serve.Guard{}, &writer{}
	if err := guard.Load(serve.Sites, tokens(t, "token-of-any-site\ntoken-of-far-0001 far\ntoken-of-east-001 east # and more\n")); err == nil {
		t.Error("a line has more than a token and a site")
	}
	if err := guard.Load(serve.Sites, tokens(t, "token-of-any-site\ntoken-of-far-0001 far\ntoken-of-east-001\teast\n")); err != nil {
		t.Fatal(err)
	}
	one := startPrimary(t, guard, writer)
	upper, err := client.New(client.Config{Addresses: []string{one}, Token: func() string { return "token-of-far-0001" }})
	if err != nil {
		t.Fatal(err)
	}
	far := fleet.New("far", []string{"east", "west"}, upper)
	if err := far.Look(context.Background(), noKeys{}); err != nil {
		t.Fatal(err)
	}
	other := listenAt(t, func(string) http.Handler { return serve.NewFleet(config(guard), far) })
	for _, row := range []struct {
		address, token, site, member string
		status                       int
	}{
		{one, "token-of-any-site", "north", "north", 200},
		{one, "token-of-far-0001", "north", "north", 403},
		{one, "token-of-far-0001", "far", "far", 200},
		{one, "token-of-east-001", "far", "far", 403},
		{other, "token-of-east-001", "far", "west", 403},
		{other, "token-of-east-001", "far", "east", 200},
		{other, "token-of-far-0001", "far", "west", 403},
		{other, "token-of-any-site", "far", "west", 200},
	} {
		t.Run(row.token+" "+row.site+" "+row.member, func(t *testing.T) {
			body := fmt.Sprintf(`{"site":%q,"member":%q,"epoch":1,"applied":1,"entry":1}`, row.site, row.member)
			if status, text := ask(t, "POST", row.address+"/place", body, "Authorization", "Bearer "+row.token); status != row.status {
				t.Error(row, status, text)
			}
		})
	}
	if len(writer.places) != 3 { // The fleet told once, when both had.
		t.Error(writer.places)
	}
}
