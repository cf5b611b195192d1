package client_test

import (
	"bytes"
	"net/http"
	"net/http/httptest"
	"os/exec"
	"strings"
	"sync/atomic"
	"testing"

	"ordup.dev/node/internal/wire"
)

// The client in Python asks as this one does, and ends with its statuses, but where the store refuses an update.
func TestTheClientInPython(t *testing.T) {
	t.Parallel()
	if _, err := exec.LookPath("python3"); err != nil {
		t.Skip("there is no python3 here")
	}
	page := func(to http.ResponseWriter) { to.WriteHeader(404); to.Write([]byte("<html>")) }
	list := func(to http.ResponseWriter) { to.WriteHeader(404); to.Write([]byte("[1]")) }
	for _, row := range []struct {
		what    string
		answers []func(http.ResponseWriter)
		status  int
		says    string
	}{
		{"at last", []func(http.ResponseWriter){failing(wire.Busy), failing(wire.Full), noNode, page, list, acked}, 0, `"seen": "1.3"`},
		{"refused", []func(http.ResponseWriter){failing(wire.Refused)}, 2, `"error": "Refused"`},
		{"passed", []func(http.ResponseWriter){failing(wire.Passed)}, 2, `"error": "Passed"`},
		{"no node", []func(http.ResponseWriter){page}, 1, "there is no answer yet"},
		{"full", []func(http.ResponseWriter){failing(wire.Full)}, 1, `"error": "Full"`},
	} {
		t.Run(row.what, func(t *testing.T) {
			var count atomic.Int64
			asked := exec.Command("python3", "../../../examples/machines/update.py", "--patience", "1.5", server(t, &count, row.answers...), "ann", "1", "add:tea:-5")
			said, _ := asked.CombinedOutput()
			if status := asked.ProcessState.ExitCode(); status != row.status || !strings.Contains(string(said), row.says) || bytes.Contains(said, []byte("Traceback")) {
				t.Errorf("%s: %d %s", row.what, status, said)
			}
		})
	}
	kind := ""
	server := httptest.NewServer(http.HandlerFunc(func(to http.ResponseWriter, asked *http.Request) {
		kind = asked.Header.Get("Content-Type")
		acked(to)
	}))
	defer server.Close()
	said, err := exec.Command("python3", "../../../examples/machines/update.py", server.URL, "ann", "1", "add:tea:-5").CombinedOutput()
	if err != nil || kind != "application/json" {
		t.Error(kind, err, string(said))
	}
}
