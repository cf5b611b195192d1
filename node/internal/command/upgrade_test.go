package command_test

import (
	"context"
	"io"
	"net/http"
	"path/filepath"
	"strings"
	"testing"
	"time"

	"ordup.dev/node/internal/archive"
	"ordup.dev/node/internal/etcdtest"
	"ordup.dev/node/internal/exit"
)

var older, newer = []string{"1.0"}, []string{"1.1~dev", "1.0"}

// replaceAll has each process end, and starts it anew by a program of these versions: the primary that writes comes last.
func (d *deployment) replaceAll(versions []string) {
	d.t.Helper()
	d.versions = versions
	primaries := []string{"p1", "p2"}
	if d.has("p1", "/metrics", "\nordup_primary_writes 1\n") {
		primaries = []string{"p2", "p1"}
	}
	for _, name := range append([]string{"north", "far", "east"}, primaries...) {
		if status, log := d.stops[name](); status != exit.Done {
			d.t.Error(name, status, log)
		}
		d.start(name, d.words[name]...)
	}
	for _, name := range primaries {
		d.until(func() bool { return d.has(name, "/readyz", "ok") })
	}
}

// word is what a process was started with behind a word, at last.
func (d *deployment) word(name, before string) (found string) {
	for at, word := range d.words[name] {
		if word == before {
			found = d.words[name][at+1]
		}
	}
	return found
}

// has is whether a primary answers well at a path, with this in its answer.
func (d *deployment) has(name, path, part string) bool {
	answer, err := http.Get("http://" + d.word(name, "--listen") + path)
	if err != nil {
		return false
	}
	defer answer.Body.Close()
	said, _ := io.ReadAll(answer.Body)
	return answer.StatusCode == http.StatusOK && strings.Contains(string(said), part)
}

func (d *deployment) until(is func() bool) {
	d.t.Helper()
	for tries := 0; !is(); tries++ {
		if tries == 400 {
			d.t.Fatal("it does not come")
		}
		time.Sleep(50 * time.Millisecond)
	}
}

// beside starts one more primary or site with the words of another one, by a program of these versions.
func (d *deployment) beside(name string, versions []string, like string) {
	d.versions = versions
	words := append([]string{}, d.words[like]...)
	d.start(name, append(words, "--host", name, "--listen", etcdtest.FreePort(d.t))...)
}

// All processes come to a new version while clients ask, and go back to the old one. The script is run by the new version in between.
func TestAnUpgradeAndTheWayBack(t *testing.T) {
	deployment := deploy(t)
	deployment.is(0, "ok acked 1 epoch 1\n", "update", "ann", "1", "add:tea:-1")
	deployment.is(2, "cannot be run by ordup 1.1~dev: this program has [1.0]", "next", "--ordup", "1.1~dev")
	deployment.replaceAll(newer)
	deployment.is(0, "ok acked 2 epoch 1\n", "update", "ann", "2", "add:tea:-1")
	deployment.is(0, "epoch 2\n", "next")
	// An old program runs the script as long as that is of its version, and ends where it is not.
	deployment.beside("p3", older, "p1")
	deployment.until(func() bool { return deployment.has("p3", "/readyz", "ok") })
	deployment.is(0, "epoch 3\n", "next", "--ordup", "1.1~dev")
	deployment.beside("p4", older, "p1")
	deployment.beside("s1", older, "north")
	for _, name := range []string{"p3", "p4", "s1"} {
		if status, log := deployment.ended(name); status != exit.Words || !strings.Contains(log, "is run by ordup 1.1~dev") {
			t.Error(name, status, log)
		}
	}
	deployment.is(0, "ok acked 1 epoch 3\n", "update", "ann", "3", "add:tea:-1")
	deployment.is(0, "epoch 4\n", "next", "--ordup", "1.0")
	deployment.replaceAll(older)
	deployment.is(0, "ok acked 1 epoch 4\n", "update", "ann", "4", "add:tea:-1")
	deployment.is(0, "epoch 4 place 1 tea=996 till=0\n", "value", "--seen", "4.1")
	deployment.is(0, "epoch 5\n", "next")
	// Archives are of both versions: a program that has both audits them.
	one, two := deployment.word("p1", "--archive"), deployment.word("p2", "--archive")
	deployment.until(func() bool {
		found, _ := filepath.Glob(filepath.Join(one, "..", "p?", archive.NameOf(4)))
		return len(found) > 0
	})
	if status, out, log := runAs(context.Background(), newer, "fsck", one, two); status != exit.Done || !strings.Contains(out, "ok 4 archives") {
		t.Error(status, out, log)
	}
	if status, _, log := runAs(context.Background(), older, "fsck", one, two); status != exit.Words {
		t.Error(status, log)
	}
}
