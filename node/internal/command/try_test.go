package command_test

import (
	"context"
	"encoding/json"
	"io"
	"net/http"
	"os"
	"os/exec"
	"path/filepath"
	"regexp"
	"strings"
	"testing"
	"time"

	"ordup.dev/node/internal/command"
	"ordup.dev/node/internal/embedded"
	"ordup.dev/node/internal/etcdtest"
	"ordup.dev/node/internal/exit"
	"ordup.dev/node/internal/logs"
)

// TestMain starts an etcd in this process first. That sets the log of gRPC, which is to be before any call by it.
func TestMain(m *testing.M) {
	folder, err := os.MkdirTemp("", "")
	if err != nil {
		panic(err)
	}
	member, err := embedded.Start(context.Background(), folder)
	if err != nil {
		panic(err)
	}
	member.Stop()
	status := m.Run()
	os.RemoveAll(folder)
	os.Exit(status)
}

// A tried is a trial that runs.
type tried struct {
	t        *testing.T
	out, log *text
	cancel   context.CancelFunc
	ended    chan exit.Status
}

// try starts a trial, and waits until it has printed all.
func try(t *testing.T, words ...string) *tried {
	t.Helper()
	ctx, cancel := context.WithCancel(context.Background())
	own := &tried{t, &text{}, &text{}, cancel, make(chan exit.Status, 1)}
	program := &command.Program{Versions: []string{"1.0"}, Open: openStore, Checker: checker, Out: own.out, Err: own.log, Log: logs.New(own.log)}
	go func() { own.ended <- program.Run(ctx, append([]string{"try"}, words...)) }()
	t.Cleanup(cancel)
	etcdtest.Until(t, "nothing is printed", func() bool {
		select {
		case status := <-own.ended:
			t.Fatal(status, own.log)
		default:
		}
		return strings.Contains(own.out.String(), "The data lies in ")
	})
	return own
}

// end ends the trial, which takes some seconds at most, and says nothing of an error.
func (tr *tried) end() {
	tr.t.Helper()
	tr.cancel()
	select {
	case status := <-tr.ended:
		if status != exit.Done || tr.log.String() != "" {
			tr.t.Error(status, tr.log)
		}
	case <-time.After(30 * time.Second):
		tr.t.Fatal("it does not end")
	}
}

// typed is what comes of a line that is printed below another one, typed in a shell, but with other words.
func (tr *tried) typed(below string, others ...string) string {
	tr.t.Helper()
	found := regexp.MustCompile(regexp.QuoteMeta(below) + `.*:\n  (.*)\n`).FindStringSubmatch(tr.out.String())
	if found == nil {
		tr.t.Fatalf("nothing is printed below %q: %s", below, tr.out)
	}
	out, err := exec.Command("bash", "-c", strings.NewReplacer(others...).Replace(found[1])).Output()
	if err != nil {
		tr.t.Fatal(found[1], err)
	}
	return string(out)
}

// shows waits until a site shows this of its values.
func (tr *tried) shows(site, want string) {
	tr.t.Helper()
	etcdtest.Until(tr.t, site+" does not show "+want, func() bool {
		said := tr.typed("To read at " + site)
		var values struct{ Site string }
		if err := json.Unmarshal([]byte(said), &values); err != nil || values.Site != site {
			tr.t.Fatal(said, err)
		}
		return strings.Contains(said, want)
	})
}

// folder is where its data lies.
func (tr *tried) folder() string {
	return regexp.MustCompile(`The data lies in (.*), and`).FindStringSubmatch(tr.out.String())[1]
}

func needsCurl(t *testing.T) {
	if _, err := exec.LookPath("curl"); err != nil {
		t.Skip("there is no curl here")
	}
}

func TestATrialDoesWhatItPrintsAndLeavesNothing(t *testing.T) {
	needsCurl(t)
	t.Setenv("TMPDIR", t.TempDir())
	trial := try(t, file(t, "shop", shop))
	if !strings.HasPrefix(trial.out.String(), "This is for trial and tests alone") {
		t.Error(trial.out)
	}
	want := `{"client":"ann","number":1,"epoch":1,"place":1,"seen":"1.1"}` + "\n"
	for times := 0; times < 2; times++ {
		if said := trial.typed("To update"); said != want {
			t.Error(said)
		}
	}
	trial.shows("north", `"values":{"tea":1001,"till":0}`)
	trial.shows("far", `"values":{"tea":1001,"till":0}`)
	page := regexp.MustCompile(`The operator's page, .*:\n  (.*)\n`).FindStringSubmatch(trial.out.String())
	answer, err := http.Get(page[1])
	if err != nil {
		t.Fatal(err)
	}
	text, err := io.ReadAll(answer.Body)
	answer.Body.Close()
	if err != nil || answer.StatusCode != http.StatusOK || !strings.Contains(string(text), "far") {
		t.Error(err, answer.Status, string(text))
	}
	if _, err := os.Stat(trial.folder()); err != nil {
		t.Error(err)
	}
	trial.end()
	if left, err := os.ReadDir(os.Getenv("TMPDIR")); err != nil || len(left) > 0 {
		t.Error(left, err)
	}
}

func TestATrialGoesOnFromWhatWasKept(t *testing.T) {
	needsCurl(t)
	folder, declarations := filepath.Join(t.TempDir(), "kept"), file(t, "shop", shop)
	trial := try(t, declarations, "--keep", folder)
	trial.typed("To update")
	is(t, exit.Environment, folder, "try", declarations, "--keep", folder) // It is of the first one.
	trial.shows("north", `"tea":1001`)
	trial.end()
	is(t, exit.Words, "declarations", "try", file(t, "other", "object milk 3\n"+shop), "--keep", folder)
	trial = try(t, declarations, "--keep", folder)
	trial.shows("north", `"tea":1001`)
	if said := trial.typed("To update", `"number":1`, `"number":2`); !strings.Contains(said, `"seen":"1.2"`) {
		t.Error(said)
	}
	trial.shows("far", `"tea":1002`)
	trial.end()
}

// A site that the operator takes out ends alone. It is not printed when the trial is started anew.
func TestATrialGoesOnWithoutASiteThatIsTakenOut(t *testing.T) {
	needsCurl(t)
	folder, declarations := filepath.Join(t.TempDir(), "kept"), file(t, "shop", shop)
	trial := try(t, declarations, "--keep", folder)
	primary := regexp.MustCompile(`(http://\S+)/update`).FindStringSubmatch(trial.out.String())[1]
	is(t, exit.Done, "epoch 2\n", "next", "--primaries", primary, file(t, "without", strings.Replace(shop, "site far 1\n", "", 1)))
	trial.shows("north", `"epoch":2`)
	etcdtest.Until(t, "nothing is said of far", func() bool { return strings.Contains(trial.log.String(), "site-ended site=far") })
	trial.cancel()
	if status := <-trial.ended; status != exit.Done {
		t.Error(status, trial.log)
	}
	trial = try(t, declarations, "--keep", folder)
	if strings.Contains(trial.out.String(), "at far") {
		t.Error(trial.out)
	}
	trial.shows("north", `"epoch":2`)
	trial.cancel()
	if status := <-trial.ended; status != exit.Done {
		t.Error(status, trial.log)
	}
}

func TestATrialListensAtThePortsThatItIsTold(t *testing.T) {
	needsCurl(t)
	first := etcdtest.FreePort(t)
	trial := try(t, file(t, "shop", shop), "--listen", first)
	if !strings.Contains(trial.out.String(), " http://"+first+"/update\n") {
		t.Error(trial.out)
	}
	trial.shows("north", `"tea":1000`)
	// The port is taken now.
	is(t, exit.Environment, "address already in use", "try", file(t, "shop", shop), "--listen", first)
	trial.end()
}

func TestATrialThatCannotBegin(t *testing.T) {
	t.Setenv("TMPDIR", t.TempDir())
	shopFile := file(t, "shop", shop)
	for _, row := range []struct {
		status exit.Status
		says   string
		words  string
	}{
		{2, "say one file with declarations", ""},
		{2, "say one file with declarations", shopFile + " " + shopFile},
		{2, "/nowhere", "/nowhere"},
		{2, "limit north all 5: refused", file(t, "mistaken", "object tea 1\nlimit north all 5\nstart\n")},
		{2, "the script is empty", file(t, "empty", "# nothing\n")},
		{2, "listen: ", shopFile + " --listen 7002"},
		{2, "listen: ", shopFile + " --listen 127.0.0.1:65534"},
		{2, "is not this computer alone", shopFile + " --listen 0.0.0.0:7002"},
		{1, "/proc/nowhere", shopFile + " --keep /proc/nowhere"},
	} {
		t.Run(row.says, func(t *testing.T) {
			is(t, row.status, row.says, append([]string{"try"}, strings.Fields(row.words)...)...)
		})
	}
	if left, err := os.ReadDir(os.Getenv("TMPDIR")); err != nil || len(left) > 0 {
		t.Error(left, err)
	}
}
