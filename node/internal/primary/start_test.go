package primary_test

import (
	"bufio"
	"context"
	"fmt"
	"os"
	"os/exec"
	"strings"
	"testing"
	"time"

	"ordup.dev/node/internal/engine"
	"ordup.dev/node/internal/epoch"
	"ordup.dev/node/internal/primary"
	"ordup.dev/node/internal/script"
	"ordup.dev/node/internal/site"
)

// NODE_START=100000,900000 measures how long a primary and a site take to start after so many updates, and their memory. Each is a
// process of its own: this one again, with NODE_AS, which says what it is.
func TestMain(m *testing.M) {
	if as := os.Getenv("NODE_AS"); as != "" {
		os.Exit(startAs(strings.Fields(as)))
	}
	os.Exit(m.Run())
}

var startDeclarations = []string{"object tea 1000000", "object till 0", "site north 1", "site south 1", "site east 1", "site west 1",
	"limit north count 100000", "start"}

// startAs starts a primary or a site, and tells how long it took and what memory it has.
func startAs(words []string) int {
	begun, own := time.Now(), engine.Open(engine.Config{Members: words[1:]})
	ctx, cancel := context.WithCancel(context.Background())
	defer cancel()
	var served *site.Site
	isThere, run := func() bool { return false }, func(context.Context) error { return nil }
	switch words[0] {
	case "primary":
		made, _ := primary.New(primary.Config{Engine: own, Open: openStore, Host: "p", Address: "a", Versions: []string{"1"}, Copies: 1, Folder: "/dev/null"})
		isThere, run = func() bool { return made.Status().Writes }, made.Run
	case "site", "reader":
		made, _ := site.New(site.Config{Engine: own, Open: openStore, Name: "north", Host: "s", Versions: []string{"1"}, Teller: nowhere{}})
		served = made
		isThere, run = func() bool { return made.Status().Serves }, made.Run
	}
	done := make(chan error, 1)
	go func() { done <- run(ctx) }()
	if words[0] == "reader" {
		return readLines(served)
	}
	for ; !isThere(); time.Sleep(time.Millisecond) {
		if len(done) > 0 {
			fmt.Println("fails", <-done)
			return 1
		}
	}
	text, _ := os.ReadFile("/proc/self/status")
	for _, line := range strings.Split(string(text), "\n") {
		if strings.HasPrefix(line, "VmHWM") {
			fmt.Printf("%-8s starts in %6.2f s, %s\n", words[0], time.Since(begun).Seconds(), strings.Join(strings.Fields(line), " "))
		}
	}
	cancel()
	<-done
	return 0
}

// readLines answers each line of the standard input with what a reader is told then.
func readLines(at *site.Site) int {
	for lines := bufio.NewScanner(os.Stdin); lines.Scan(); {
		reading, err := at.Read(context.Background(), site.Seen{})
		if err != nil {
			fmt.Println("nobody")
			continue
		}
		fmt.Println("place", reading.Place)
	}
	return 0
}

// nowhere takes each place.
type nowhere struct{}

func (nowhere) Tell(context.Context, epoch.Place) error { return nil }

func TestStart(t *testing.T) {
	sizes := os.Getenv("NODE_START")
	if sizes == "" {
		t.Skip("NODE_START says after how many updates processes are started")
	}
	for _, word := range strings.Split(sizes, ",") {
		var updates int
		fmt.Sscan(word, &updates)
		deployment := deploy(t, 3, "--quota-backend-bytes", "8000000000")
		bytes := deployment.writeUpdates(updates)
		fmt.Printf("%d updates, %d bytes each\n", updates, bytes/updates)
		for _, as := range []string{"site", "primary"} {
			command := exec.Command(os.Args[0])
			command.Env = append(os.Environ(), "NODE_AS="+as+" "+strings.Join(deployment.members.Clients, " "))
			said, err := command.CombinedOutput()
			fmt.Printf("%s", said)
			is(t, nil, err)
		}
	}
}

// writeUpdates writes a script of so many updates by 1,000 clients, 200 in an entry, which four sites have told.
func (d *deployment) writeUpdates(updates int) (bytes int) {
	t, to := d.t, d.members.Engine()
	config := epoch.Config{Open: openStore, Writer: "p1", Versions: []string{"1"}}
	batch, err := epoch.FirstBatch(config, script.Settings{Every: epoch.MostEvery, Remembers: 2, Origin: "0", Ordup: "1"}, startDeclarations)
	is(t, nil, err)
	core := epoch.New(config, 1)
	is(t, nil, to.Write(context.Background(), &engine.Write{Number: 1, Text: batch.Text, Epoch: 1, First: 1}))
	is(t, nil, core.Replay(1, batch.Entry()))
	for count := 0; count < updates; {
		requests := []epoch.Request{}
		for ; len(requests) < 200; count++ {
			requests = append(requests, epoch.Request{Client: fmt.Sprintf("client-%d", count%1000), Number: int64(count/1000 + 1), Changes: "add:tea:-1"})
		}
		for _, name := range []string{"north", "south", "east", "west"} {
			is(t, nil, core.Tell(epoch.Place{Site: name, Epoch: 1, Applied: int64(count - 200)}, time.Hour))
		}
		_, err = core.Ask(requests, time.Hour)
		is(t, nil, err)
		_, err = core.Work(time.Hour)
		is(t, nil, err)
		batch, err := core.Seal(time.Hour)
		is(t, nil, err)
		is(t, nil, to.Write(context.Background(), &engine.Write{Number: batch.Number, Text: batch.Text}))
		core.Written(batch.Number)
		bytes += len(batch.Text)
	}
	core.Close()
	return bytes
}
