package primary_test

import (
	"bytes"
	"context"
	"errors"
	"fmt"
	"os"
	"path/filepath"
	"strings"
	"sync"
	"testing"
	"time"

	"ordup.dev/node/internal/archive"
	"ordup.dev/node/internal/epoch"
	"ordup.dev/node/internal/etcdtest"
	"ordup.dev/node/internal/exit"
	"ordup.dev/node/internal/logs"
	"ordup.dev/node/internal/modelstore"
	"ordup.dev/node/internal/primary"
	"ordup.dev/node/internal/script"
	"ordup.dev/node/internal/site"
	"ordup.dev/node/internal/store"
)

var shop = []string{"object tea 1000000", "object till 0", "site north 1", "site south 1", "limit north count 3", "start"}

// openStore gives the stores of the tests. With the tag library it is that of the program.
var openStore store.Open = modelstore.Open

// A deployment runs primaries and sites in this process, on an engine of its own.
type deployment struct {
	t         *testing.T
	members   *etcdtest.Members
	log       *logs.Log
	lines     *lines
	lock      sync.Mutex
	primaries []*primary.Primary
}

// lines keeps what is logged.
type lines struct {
	lock sync.Mutex
	text bytes.Buffer
}

func (l *lines) Write(text []byte) (int, error) {
	l.lock.Lock()
	defer l.lock.Unlock()
	return l.text.Write(text)
}

func (l *lines) all() string {
	l.lock.Lock()
	defer l.lock.Unlock()
	return l.text.String()
}

func deploy(t *testing.T, members int, options ...string) *deployment {
	lines := &lines{}
	deployment := &deployment{t: t, members: etcdtest.Start(t, members, options...), lines: lines, log: logs.New(lines)}
	t.Cleanup(func() {
		if t.Failed() {
			t.Log(lines.all())
		}
	})
	return deployment
}

// A process is a primary or a site that runs.
type process struct {
	stop context.CancelFunc
	done chan error
}

// end ends the process as a signal does, and returns its error.
func (p *process) end() error {
	p.stop()
	return <-p.done
}

func (d *deployment) run(run func(context.Context) error) *process {
	ctx, cancel := context.WithCancel(context.Background())
	process := &process{cancel, make(chan error, 1)}
	go func() {
		err := run(ctx)
		if err != nil {
			d.log.Error("ends", "status", exit.Of(err), "why", err)
		}
		process.done <- err
	}()
	d.t.Cleanup(cancel)
	return process
}

func (d *deployment) config(host string) primary.Config {
	return primary.Config{Engine: d.members.Engine(), Open: openStore, Host: host, Address: "http://" + host, Versions: []string{"1"},
		Every: 1000, Remembers: 2, Declarations: shop, Folder: filepath.Join(d.t.TempDir(), host), Copies: 2, Log: d.log}
}

func (d *deployment) primary(config primary.Config) (*primary.Primary, *process) {
	d.t.Helper()
	made, err := primary.New(config)
	if err != nil {
		d.t.Fatal(err)
	}
	d.lock.Lock()
	d.primaries = append(d.primaries, made)
	d.lock.Unlock()
	return made, d.run(made.Run)
}

func (d *deployment) site(name, fleet string) (*site.Site, *process) {
	d.t.Helper()
	made, err := site.New(site.Config{Engine: d.members.Engine(), Open: openStore, Name: name, Fleet: fleet, Host: "h-" + name,
		Versions: []string{"1"}, Teller: d, Log: d.log})
	if err != nil {
		d.t.Fatal(err)
	}
	return made, d.run(made.Run)
}

// Tell takes a place to the primary that writes.
func (d *deployment) Tell(ctx context.Context, place epoch.Place) error {
	return d.toWriter(func(primary *primary.Primary) error { return primary.Tell(ctx, place) })
}

func (d *deployment) toWriter(ask func(*primary.Primary) error) error {
	d.lock.Lock()
	primaries := append([]*primary.Primary{}, d.primaries...)
	d.lock.Unlock()
	err := error(&primary.NotWriterError{})
	for _, each := range primaries {
		var other *primary.NotWriterError
		if err = ask(each); !errors.As(err, &other) {
			return err
		}
	}
	return err
}

// ask asks until there is an answer.
func (d *deployment) ask(client string, number int64, changes string) string {
	d.t.Helper()
	ctx, cancel := context.WithTimeout(context.Background(), 30*time.Second)
	defer cancel()
	for ctx.Err() == nil {
		var answer script.Answer
		err := d.toWriter(func(primary *primary.Primary) (err error) {
			answer, err = primary.Submit(ctx, epoch.Request{Client: client, Number: number, Changes: changes})
			return err
		})
		var other *primary.NotWriterError
		if err != nil && !errors.As(err, &other) && err != primary.ErrFull {
			return err.Error()
		}
		if err == nil {
			return answer.String()
		}
		time.Sleep(10 * time.Millisecond)
	}
	d.t.Fatal("there is no answer")
	return ""
}

func (d *deployment) next(wish epoch.Wish) (begun int64, err error) {
	ctx, cancel := context.WithTimeout(context.Background(), 30*time.Second)
	defer cancel()
	err = d.toWriter(func(primary *primary.Primary) (err error) {
		begun, err = primary.Next(ctx, wish)
		return err
	})
	return begun, err
}

// read is what a reader is told who has seen this.
func (d *deployment) read(at *site.Site, seen site.Seen) string {
	ctx, cancel := context.WithTimeout(context.Background(), 20*time.Second)
	defer cancel()
	for ctx.Err() == nil {
		reading, err := at.Read(ctx, seen)
		if errors.Is(err, site.ErrNotServing) {
			time.Sleep(10 * time.Millisecond)
			continue
		}
		if err != nil {
			return err.Error()
		}
		tea := reading.Values["tea"]
		return fmt.Sprintf("epoch %d place %d tea=%d", reading.Epoch, reading.Place, tea)
	}
	return "nobody serves"
}

func is(t *testing.T, wants, has any) {
	t.Helper()
	if fmt.Sprint(wants) != fmt.Sprint(has) {
		t.Errorf("%v instead of %v", has, wants)
	}
}

// until waits until something is so.
func until(t *testing.T, most time.Duration, what string, isSo func() bool) {
	t.Helper()
	for end := time.Now().Add(most); !isSo(); time.Sleep(10 * time.Millisecond) {
		if time.Now().After(end) {
			t.Fatal(what)
		}
	}
}

func TestTheWayOfAnUpdate(t *testing.T) {
	deployment := deploy(t, 1)
	one, processOne := deployment.primary(deployment.config("p1"))
	until(t, 10*time.Second, "p1 does not write", func() bool { return one.Status().Writes })
	two, processTwo := deployment.primary(deployment.config("p2"))
	south, processSouth := deployment.site("south", "")
	is(t, "ok acked 1 epoch 1", deployment.ask("ann", 1, "add:tea:-1"))
	is(t, "ok acked 1 epoch 1", deployment.ask("ann", 1, "add:tea:-1"))
	is(t, primary.ErrDiffers, deployment.ask("ann", 1, "add:tea:-2"))
	is(t, "refused 6 UnknownObject", deployment.ask("bob", 7, "add:milk:1"))
	is(t, (&primary.PassedError{Last: 7}).Error(), deployment.ask("bob", 6, "add:tea:1"))
	is(t, primary.ErrMalformed, deployment.ask("\xff", 6, "add:tea:1"))
	is(t, "epoch 1 place 1 tea=999999", deployment.read(south, site.Seen{Epoch: 1, Place: 1}))
	_, err := two.Submit(context.Background(), epoch.Request{Client: "ann", Number: 2, Changes: "add:tea:-1"})
	until(t, 30*time.Second, "p2 does not know who writes", func() bool { return two.Status().Writer == "http://p1" })
	is(t, true, strings.HasPrefix(err.Error(), "this primary does not write"))
	// The limit of north is 3, and it is not there.
	for number := int64(2); number <= 3; number++ {
		is(t, fmt.Sprintf("ok acked %d epoch 1", number), deployment.ask("ann", number, "add:tea:-1"))
	}
	ctx, cancel := context.WithTimeout(context.Background(), 300*time.Millisecond)
	defer cancel()
	_, err = one.Submit(ctx, epoch.Request{Client: "ann", Number: 4, Changes: "add:tea:-1"})
	is(t, true, errors.Is(err, context.DeadlineExceeded))
	north, processNorth := deployment.site("north", "")
	is(t, "ok acked 4 epoch 1", deployment.ask("ann", 4, "add:tea:-1"))
	is(t, "epoch 1 place 4 tea=999996", deployment.read(north, site.Seen{Epoch: 1, Place: 4}))
	// The writer ends. The other one goes on, and knows each answer.
	is(t, nil, processOne.end())
	is(t, "ok acked 4 epoch 1", deployment.ask("ann", 4, "add:tea:-1"))
	is(t, "ok acked 5 epoch 1", deployment.ask("ann", 5, "add:tea:-1"))
	is(t, "refused 6 UnknownObject", deployment.ask("bob", 7, "add:milk:1"))
	is(t, nil, processNorth.end())
	is(t, nil, processSouth.end())
	is(t, nil, processTwo.end())
	_, err = north.Read(context.Background(), site.Seen{})
	is(t, site.ErrNotServing, err)
}

func TestEpochsAndArchives(t *testing.T) {
	deployment := deploy(t, 1)
	one, _ := deployment.primary(deployment.config("p1"))
	until(t, 10*time.Second, "p1 does not write", func() bool { return one.Status().Writes })
	deployment.site("north", "")
	south, _ := deployment.site("south", "")
	for number := int64(1); number <= 20; number++ {
		deployment.ask("ann", number, "add:tea:-1")
	}
	begun, err := deployment.next(epoch.Wish{From: 1})
	is(t, []any{2, nil}, []any{begun, err})
	begun, err = deployment.next(epoch.Wish{From: 1})
	is(t, []any{2, nil}, []any{begun, err})
	is(t, "ok acked 20 epoch 1", deployment.ask("ann", 20, "add:tea:-1"))
	is(t, "epoch 2 place 0 tea=999980", deployment.read(south, site.Seen{Epoch: 2}))
	is(t, "ok acked 1 epoch 2", deployment.ask("ann", 21, "add:tea:-1"))
	// One host has the archive, and two should.
	own := deployment.members.Engine()
	first, err := own.First(context.Background())
	is(t, []any{1, nil}, []any{first, err})
	config := deployment.config("p2")
	two, _ := deployment.primary(config)
	until(t, 10*time.Second, "the epoch stays in the engine", func() bool {
		first, _ := own.First(context.Background())
		return first > 1
	})
	text, err := os.ReadFile(filepath.Join(config.Folder, archive.NameOf(1)))
	is(t, nil, err)
	is(t, 20, strings.Count(string(text), "\npropose add:tea:-1\n"))
	is(t, 20, strings.Count(string(text), "\n# answer ann "))
	until(t, 30*time.Second, "p2 does not follow", func() bool { return two.Status().Core.Epoch == 2 })
	// Who starts now begins with epoch 2.
	fresh, process := deployment.site("north", "")
	until(t, 30*time.Second, "the fresh process does not follow", func() bool { return fresh.Status().Place == 1 })
	is(t, nil, process.end())
	begun, err = deployment.next(epoch.Wish{From: 2})
	is(t, []any{3, nil}, []any{begun, err})
	is(t, "ok acked 1 epoch 3", deployment.ask("ann", 22, "add:tea:-1"))
}

func TestASiteIsTakenOut(t *testing.T) {
	deployment := deploy(t, 1)
	deployment.primary(deployment.config("p1"))
	north, processNorth := deployment.site("north", "")
	_, processSouth := deployment.site("south", "")
	is(t, "ok acked 1 epoch 1", deployment.ask("ann", 1, "add:tea:-1"))
	is(t, "epoch 1 place 1 tea=999999", deployment.read(north, site.Seen{Epoch: 1, Place: 1}))
	without := []string{"object tea 5", "site south 1", "start"}
	begun, err := deployment.next(epoch.Wish{From: 1, Declarations: without})
	is(t, []any{2, nil}, []any{begun, err})
	_, err = north.Read(context.Background(), site.Seen{})
	is(t, site.ErrNotServing, err)
	is(t, exit.NotInScript, exit.Of(<-processNorth.done))
	_, processNorth = deployment.site("north", "")
	is(t, exit.NotInScript, exit.Of(<-processNorth.done))
	is(t, nil, processSouth.end())
	// A site that never comes back is taken out too, once it has no lease.
	_, err = deployment.next(epoch.Wish{From: 2, Declarations: shop[2:4:4]})
	is(t, true, err != nil)
	begun, err = deployment.next(epoch.Wish{From: 2, Declarations: append([]string{"object tea 1"}, shop[2:]...)})
	is(t, nil, err)
	is(t, int64(3), begun)
}

func TestWhoMayNotRun(t *testing.T) {
	deployment := deploy(t, 1)
	empty := deployment.config("p0")
	empty.Declarations = nil
	_, process := deployment.primary(empty)
	is(t, exit.Words, exit.Of(<-process.done))
	wrong := deployment.config("p0")
	wrong.Declarations = shop[:3]
	_, process = deployment.primary(wrong)
	is(t, exit.Words, exit.Of(<-process.done))
	one, _ := deployment.primary(deployment.config("p1"))
	until(t, 10*time.Second, "p1 does not write", func() bool { return one.Status().Writes })
	for name, change := range map[string]func(*primary.Config){
		"longer epochs":      func(config *primary.Config) { config.Every++ },
		"a longer memory":    func(config *primary.Config) { config.Remembers++ },
		"other declarations": func(config *primary.Config) { config.Declarations = shop[1:] },
		"another version":    func(config *primary.Config) { config.Versions = []string{"2"} },
	} {
		t.Run(name, func(t *testing.T) {
			config := deployment.config("p2")
			change(&config)
			_, process := deployment.primary(config)
			is(t, exit.Words, exit.Of(<-process.done))
		})
	}
	other := site.Config{Engine: deployment.members.Engine(), Open: openStore, Name: "north", Host: "h", Versions: []string{"2"}, Teller: deployment}
	made, err := site.New(other)
	is(t, nil, err)
	is(t, exit.Words, exit.Of(made.Run(context.Background())))
	_, process = deployment.site("west", "")
	is(t, exit.NotInScript, exit.Of(<-process.done))
	// An entry that is none, by whoever can write keys.
	last, err := deployment.members.Engine().Last(context.Background(), 1)
	is(t, nil, err)
	_, process = deployment.site("south", "")
	deployment.members.Put(fmt.Sprintf("script/%012d", last+1), "\xff")
	is(t, exit.Gap, exit.Of(<-process.done))
}

// Clients ask at once while members and primaries come and go. Each request is done once.
func TestManyClients(t *testing.T) {
	deployment := deploy(t, 3)
	for _, host := range []string{"p1", "p2"} {
		deployment.primary(deployment.config(host))
	}
	south, _ := deployment.site("south", "")
	deployment.site("north", "")
	var clients sync.WaitGroup
	const count, each = 20, 12
	for client := 0; client < count; client++ {
		clients.Add(1)
		go func(client int) {
			defer clients.Done()
			for number := int64(1); number <= each; number++ {
				name := fmt.Sprintf("c%d", client)
				first, again := deployment.ask(name, number, "add:tea:-1"), deployment.ask(name, number, "add:tea:-1")
				if first != again || !strings.HasPrefix(first, "ok acked ") {
					t.Errorf("%s and %s", first, again)
				}
			}
		}(client)
	}
	deployment.members.Kill(0)
	deployment.lock.Lock()
	one := deployment.primaries[0]
	deployment.lock.Unlock()
	until(t, 20*time.Second, "nobody writes", func() bool { return one.Status().Writes || deployment.primaries[1].Status().Writes })
	deployment.members.Begin(0)
	clients.Wait()
	begun, err := deployment.next(epoch.Wish{From: 1})
	is(t, []any{2, nil}, []any{begun, err})
	is(t, fmt.Sprintf("epoch 2 place 0 tea=%d", 1_000_000-count*each), deployment.read(south, site.Seen{Epoch: 2}))
}
