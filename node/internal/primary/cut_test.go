package primary_test

import (
	"context"
	"errors"
	"fmt"
	"strings"
	"testing"
	"time"

	"ordup.dev/node/internal/engine"
	"ordup.dev/node/internal/epoch"
	"ordup.dev/node/internal/exit"
	"ordup.dev/node/internal/primary"
	"ordup.dev/node/internal/site"
)

// siteBy starts a site over a link of its own.
func (d *deployment) siteBy(name string, engine *engine.Engine) (*site.Site, *process) {
	made, err := site.New(site.Config{Engine: engine, Open: openStore, Name: name, Host: "h-" + name, Versions: []string{"1"},
		Teller: d, Log: d.log})
	if err != nil {
		d.t.Fatal(err)
	}
	return made, d.run(made.Run)
}

func serves(at *site.Site) bool {
	_, err := at.Read(context.Background(), site.Seen{})
	return err == nil
}

func TestASiteThatIsCutOff(t *testing.T) {
	deployment := deploy(t, 1)
	one, _ := deployment.primary(deployment.config("p1"))
	link := deployment.members.Link()
	north, _ := deployment.siteBy("north", link.Engine(t))
	deployment.site("south", "")
	is(t, "ok acked 1 epoch 1", deployment.ask("ann", 1, "add:tea:-1"))
	is(t, "epoch 1 place 1 tea=999999", deployment.read(north, site.Seen{Epoch: 1, Place: 1}))
	// Another process of the site runs the script as well, and without the lease tells nothing.
	other, process := deployment.site("north", "")
	until(t, 30*time.Second, "the other process does not follow", func() bool { return other.Status().Place == 1 })
	until(t, 30*time.Second, "it tells nothing", func() bool { return one.Status().Core.Sites[0].Applied == 1 })
	link.Cut()
	cut := time.Now()
	// Its limit lets three updates pass, and not the fourth, whether or not it serves.
	for number := int64(2); number <= 4; number++ {
		is(t, fmt.Sprintf("ok acked %d epoch 1", number), deployment.ask("ann", number, "add:tea:-1"))
	}
	answer := make(chan string, 1)
	go func() { answer <- deployment.ask("ann", 5, "add:tea:-1") }()
	until(t, 4*time.Second, "a site that is cut off serves", func() bool { return !serves(north) })
	t.Logf("it serves no more after %v", time.Since(cut))
	select {
	case told := <-answer:
		t.Fatalf("a fifth update is told %s", told)
	default:
	}
	// The other process takes over once the lease has run out.
	until(t, 8*time.Second, "the other process does not serve", func() bool { return serves(other) })
	t.Logf("another one serves after %v", time.Since(cut))
	is(t, false, serves(north))
	is(t, "ok acked 5 epoch 1", <-answer)
	is(t, "epoch 1 place 5 tea=999995", deployment.read(other, site.Seen{Epoch: 1, Place: 5}))
	link.Mend()
	time.Sleep(time.Second)
	is(t, false, serves(north))
	is(t, nil, process.end())
	is(t, "epoch 1 place 5 tea=999995", deployment.read(north, site.Seen{Epoch: 1, Place: 5}))
}

func TestAWriterThatIsCutOff(t *testing.T) {
	deployment := deploy(t, 1)
	link := deployment.members.Link()
	config := deployment.config("p1")
	config.Engine = link.Engine(t)
	one, _ := deployment.primary(config)
	until(t, 10*time.Second, "p1 does not write", func() bool { return one.Status().Writes })
	two, _ := deployment.primary(deployment.config("p2"))
	is(t, "ok acked 1 epoch 1", deployment.ask("ann", 1, "add:tea:-1"))
	link.Cut()
	cut := time.Now()
	lost := make(chan error, 1)
	go func() {
		_, err := one.Submit(context.Background(), epoch.Request{Client: "ann", Number: 2, Changes: "add:tea:-1"})
		lost <- err
	}()
	until(t, 9*time.Second, "p2 does not write", func() bool { return two.Status().Writes })
	t.Logf("another one writes after %v", time.Since(cut))
	answer, err := two.Submit(context.Background(), epoch.Request{Client: "ann", Number: 2, Changes: "add:tea:-1"})
	is(t, []any{"ok acked 2 epoch 1", nil}, []any{answer.String(), err})
	link.Mend()
	var other *primary.NotWriterError
	select {
	case err := <-lost:
		is(t, true, errors.As(err, &other))
	case <-time.After(30 * time.Second):
		t.Error("who asked the first one waits for ever")
	}
	until(t, 30*time.Second, "p1 does not stand by", func() bool { return one.Status().Core.Written == two.Status().Core.Written })
	is(t, false, one.Status().Writes)
	is(t, "http://p2", one.Status().Writer)
}

// A primary that is cut off as it takes over has a lease that may be over by the time that it can go on. It takes over no more.
func TestNobodyTakesOverWithALeaseThatMayBeOver(t *testing.T) {
	deployment := deploy(t, 1)
	_, before := deployment.primary(deployment.config("p1"))
	is(t, "ok acked 1 epoch 1", deployment.ask("ann", 1, "add:tea:-1"))
	is(t, nil, before.end())
	leases, entries := deployment.members.Link(), deployment.members.Link()
	config := deployment.config("p2")
	config.Engine = leases.Engine(t)
	two, err := primary.New(config)
	is(t, nil, err)
	two.ScriptBy(entries.Engine(t))
	entries.Cut()
	deployment.run(two.Run)
	until(t, 10*time.Second, "it has no lease", func() bool { return two.Status().Lease > 0 })
	leases.Cut()
	until(t, 30*time.Second, "its lease is not over", func() bool { return two.Status().Lease == 0 })
	time.Sleep(engine.CallTime + time.Second) // What it asked while it had the lease has failed.
	last, err := deployment.members.Engine().Last(context.Background(), 1)
	is(t, nil, err)
	entries.Mend()
	until(t, 10*time.Second, "it does not follow", func() bool { return two.Status().Core.Written == last })
	time.Sleep(500 * time.Millisecond)
	now, err := deployment.members.Engine().Last(context.Background(), 1)
	is(t, []any{last, nil, false}, []any{now, err, two.Status().Writes})
	leases.Mend()
	until(t, 20*time.Second, "it does not take over", func() bool { return two.Status().Writes })
}

// A primary that was cut off meanwhile goes on behind the entry that it has run, and not behind another one of this number.
func TestAnEntryChangesBehindACutLink(t *testing.T) {
	deployment := deploy(t, 1)
	one, _ := deployment.primary(deployment.config("p1"))
	is(t, "ok acked 1 epoch 1", deployment.ask("ann", 1, "add:tea:-1"))
	link := deployment.members.Link()
	config := deployment.config("p2")
	config.Engine = link.Engine(t)
	two, standby := deployment.primary(config)
	last := one.Status().Core.Written
	until(t, 10*time.Second, "p2 does not follow", func() bool { return two.Status().Core.Written == last })
	time.Sleep(time.Second) // From here on it watches.
	failures := two.Status().EngineFailures
	link.Cut()
	until(t, 30*time.Second, "p2 notices nothing", func() bool { return two.Status().EngineFailures > failures })
	text, isThere, err := deployment.members.Engine().Entry(context.Background(), last)
	is(t, []any{true, nil}, []any{isThere, err})
	deployment.members.Put(fmt.Sprintf("script/%012d", last), strings.Replace(string(text), "writer p1-", "writer p9-", 1))
	link.Mend()
	until(t, 20*time.Second, "p2 goes on", func() bool { return len(standby.done) > 0 })
	is(t, exit.Gap, exit.Of(<-standby.done))
}

// A primary that is cut off from the engine alone takes nothing once it may not rely on its lease: what it took would be lost on its way to
// the one that writes.
func TestWhatIsToldToAWriterThatIsCutOff(t *testing.T) {
	deployment := deploy(t, 1)
	link := deployment.members.Link()
	config := deployment.config("p1")
	config.Engine = link.Engine(t)
	one, _ := deployment.primary(config)
	until(t, 10*time.Second, "p1 does not write", func() bool { return one.Status().Writes })
	two, _ := deployment.primary(deployment.config("p2"))
	deployment.site("north", "")
	deployment.site("south", "")
	is(t, "ok acked 1 epoch 1", deployment.ask("ann", 1, "add:tea:-1"))
	link.Cut()
	until(t, 9*time.Second, "p2 does not write", func() bool { return two.Status().Writes })
	// Beyond the limit of north it has to tell p2 its places, though p1 is asked first.
	for number := int64(2); number <= 9 && !t.Failed(); number++ {
		is(t, fmt.Sprintf("ok acked %d epoch 1", number), deployment.ask("ann", number, "add:tea:-1"))
	}
	begun, err := deployment.next(epoch.Wish{From: 1})
	is(t, []any{2, nil}, []any{begun, err})
	link.Mend()
}

// A site that is cut off as it is taken out serves its readers for a while. Until it does no more, the next epoch does not begin, and no
// update is acknowledged beyond its limits, though it has told the last place.
func TestASiteIsCutOffAsItIsTakenOut(t *testing.T) {
	deployment := deploy(t, 1)
	deployment.primary(deployment.config("p1"))
	link := deployment.members.Link()
	north, process := deployment.siteBy("north", link.Engine(t))
	deployment.site("south", "")
	is(t, "ok acked 1 epoch 1", deployment.ask("ann", 1, "add:tea:-1"))
	is(t, "epoch 1 place 1 tea=999999", deployment.read(north, site.Seen{Epoch: 1, Place: 1}))
	time.Sleep(time.Second)
	is(t, true, serves(north))
	link.Cut()
	asked := time.Now()
	begun, err := deployment.next(epoch.Wish{From: 1, Declarations: []string{"object tea 1", "site south 1", "start"}})
	is(t, false, serves(north))
	is(t, []any{2, nil}, []any{begun, err})
	if took := time.Since(asked); took < 3*time.Second {
		t.Errorf("the next epoch began after %v", took)
	} else {
		t.Logf("the next epoch began after %v", took)
	}
	link.Mend()
	is(t, true, <-process.done != nil)
}
