package primary_test

import (
	"context"
	"testing"
	"time"

	"ordup.dev/node/internal/engine"
	"ordup.dev/node/internal/epoch"
	"ordup.dev/node/internal/etcdtest"
	"ordup.dev/node/internal/primary"
)

// A primary loses its lease while a batch is on its way and the next one is open. The first is written, and the other one is dropped: who
// goes on writes it, and this one follows.
func TestALeaseIsLostInMidBatch(t *testing.T) {
	deployment := deploy(t, 1)
	begin := func(host string) (*primary.Primary, *etcdtest.Link, *process) {
		link := deployment.members.Link()
		made, err := primary.New(deployment.config(host))
		if err != nil {
			t.Fatal(err)
		}
		made.ScriptBy(link.Engine(t))
		deployment.lock.Lock()
		deployment.primaries = append(deployment.primaries, made)
		deployment.lock.Unlock()
		return made, link, deployment.run(made.Run)
	}
	submit := func(to *primary.Primary, client string) chan error {
		answered := make(chan error, 1)
		go func() {
			_, err := to.Submit(context.Background(), epoch.Request{Client: client, Number: 1, Changes: "add:tea:-1"})
			answered <- err
		}()
		return answered
	}
	one, linkOne, processOne := begin("p1")
	is(t, "ok acked 1 epoch 1", deployment.ask("ann", 1, "add:tea:-1"))
	two, linkTwo, _ := begin("p2")
	until(t, 30*time.Second, "p2 does not follow", func() bool { return two.Status().Core.Entries == one.Status().Core.Entries })
	linkOne.Cut()
	linkTwo.Cut()
	first := submit(one, "bob")
	until(t, 30*time.Second, "the batch is not on its way", func() bool { return one.Status().Core.Updates == 2 })
	second := submit(one, "cec")
	until(t, 30*time.Second, "the next batch is not open", func() bool { return one.Status().Core.Updates == 3 })
	deployment.members.Delete(engine.PrimaryKey)
	until(t, 30*time.Second, "the lease is not lost", func() bool { return one.Status().Lease == 0 })
	linkOne.Mend()
	is(t, nil, <-first)
	is(t, true, <-second != nil)
	is(t, false, two.Status().Writes)
	linkTwo.Mend()
	is(t, "ok acked 3 epoch 1", deployment.ask("cec", 1, "add:tea:-1"))
	until(t, 10*time.Second, "p1 does not follow", func() bool {
		return one.Status().Core.Written == two.Status().Core.Written && two.Status().Writes || len(processOne.done) > 0
	})
	is(t, []int64{3, 0}, []int64{one.Status().Core.Updates, int64(len(processOne.done))})
}
