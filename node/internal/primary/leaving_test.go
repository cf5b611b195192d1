package primary_test

import (
	"context"
	"strings"
	"testing"
	"time"

	"go.etcd.io/etcd/clientv3"

	"ordup.dev/node/internal/engine"
	"ordup.dev/node/internal/epoch"
	"ordup.dev/node/internal/primary"
	"ordup.dev/node/internal/site"
)

var withoutNorth = []string{"object tea 1", "site south 1", "start"}

// said is whether a line of the log has all these words.
func (d *deployment) said(words ...string) bool {
	for _, line := range strings.Split(d.lines.all(), "\n") {
		count := 0
		for _, word := range words {
			if strings.Contains(line, word) {
				count++
			}
		}
		if count == len(words) {
			return true
		}
	}
	return false
}

// What was put by hand, of any bytes and without a lease, holds a site that is taken out for a lease's time, and no longer.
func TestAKeyWithoutALeaseHoldsNoSite(t *testing.T) {
	deployment := deploy(t, 1)
	deployment.primary(deployment.config("p1"))
	deployment.site("south", "")
	is(t, "ok acked 1 epoch 1", deployment.ask("ann", 1, "add:tea:-1"))
	for _, key := range []string{"site/north/north", "site/north/\xff\x00", "site/north/", "site/north0", "site/norti/x"} {
		deployment.members.Put(key, "\xff")
	}
	asked := time.Now()
	begun, err := deployment.next(epoch.Wish{From: 1, Declarations: withoutNorth})
	is(t, []any{2, nil}, []any{begun, err})
	if took := time.Since(asked); took < engine.LeaseTime {
		t.Errorf("the next epoch began after %v", took)
	}
	is(t, true, deployment.said("leaving-site-has-keys", "site=north", "keys=3", "without-lease=3", "key=site/north/"))
	is(t, true, deployment.said("removed-key", `key="site/north/\xff\x00"`))
	left, err := deployment.members.Client().Get(context.Background(), "site/nort", clientv3.WithPrefix())
	is(t, []any{2, nil}, []any{left.Count, err})
}

// One with a lease that lives holds it, whatever it is, and is told and counted.
func TestAKeyWithALeaseHoldsASiteAndIsTold(t *testing.T) {
	deployment := deploy(t, 1)
	own, _ := deployment.primary(deployment.config("p1"))
	deployment.site("south", "")
	is(t, "ok acked 1 epoch 1", deployment.ask("ann", 1, "add:tea:-1"))
	client, ctx := deployment.members.Client(), context.Background()
	lease, err := client.Grant(ctx, 60)
	is(t, nil, err)
	_, err = client.Put(ctx, "site/north/\xff", "\xff", clientv3.WithLease(lease.ID))
	is(t, nil, err)
	is(t, 0, len(own.Status().LeaveKeys))
	began := make(chan error, 1)
	go func() {
		_, err := deployment.next(epoch.Wish{From: 1, Declarations: withoutNorth})
		began <- err
	}()
	select {
	case err = <-began:
		t.Fatal("the next epoch began", err)
	case <-time.After(engine.LeaseTime + 2*time.Second):
	}
	is(t, map[string]primary.KeyCount{"north": {Keys: 1}}, own.Status().LeaveKeys)
	is(t, true, deployment.said("leaving-site-has-keys", "site=north", "keys=1", "without-lease=0", `key="site/north/\xff"`))
	_, err = client.Revoke(ctx, lease.ID)
	is(t, []any{nil, nil}, []any{err, <-began})
	is(t, 0, len(own.Status().LeaveKeys))
}

// A key is written over whose process serves readers, and is cut off. As long as it relies on its lease its site is not gone.
func TestAKeyThatIsWrittenOverHoldsItsSite(t *testing.T) {
	deployment := deploy(t, 1)
	deployment.primary(deployment.config("p1"))
	link := deployment.members.Link()
	north, _ := deployment.siteBy("north", link.Engine(t))
	deployment.site("south", "")
	is(t, "ok acked 1 epoch 1", deployment.ask("ann", 1, "add:tea:-1"))
	is(t, "epoch 1 place 1 tea=999999", deployment.read(north, site.Seen{Epoch: 1, Place: 1}))
	until(t, 30*time.Second, "its lease is old", func() bool { return north.Status().Lease > engine.Relied-200*time.Millisecond })
	link.Cut()
	deployment.members.Put("site/north/north", "by hand")
	begun, err := deployment.next(epoch.Wish{From: 1, Declarations: withoutNorth})
	is(t, []any{false, 2, nil}, []any{serves(north), begun, err})
	is(t, true, deployment.said("removed-key", "key=site/north/north"))
}
