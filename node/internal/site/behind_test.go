package site

import (
	"context"
	"fmt"
	"strings"
	"testing"
)

// A process serves what it has once that is as far as the script was when it got the lease: the one before may have told all of that.
func TestASiteServesFromTheEndThatThereWas(t *testing.T) {
	shop := newShop(t)
	for number := int64(1); number <= 4; number++ {
		shop.ask("ann", number, "add:tea:-1")
		shop.put()
	}
	last := int64(shop.count)
	site := shop.north("one", shop.members.Engine(), nowhere{})
	site.show(&Shown{Entry: last - 2, Epoch: 1}) // It is behind as it gets the lease.
	leased, giveUp := context.WithCancel(shop.ctx)
	done := make(chan struct{})
	go func() { site.lease.Run(leased); close(done) }()
	until(t, "it gets no lease", site.lease.Relies)
	site.wasTaken(1)
	for entry := last - 2; entry <= last+1; entry++ {
		site.show(&Shown{Entry: entry, Epoch: 1})
		_, err := site.Read(shop.ctx, Seen{})
		is(t, []bool{entry >= last, entry < last}, []bool{err == nil, err == ErrNotServing})
	}
	giveUp()
	<-done
}

// A process that starts on a long script does not take the lease before it has run what there was. Else nobody would serve meanwhile, where
// another process could.
func TestASiteThatIsBehindLeavesTheLeaseToOthers(t *testing.T) {
	shop := newShop(t)
	changes := strings.TrimSpace(strings.Repeat("add:tea:1 ", 300))
	for number := int64(1); number <= 30; number++ {
		for client := 0; client < 12; client++ {
			shop.ask(fmt.Sprintf("c%d", client), number, changes)
		}
		shop.put()
	}
	last, link := int64(shop.count), shop.members.Link()
	link.Rate(300_000)
	site := shop.north("slow", link.Engine(t), nowhere{})
	go site.Run(shop.ctx)
	behind := 0
	until(t, "it does not come to the end", func() bool {
		before := site.Status().Entry
		held := site.lease.Held()
		if before < last && held && site.Status().Entry < last {
			t.Fatalf("it takes the lease at the entry %d of %d", before, last)
		}
		if 0 < before && before < last {
			behind++
		}
		return before >= last
	})
	is(t, true, behind > 100)
	until(t, "it does not serve", func() bool { return site.Status().Serves })
}
