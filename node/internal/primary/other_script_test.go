package primary_test

import (
	"errors"
	"testing"
	"time"

	"ordup.dev/node/internal/epoch"
	"ordup.dev/node/internal/exit"
	"ordup.dev/node/internal/site"
)

// A site that follows the script of one deployment and tells the primaries of another has run as many updates, and is of no use there.
func TestTheSiteOfAnotherDeploymentIsRefused(t *testing.T) {
	deployment, other := deploy(t, 1), deploy(t, 1)
	deployment.primary(deployment.config("p1"))
	other.primary(other.config("p2"))
	for number := int64(1); number <= 3; number++ {
		deployment.ask("ann", number, "add:tea:-1")
	}
	other.ask("ann", 1, "add:tea:-5")
	strays, err := site.New(site.Config{Engine: other.members.Engine(), Open: openStore, Name: "north", Host: "h", Versions: []string{"1"},
		Teller: deployment, Log: other.log})
	is(t, nil, err)
	process := other.run(strays.Run)
	select {
	case err = <-process.done:
	case <-time.After(30 * time.Second):
		t.Fatal("it goes on")
	}
	is(t, []any{true, exit.NoPlace}, []any{errors.Is(err, epoch.ErrOtherScript), exit.Of(err)})
	is(t, int64(0), strays.Status().Readers)
	// One of its own follows, tells and serves.
	own, _ := deployment.site("north", "")
	is(t, "epoch 1 place 3 tea=999997", deployment.read(own, site.Seen{Epoch: 1, Place: 3}))
}
