package primary_test

import (
	"context"
	"errors"
	"testing"
	"time"

	"ordup.dev/node/internal/epoch"
	"ordup.dev/node/internal/primary"
	"ordup.dev/node/internal/script"
)

// relimit asks the primary that writes for another limit of a site.
func (d *deployment) relimit(site string, amount int64) string {
	d.t.Helper()
	ctx, cancel := context.WithTimeout(context.Background(), 30*time.Second)
	defer cancel()
	var answer script.Answer
	err := d.toWriter(func(primary *primary.Primary) (err error) {
		answer, err = primary.Relimit(ctx, epoch.Limiting{Site: site, Limit: script.Limit{Scope: "count", Amount: amount}})
		return err
	})
	if err != nil {
		return err.Error()
	}
	return answer.String()
}

// Limits change while the deployment runs: what is refused changes nothing, the site that lags holds updates up by its new limit, and who
// takes over goes by it.
func TestALimitChanges(t *testing.T) {
	t.Parallel()
	deployment := deploy(t, 1)
	one, first := deployment.primary(deployment.config("p1"))
	is(t, "ok acked 1 epoch 1", deployment.ask("ann", 1, "add:tea:-1"))
	is(t, "ok acked 2 epoch 1", deployment.relimit("north", 2))
	is(t, "ok acked 2 epoch 1", deployment.relimit("north", 2))
	is(t, "refused 25 LagOver", deployment.relimit("north", 0))
	is(t, "refused 8 UnknownSite", deployment.relimit("nowhere", 2))
	is(t, "ok acked 2 epoch 1", deployment.ask("ann", 2, "add:tea:-1"))
	is(t, []int64{2}, one.Status().Core.Sites[0].Lags)
	two, second := deployment.primary(deployment.config("p2"))
	ctx, cancel := context.WithTimeout(context.Background(), 20*time.Second)
	defer cancel()
	_, err := two.Relimit(ctx, epoch.Limiting{Site: "north", Limit: script.Limit{Scope: "count", Amount: 9}})
	var other *primary.NotWriterError
	is(t, true, errors.As(err, &other))
	is(t, nil, first.end())
	// The third update passes the limit at the primary that took over, as it would have at the one before, and not the one of the start.
	answered := make(chan string, 1)
	go func() { answered <- deployment.ask("ann", 3, "add:tea:-1") }()
	until(t, 20*time.Second, "the head does not wait for north", func() bool {
		sites := two.Status().Core.Sites
		return len(sites) > 0 && sites[0].Waited
	})
	is(t, "refused 24 HeadPending", deployment.relimit("north", 9))
	_, site := deployment.site("north", "")
	is(t, "ok acked 3 epoch 1", <-answered)
	is(t, nil, site.end())
	is(t, nil, second.end())
}
