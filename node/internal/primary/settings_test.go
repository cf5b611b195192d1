package primary_test

import (
	"context"
	"strings"
	"sync"
	"testing"
	"time"

	"ordup.dev/node/internal/epoch"
	"ordup.dev/node/internal/etcdtest"
	"ordup.dev/node/internal/exit"
	"ordup.dev/node/internal/primary"
	"ordup.dev/node/internal/script"
	"ordup.dev/node/internal/store"
)

// A primary comes back with the settings with which the script began, after any wish of an operator. With others it does not.
func TestAPrimaryComesBackAfterAnyWish(t *testing.T) {
	deployment := deploy(t, 1)
	_, process := deployment.primary(deployment.config("p1"))
	deployment.site("north", "")
	deployment.site("south", "")
	is(t, "ok acked 1 epoch 1", deployment.ask("ann", 1, "add:tea:-1"))
	other := append([]string{"object tea 1", "object milk 5"}, shop[2:]...)
	for at, wish := range []epoch.Wish{{Declarations: other}, {Settings: script.Settings{Every: 500, Remembers: 7, Seconds: 30}}, {}} {
		wish.From = int64(at + 1)
		begun, err := deployment.next(wish)
		is(t, []any{at + 2, nil}, []any{begun, err})
	}
	is(t, nil, process.end())
	_, process = deployment.primary(deployment.config("p1"))
	is(t, "ok acked 1 epoch 4", deployment.ask("ann", 2, "add:tea:-1 add:milk:1"))
	for _, row := range []struct {
		change func(*primary.Config)
		says   []string
	}{
		{func(config *primary.Config) { config.Declarations = other }, []string{"this primary has the setting declarations: lines of the digest " + epoch.DigestOf(other) +
			", and the script began with lines of the digest " + epoch.DigestOf(shop) + ": "}},
		{func(config *primary.Config) { config.Every = 500 }, []string{"500 ", "1000 "}},
		{func(config *primary.Config) { config.Remembers = 7 }, []string{"7 ", "2 "}},
		{func(config *primary.Config) { config.Seconds = 30 }, []string{"30 ", "600 "}},
	} {
		t.Run(row.says[0], func(t *testing.T) {
			config := deployment.config("p2")
			row.change(&config)
			_, refused := deployment.primary(config)
			err := <-refused.done
			is(t, exit.Words, exit.Of(err))
			for _, word := range row.says {
				if err != nil && !strings.Contains(err.Error()+" ", word) {
					t.Errorf("%v does not name %s", err, word)
				}
			}
		})
	}
	is(t, nil, process.end())
}

// The lease comes while a primary with other settings runs the entry that says so.
func TestAPrimaryWithOtherSettingsDoesNotTakeOver(t *testing.T) {
	deployment := deploy(t, 1)
	_, first := deployment.primary(deployment.config("p1"))
	is(t, "refused 6 UnknownObject", deployment.ask("ann", 1, "add:nothing:1"))
	config, own := deployment.config("p2"), deployment.members.Engine()
	config.Every = 500
	var once sync.Once
	config.Open = func() (store.Store, error) {
		once.Do(func() {
			is(t, nil, first.end())
			etcdtest.Until(t, "the lease is not of p2", func() bool {
				writer, err := own.Writer(context.Background())
				return err == nil && strings.HasPrefix(writer, "p2-")
			})
			time.Sleep(100 * time.Millisecond) // p2 learns of it.
		})
		return openStore()
	}
	_, second := deployment.primary(config)
	etcdtest.Until(t, "it goes on", func() bool { return len(second.done) > 0 })
	is(t, exit.Words, exit.Of(<-second.done))
}
