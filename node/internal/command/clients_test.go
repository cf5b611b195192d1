package command_test

import (
	"context"
	"errors"
	"regexp"
	"testing"
	"time"

	"ordup.dev/ordup/node"
)

// Who updates a trial by the client in Go reads it at each site. docs/HTTP.md has the client in Python do so.
func TestTheClientInGoAsksATrial(t *testing.T) {
	t.Setenv("TMPDIR", t.TempDir())
	trial := try(t, file(t, "shop", shop))
	// The primary, the sites north and far, and the primary for its page.
	addresses := regexp.MustCompile(`http://127\.0\.0\.1:\d+`).FindAllString(trial.out.String(), -1)
	asker, err := node.New(node.Config{Addresses: addresses[:1], Client: "ann"})
	if err != nil {
		t.Fatal(err)
	}
	ctx, cancel := context.WithTimeout(context.Background(), time.Minute)
	defer cancel()
	acked, err := asker.Update(ctx, "add:tea:-5", "add:till:20")
	if err != nil || acked.Seen != "1.1" {
		t.Fatal(acked, err)
	}
	for _, site := range addresses[1:3] {
		reading, err := asker.Read(ctx, site, "tea", "till")
		if err != nil || reading.Values["tea"] != 995 || reading.Values["till"] != 20 || reading.Seen != acked.Seen {
			t.Error(reading, err)
		}
	}
	if again, err := asker.UpdateAs(ctx, acked.Number, "add:tea:-5", "add:till:20"); err != nil || again != acked {
		t.Error(again, err)
	}
	var told *node.Error
	if _, err = asker.UpdateAs(ctx, 1, "add:tea:-5"); !errors.Is(err, node.Passed) || !errors.As(err, &told) || told.Last != acked.Number {
		t.Error(err)
	}
	if _, err = asker.UpdateAs(ctx, acked.Number, "add:tea:-6"); !errors.Is(err, node.Differs) {
		t.Error(err)
	}
	if _, err = asker.Update(ctx, "add:milk:1"); !errors.Is(err, node.Refused) || !errors.As(err, &told) || told.Refusal != "UnknownObject" {
		t.Error(err)
	}
	if _, err = asker.Read(ctx, addresses[1], "milk"); !errors.Is(err, node.NoSuchObject) {
		t.Error(err)
	}
	asker.See("1.9")
	soon, cancel := context.WithTimeout(ctx, 2*time.Second)
	defer cancel()
	if _, err = asker.Read(soon, addresses[1]); !errors.Is(err, node.Behind) || !errors.As(err, &told) || told.Epoch != 1 || told.Place != 1 {
		t.Error(err)
	}
	trial.end()
}
