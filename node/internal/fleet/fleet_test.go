package fleet

import (
	"context"
	"errors"
	"fmt"
	"strings"
	"testing"

	"ordup.dev/node/internal/engine"
	"ordup.dev/node/internal/epoch"
	"ordup.dev/node/internal/exit"
)

// A teller keeps what it is told, and answers with its error.
type teller struct {
	told []string
	err  error
}

func (tl *teller) Tell(_ context.Context, place epoch.Place) error {
	tl.told = append(tl.told, fmt.Sprint(place.Site, place.Member, place.Epoch, place.Applied, place.Entry))
	return tl.err
}

// Keys are those of the fleet far in an engine, or an error.
type keys struct {
	names []string
	err   error
}

func (k *keys) SiteKeys(context.Context, string) (found []engine.Key, err error) {
	for _, name := range k.names {
		found = append(found, engine.Key{Name: name, IsLeased: true})
	}
	return found, k.err
}

func start(up *teller, engine Engine) (*Fleet, func(member string, epochs, applied, entry int64) error) {
	fleet := New("far", []string{"east", "west"}, up)
	fleet.Look(context.Background(), engine)
	return fleet, func(member string, epochs, applied, entry int64) error {
		return fleet.Tell(context.Background(), epoch.Place{Site: "far", Member: member, Epoch: epochs, Applied: applied, Entry: entry})
	}
}

func TestAFleetTellsTheLeastPlace(t *testing.T) {
	t.Parallel()
	up := &teller{}
	_, tell := start(up, &keys{})
	for _, err := range []error{tell("east", 1, 5, 7), tell("west", 1, 3, 5), tell("west", 1, 2, 4), tell("west", 1, 9, 9),
		tell("east", 2, 0, 12), tell("east", 2, 4, 13), tell("west", 2, 1, 14)} {
		if err != nil {
			t.Error(err)
		}
	}
	for _, stranger := range []string{"north", "\xff", "far"} {
		if err := tell(stranger, 1, 1, 1); !errors.Is(err, epoch.ErrNoSite) || exit.Of(err) != exit.NotInScript {
			t.Error("who is no member tells", err)
		}
	}
	wants := "[farfar1 3 5 farfar1 3 5 farfar1 5 7 farfar1 9 9 farfar1 9 9 farfar2 1 14]"
	if fmt.Sprint(up.told) != wants {
		t.Error(up.told)
	}
}

// A fleet tells nothing before it saw which keys of it there are, and while one of them is of no member.
func TestAFleetTellsNothingWhileOthersServe(t *testing.T) {
	t.Parallel()
	up, seen := &teller{}, &keys{err: errors.New("the engine is away")}
	fleet, tell := start(up, seen)
	tells := func(wants bool, why string) {
		t.Helper()
		before := len(up.told)
		for _, member := range []string{"east", "west"} {
			if err := tell(member, 1, 5, 7); err != nil {
				t.Error(err)
			}
		}
		if (len(up.told) > before) != wants {
			t.Errorf("%s: %v", why, up.told)
		}
	}
	look := func(err error, names ...string) {
		seen.names, seen.err = names, err
		if got := fleet.Look(context.Background(), seen); !errors.Is(got, err) {
			t.Error(got)
		}
	}
	tells(false, "the engine was not seen yet")
	look(nil, "site/far/east", "site/far/mid")
	tells(false, "mid may serve")
	if got := fleet.Status(); !got.Looked || fmt.Sprint(got.Unlisted) != "[site/far/mid]" {
		t.Error(got)
	}
	look(seen.err, "site/far/east")
	look(errors.New("away"), "site/far/west")
	tells(true, "mid has gone, and the engine is away")
	look(nil, "site/far/far")
	tells(false, "a process serves as the fleet itself")
}

// A place that is refused for good ends the site that told it, and not the one by whose place the fleet told.
func TestAPlaceOfAnotherMemberIsRefused(t *testing.T) {
	t.Parallel()
	up := &teller{}
	_, tell := start(up, &keys{})
	tell("west", 1, 3, 5)
	up.err = &epoch.CannotBeError{Updates: 2}
	var cannotBe *epoch.CannotBeError
	if err := tell("east", 1, 5, 7); err == nil || errors.As(err, &cannotBe) || !strings.Contains(err.Error(), "west") {
		t.Error(err)
	}
	if err := tell("west", 1, 3, 5); !errors.As(err, &cannotBe) {
		t.Error(err)
	}
	// What a member told before its script was restored is forgotten, and what it tells then counts.
	up.err = epoch.ErrOtherScript
	if err := tell("east", 1, 2, 3); err == nil || errors.Is(err, epoch.ErrOtherScript) {
		t.Error(err)
	}
	up.err, up.told = nil, nil
	tell("west", 1, 2, 3)
	tell("east", 1, 1, 2)
	if fmt.Sprint(up.told) != "[farfar1 2 3 farfar1 2 3]" {
		t.Error(up.told)
	}
}
