// Package fleet tells for sites that have one name in the script: the least place that each of them has told.
//
// So each site of the fleet has shown what the fleet tells, and the limits of the fleet hold at each. A fleet keeps nothing: a site tells
// its place again while the script does not have it. A process that serves as a site which is not among the members has shown who knows
// what, so the fleet tells nothing while the engine has a key of one.
package fleet

import (
	"context"
	"errors"
	"fmt"
	"strings"
	"sync"
	"time"

	"ordup.dev/node/internal/clock"
	"ordup.dev/node/internal/engine"
	"ordup.dev/node/internal/epoch"
	"ordup.dev/node/internal/logs"
)

// lookAfter is after how long it is looked again for keys of the fleet.
const lookAfter = time.Second

// A Teller takes the place of the fleet to the primary that writes.
type Teller interface {
	Tell(ctx context.Context, place epoch.Place) error
}

// An Engine has the keys of the processes that serve.
type Engine interface {
	SiteKeys(ctx context.Context, fleet string) ([]engine.Key, error)
}

// A Fleet takes the places of its members, and tells the least one.
type Fleet struct {
	name   string
	teller Teller
	names  []string

	// What stands below lock is under it.
	lock   sync.Mutex
	places map[string]epoch.Place
	told   map[string]time.Duration
	// Whether the engine was looked at, and its keys of the fleet that are of no member.
	looked   bool
	unlisted []string
}

// A MemberStatus is the last place of a member, of epoch 0 where it told none, and since when it told nothing.
type MemberStatus struct {
	Place epoch.Place
	Told  time.Duration
}

// A Status is what an operator may see of a fleet.
type Status struct {
	// Members are in their order.
	Members []MemberStatus
	// Looked is whether the engine was looked at, and Unlisted its keys of the fleet that are of no member. Before a look, and while there
	// are such keys, nothing is told.
	Looked   bool
	Unlisted []string
}

// Status tells what there is.
func (f *Fleet) Status() Status {
	f.lock.Lock()
	defer f.lock.Unlock()
	status, now := Status{Looked: f.looked, Unlisted: f.unlisted}, clock.Now()
	for _, name := range f.names {
		status.Members = append(status.Members, MemberStatus{f.places[name], now - f.told[name]})
	}
	return status
}

// New gives a fleet of these members, which tells by the teller once Look found no other ones.
func New(name string, members []string, teller Teller) *Fleet {
	fleet := &Fleet{name: name, teller: teller, places: map[string]epoch.Place{}, told: map[string]time.Duration{}, names: members}
	for _, member := range members {
		fleet.places[member] = epoch.Place{Site: name, Member: member}
	}
	return fleet
}

// Run looks at the engine again and again, until the context ends.
func (f *Fleet) Run(ctx context.Context, of Engine, log *logs.Log) error {
	for ctx.Err() == nil {
		switch err := f.Look(ctx, of); {
		case err == nil || ctx.Err() != nil:
		case engine.IsAway(err):
			log.Warn("engine-away", "why", err)
		default:
			return err
		}
		if unlisted := f.Status().Unlisted; len(unlisted) > 0 {
			log.Warn("fleet-tells-nothing", "why", "there are keys of sites that are not its members", "keys", strings.Join(unlisted, ","))
		}
		clock.Pause(ctx, lookAfter)
	}
	return nil
}

// Look looks which keys of the fleet the engine has. After an error what was found before holds: a process gets to serve only once the
// fleet has taken a place of it.
func (f *Fleet) Look(ctx context.Context, of Engine) error {
	keys, err := of.SiteKeys(ctx, f.name)
	if err != nil {
		return fmt.Errorf("look for the keys of the fleet %s: %w", f.name, err)
	}
	isListed, unlisted := map[string]bool{}, []string{}
	for _, name := range f.names {
		isListed[engine.SiteKey(f.name, name)] = true
	}
	for _, key := range keys {
		if !isListed[key.Name] {
			unlisted = append(unlisted, key.Name)
		}
	}
	f.lock.Lock()
	defer f.lock.Unlock()
	f.looked, f.unlisted = true, unlisted
	return nil
}

// Tell takes the place of a member, and tells the least of all, once each has told one and nobody else serves. A place before one that the
// member told is passed over.
func (f *Fleet) Tell(ctx context.Context, place epoch.Place) error {
	least, isThere, err := f.take(place)
	if err != nil || !isThere {
		return err
	}
	told := least
	told.Member = f.name
	err = f.teller.Tell(ctx, told)
	var cannotBe *epoch.CannotBeError
	if least != place && (errors.As(err, &cannotBe) || errors.Is(err, epoch.ErrOtherScript)) {
		f.forget(least)
		return fmt.Errorf("the place of %s is refused: %v", least.Member, err) // It ends who tells it again, and not this site.
	}
	return err
}

// forget drops the last place of a member.
func (f *Fleet) forget(place epoch.Place) {
	f.lock.Lock()
	defer f.lock.Unlock()
	if f.places[place.Member] == place {
		f.places[place.Member] = epoch.Place{Site: f.name, Member: place.Member}
	}
}

func (f *Fleet) take(place epoch.Place) (least epoch.Place, isThere bool, err error) {
	f.lock.Lock()
	defer f.lock.Unlock()
	before, isMember := f.places[place.Member]
	if !isMember || place.Site != f.name {
		return least, false, fmt.Errorf("%w: the sites of the fleet %s are %s", epoch.ErrNoSite, f.name, strings.Join(f.names, ", "))
	}
	f.told[place.Member] = clock.Now()
	if isBefore(before, place) {
		f.places[place.Member] = place
	}
	least, isThere = f.places[place.Member], f.looked && len(f.unlisted) == 0
	for _, name := range f.names {
		other := f.places[name]
		isThere = isThere && other.Epoch > 0
		if isBefore(other, least) {
			least = other
		}
	}
	return least, isThere, nil
}

// isBefore is whether one place is before another.
func isBefore(one, other epoch.Place) bool {
	return one.Epoch < other.Epoch || one.Epoch == other.Epoch && one.Applied < other.Applied
}
