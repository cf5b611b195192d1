package serve

import (
	"context"
	"errors"
	"fmt"

	"ordup.dev/node/internal/epoch"
	"ordup.dev/node/internal/wire"
)

// A Teller takes the places of the sites of a fleet.
type Teller interface {
	Tell(ctx context.Context, place epoch.Place) error
}

// A Fleet answers for a fleet.
type Fleet struct {
	*server
	teller Teller
}

// NewFleet gives the handler of a fleet.
func NewFleet(config Config, teller Teller) *Fleet {
	served := &Fleet{newServer(config), teller}
	served.answers(wire.PlacePath, &room{most: mostPlaces}, served.place)
	return served
}

func (f *Fleet) place(ctx context.Context, asked *request) (any, error) {
	place, err := placeOf(asked)
	if err != nil {
		return nil, err
	}
	if asked.site != "" && asked.site != place.Member {
		return nil, otherSite(asked.site)
	}
	return wire.Done{}, inFleet(f.teller.Tell(ctx, place))
}

// inFleet is what a site is told of an error of the fleet. It hears of no primary that writes, since it would tell that one its own place as
// the fleet's.
func inFleet(err error) error {
	var told *wire.Error
	if errors.As(err, &told) && told.Name == wire.NotWriter {
		return fmt.Errorf("%w: %s", epoch.ErrBehind, told.Message)
	}
	return err
}
