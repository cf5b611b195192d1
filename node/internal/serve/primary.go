package serve

import (
	"context"
	"errors"
	"fmt"
	"strings"
	"time"

	"ordup.dev/node/internal/epoch"
	"ordup.dev/node/internal/primary"
	"ordup.dev/node/internal/script"
	"ordup.dev/node/internal/wire"
)

// A Writer is what is asked of a primary.
type Writer interface {
	Submit(ctx context.Context, request epoch.Request) (script.Answer, error)
	Tell(ctx context.Context, place epoch.Place) error
	Next(ctx context.Context, wish epoch.Wish) (int64, error)
	Relimit(ctx context.Context, asked epoch.Limiting) (script.Answer, error)
	Status() primary.Status
}

// A Primary answers for a primary.
type Primary struct {
	*server
	writer Writer
	pass   *Passer
	waited func(time.Duration)
}

// NewPrimary gives the handler of a primary. Waited is told how long each update waited that has its answer.
func NewPrimary(config Config, writer Writer, pass *Passer, waited func(time.Duration)) *Primary {
	served := &Primary{newServer(config), writer, pass, waited}
	// Updates wait for places, so they never take the room of these.
	updates, places := &room{most: int64(config.Requests)}, &room{most: mostPlaces}
	served.answers(wire.UpdatePath, updates, served.update)
	served.answers(wire.PlacePath, places, served.place)
	served.answers(wire.NextPath, &room{most: mostNexts}, served.next)
	served.answers(wire.EpochPath, &room{most: mostLooks}, served.epoch)
	served.answers(wire.LimitPath, &room{most: mostNexts}, served.relimit)
	return served
}

func (p *Primary) update(ctx context.Context, asked *request) (any, error) {
	var update wire.Update
	if err := asked.read(&update); err != nil {
		return nil, err
	}
	for _, change := range update.Changes {
		if !script.IsWord(change, script.MostChangesBytes) {
			return nil, malformed(errors.New("each change is one word, as add:tea:-5"))
		}
	}
	request := epoch.Request{Client: update.Client, Number: update.Number, Changes: strings.Join(update.Changes, " ")}
	began := time.Now()
	answer, err := p.writer.Submit(ctx, request)
	if err != nil {
		var acked wire.Acked
		return p.orPassed(ctx, asked, err, &acked)
	}
	p.waited(time.Since(began))
	return ackedOf(request, answer)
}

func (p *Primary) place(ctx context.Context, asked *request) (any, error) {
	place, err := placeOf(asked)
	if err != nil {
		return nil, err
	}
	if asked.site != "" && asked.site != place.Site {
		return nil, otherSite(asked.site)
	}
	if place.Member != place.Site {
		return nil, fmt.Errorf("%w: a site of a fleet tells the process of the fleet", epoch.ErrNoSite)
	}
	if err = p.writer.Tell(ctx, place); err != nil {
		return p.orPassed(ctx, asked, err, &wire.Done{})
	}
	return wire.Done{}, nil
}

// placeOf reads a place. Numbers that no place has are refused here, and names that are none.
func placeOf(asked *request) (epoch.Place, error) {
	var place wire.Place
	if err := asked.read(&place); err != nil {
		return epoch.Place{}, err
	}
	if !script.IsName(place.Site) || !script.IsName(place.Member) || place.Epoch < 1 || place.Entry < 1 || place.Applied < 0 {
		return epoch.Place{}, malformed(errors.New("this is no place"))
	}
	return epoch.Place(place), nil
}

func (p *Primary) next(ctx context.Context, asked *request) (any, error) {
	var next wire.Next
	if err := asked.read(&next); err != nil {
		return nil, err
	}
	if next.From < 1 || next.Every < 0 || next.Remembers < 0 || next.RemembersSeconds < 0 || next.Ordup != "" && !script.IsWord(next.Ordup, 64) {
		return nil, malformed(errors.New("from is the epoch that is to end, and the settings are no less than 0"))
	}
	declarations, err := epoch.Declarations(next.Declarations)
	if err != nil {
		return nil, malformed(err)
	}
	wish := epoch.Wish{From: next.From, Declarations: declarations, Replaces: next.Replaces,
		Settings: script.Settings{Every: next.Every, Remembers: next.Remembers, Seconds: next.RemembersSeconds, Ordup: next.Ordup}}
	begun, err := p.writer.Next(ctx, wish)
	if err != nil {
		value, err := p.orPassed(ctx, asked, err, &wire.Begun{})
		if err != nil {
			err = ErrorOf(err, wire.NoWish)
		}
		return value, err
	}
	return wire.Begun{Epoch: begun}, nil
}

func (p *Primary) relimit(ctx context.Context, asked *request) (any, error) {
	var relimit wire.Relimit
	if err := asked.read(&relimit); err != nil {
		return nil, err
	}
	limit, err := script.ParseLimit(relimit.Limit)
	if err != nil || !script.IsName(relimit.Site) {
		return nil, malformed(fmt.Errorf("%.40q is to have a limit: %w", relimit.Site, err))
	}
	answer, err := p.writer.Relimit(ctx, epoch.Limiting{Site: relimit.Site, Limit: limit})
	if err != nil {
		return p.orPassed(ctx, asked, err, &wire.Limited{})
	}
	if answer.IsRefused() {
		return nil, refusedOf(answer)
	}
	return wire.Limited{Site: relimit.Site, Limit: limit.String(), Epoch: answer.Epoch, Place: answer.Place}, nil
}

func (p *Primary) epoch(ctx context.Context, asked *request) (any, error) {
	status := p.writer.Status()
	switch {
	case !status.Writes:
		return p.orPassed(ctx, asked, &primary.NotWriterError{Address: status.Writer}, &wire.Begun{})
	case status.Lease == 0:
		return nil, &primary.NotWriterError{}
	}
	return wire.Begun{Epoch: status.Core.Epoch}, nil
}

// orPassed passes a request on to the primary that writes, where this one does not. Else, and where that cannot be, it gives the error.
func (p *Primary) orPassed(ctx context.Context, asked *request, err error, to any) (any, error) {
	var other *primary.NotWriterError
	if !errors.As(err, &other) || other.Address == "" {
		return nil, err
	}
	asked.header.Set(wire.WriterHeader, other.Address)
	if p.pass == nil || asked.Header.Get(wire.PassedHeader) != "" {
		return nil, err
	}
	if failure := p.pass.on(ctx, asked, other.Address, to); failure != nil {
		var told *wire.Error
		if errors.As(failure, &told) {
			return nil, told
		}
		if ctx.Err() != nil {
			err = ctx.Err()
		}
		return nil, err
	}
	return to, nil
}
