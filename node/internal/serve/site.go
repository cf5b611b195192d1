package serve

import (
	"context"
	"errors"
	"strings"

	"ordup.dev/node/internal/site"
	"ordup.dev/node/internal/wire"
)

// A Reader is what is asked of a site.
type Reader interface {
	Read(ctx context.Context, seen site.Seen) (site.Reading, error)
}

// A Site answers for a site.
type Site struct {
	*server
	name   string
	reader Reader
	// Waiting are the readers that wait for what they have seen. They take half of the room at most.
	waiting room
}

// NewSite gives the handler of a site.
func NewSite(config Config, name string, reader Reader) *Site {
	served := &Site{newServer(config), name, reader, room{most: int64(config.Requests) / 2}}
	room := &room{most: int64(config.Requests)}
	served.answers(wire.ValuePath, room, served.value)
	served.answers(wire.ValuesPath, room, served.values)
	return served
}

func (s *Site) value(ctx context.Context, asked *request) (any, error) {
	reading, showing, err := s.read(ctx, asked)
	if err != nil {
		return nil, err
	}
	name := strings.TrimPrefix(asked.URL.Path, wire.ValuePath)
	value, isThere := reading.Values[name]
	if !isThere {
		return nil, wire.NewError(wire.NoSuchObject, "the site has no such object")
	}
	return wire.Value{Object: name, Value: value, Import: reading.Imports[name], Showing: showing}, nil
}

func (s *Site) values(ctx context.Context, asked *request) (any, error) {
	reading, showing, err := s.read(ctx, asked)
	if err != nil {
		return nil, err
	}
	return wire.Values{Values: reading.Values, Imports: reading.Imports, Showing: showing}, nil
}

func (s *Site) read(ctx context.Context, asked *request) (reading site.Reading, showing wire.Showing, err error) {
	seen := site.Seen{}
	if text := asked.words.Get("seen"); text != "" {
		seen.Epoch, seen.Place, err = wire.ParseSeen(text)
		if err != nil {
			return reading, showing, malformed(err)
		}
	}
	reading, err = s.readOrWait(ctx, seen)
	if err != nil {
		return reading, showing, err
	}
	return reading, wire.Showing{Site: s.name, Epoch: reading.Epoch, Place: reading.Place, Seen: wire.SeenText(reading.Epoch, reading.Place),
		Acknowledged: reading.Acknowledged, Lease: reading.Lease.Seconds(), Limits: reading.Limits.Texts()}, nil
}

// readOrWait waits where the site is behind what was seen, and too many do not wait yet.
func (s *Site) readOrWait(ctx context.Context, seen site.Seen) (site.Reading, error) {
	now, cancel := context.WithCancel(ctx)
	cancel()
	reading, err := s.reader.Read(now, seen)
	var behind *site.BehindError
	if !errors.As(err, &behind) || !s.waiting.enter() {
		return reading, err
	}
	defer s.waiting.leave()
	return s.reader.Read(ctx, seen)
}
