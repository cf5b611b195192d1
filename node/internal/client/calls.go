package client

import (
	"context"
	"encoding/json"
	"errors"
	"fmt"
	"net/http"
	"net/url"
	"time"

	"ordup.dev/node/internal/epoch"
	"ordup.dev/node/internal/wire"
)

// Update asks for an update until there is an answer, or the context ends. What the store refuses is a *wire.Error.
func (c *Client) Update(ctx context.Context, update wire.Update) (wire.Acked, error) {
	return posted[wire.Acked](ctx, c, wire.UpdatePath+waiting(waitIn(ctx)), update)
}

// Next asks for the next epoch until it has begun, or the context ends.
func (c *Client) Next(ctx context.Context, next wire.Next) (wire.Begun, error) {
	return posted[wire.Begun](ctx, c, wire.NextPath+waiting(waitIn(ctx)), next)
}

// Relimit asks for another limit of a site until there is an answer, or the context ends. What the store refuses is a *wire.Error.
func (c *Client) Relimit(ctx context.Context, relimit wire.Relimit) (wire.Limited, error) {
	return posted[wire.Limited](ctx, c, wire.LimitPath+waiting(waitIn(ctx)), relimit)
}

// Epoch asks for the epoch.
func (c *Client) Epoch(ctx context.Context) (wire.Begun, error) {
	return got[wire.Begun](ctx, c, wire.EpochPath)
}

// Value reads a value. Where the site does not get in time to what was seen, that is a *wire.Error.
func (c *Client) Value(ctx context.Context, object, seen string, wait time.Duration) (wire.Value, error) {
	return got[wire.Value](ctx, c, wire.ValuePath+url.PathEscape(object)+waiting(wait)+"&seen="+url.QueryEscape(seen))
}

// Values reads all values.
func (c *Client) Values(ctx context.Context, seen string, wait time.Duration) (wire.Values, error) {
	return got[wire.Values](ctx, c, wire.ValuesPath+waiting(wait)+"&seen="+url.QueryEscape(seen))
}

// got asks by GET for an answer of a type, as ask does.
func got[T any](ctx context.Context, by *Client, path string) (answer T, err error) {
	err = by.ask(ctx, http.MethodGet, path, nil, &answer)
	return answer, err
}

// posted asks by POST for one.
func posted[T any](ctx context.Context, by *Client, path string, value any) (answer T, err error) {
	body, err := json.Marshal(value)
	if err != nil {
		return answer, fmt.Errorf("ask at %s: %w", path, err)
	}
	err = by.ask(ctx, http.MethodPost, path, body, &answer)
	return answer, err
}

// Tell tells a place, at each address once.
func (c *Client) Tell(ctx context.Context, place epoch.Place) error {
	body, err := json.Marshal(wire.Place(place))
	if err != nil {
		return err
	}
	for try := 0; try <= len(c.config.Addresses) && ctx.Err() == nil; try++ {
		limited, cancel := context.WithTimeout(ctx, tellTime)
		err = c.try(limited, c.address(), http.MethodPost, wire.PlacePath+waiting(tellTime), body, &wire.Done{})
		cancel()
		if err == nil || isForGood(err) {
			return refusalOf(err, place)
		}
	}
	if err == nil {
		err = ctx.Err()
	}
	return err
}

// tellTime is how long one address may take for a place.
const tellTime = time.Second

// A refusal of a place says what the primary said, and is the error that it had there.
type refusal struct {
	told *wire.Error
	is   error
}

func (r *refusal) Error() string { return r.told.Message }
func (r *refusal) Unwrap() error { return r.is }

// refusalOf gives the errors of a place the types that they had at the primary.
func refusalOf(err error, place epoch.Place) error {
	var told *wire.Error
	if !errors.As(err, &told) {
		return err
	}
	switch told.Name {
	case wire.CannotBe:
		return &epoch.CannotBeError{Place: place, Updates: told.Updates}
	case wire.OtherScript:
		return &refusal{told, epoch.ErrOtherScript}
	case wire.NoSite:
		return &refusal{told, epoch.ErrNoSite}
	}
	return err
}

// waitIn is how long a server is asked to wait for an answer: less than there is time, so that it can say why there is none.
func waitIn(ctx context.Context) time.Duration {
	end, hasEnd := ctx.Deadline()
	wait := time.Until(end) * 3 / 4
	if !hasEnd || wait > tryWait {
		return tryWait
	}
	if wait < 0 {
		return 0
	}
	return wait
}

func waiting(wait time.Duration) string { return fmt.Sprintf("?wait=%g", wait.Seconds()) }
