package serve

import (
	"context"
	"errors"

	"ordup.dev/node/internal/epoch"
	"ordup.dev/node/internal/primary"
	"ordup.dev/node/internal/script"
	"ordup.dev/node/internal/site"
	"ordup.dev/node/internal/wire"
)

// plain are the errors that have nothing but their name.
var plain = []struct {
	err  error
	name wire.Name
}{
	{primary.ErrBusy, wire.Busy},
	{primary.ErrFull, wire.Full},
	{primary.ErrDiffers, wire.Differs},
	{primary.ErrMalformed, wire.Malformed},
	{epoch.ErrNoSite, wire.NoSite},
	{epoch.ErrOtherScript, wire.OtherScript},
	{epoch.ErrBehind, wire.NotYet},
	{epoch.ErrOtherWish, wire.OtherWish},
	{epoch.ErrNotYet, wire.NoSuchEpoch},
	{site.ErrNotServing, wire.NotServing},
	{context.DeadlineExceeded, wire.NoAnswer},
	{context.Canceled, wire.NoAnswer},
}

// ErrorOf is how an error travels. One that has no name of its own travels under this one.
func ErrorOf(err error, otherwise wire.Name) *wire.Error {
	var told *wire.Error
	var passed *primary.PassedError
	var other *primary.NotWriterError
	var behind *site.BehindError
	var cannotBe *epoch.CannotBeError
	switch {
	case errors.As(err, &told):
		return told
	case errors.As(err, &passed):
		told = wire.NewError(wire.Passed, err.Error())
		told.Last = passed.Last
		return told
	case errors.As(err, &other):
		told = wire.NewError(wire.NotWriter, err.Error())
		told.Writer = other.Address
		return told
	case errors.As(err, &behind):
		told = wire.NewError(wire.Behind, err.Error())
		told.Epoch, told.Place = behind.Has.Epoch, behind.Has.Place
		return told
	case errors.As(err, &cannotBe):
		told = wire.NewError(wire.CannotBe, err.Error())
		told.Updates = cannotBe.Updates
		return told
	}
	for _, each := range plain {
		if errors.Is(err, each.err) {
			return wire.NewError(each.name, err.Error())
		}
	}
	return wire.NewError(otherwise, err.Error())
}

// ackedOf is how an answer travels. A refusal is an error.
func ackedOf(request epoch.Request, answer script.Answer) (*wire.Acked, error) {
	if answer.IsRefused() {
		return nil, refusedOf(answer)
	}
	return &wire.Acked{Client: request.Client, Number: request.Number, Epoch: answer.Epoch, Place: answer.Place,
		Seen: wire.SeenText(answer.Epoch, answer.Place)}, nil
}

// refusedOf is how a refusal of the store travels.
func refusedOf(answer script.Answer) *wire.Error {
	refused := wire.NewError(wire.Refused, answer.String())
	refused.Refused, refused.Refusal = answer.Refusal.Number, answer.Refusal.Name
	return refused
}
