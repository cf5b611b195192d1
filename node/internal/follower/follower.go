// Package follower runs the script as the engine has it, for a primary that stands by and for a site. It knows which entry was run last,
// and what an error of the engine means for whoever goes on from there.
package follower

import (
	"context"
	"errors"
	"fmt"
	"time"

	"ordup.dev/node/internal/clock"
	"ordup.dev/node/internal/engine"
	"ordup.dev/node/internal/epoch"
	"ordup.dev/node/internal/logs"
	"ordup.dev/node/internal/script"
)

// A Runner is what entries come to, from the first one of an epoch on.
type Runner interface {
	// Next is the number of the entry that comes next.
	Next() int64
	// Replay runs an entry of the script.
	Replay(number int64, entry *script.Entry) error
}

// A Follower has one goroutine.
type Follower struct {
	Engine *engine.Engine
	Log    *logs.Log
	// Pause is how long it waits after a member failed it.
	Pause time.Duration
	// Mark is the last entry that was run.
	Mark engine.Mark
}

// Start gives the first entry of the last epoch, for a runner that begins there, once the script still has what was run before.
func (f *Follower) Start(ctx context.Context) (first int64, err error) {
	first, err = f.Engine.Resume(ctx, &f.Mark)
	if err != nil {
		return first, fmt.Errorf("go on with the script: %w", err)
	}
	return first, nil
}

// Run has an entry run, and marks it.
func (f *Follower) Run(by Runner, raw engine.Raw) (*script.Entry, error) {
	entry, err := epoch.Parse(raw.Number, raw.Text)
	if err != nil {
		return nil, err
	}
	if err = by.Replay(raw.Number, entry); err != nil {
		return nil, err
	}
	f.Mark.Set(raw.Number, raw.Text)
	return entry, nil
}

// Follow gives entries from a number on to a function, as they come, until the context ends or with an error.
func (f *Follower) Follow(ctx context.Context, next int64, take func([]engine.Raw) error) error {
	return f.whyGap(ctx, f.Engine.Follow(ctx, next, take))
}

// CatchUp gives all entries from a number on that there are to a function.
func (f *Follower) CatchUp(ctx context.Context, next int64, take func([]engine.Raw) error) error {
	_, err := f.Engine.ReadAll(ctx, next, take)
	return f.whyGap(ctx, err)
}

// whyGap tells what it means that an entry came out of order: that an epoch ended meanwhile and is archived, or a fault.
func (f *Follower) whyGap(ctx context.Context, err error) error {
	var gap *epoch.GapError
	if errors.As(err, &gap) {
		return f.Engine.WhyGap(ctx, gap.Number, err)
	}
	return err
}

// Heed is whether an error ends the process: then it is returned. While the engine is away it waits. Where the script begins with a later
// epoch now, what was run is forgotten, and the last epoch is run anew.
func (f *Follower) Heed(ctx context.Context, err error, forget func()) error {
	switch {
	case err == nil || ctx.Err() != nil:
		return nil
	case errors.Is(err, engine.ErrLaterEpoch):
		f.Log.Info("runs-again", "why", err)
		forget()
		return nil
	case engine.IsAway(err):
		f.Log.Warn("engine-away", "why", err)
		clock.Pause(ctx, f.Pause)
		return nil
	}
	return err
}
