package primary

import (
	"context"
	"errors"
	"fmt"
	"strings"

	"ordup.dev/node/internal/clock"
	"ordup.dev/node/internal/engine"
	"ordup.dev/node/internal/epoch"
	"ordup.dev/node/internal/exit"
	"ordup.dev/node/internal/script"
)

// standBy runs the script as it comes, until the lease names this process and the script was taken over. A process that slept may have
// lost the lease, and not know it yet: so it takes over only while it may rely on it.
func (p *Primary) standBy(ctx context.Context) error {
	for !p.lease.Relies() {
		if err := p.follow(ctx); err != nil {
			return err
		}
	}
	return p.takeOver(ctx)
}

// follow runs the script as it comes, until the lease names this process.
func (p *Primary) follow(ctx context.Context) error {
	following, cancel := context.WithCancel(ctx)
	defer cancel()
	changed := p.lease.Changed()
	go func() {
		select {
		case <-changed:
			cancel()
		case <-following.Done():
		}
	}()
	if p.lease.Relies() {
		return nil
	}
	err := p.start(following)
	if err == nil {
		p.calls.set(false, p.address(following))
		err = p.follower.Follow(following, p.next(), p.replay)
	}
	if following.Err() != nil && ctx.Err() == nil {
		return nil
	}
	return err
}

// address is where the process is that writes, or "".
func (p *Primary) address(ctx context.Context) string {
	writer, err := p.config.Engine.Writer(ctx)
	if err != nil {
		return ""
	}
	return addressOf(writer)
}

// addressOf is the address in the name of a process.
func addressOf(writer string) string {
	_, address, _ := strings.Cut(writer, "@")
	return address
}

func (p *Primary) next() (next int64) {
	p.see(func(core *epoch.Core) { next = core.Next() })
	return next
}

// start gives a core before the last epoch, where there is none. Else it looks whether the script still has what the core has run.
func (p *Primary) start(ctx context.Context) error {
	first, err := p.follower.Start(ctx)
	if err != nil {
		return err
	}
	p.see(func(core *epoch.Core) {
		if core == nil {
			p.core = p.newCore(first)
		}
	})
	return nil
}

func (p *Primary) newCore(first int64) *epoch.Core {
	return epoch.New(epoch.Config{Open: p.config.Open, Writer: p.own, Versions: p.config.Versions,
		Ended: p.rounds.end}, first)
}

// replay runs entries of the script.
func (p *Primary) replay(entries []engine.Raw) error {
	return p.with(func(core *epoch.Core) error {
		for _, raw := range entries {
			entry, err := p.follower.Run(core, raw)
			if err != nil {
				return err
			}
			p.markAt = clock.Now()
			p.digests.Add(&p.follower.Mark, entry.Begins())
			if address := addressOf(entry.Writer); address != p.calls.writer() {
				p.calls.set(false, address)
			}
			if !entry.Begins() {
				continue
			}
			p.noteEpoch()
			if err = p.agrees(core); err != nil {
				return err
			}
		}
		return nil
	})
}

// noteEpoch has the archives looked at.
func (p *Primary) noteEpoch() {
	select {
	case p.ended <- struct{}{}:
	default:
	}
}

// agrees is whether this primary was started with the settings and the declarations with which the script began, whatever operators have
// wished since.
func (p *Primary) agrees(core *epoch.Core) error {
	began, own := core.Settings().Began, p.config
	switch digest := epoch.DigestOf(own.Declarations); {
	case p.agreed:
		return nil
	case own.Every != 0 && own.Every != began.Every:
		return differs("every", "%d requests", own.Every, began.Every)
	case own.Remembers != 0 && own.Remembers != began.Remembers:
		return differs("remembers", "%d epochs", own.Remembers, began.Remembers)
	case own.Seconds != 0 && own.Seconds != began.Seconds:
		return differs("remembers-seconds", "%d seconds", own.Seconds, began.Seconds)
	case len(own.Declarations) > 0 && digest != began.Origin:
		return differs("declarations", "lines of the digest %s", digest, began.Origin)
	}
	p.agreed = true
	return nil
}

// differs says which setting is this primary's own, with which one the script began, and what to do.
func differs(setting, format string, own, began any) error {
	return exit.With(exit.Words, fmt.Errorf("this primary has the setting %s: "+format+", and the script began with "+format+
		": start the primary with those, or without %s (`ordup-node next` changes what an epoch begins with)", setting, own, began, setting))
}

// catchUp runs all that the script has.
func (p *Primary) catchUp(ctx context.Context) error {
	if err := p.start(ctx); err != nil {
		return err
	}
	return p.follower.CatchUp(ctx, p.next(), p.replay)
}

// takeOver writes an entry after the last one. From then on no other primary that runs can write.
func (p *Primary) takeOver(ctx context.Context) error {
	for {
		if err := p.catchUp(ctx); err != nil {
			return err
		}
		var batch *epoch.Batch
		err := p.with(func(core *epoch.Core) (err error) {
			if core.Epoch() > 0 {
				batch = core.TakeOver()
				return p.agrees(core) // What replay said of it is lost where the lease came meanwhile.
			}
			batch, err = p.firstBatch()
			return err
		})
		if err != nil {
			return err
		}
		err = p.send(ctx, batch)
		var taken *engine.TakenError
		if errors.As(err, &taken) {
			continue // The primary before was faster, or a write of it was late. So run that too.
		}
		if err != nil {
			return fmt.Errorf("take over: %w", err)
		}
		p.config.Log.Info("took-over", "entry", batch.Number, "writer", p.own)
		p.follower.Mark.Set(batch.Number, batch.Text)
		return p.with(func(core *epoch.Core) error {
			p.digests.Add(&p.follower.Mark, batch.First > 0)
			return core.Replay(batch.Number, batch.Entry())
		})
	}
}

// firstBatch begins an empty script.
func (p *Primary) firstBatch() (*epoch.Batch, error) {
	own := p.config
	if len(own.Declarations) == 0 {
		return nil, exit.With(exit.Words, errors.New("the script is empty: start a primary with declarations"))
	}
	if own.Every == 0 {
		own.Every = UsualEvery
	}
	if own.Remembers == 0 {
		own.Remembers = UsualRemembers
	}
	if own.Seconds == 0 {
		own.Seconds = UsualSeconds
	}
	settings := script.Settings{Every: own.Every, Remembers: own.Remembers, Seconds: own.Seconds, Origin: epoch.DigestOf(own.Declarations), Ordup: own.Versions[0]}
	batch, err := epoch.FirstBatch(epoch.Config{Open: own.Open, Writer: p.own, Versions: own.Versions}, settings, own.Declarations)
	if err != nil {
		return nil, exit.With(exit.Words, err)
	}
	return batch, nil
}
