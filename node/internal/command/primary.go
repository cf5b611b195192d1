package command

import (
	"context"
	"errors"
	"fmt"
	"os"

	"ordup.dev/node/internal/archive"
	"ordup.dev/node/internal/engine"
	"ordup.dev/node/internal/epoch"
	"ordup.dev/node/internal/exit"
	"ordup.dev/node/internal/numbers"
	"ordup.dev/node/internal/primary"
	"ordup.dev/node/internal/serve"
	"ordup.dev/node/internal/settings"
)

// primaryOwn are the settings of a primary.
type primaryOwn struct {
	engine                                    engineSettings
	serving                                   servingSettings
	address, authority, archive, declarations string
	copies, every, remembers, seconds         int64
}

func primarySettings(program *Program, set *settings.Set) func(context.Context, []string) error {
	own := &primaryOwn{}
	own.add(set)
	return func(ctx context.Context, _ []string) error { return own.run(ctx, program) }
}

func (p *primaryOwn) add(set *settings.Set) {
	p.engine.add(set)
	p.serving.add(set, "127.0.0.1:7002")
	set.Text(&p.address, "address", "", "`ADDRESS` at which others reach this process: that of listen, if it has a host")
	set.Text(&p.authority, "authority", "", "`FILE` in PEM with the authority of the certificates of other primaries")
	set.Text(&p.archive, "archive", "", "`FOLDER` for the scripts of epochs that have ended")
	set.Number(&p.copies, "copies", 2, 1, 16, "`NUMBER` of hosts that have such a script before the engine drops it")
	set.Text(&p.declarations, "declarations", "", "`FILE` with the declarations that begin an empty script")
	set.Number(&p.every, "every", 0, 0, epoch.MostEvery, "`NUMBER` of requests that an epoch takes: 0 stands for that of the script, or 100,000")
	set.Number(&p.remembers, "remembers", 0, 0, epoch.MostEvery,
		"`NUMBER` of epochs that a client is remembered: 0 stands for that of the script, or 10")
	set.Number(&p.seconds, "remembers-seconds", 0, 0, epoch.MostSeconds,
		"`NUMBER` of seconds that it is remembered at least: 0 stands for that of the script, or 600")
}

func (p *primaryOwn) config(program *Program) (config primary.Config, err error) {
	if err = p.serving.check(program.Log); err != nil {
		return config, err
	}
	if p.archive == "" {
		return config, wrong("archive: the folder is missing")
	}
	config = primary.Config{Open: program.Open, Host: p.serving.host, Versions: program.Versions, Every: p.every,
		Remembers: p.remembers, Seconds: p.seconds, Folder: p.archive, Copies: int(p.copies), Log: program.Log}
	config.Address, err = p.serving.address(p.address)
	if err != nil {
		return config, err
	}
	if p.declarations != "" {
		text, err := os.ReadFile(p.declarations)
		if err != nil {
			return config, fmt.Errorf("declarations: %w", err)
		}
		if config.Declarations, err = epoch.Declarations(string(text)); err != nil {
			return config, exit.With(exit.Words, fmt.Errorf("%s: %w", p.declarations, err))
		}
	}
	if err = archive.MakeFolder(p.archive); err != nil {
		return config, fmt.Errorf("archive: %w", err)
	}
	config.Engine, err = p.engine.open(program.Log)
	return config, err
}

func (p *primaryOwn) run(ctx context.Context, program *Program) error {
	config, err := p.config(program)
	if err != nil {
		return err
	}
	defer config.Engine.Close()
	process, err := primary.New(config)
	if err != nil {
		return err
	}
	secure, err := engine.TLSOf(p.authority, nil)
	if err != nil {
		return fmt.Errorf("authority: %w", err)
	}
	lag := &numbers.Lag{}
	seen := numbers.OfPrimary(program.version(), p.serving.open, process.Status)
	seen.Shows(certificates(&p.serving, &p.engine))
	handler := serve.NewPrimary(serve.Config{Guard: &p.serving.guard, Requests: p.serving.mostRequests(),
		Ready: func() error { return isReady(process.Status()) }, Numbers: seen.Handler(),
		Page: numbers.PageOfPrimary(config.Host, lag, process.Status)}, process, serve.NewPasser(config.Address, secure), seen.Waited)
	program.Log.Info("starts", "command", "primary", "version", program.name(), "host", config.Host, "address", config.Address)
	return p.serving.run(ctx, program.Log, handler, func(ctx context.Context) error {
		go lag.RunOfPrimary(ctx, process.Status)
		return process.Run(ctx)
	})
}

// isReady is why a primary takes no requests now, or nil.
func isReady(status primary.Status) error {
	switch {
	case status.Counts.Full:
		return primary.ErrFull
	case status.Writes && status.Lease == 0:
		return errors.New("the lease of this primary is over: the engine does not answer")
	case status.Writes || status.Writer != "" && status.Core.Epoch > 0:
		return nil
	}
	return errors.New("no primary writes, as far as this one knows")
}
