package command

import (
	"context"
	"encoding/json"
	"fmt"
	"net"
	"path/filepath"
	"strings"
	"sync"

	"ordup.dev/node/internal/client"
	"ordup.dev/node/internal/exit"
	"ordup.dev/node/internal/logs"
	"ordup.dev/node/internal/settings"
	"ordup.dev/node/internal/wire"
)

// A trial runs the processes of a deployment as parts of this one. They log by its program, and the trial logs to told.
type trial struct {
	parts
	program              *Program
	file, folder, engine string
	isKept               bool
	// listeners are of the primary, and of the sites in their order.
	listeners []net.Listener
	told      *logs.Log
}

func (t *trial) address(at int) string { return "http://" + t.listeners[at].Addr().String() }

// locate says where a process listens, and where its engine is.
func (t *trial) locate(at int, engine *engineSettings, serving *servingSettings) {
	engine.members = []string{t.engine}
	serving.listener, serving.listen, serving.host = t.listeners[at], t.listeners[at].Addr().String(), "try"
}

func (t *trial) primary(ctx context.Context) error {
	own := &primaryOwn{}
	own.add(settings.New("primary"))
	t.locate(0, &own.engine, &own.serving)
	own.archive, own.copies, own.declarations = filepath.Join(t.folder, "archive"), 1, t.file
	return own.run(ctx, t.program)
}

// site runs a site. One that the script has no longer, as an operator wished, ends alone.
func (t *trial) site(ctx context.Context, at int, name string) error {
	own := &siteOwn{}
	own.add(settings.New("site"))
	t.locate(at, &own.engine, &own.serving)
	own.name, own.telling.addresses = name, []string{t.address(0)}
	err := own.run(ctx, t.program)
	if exit.Of(err) == exit.NotInScript {
		t.told.Warn("site-ended", "site", name, "why", err)
		return nil
	}
	return err
}

// open starts the sites once the primary writes, and prints what to type once each of them serves.
func (t *trial) open(names, objects []string) error {
	primary, err := client.New(client.Config{Addresses: []string{t.address(0)}})
	if err != nil {
		return err
	}
	if _, err = primary.Epoch(t.ctx); err != nil {
		return t.unlessOver(err)
	}
	ends := []context.Context{}
	for at, name := range names {
		at, name := at+1, name
		ctx, end := context.WithCancel(t.ctx)
		ends = append(ends, ctx)
		t.start(func(context.Context) error {
			defer end()
			return t.site(ctx, at, name)
		})
	}
	text := &strings.Builder{}
	fmt.Fprint(text, "This is for trial and tests alone: all of it is on this computer, and on one disk. Ctrl-C ends it.\n\n")
	if len(objects) > 0 {
		body, err := json.Marshal(wire.Update{Client: "ann", Number: 1, Changes: []string{"add:" + objects[0] + ":1"}})
		if err != nil {
			return err
		}
		fmt.Fprintf(text, "To update, each time with a greater number:\n  curl -H 'Content-Type: application/json' -d '%s' %s%s\n", body,
			t.address(0), wire.UpdatePath)
	}
	for at, name := range names {
		site, err := client.New(client.Config{Addresses: []string{t.address(at + 1)}})
		if err != nil {
			return err
		}
		if _, err = site.Values(ends[at], "", 0); err == nil {
			fmt.Fprintf(text, "To read at %s:\n  curl %s%s\n", name, t.address(at+1), wire.ValuesPath)
		} else if ends[at].Err() == nil {
			return err
		}
	}
	fmt.Fprintf(text, "The operator's page, for a browser:\n  %s%s\n", t.address(0), wire.PagePath)
	if t.isKept {
		fmt.Fprintf(text, "The data lies in %s, and stays there.\n", t.folder)
	} else {
		fmt.Fprintf(text, "The data lies in %s, and goes at the end. With --keep FOLDER it stays.\n", t.folder)
	}
	if t.ctx.Err() == nil {
		fmt.Fprint(t.program.Out, text)
	}
	return nil
}

// unlessOver is an error, but for one that comes since the trial is over.
func (t *trial) unlessOver(err error) error {
	if t.ctx.Err() != nil {
		return nil
	}
	return err
}

// Parts run until the context ends, or until one of them ends with an error, which ends the others.
type parts struct {
	ctx   context.Context
	end   context.CancelFunc
	all   sync.WaitGroup
	once  sync.Once
	first error
}

func (p *parts) start(run func(context.Context) error) {
	p.all.Add(1)
	go func() {
		defer p.all.Done()
		if err := run(p.ctx); err != nil {
			p.once.Do(func() { p.first = err; p.end() })
		}
	}()
}

// wait waits for all parts, and gives the error of the first one that had one.
func (p *parts) wait() error {
	p.all.Wait()
	return p.first
}
