package command

import (
	"context"
	"fmt"
	"net"
	"os"
	"path/filepath"
	"strconv"
	"strings"

	"ordup.dev/node/internal/embedded"
	"ordup.dev/node/internal/epoch"
	"ordup.dev/node/internal/exit"
	"ordup.dev/node/internal/logs"
	"ordup.dev/node/internal/settings"
)

// tryOwn are the settings of a trial.
type tryOwn struct{ listen, keep string }

func trySettings(program *Program, set *settings.Set) func(context.Context, []string) error {
	own := &tryOwn{}
	set.Text(&own.listen, "listen", "", "`HOST:PORT` of the primary on this computer, and the next ports for the sites: free ports without it")
	set.Text(&own.keep, "keep", "", "`FOLDER` in which the data lies and stays, to go on from: a new one without it, which goes")
	return func(ctx context.Context, words []string) error {
		if len(words) != 1 {
			return wrong("say one file with declarations")
		}
		text, err := os.ReadFile(words[0])
		if err != nil {
			return exit.With(exit.Words, err)
		}
		declarations, err := epoch.Declarations(string(text))
		if err != nil {
			return exit.With(exit.Words, fmt.Errorf("%s: %w", words[0], err))
		}
		return own.run(ctx, program, words[0], declarations)
	}
}

// run makes the folder and starts the engine, and ends both after all that stands on them.
func (o *tryOwn) run(ctx context.Context, program *Program, file string, declarations []string) (err error) {
	sites := declared(declarations, "site")
	listeners, err := o.listenAll(1 + len(sites))
	defer func() {
		for _, listener := range listeners {
			listener.Close()
		}
	}()
	if err != nil {
		return err
	}
	folder := o.keep
	if folder == "" {
		if folder, err = os.MkdirTemp("", "ordup-try-"); err != nil {
			return err
		}
		defer func() {
			if failure := os.RemoveAll(folder); err == nil {
				err = failure
			}
		}()
	}
	member, err := embedded.Start(ctx, filepath.Join(folder, "engine"))
	if ctx.Err() != nil && err != nil {
		return nil // It was asked to end meanwhile.
	}
	if err != nil {
		return err
	}
	defer member.Stop()
	events, err := os.OpenFile(filepath.Join(folder, "log"), os.O_WRONLY|os.O_CREATE|os.O_APPEND, 0o600)
	if err != nil {
		return err
	}
	defer events.Close()
	quiet := *program
	quiet.Log = logs.New(events)
	running, end := context.WithCancel(ctx)
	defer end()
	own := &trial{parts: parts{ctx: running, end: end}, program: &quiet, file: file, folder: folder, isKept: o.keep != "",
		engine: member.Address(), listeners: listeners, told: program.Log}
	own.start(func(ctx context.Context) error {
		select {
		case err := <-member.Ended():
			return fmt.Errorf("the engine ended: %w", err)
		case <-ctx.Done():
			return nil
		}
	})
	own.start(own.primary)
	own.start(func(context.Context) error { return own.open(sites, declared(declarations, "object")) })
	return own.wait()
}

// listenAll listens for so many processes, or for those before one whose port is taken. A trial is of this computer, so nobody else reaches it.
func (o *tryOwn) listenAll(count int) ([]net.Listener, error) {
	host, port := "127.0.0.1", 0
	if o.listen != "" {
		given, text, err := net.SplitHostPort(o.listen)
		if port, _ = strconv.Atoi(text); err != nil || port < 1 || port+count > 1<<16 {
			return nil, wrong("listen: %.80q is not HOST:PORT with %d ports", o.listen, count)
		}
		if ip := net.ParseIP(given); given != "localhost" && !ip.IsLoopback() {
			return nil, wrong("listen: %s is not this computer alone, as 127.0.0.1 is", o.listen)
		}
		host = given
	}
	all := []net.Listener{}
	for at := 0; at < count; at++ {
		own := port
		if port > 0 {
			own += at
		}
		listener, err := net.Listen("tcp", net.JoinHostPort(host, strconv.Itoa(own)))
		if err != nil {
			return all, err
		}
		all = append(all, listener)
	}
	return all, nil
}

// declared are the names that are declared by lines with a word, as `site`.
func declared(declarations []string, word string) []string {
	names := []string{}
	for _, line := range declarations {
		if words := strings.Fields(line); len(words) > 1 && words[0] == word {
			names = append(names, words[1])
		}
	}
	return names
}
