// Package command has the commands of the program: their settings, and what each does with the other packages.
package command

import (
	"context"
	"errors"
	"flag"
	"fmt"
	"io"
	"strings"
	"unicode"

	"ordup.dev/node/internal/exit"
	"ordup.dev/node/internal/logs"
	"ordup.dev/node/internal/settings"
	"ordup.dev/node/internal/store"
)

// A Program is what the commands share.
type Program struct {
	// Versions are the versions of ordup whose answers the stores give. The first one is that of the program.
	Versions []string
	// Build tells it apart from others of a version that was not released, or is empty.
	Build string
	// Open gives stores, and Checker checks their records.
	Open    store.Open
	Checker store.Checker
	// Out is for what was asked for, and Err for help. Events go to Log.
	Out, Err io.Writer
	Log      *logs.Log
}

// A command is one of the program. Settings adds its settings to a set, and gives what runs it with the words that are no flags.
type command struct {
	name, words, help string
	settings          func(*Program, *settings.Set) func(context.Context, []string) error
}

// commands are those of the program.
func commands() []command {
	return []command{
		{"try", "DECLARATIONS", "runs a primary, each declared site and etcd in this process, for trial and tests alone", trySettings},
		{"primary", "", "takes updates and writes the script, or stands by for the primary that does", primarySettings},
		{"site", "", "shows the values of a site to its readers", siteSettings},
		{"fleet", "", "tells the place of several sites that have one name in the script", fleetSettings},
		{"update", "CLIENT NUMBER CHANGE..", "asks for an update, and prints its answer", updateSettings},
		{"value", "[OBJECT]", "reads a value at a site, or all", valueSettings},
		{"next", "[DECLARATIONS]", "asks for the next epoch, of a file with other declarations or as it is, and waits until it has begun", nextSettings},
		{"relimit", "SITE LIMIT", "gives a site a limit in place of the one that it has: count 3, all 3, object NAME 3 or group NAME 3, or none for 3", relimitSettings},
		{"fsck", "FOLDER..", "checks the archives of hosts, and the script if it is told the engine", fsckSettings},
		{"prune", "FOLDER", "deletes archives of old epochs from a folder, once all is checked and a copy of each is seen", pruneSettings},
		{"check-settings", "[FILE]", "checks a file with settings and what it names, and starts nothing", checkSettings},
	}
}

func (p *Program) version() string { return p.Versions[0] }

// name is the version, and the build where others may have this version too.
func (p *Program) name() string {
	if p.Build == "" {
		return p.version()
	}
	return fmt.Sprintf("%s (build %s)", p.version(), p.Build)
}

// Run does what the words say, until the context ends, and returns the status.
func (p *Program) Run(ctx context.Context, words []string) exit.Status {
	name := ""
	if len(words) > 0 {
		name = words[0]
	}
	switch name {
	case "--version", "version":
		fmt.Fprintln(p.Out, "ordup-node", p.name())
		return exit.Done
	case "--help", "-h", "help":
		p.help(p.Out)
		return exit.Done
	}
	for _, each := range commands() {
		if each.name == name {
			return p.run(ctx, &each, words[1:])
		}
	}
	fmt.Fprintf(p.Err, "ordup-node: there is no command %.40q\n", name)
	p.help(p.Err)
	return exit.Words
}

func (p *Program) run(ctx context.Context, command *command, words []string) exit.Status {
	set := settings.New(command.name)
	run := command.settings(p, set)
	rest, err := set.Read(words, p.isKnown)
	if errors.Is(err, flag.ErrHelp) {
		fmt.Fprintf(p.Out, "ordup-node %s %s\n%s.\n\n%s", command.name, command.words, command.help, set.Help())
		return exit.Done
	}
	if err != nil {
		err = exit.With(exit.Words, err)
	} else if command.words == "" && len(rest) > 0 {
		err = exit.With(exit.Words, fmt.Errorf("%.60q is no setting", rest[0]))
	} else {
		err = run(ctx, rest)
	}
	switch {
	case err == nil:
	case command.serves():
		p.Log.Error("ends", "command", command.name, "status", int(exit.Of(err)), "why", err)
	default:
		fmt.Fprintf(p.Err, "ordup-node %s: %s\n", command.name, printable(err.Error()))
	}
	return exit.Of(err)
}

// serves is whether it is a process that goes on, and has a log. Another command is typed, and tells a person.
func (c *command) serves() bool {
	return c.name == "primary" || c.name == "site" || c.name == "fleet" || c.name == "try"
}

// printable is a text in one line without signs that a terminal obeys.
func printable(text string) string {
	return strings.Map(func(sign rune) rune {
		if !unicode.IsPrint(sign) {
			return ' '
		}
		return sign
	}, text)
}

// isKnown is whether a command has a setting of this key.
func (p *Program) isKnown(key string) bool {
	for _, each := range commands() {
		set := settings.New(each.name)
		each.settings(p, set)
		if set.Has(key) {
			return true
		}
	}
	return false
}

func (p *Program) help(to io.Writer) {
	fmt.Fprint(to, "usage: ordup-node COMMAND [--SETTING VALUE].. [WORD..]\n\n")
	for _, each := range commands() {
		fmt.Fprintf(to, "  %-14s %-23s %s\n", each.name, each.words, each.help)
	}
	fmt.Fprint(to, "\nordup-node COMMAND --help has the settings of a command. Each may stand in a file too, as SETTING = VALUE.\n")
}

// wrong is an error of words or settings.
func wrong(format string, words ...any) error {
	return exit.With(exit.Words, fmt.Errorf(format, words...))
}
