package command

import (
	"context"
	"errors"
	"fmt"
	"os"
	"sort"
	"strconv"
	"strings"
	"time"

	"ordup.dev/node/internal/client"
	"ordup.dev/node/internal/engine"
	"ordup.dev/node/internal/exit"
	"ordup.dev/node/internal/logs"
	"ordup.dev/node/internal/reload"
	"ordup.dev/node/internal/script"
	"ordup.dev/node/internal/serve"
	"ordup.dev/node/internal/settings"
	"ordup.dev/node/internal/wire"
)

// askingSettings say who is asked, and how.
type askingSettings struct {
	key              string
	addresses        []string
	authority, token string
	patience         time.Duration
}

// add adds the settings of one who asks primaries or sites, as the key says.
func (a *askingSettings) add(set *settings.Set, key, help string) {
	a.key = key
	set.List(&a.addresses, key, help)
	set.Text(&a.authority, "authority", "", "`FILE` in PEM with the authority of their certificates")
	set.Text(&a.token, "token", "", "`FILE` with the own token, in its first line")
}

func (a *askingSettings) addPatience(set *settings.Set) {
	set.Seconds(&a.patience, "patience", time.Minute, 24*time.Hour, "`SECONDS` up to which it asks again")
}

func (a *askingSettings) client(log *logs.Log) (*client.Client, error) {
	config := client.Config{Addresses: a.addresses}
	var err error
	if len(a.addresses) == 0 {
		return nil, wrong("%s: the addresses are missing", a.key)
	}
	config.TLS, err = engine.TLSOf(a.authority, nil)
	if err != nil {
		return nil, fmt.Errorf("authority: %w", err)
	}
	if a.token != "" {
		tokens, err := reload.New(log, func() ([]serve.Token, error) { return serve.TokensOf(a.token) }, a.token)
		if err != nil {
			return nil, fmt.Errorf("token: %w", err)
		}
		config.Token = func() string { return tokens.Now()[0].Text }
	}
	return client.New(config)
}

// asks gives what runs a command that asks for the time that it has patience.
func (a *askingSettings) asks(log *logs.Log, ask func(context.Context, *client.Client, []string) error) func(context.Context, []string) error {
	return func(ctx context.Context, words []string) error {
		asker, err := a.client(log)
		if err != nil {
			return err
		}
		limited, cancel := context.WithTimeout(ctx, a.patience)
		defer cancel()
		return ask(limited, asker, words)
	}
}

func updateSettings(program *Program, set *settings.Set) func(context.Context, []string) error {
	own := &askingSettings{}
	own.add(set, "primaries", "`ADDRESS,..` of the primaries, as http://10.0.0.1:7002")
	own.addPatience(set)
	return own.asks(program.Log, func(ctx context.Context, asker *client.Client, words []string) error {
		if len(words) < 3 {
			return wrong("say a client, a number and at least one change")
		}
		number, err := strconv.ParseInt(words[1], 10, 64)
		if err != nil {
			return wrong("%.40q is no number", words[1])
		}
		changes := strings.Fields(strings.Join(words[2:], " "))
		acked, err := asker.Update(ctx, wire.Update{Client: words[0], Number: number, Changes: changes})
		var told *wire.Error
		switch {
		case errors.As(err, &told) && told.Name == wire.Refused:
			fmt.Fprintln(program.Out, script.Refusal{Number: told.Refused, Name: told.Refusal})
			return nil
		case err != nil:
			return err
		}
		fmt.Fprintln(program.Out, script.Answer{Place: acked.Place, Epoch: acked.Epoch})
		return nil
	})
}

func valueSettings(program *Program, set *settings.Set) func(context.Context, []string) error {
	own, seen, wait := &askingSettings{}, "", time.Duration(0)
	own.add(set, "sites", "`ADDRESS,..` of processes of the site, as http://10.0.0.1:7001")
	own.addPatience(set)
	set.Text(&seen, "seen", "", "`EPOCH.PLACE` that is the least that is shown")
	set.Seconds(&wait, "wait", 4*time.Second, 5*time.Second, "`SECONDS` for which the site may wait until it is there")
	return own.asks(program.Log, func(ctx context.Context, asker *client.Client, words []string) error {
		if len(words) > 1 {
			return wrong("say one object, or none")
		}
		values, err := readAll(ctx, asker, words, seen, wait)
		if err != nil {
			return err
		}
		fmt.Fprintf(program.Out, "epoch %d place %d%s\n", values.Epoch, values.Place, textOf(values.Values))
		return nil
	})
}

func readAll(ctx context.Context, asker *client.Client, words []string, seen string, wait time.Duration) (wire.Values, error) {
	if len(words) == 0 {
		return asker.Values(ctx, seen, wait)
	}
	value, err := asker.Value(ctx, words[0], seen, wait)
	return wire.Values{Values: map[string]int64{value.Object: value.Value}, Showing: value.Showing}, err
}

func textOf(values map[string]int64) string {
	words := []string{}
	for name, value := range values {
		words = append(words, fmt.Sprintf(" %s=%d", name, value))
	}
	sort.Strings(words)
	return strings.Join(words, "")
}

func nextSettings(program *Program, set *settings.Set) func(context.Context, []string) error {
	own, next := &askingSettings{}, wire.Next{}
	own.add(set, "primaries", "`ADDRESS,..` of the primaries, as http://10.0.0.1:7002")
	own.addPatience(set)
	set.Number(&next.From, "from", 0, 0, 1<<53, "`EPOCH` that is to end: 0 stands for the one that there is")
	set.Number(&next.Every, "every", 0, 0, 1_000_000, "`NUMBER` of requests that an epoch takes from then on: 0 leaves it")
	set.Number(&next.Remembers, "remembers", 0, 0, 1_000_000, "`NUMBER` of epochs that a client is remembered: 0 leaves it")
	set.Number(&next.RemembersSeconds, "remembers-seconds", 0, 0, 1_000_000, "`NUMBER` of seconds that it is remembered at least: 0 leaves it")
	set.Text(&next.Ordup, "ordup", "", "`VERSION` of ordup that runs the script from then on")
	set.Switch(&next.Replaces, "replaces", "take the place of what was asked for before and has not come")
	return own.asks(program.Log, func(ctx context.Context, asker *client.Client, words []string) error {
		if len(words) > 1 {
			return wrong("say one file with declarations, or none")
		}
		if len(words) == 1 {
			text, err := os.ReadFile(words[0])
			if err != nil {
				return exit.With(exit.Words, err)
			}
			next.Declarations = string(text)
		}
		if next.From == 0 {
			now, err := asker.Epoch(ctx)
			if err != nil {
				return fmt.Errorf("ask which epoch there is: %w", err)
			}
			next.From = now.Epoch
		}
		begun, err := asker.Next(ctx, next)
		if err != nil {
			return err
		}
		fmt.Fprintf(program.Out, "epoch %d\n", begun.Epoch)
		return nil
	})
}

func relimitSettings(program *Program, set *settings.Set) func(context.Context, []string) error {
	own := &askingSettings{}
	own.add(set, "primaries", "`ADDRESS,..` of the primaries, as http://10.0.0.1:7002")
	own.addPatience(set)
	return own.asks(program.Log, func(ctx context.Context, asker *client.Client, words []string) error {
		if len(words) < 2 {
			return wrong("say a site and a limit, as far count 3")
		}
		limit, err := script.ParseLimit(strings.Join(words[1:], " "))
		if err != nil {
			return exit.With(exit.Words, err)
		}
		limited, err := asker.Relimit(ctx, wire.Relimit{Site: words[0], Limit: limit.String()})
		var told *wire.Error
		switch {
		case errors.As(err, &told) && told.Name == wire.Refused:
			fmt.Fprintln(program.Out, script.Refusal{Number: told.Refused, Name: told.Refusal})
			return nil
		case err != nil:
			return err
		}
		fmt.Fprintf(program.Out, "ok relimit %s %d epoch %d\n", limited.Site, limited.Place, limited.Epoch)
		return nil
	})
}
