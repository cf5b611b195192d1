package command

import (
	"context"
	"errors"

	"ordup.dev/node/internal/fleet"
	"ordup.dev/node/internal/numbers"
	"ordup.dev/node/internal/script"
	"ordup.dev/node/internal/serve"
	"ordup.dev/node/internal/settings"
	"ordup.dev/node/internal/site"
)

// siteOwn are the settings of a site.
type siteOwn struct {
	engine            engineSettings
	serving           servingSettings
	telling           askingSettings
	name, fleet, tell string
}

func siteSettings(program *Program, set *settings.Set) func(context.Context, []string) error {
	own := &siteOwn{}
	own.add(set)
	return func(ctx context.Context, _ []string) error { return own.run(ctx, program) }
}

func (s *siteOwn) add(set *settings.Set) {
	s.engine.add(set)
	s.serving.add(set, "127.0.0.1:7001")
	s.telling.add(set, "primaries", "`ADDRESS,..` of the primaries, as http://10.0.0.1:7002")
	set.Text(&s.name, "site", "", "`NAME` of the site")
	set.Text(&s.fleet, "fleet", "", "`NAME` of its fleet in the script, where it is of one")
	set.Text(&s.tell, "teller", "", "`ADDRESS` of the process of the fleet, which the site tells its places then")
}

func (s *siteOwn) config(program *Program) (config site.Config, err error) {
	if err = s.serving.check(program.Log); err != nil {
		return config, err
	}
	if (s.fleet == "") != (s.tell == "") {
		return config, wrong("fleet and teller belong together")
	}
	if s.tell != "" {
		s.telling.key, s.telling.addresses = "teller", []string{s.tell}
	}
	teller, err := s.telling.client(program.Log)
	if err != nil {
		return config, err
	}
	config = site.Config{Open: program.Open, Name: s.name, Fleet: s.fleet, Host: s.serving.host, Versions: program.Versions,
		Teller: teller, Log: program.Log}
	config.Engine, err = s.engine.open(program.Log)
	return config, err
}

func (s *siteOwn) run(ctx context.Context, program *Program) error {
	config, err := s.config(program)
	if err != nil {
		return err
	}
	defer config.Engine.Close()
	process, err := site.New(config)
	if err != nil {
		return err
	}
	lag := &numbers.Lag{}
	seen := numbers.OfSite(program.version(), s.name, s.serving.open, process.Status)
	seen.Shows(certificates(&s.serving, &s.engine))
	handler := serve.NewSite(serve.Config{Guard: &s.serving.guard, Requests: s.serving.mostRequests(),
		Ready: func() error {
			if !process.Status().Serves {
				return site.ErrNotServing
			}
			return nil
		}, Numbers: seen.Handler(), Page: numbers.PageOfSite(s.name, lag, process.Status)}, s.name, process)
	program.Log.Info("starts", "command", "site", "version", program.name(), "host", config.Host, "site", s.name)
	return s.serving.run(ctx, program.Log, handler, func(ctx context.Context) error {
		go lag.RunOfSite(ctx, s.name, process.Status)
		return process.Run(ctx)
	})
}

// fleetOwn are the settings of a fleet.
type fleetOwn struct {
	engine  engineSettings
	serving servingSettings
	telling askingSettings
	name    string
	members []string
}

func fleetSettings(program *Program, set *settings.Set) func(context.Context, []string) error {
	own := &fleetOwn{}
	own.add(set)
	return func(ctx context.Context, _ []string) error { return own.run(ctx, program) }
}

func (f *fleetOwn) add(set *settings.Set) {
	f.engine.add(set)
	f.serving.add(set, "127.0.0.1:7003")
	f.telling.add(set, "primaries", "`ADDRESS,..` of the primaries, as http://10.0.0.1:7002")
	set.Text(&f.name, "fleet", "", "`NAME` of the fleet in the script")
	set.List(&f.members, "members", "`NAME,..` of its sites")
}

// check looks at the names of the fleet and of its sites.
func (f *fleetOwn) check() error {
	for _, name := range append([]string{f.name}, f.members...) {
		if !script.IsName(name) {
			return wrong("fleet and members: %.40q is no name of a site", name)
		}
	}
	if len(f.members) == 0 {
		return wrong("members: the sites of the fleet are missing")
	}
	for _, name := range f.members {
		if name == f.name {
			return wrong("members: the site %s has the name of its fleet", name)
		}
	}
	return nil
}

func (f *fleetOwn) run(ctx context.Context, program *Program) error {
	if err := f.serving.check(program.Log); err != nil {
		return err
	}
	if err := f.check(); err != nil {
		return err
	}
	teller, err := f.telling.client(program.Log)
	if err != nil {
		return err
	}
	keys, err := f.engine.open(program.Log)
	if err != nil {
		return err
	}
	defer keys.Close()
	process := fleet.New(f.name, f.members, teller)
	seen := numbers.OfFleet(program.version(), f.serving.open, process.Status)
	seen.Shows(certificates(&f.serving, &f.engine))
	handler := serve.NewFleet(serve.Config{Guard: &f.serving.guard, Requests: f.serving.mostRequests(),
		Ready: func() error { return haveTold(process.Status()) }, Numbers: seen.Handler(),
		Page: numbers.PageOfFleet(f.name, process.Status)}, process)
	program.Log.Info("starts", "command", "fleet", "version", program.name(), "host", f.serving.host, "fleet", f.name)
	return f.serving.run(ctx, program.Log, handler, func(ctx context.Context) error { return process.Run(ctx, keys, program.Log) })
}

// haveTold is nil once each site of a fleet has told a place, and nobody else serves as one.
func haveTold(status fleet.Status) error {
	if !status.Looked {
		return errors.New("the engine does not answer")
	}
	if len(status.Unlisted) > 0 {
		return errors.New("there is the key " + status.Unlisted[0] + ", which is of none of the members")
	}
	for _, member := range status.Members {
		if member.Place.Epoch == 0 {
			return errors.New("the site " + member.Place.Member + " has told nothing yet")
		}
	}
	return nil
}
