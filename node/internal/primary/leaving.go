package primary

import (
	"context"

	"ordup.dev/node/internal/clock"
	"ordup.dev/node/internal/engine"
	"ordup.dev/node/internal/epoch"
	"ordup.dev/node/internal/writer"
)

// A KeyCount says how many keys in the engine a site has that is taken out, and how many of them have no lease.
type KeyCount struct{ Keys, WithoutLease int }

// leaving are looks for the keys of sites that are taken out. One is under way at a time.
type leaving struct {
	*Primary
	// Gone has the sites that were found without a key, and "" after each look.
	gone    chan string
	isUnder bool
	// The keys without a lease. They are of the look that is under way.
	unleased writer.Unleased[engine.Key]
}

func newLeaving(primary *Primary) *leaving {
	return &leaving{Primary: primary, gone: make(chan string, 32)}
}

// start begins a look, if there is a site to look for and none is under way.
func (l *leaving) start(ctx context.Context) {
	var sites []string
	l.see(func(core *epoch.Core) { sites = core.Leaving() })
	if len(sites) > 0 && !l.isUnder {
		l.isUnder = true
		go l.look(ctx, sites)
	}
}

// look tells which sites have no key in the engine any more.
func (l *leaving) look(ctx context.Context, sites []string) {
	defer func() { l.gone <- "" }()
	l.unleased.Look()
	for _, site := range sites {
		keys, err := l.config.Engine.SiteKeys(ctx, site)
		if err != nil {
			l.config.Log.Warn("leaving-site-not-seen", "site", site, "why", err)
			continue
		}
		l.clear(ctx, site, keys)
		if len(keys) == 0 {
			l.gone <- site
		}
	}
	clock.Pause(ctx, lookAfter)
}

// clear tells operators what holds a site, and takes away what has had no lease for so long that nobody relies on one any more.
func (l *leaving) clear(ctx context.Context, site string, keys []engine.Key) {
	now, count := clock.Now(), KeyCount{Keys: len(keys)}
	for _, key := range keys {
		if key.IsLeased {
			continue
		}
		count.WithoutLease++
		if !l.unleased.See(key, now) {
			continue
		}
		switch removed, err := l.config.Engine.RemoveKey(ctx, key); {
		case err != nil:
			l.config.Log.Warn("key-not-removed", "site", site, "key", key.Name, "why", err)
		case removed:
			l.config.Log.Info("removed-key", "site", site, "key", key.Name)
		}
	}
	if len(keys) > 0 {
		l.config.Log.Warn("leaving-site-has-keys", "site", site, "keys", count.Keys, "without-lease", count.WithoutLease, "key", keys[0].Name)
	}
	l.see(func(*epoch.Core) {
		if l.leaveKeys == nil {
			l.leaveKeys = map[string]KeyCount{}
		}
		l.leaveKeys[site] = count
	})
}
