// Package primary has the process that takes requests and writes the script, or stands by for the one that does.
//
// One goroutine owns the core, in Run. Others hand it requests, places and wishes by queues, and wait for what becomes of them. One
// transaction is on its way at a time. Meanwhile the open batch takes what comes, and is run.
package primary

import (
	"context"
	"fmt"
	"os"
	"strings"
	"sync"
	"sync/atomic"
	"time"

	"ordup.dev/node/internal/archive"
	"ordup.dev/node/internal/clock"
	"ordup.dev/node/internal/engine"
	"ordup.dev/node/internal/epoch"
	"ordup.dev/node/internal/exit"
	"ordup.dev/node/internal/follower"
	"ordup.dev/node/internal/logs"
	"ordup.dev/node/internal/script"
	"ordup.dev/node/internal/store"
	"ordup.dev/node/internal/writer"
)

const (
	// afterFailure is how long the primary waits after a member failed it, before it asks the next one.
	afterFailure = 100 * time.Millisecond
	// endTime is how long a process that ends waits for what is on its way.
	endTime = 2 * time.Second
	// lookAfter is after how long it is looked again whether a site that is taken out has a lease.
	lookAfter = 500 * time.Millisecond
)

// UsualEvery, UsualRemembers and UsualSeconds begin a script where the settings have none.
const UsualEvery, UsualRemembers, UsualSeconds = 100_000, 10, 600

// A Config is what a primary is made with.
type Config struct {
	Engine *engine.Engine
	Open   store.Open
	// Host names the disk of Folder. Address is where other processes reach this one. Both are one word.
	Host, Address string
	// Versions are the versions of ordup whose answers the stores give. The first one begins an empty script.
	Versions []string
	// Every, Remembers, Seconds and Declarations begin an empty script. Of a script that is there they must be those with which it began, or none. The
	// number 0 is none, and begins a script with the usual one.
	Every, Remembers, Seconds int64
	Declarations              []string
	// Folder is where archives go, and Copies how many hosts have one before its entries leave the engine.
	Folder string
	Copies int
	Log    *logs.Log
}

// A Primary is one process of those of which one writes.
type Primary struct {
	config Config
	// The name of this process, as it stands in the entries and at the key of the lease.
	own      string
	lease    *engine.Lease
	archiver *archive.Archiver
	ended    chan struct{}
	counts   counters
	// What other goroutines ask, under a lock of its own.
	calls calls

	// What stands below coreLock up to the blank line is under it. Others than Run hand the core places, and look.
	coreLock sync.Mutex
	core     *epoch.Core
	// When the last entry of the core came that is in the script.
	markAt time.Duration
	// The digests of what the core has run or sealed.
	digests writer.Digests
	rounds  rounds
	// How many keys the sites have that are taken out, by the last look of this process.
	leaveKeys map[string]KeyCount

	// Of the goroutine of Run alone: the last entry of the core that is in the script, and whether the settings were found to be those with
	// which the script began, when this process saw it first.
	follower follower.Follower
	agreed   bool
}

// Counts are what this process did.
type Counts struct {
	Requests, Answers, Entries, Bytes int64
	// Full is whether the engine is full.
	Full bool
}

// counters count it. Any goroutine reads them.
type counters struct {
	requests, answers, entries, bytes atomic.Int64
	full                              atomic.Bool
}

func (c *counters) now() Counts {
	return Counts{Requests: c.requests.Load(), Answers: c.answers.Load(), Entries: c.entries.Load(),
		Bytes: c.bytes.Load(), Full: c.full.Load()}
}

// New gives a primary, which Run runs.
func New(config Config) (*Primary, error) {
	own := fmt.Sprintf("%s-%d-%d@%s", config.Host, os.Getpid(), clock.Now(), config.Address)
	if !script.IsWord(own, script.MostWriterBytes) || strings.ContainsAny(config.Host, "/@") || len(config.Versions) == 0 {
		return nil, exit.With(exit.Words, fmt.Errorf("%q and %q are not a host and an address", config.Host, config.Address))
	}
	if config.Copies < 1 {
		return nil, exit.With(exit.Words, fmt.Errorf("archives lie at one host or more, and not at %d", config.Copies))
	}
	primary := &Primary{config: config, own: own, ended: make(chan struct{}, 1)}
	primary.follower = follower.Follower{Engine: config.Engine, Log: config.Log, Pause: afterFailure}
	primary.calls.init(config.Address)
	primary.archiver = &archive.Archiver{Engine: config.Engine.Apart(), Folder: config.Folder, Host: config.Host, Copies: config.Copies,
		Log: config.Log, Ended: primary.ended}
	primary.lease = config.Engine.NewLease(engine.PrimaryKey, own, config.Log, nil)
	return primary, nil
}

// Run stands by and writes, until the context ends or an error ends the process. Then the lease is given back.
func (p *Primary) Run(ctx context.Context) error {
	// It goes on until all is written, so that the lease is given back last.
	beside, cancel := context.WithCancel(context.Background())
	var others sync.WaitGroup
	defer others.Wait()
	defer cancel()
	for _, run := range []func(context.Context){p.lease.Run, p.archiver.Run} {
		others.Add(1)
		go func(run func(context.Context)) { defer others.Done(); run(beside) }(run)
	}
	defer p.forget()
	defer p.calls.end()
	for ctx.Err() == nil {
		err := p.standBy(ctx)
		if err == nil {
			err = p.writeAll(ctx)
		}
		if err = p.heed(ctx, err); err != nil {
			return err
		}
	}
	return nil
}

// heed is whether an error ends the process. After most it goes on, some with a core that runs the script anew.
func (p *Primary) heed(ctx context.Context, err error) error {
	switch {
	case err == nil || ctx.Err() != nil:
		return nil
	case writer.RunsAgain(err):
		p.config.Log.Info("runs-again", "why", err)
		p.forget()
		return nil
	}
	return p.follower.Heed(ctx, err, p.forget)
}

// forget drops what was run.
func (p *Primary) forget() {
	p.coreLock.Lock()
	defer p.coreLock.Unlock()
	if p.core != nil {
		p.core.Close()
		p.core = nil
	}
	p.follower.Mark, p.digests = engine.Mark{}, writer.Digests{}
}

// with has the core worked on, by one goroutine at a time.
func (p *Primary) with(do func(*epoch.Core) error) error {
	p.coreLock.Lock()
	defer p.coreLock.Unlock()
	return do(p.core)
}

// see has the core looked at, or told something that cannot fail.
func (p *Primary) see(do func(*epoch.Core)) {
	p.coreLock.Lock()
	defer p.coreLock.Unlock()
	do(p.core)
}

// A Status is what an operator may see of a primary.
type Status struct {
	// Core has what was run of the script. Before there is any its epoch is 0.
	Core epoch.Status
	// Writes is whether this process writes, and Writer is the address of the one that does, as far as this one knows.
	Writes bool
	Writer string
	// Lease is for how long this process may rely on its lease.
	Lease time.Duration
	// Waiting is how many requests wait for an answer, and Queued how many of them were not taken yet.
	Waiting, Queued int
	Counts          Counts
	// Since is since when the last entry came that this process saw, if one did.
	Since   time.Duration
	HasSeen bool
	// Rounds are the forced rounds of the sites, over all epochs that this process has run.
	Rounds map[string]int64
	// LeaveKeys says, of the process that writes, how many keys each site has that is taken out and not gone.
	LeaveKeys map[string]KeyCount
	// Archives is how many epochs have ended and are still in the engine.
	Archives       int64
	EngineFailures int64
}

// Status tells what there is.
func (p *Primary) Status() Status {
	status := Status{Writes: p.calls.isOpen(), Writer: p.calls.writer(), EngineFailures: p.config.Engine.Failures(),
		Counts: p.counts.now()}
	if left := p.lease.Until() - clock.Now(); left > 0 {
		status.Lease = left
	}
	status.Waiting, status.Queued = p.calls.sizes()
	status.Archives = p.archiver.Waiting()
	p.see(func(core *epoch.Core) {
		if core != nil {
			status.Core = core.Status(clock.Now())
			lags, err := core.Lags()
			for at := range status.Core.Sites {
				if site := &status.Core.Sites[at]; err == nil {
					site.Lags = lags[site.Name]
				}
			}
		}
		if p.markAt > 0 {
			status.Since, status.HasSeen = clock.Now()-p.markAt, true
		}
		status.Rounds, status.LeaveKeys = p.rounds.over(&status.Core), map[string]KeyCount{}
		for _, site := range status.Core.Sites {
			if count, isKnown := p.leaveKeys[site.Name]; isKnown && status.Writes && site.Leaves && !site.Gone {
				status.LeaveKeys[site.Name] = count
			}
		}
	})
	return status
}
