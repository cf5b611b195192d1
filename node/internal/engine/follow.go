package engine

import (
	"context"
	"errors"
	"fmt"
	"time"

	"go.etcd.io/etcd/clientv3"
	"go.etcd.io/etcd/mvcc/mvccpb"
)

const (
	// lookAfter is after how long without an entry the engine is asked whether there is one. A watch whose member is away tells nothing.
	lookAfter = time.Second
	// mostLooks is how many times in a row there may be one that the watch does not tell. A thin link takes its time for a large entry.
	mostLooks = 10
)

// Follow gives the entries from a number on to a function, some at a time, as they come. It first reads what is there, and then watches
// from that revision on. Where the past was compacted meanwhile, it reads again. It returns the error of the function, or an AwayError:
// then it may be called again from the next number on. An entry that was there and is written again is a ChangedError.
func (e *Engine) Follow(ctx context.Context, from int64, take func([]Raw) error) error {
	next := from
	takes := func(entries []Raw) error {
		for _, entry := range entries {
			if entry.Number < next {
				return &ChangedError{entry.Number}
			}
			next = entry.Number + 1
		}
		if len(entries) == 0 {
			return nil
		}
		return take(entries)
	}
	for {
		revision, err := e.ReadAll(ctx, next, takes)
		if err == nil {
			err = e.watch(ctx, &next, revision+1, takes)
		}
		if !errors.Is(err, errCompacted) {
			return err
		}
	}
}

// watch gives what is put from a revision on. What it should have told and did not is to be read, which is said by errCompacted. Client.Watch
// returns once a member has answered.
func (e *Engine) watch(ctx context.Context, next *int64, revision int64, takes func([]Raw) error) error {
	client, member, err := e.connected()
	if err != nil {
		return fmt.Errorf("watch the script: %w", errorOf(member, err))
	}
	watching, cancel := context.WithCancel(clientv3.WithRequireLeader(ctx))
	defer cancel()
	unanswered := time.AfterFunc(mostLooks*lookAfter, cancel)
	events := client.Watch(watching, scriptKeys, clientv3.WithRange(scriptEnd), clientv3.WithRev(revision), clientv3.WithFragment())
	if !unanswered.Stop() {
		return errCompacted
	}
	look := time.NewTicker(lookAfter)
	defer look.Stop()
	for looks := 0; looks < mostLooks; {
		select {
		case <-ctx.Done():
			return ctx.Err()
		case came, isOpen := <-events:
			if !isOpen || came.Err() != nil {
				return e.watchEnded(ctx, client, member, came.Err())
			}
			if err := takes(putsOf(came.Events)); err != nil {
				return err
			}
			looks = 0
		case <-look.C:
			last, err := e.Last(ctx, *next)
			if err != nil {
				return fmt.Errorf("look for entries from %d on: %w", *next, err)
			}
			looks++
			if last < *next {
				looks = 0
			}
		}
	}
	return errCompacted
}

func (e *Engine) watchEnded(ctx context.Context, client *clientv3.Client, member string, err error) error {
	if ctx.Err() != nil {
		return ctx.Err()
	}
	if err == nil {
		err = errors.New("it ended")
	}
	if err = errorOf(member, err); IsAway(err) {
		e.leave(client)
	}
	return fmt.Errorf("watch the script: %w", err)
}

func putsOf(events []*clientv3.Event) []Raw {
	puts := make([]*mvccpb.KeyValue, 0, len(events))
	for _, event := range events {
		if event.Type == mvccpb.PUT {
			puts = append(puts, event.Kv)
		}
	}
	return entriesOf(puts)
}
