package engine_test

import (
	"context"
	"errors"
	"strings"
	"sync/atomic"
	"testing"
	"time"

	"ordup.dev/node/internal/engine"
	"ordup.dev/node/internal/etcdtest"
)

// silence has a watch tell nothing any more, on a link that carries all else. If it began, it has told that it did.
func silence(t *testing.T, began bool) {
	members, ctx := etcdtest.Start(t, 1), within(t, 60*time.Second)
	writer, calls := members.Engine(), members.Calls()
	own := calls.Engine(t)
	is(t, nil, writer.Write(ctx, &engine.Write{Number: 1, Text: []byte("1"), Epoch: 1, First: 1}))
	var last, told atomic.Int64
	var isSilent atomic.Bool
	calls.Judge(func(call etcdtest.Call) etcdtest.Fate {
		isAnswer := strings.HasSuffix(call.Method, "/Watch") && call.Asked == nil
		if isAnswer && (!began || isSilent.Load()) {
			return etcdtest.Silent
		}
		if isAnswer {
			told.Add(1)
		}
		return etcdtest.Passes
	})
	following, stop := context.WithCancel(ctx)
	done := make(chan error, 1)
	go func() {
		done <- own.Follow(following, 1, func(entries []engine.Raw) error {
			last.Store(entries[len(entries)-1].Number)
			return nil
		})
	}()
	until(t, "the first entry does not come", func() bool { return last.Load() == 1 })
	if began {
		until(t, "there is no watch", func() bool { return told.Load() > 0 })
	}
	isSilent.Store(true)
	time.Sleep(200 * time.Millisecond)
	is(t, nil, write(t, writer, 2, "x"))
	until(t, "an entry does not come", func() bool { return last.Load() == 2 })
	is(t, int64(0), own.Failures())
	stop()
	is(t, context.Canceled, <-done)
}

// What a watch does not tell is read.
func TestEntriesComeThoughAWatchFallsSilent(t *testing.T) { silence(t, true) }

func TestEntriesComeThoughNoWatchIsAnswered(t *testing.T) { silence(t, false) }

// A process goes on behind the entry that it ran last, and not behind another one of that number.
func TestAMarkIsOfTheEntryThatWasRun(t *testing.T) {
	members, ctx := etcdtest.Start(t, 1), within(t, 20*time.Second)
	own := members.Engine()
	is(t, nil, own.Write(ctx, &engine.Write{Number: 1, Text: []byte("a"), Epoch: 1, First: 1}))
	is(t, nil, write(t, own, 2, "b"))
	var mark engine.Mark
	mark.Set(2, []byte("b"))
	first, err := own.Resume(ctx, &mark)
	is(t, []any{1, nil}, []any{first, err})
	members.Put("script/000000000002", "c") // As where the script was restored from a past, and written on.
	_, err = own.Resume(ctx, &mark)
	var changed *engine.ChangedError
	is(t, true, errors.As(err, &changed))
	members.Delete("script/000000000002")
	_, err = own.Resume(ctx, &mark)
	is(t, true, errors.As(err, &changed))
}
