package engine

import (
	"context"
	"fmt"
	"time"

	"go.etcd.io/etcd/clientv3"
	"go.etcd.io/etcd/mvcc/mvccpb"
)

// A Raw is an entry as the engine keeps it.
type Raw struct {
	Number int64
	Text   []byte
}

// Epoch gives the last epoch and the number of its first entry. Before there is one that is 0 and 1.
func (e *Engine) Epoch(ctx context.Context) (epoch, first int64, err error) {
	value, isThere, err := e.value(ctx, epochKey)
	if err != nil || !isThere {
		return 0, 1, err
	}
	return epochOf(value)
}

func (e *Engine) value(ctx context.Context, key string) (value []byte, isThere bool, err error) {
	err = e.call(ctx, CallTime, func(ctx context.Context, client *clientv3.Client) error {
		found, err := client.Get(ctx, key)
		if err == nil && len(found.Kvs) > 0 {
			value, isThere = found.Kvs[0].Value, true
		}
		return err
	})
	return value, isThere, err
}

// Writer gives the value of the key `primary`: who writes, or "" where nobody does.
func (e *Engine) Writer(ctx context.Context) (string, error) {
	value, _, err := e.value(ctx, PrimaryKey)
	return string(value), err
}

// Entry gives the entry of a number, and whether it is there.
func (e *Engine) Entry(ctx context.Context, number int64) ([]byte, bool, error) {
	return e.value(ctx, entryKey(number))
}

// Entries gives a page of the entries from a number on, whether there are more, and the revision at which they were read. That is the
// given one, where there is one. A key that is no entry is passed over.
func (e *Engine) Entries(ctx context.Context, from, revision int64) (entries []Raw, more bool, at int64, err error) {
	key := entryKey(from)
	for {
		found, err := e.page(ctx, key, revision)
		if err != nil {
			return nil, false, 0, err
		}
		entries = entriesOf(found.Kvs)
		if revision == 0 {
			revision = found.Header.Revision
		}
		if len(entries) > 0 || !found.More {
			return entries, found.More, revision, nil
		}
		key = string(found.Kvs[len(found.Kvs)-1].Key) + "\x00"
	}
}

// A page is what Entries gives.
type page struct {
	entries  []Raw
	more     bool
	revision int64
	err      error
}

// ReadAll gives all entries from a number on to a function, a page at a time. The next page is on its way while one is taken. It returns
// the revision up to which all is read.
func (e *Engine) ReadAll(ctx context.Context, from int64, take func([]Raw) error) (revision int64, err error) {
	reading, cancel := context.WithCancel(ctx)
	defer cancel()
	pages := make(chan page)
	go func() {
		defer close(pages)
		for read := (page{more: true}); read.more && read.err == nil; {
			read.entries, read.more, read.revision, read.err = e.Entries(reading, from, 0)
			if read.err != nil {
				read.err = fmt.Errorf("read the script from the entry %d on: %w", from, read.err)
			}
			if count := len(read.entries); count > 0 {
				from = read.entries[count-1].Number + 1
			}
			select {
			case pages <- read:
			case <-reading.Done():
				return
			}
		}
	}()
	for read := range pages {
		if err = read.err; err == nil && len(read.entries) > 0 {
			err = take(read.entries)
		}
		if err != nil {
			return 0, err
		}
		revision = read.revision
	}
	return revision, ctx.Err()
}

func entriesOf(keys []*mvccpb.KeyValue) []Raw {
	entries := make([]Raw, 0, len(keys))
	for _, kv := range keys {
		if number := numberOf(kv.Key); number > 0 {
			entries = append(entries, Raw{number, kv.Value})
		}
	}
	return entries
}

func (e *Engine) page(ctx context.Context, key string, revision int64) (*clientv3.GetResponse, error) {
	count, most := e.pages.next()
	var found *clientv3.GetResponse
	asked := time.Now()
	err := e.call(ctx, most, func(ctx context.Context, client *clientv3.Client) (err error) {
		found, err = client.Get(ctx, key, clientv3.WithRange(scriptEnd), clientv3.WithLimit(count), clientv3.WithRev(revision))
		return err
	})
	if err != nil {
		if IsAway(err) {
			e.pages.failed()
		}
		return nil, err
	}
	bytes := 0
	for _, kv := range found.Kvs {
		bytes += len(kv.Key) + len(kv.Value)
	}
	e.pages.came(len(found.Kvs), bytes, time.Since(asked))
	return found, nil
}

// Last gives the number of the last entry, of those from a number on, or the number before it where there are none.
func (e *Engine) Last(ctx context.Context, from int64) (int64, error) {
	key, last := entryKey(from), from-1
	for {
		var found *clientv3.GetResponse
		err := e.call(ctx, CallTime, func(ctx context.Context, client *clientv3.Client) (err error) {
			found, err = client.Get(ctx, key, clientv3.WithRange(scriptEnd), clientv3.WithKeysOnly(), clientv3.WithLimit(mostEntries))
			return err
		})
		if err != nil {
			return 0, err
		}
		for _, entry := range entriesOf(found.Kvs) {
			last = entry.Number
		}
		if !found.More {
			return last, nil
		}
		key = string(found.Kvs[len(found.Kvs)-1].Key) + "\x00"
	}
}

// First gives the number of the first entry that the engine has, or 0.
func (e *Engine) First(ctx context.Context) (int64, error) {
	first, key := int64(0), scriptKeys
	for first == 0 {
		var found *clientv3.GetResponse
		err := e.call(ctx, CallTime, func(ctx context.Context, client *clientv3.Client) (err error) {
			found, err = client.Get(ctx, key, clientv3.WithRange(scriptEnd), clientv3.WithKeysOnly(), clientv3.WithLimit(1))
			return err
		})
		if err != nil || len(found.Kvs) == 0 {
			return 0, err
		}
		first, key = numberOf(found.Kvs[0].Key), string(found.Kvs[0].Key)+"\x00"
	}
	return first, nil
}
