package engine

import (
	"context"

	"go.etcd.io/etcd/clientv3"
)

// A Key is one under the name of a site: that of a process which serves it, under a lease, or one that was put by hand.
type Key struct {
	Name     string
	IsLeased bool
	revision int64
}

// mostSiteKeys is how many keys SiteKeys gives at most.
const mostSiteKeys = 100

// SiteKeys gives the keys under the name of a site, or of a fleet.
func (e *Engine) SiteKeys(ctx context.Context, fleet string) ([]Key, error) {
	keys := []Key{}
	err := e.call(ctx, CallTime, func(ctx context.Context, client *clientv3.Client) error {
		from, to := keysOf(fleet)
		found, err := client.Get(ctx, from, clientv3.WithRange(to), clientv3.WithKeysOnly(), clientv3.WithLimit(mostSiteKeys))
		if err != nil {
			return err
		}
		for _, kv := range found.Kvs {
			keys = append(keys, Key{string(kv.Key), kv.Lease != 0, kv.ModRevision})
		}
		return nil
	})
	return keys, err
}

// RemoveKey takes a key away, if it is as it was given. It returns whether it did.
func (e *Engine) RemoveKey(ctx context.Context, key Key) (bool, error) {
	removed := false
	err := e.call(ctx, CallTime, func(ctx context.Context, client *clientv3.Client) error {
		done, err := client.Txn(ctx).If(clientv3.Compare(clientv3.ModRevision(key.Name), "=", key.revision)).
			Then(clientv3.OpDelete(key.Name)).Commit()
		removed = err == nil && done.Succeeded
		return err
	})
	return removed, err
}
