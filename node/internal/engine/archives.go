package engine

import (
	"context"
	"errors"
	"fmt"

	"go.etcd.io/etcd/clientv3"
)

// An Archive is what a host says of the archive that it has: the digest of the file, and the entries from From on and before Before.
type Archive struct {
	Digest       string
	From, Before int64
}

func (a *Archive) value() string {
	return fmt.Sprintf("%s %d %d", a.Digest, a.From, a.Before)
}

// Archives gives the archives that hosts have of epochs whose entries the engine still has, by epoch and host.
func (e *Engine) Archives(ctx context.Context) (map[int64]map[string]Archive, error) {
	archives := map[int64]map[string]Archive{}
	err := e.call(ctx, CallTime, func(ctx context.Context, client *clientv3.Client) error {
		found, err := client.Get(ctx, archiveKeys, clientv3.WithPrefix())
		if err != nil {
			return err
		}
		for _, kv := range found.Kvs {
			var archive Archive
			epoch, host, isOne := archiveOf(kv.Key)
			count, _ := fmt.Sscanf(string(kv.Value), "%64s %d %d", &archive.Digest, &archive.From, &archive.Before)
			if !isOne || count != 3 {
				continue // Nobody of the deployment puts others.
			}
			if archives[epoch] == nil {
				archives[epoch] = map[string]Archive{}
			}
			archives[epoch][host] = archive
		}
		return nil
	})
	return archives, err
}

// PutArchive says that a host has an archive, while the engine has its entries.
func (e *Engine) PutArchive(ctx context.Context, epoch int64, host string, archive Archive) error {
	return e.call(ctx, CallTime, func(ctx context.Context, client *clientv3.Client) error {
		_, err := client.Txn(ctx).If(clientv3.Compare(clientv3.CreateRevision(entryKey(archive.From)), ">", 0)).
			Then(clientv3.OpPut(archiveKey(epoch, host), archive.value())).Commit()
		return err
	})
}

// RemoveEpoch takes the entries of an epoch out of the engine, where these hosts have this archive, with the keys of its archives and
// what the engine keeps of the past. The epoch has ended. It returns whether it did.
func (e *Engine) RemoveEpoch(ctx context.Context, epoch int64, hosts []string, archive Archive) (bool, error) {
	compares := []clientv3.Cmp{}
	for _, host := range hosts {
		compares = append(compares, clientv3.Compare(clientv3.Value(archiveKey(epoch, host)), "=", archive.value()))
	}
	var done *clientv3.TxnResponse
	err := e.call(ctx, CallTime, func(ctx context.Context, client *clientv3.Client) (err error) {
		done, err = client.Txn(ctx).If(compares...).Then(
			clientv3.OpDelete(entryKey(archive.From), clientv3.WithRange(entryKey(archive.Before))),
			clientv3.OpDelete(archiveKey(epoch, ""), clientv3.WithPrefix())).Commit()
		return err
	})
	if err != nil || !done.Succeeded {
		return false, err
	}
	err = e.call(ctx, CallTime, func(ctx context.Context, client *clientv3.Client) error {
		_, err := client.Compact(ctx, done.Header.Revision)
		return err
	})
	if errors.Is(err, errCompacted) {
		err = nil
	}
	return true, err
}
