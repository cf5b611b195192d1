package engine

import (
	"context"

	"go.etcd.io/etcd/clientv3"
	"go.etcd.io/etcd/mvcc/mvccpb"
)

// A Write is an entry that is to be created.
type Write struct {
	Number int64
	Text   []byte
	// Absent are sites, or fleets, of which no process may have a lease.
	Absent []string
	// Where the entry begins an epoch: the epoch, and its first entry.
	Epoch, First int64
	// Last is the last epoch that its writer has run, and Since the first entry of that. Where Last is 0 the epoch is not looked at.
	Last, Since int64
}

// Write creates an entry by one transaction, where there is none of its number, the one before it is there, and the last epoch is the one
// that the writer has run. It is written, also by an earlier call whose answer was lost, or the error says why it is not: a TakenError, a
// ServedError or a MissingError. After an AwayError that is not known, and Write may be called again.
func (e *Engine) Write(ctx context.Context, write *Write) error {
	key := entryKey(write.Number)
	compares := []clientv3.Cmp{}
	for _, compare := range write.Compares() {
		compares = append(compares, compare.cmp())
	}
	puts := []clientv3.Op{clientv3.OpPut(key, string(write.Text))}
	if write.First > 0 {
		puts = append(puts, clientv3.OpPut(epochKey, epochValue(write.Epoch, write.First)))
	}
	looks := []clientv3.Op{clientv3.OpGet(key), clientv3.OpGet(epochKey), clientv3.OpGet(entryKey(write.Number-1), clientv3.WithKeysOnly())}
	var done *clientv3.TxnResponse
	err := e.call(ctx, CallTime, func(ctx context.Context, client *clientv3.Client) (err error) {
		done, err = client.Txn(ctx).If(compares...).Then(puts...).Else(looks...).Commit()
		return err
	})
	if err != nil || done.Succeeded {
		return err
	}
	entry, epoch, before := kvsOf(done, 0), kvsOf(done, 1), kvsOf(done, 2)
	return write.Refusal(valueIn(entry), valueIn(epoch), len(before) > 0)
}

// kvsOf is what one of the looks of a transaction found.
func kvsOf(done *clientv3.TxnResponse, look int) []*mvccpb.KeyValue {
	return done.Responses[look].GetResponseRange().Kvs
}

// valueIn is the value of a key that was found, or nil where none was.
func valueIn(found []*mvccpb.KeyValue) []byte {
	if len(found) == 0 {
		return nil
	}
	return append([]byte{}, found[0].Value...)
}
