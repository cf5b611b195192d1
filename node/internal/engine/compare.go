package engine

import (
	"bytes"
	"fmt"

	"go.etcd.io/etcd/clientv3"
)

// A Compare is what must be so in the engine as an entry is written: a key is there, or is not, or has a value.
type Compare struct {
	Key string
	// To ends a range of keys, where it is one. It has none then.
	To      string
	IsThere bool
	Value   string
}

// cmp is the compare as etcd has it.
func (c *Compare) cmp() clientv3.Cmp {
	switch {
	case c.Value != "":
		return clientv3.Compare(clientv3.Value(c.Key), "=", c.Value)
	case c.To != "":
		return clientv3.Compare(clientv3.CreateRevision(c.Key), "=", 0).WithRange(c.To)
	case c.IsThere:
		return clientv3.Compare(clientv3.CreateRevision(c.Key), ">", 0)
	}
	return clientv3.Compare(clientv3.CreateRevision(c.Key), "=", 0)
}

// Compares are those of the transaction that writes the entry.
func (w *Write) Compares() []Compare {
	compares := []Compare{{Key: entryKey(w.Number)}}
	if w.Number > 1 {
		compares = append(compares, Compare{Key: entryKey(w.Number - 1), IsThere: true})
	} else {
		compares = append(compares, Compare{Key: epochKey})
	}
	if w.Last > 0 {
		// The entry before may be there, though all of the epoch of this one were removed.
		compares = append(compares, Compare{Key: epochKey, Value: epochValue(w.Last, w.Since)})
	}
	for _, fleet := range w.Absent {
		from, to := keysOf(fleet)
		compares = append(compares, Compare{Key: from, To: to})
	}
	return compares
}

// Refusal is why nothing was written, by what is there instead: the entry of the number, the last epoch, and the entry before. It is nil
// where the entry is the own one.
func (w *Write) Refusal(entry, epoch []byte, hasBefore bool) error {
	if entry != nil {
		if bytes.Equal(entry, w.Text) {
			return nil
		}
		return &TakenError{fmt.Sprintf("another primary wrote the entry %d", w.Number)}
	}
	if epoch != nil {
		_, first, err := epochOf(epoch)
		if err != nil {
			return err
		}
		if first > w.Number || w.Last > 0 && first != w.Since {
			return &TakenError{fmt.Sprintf("another primary went over to a later epoch, with the entry %d", first)}
		}
	}
	if w.Number > 1 && !hasBefore {
		return &MissingError{w.Number - 1}
	}
	if len(w.Absent) > 0 {
		return &ServedError{w.Absent}
	}
	return &TakenError{"the script is not empty any more"}
}
