// Package archive keeps the scripts of epochs that have ended, each as a file that `ordup run` reads.
//
// Each primary writes one into its folder, whole and on the disk, and says so in the engine with its digest. The entries stay in the
// engine until so many hosts have the same archive. So a disk that is lost loses no script.
package archive

import (
	"bufio"
	"context"
	"crypto/sha256"
	"encoding/hex"
	"fmt"
	"io"
	"os"
	"path/filepath"
	"sort"
	"sync/atomic"
	"time"

	"ordup.dev/node/internal/engine"
	"ordup.dev/node/internal/logs"
	"ordup.dev/node/internal/script"
)

// sync has a file on the disk, or the names of a folder.
var sync = (*os.File).Sync

// tryAfter is after how long archives that wait are looked at again.
const tryAfter = 2 * time.Second

// An Archiver archives the epochs that have ended.
type Archiver struct {
	// Engine is of the archiver alone.
	Engine *engine.Engine
	Folder string
	// Host names the disk of the folder. It is no more than a file name.
	Host string
	// Copies is how many hosts have an archive before its entries leave the engine.
	Copies int
	Log    *logs.Log
	// Ended tells that an epoch has ended.
	Ended <-chan struct{}
	// looked are the archives whose files this process has written or read, of epochs that are still in the engine.
	looked  map[engine.Archive]bool
	waiting atomic.Int64
}

// Waiting is how many epochs have ended and are still in the engine, as of the last look.
func (a *Archiver) Waiting() int64 { return a.waiting.Load() }

// NameOf is the name of the file of an epoch.
func NameOf(epoch int64) string { return fmt.Sprintf("epoch-%d.ordup", epoch) }

// MakeFolder makes a folder for archives, unless it is there. They have what each client asked, so they are for the user and the group of
// the process alone.
func MakeFolder(folder string) error { return os.MkdirAll(folder, 0o750) }

// Run archives what has ended, and what ends, until the context ends. Then it closes its engine.
func (a *Archiver) Run(ctx context.Context) {
	defer a.Engine.Close()
	for ctx.Err() == nil {
		waits, err := a.Pass(ctx)
		if err != nil && ctx.Err() == nil {
			a.Log.Warn("archive", "why", err)
		}
		var again <-chan time.Time
		if waits || err != nil {
			again = time.After(tryAfter)
		}
		select {
		case <-ctx.Done():
		case <-a.Ended:
		case <-again:
		}
	}
}

// Pass archives each epoch that has ended and is still in the engine, and takes it out of there once enough hosts have it. It returns
// whether one of them waits for another host.
func (a *Archiver) Pass(ctx context.Context) (waits bool, err error) {
	last, end, err := a.Engine.Epoch(ctx)
	if err != nil {
		return false, fmt.Errorf("read the last epoch: %w", err)
	}
	from, err := a.Engine.First(ctx)
	if err != nil {
		return false, fmt.Errorf("read the first entry: %w", err)
	}
	if from == 0 {
		return false, nil
	}
	for own := range a.looked {
		if own.Before <= from {
			delete(a.looked, own)
		}
	}
	left := int64(0)
	for from < end {
		before, removed, err := a.passOne(ctx, from, end)
		if err != nil {
			if !engine.IsAway(err) {
				a.waiting.Store(left + a.stuck(ctx, from, last))
			}
			return false, fmt.Errorf("archive the epoch from the entry %d on: %w", from, err)
		}
		from = before
		if !removed {
			left++
		}
	}
	a.waiting.Store(left)
	return left > 0, nil
}

// passOne does it for the epoch that begins with an entry. It returns the first entry behind the epoch, and whether it left the engine.
func (a *Archiver) passOne(ctx context.Context, from, end int64) (before int64, removed bool, err error) {
	archives, err := a.Engine.Archives(ctx)
	if err != nil {
		return 0, false, fmt.Errorf("read which hosts have archives: %w", err)
	}
	epoch, own, err := a.own(ctx, archives, from, end)
	if err != nil {
		return 0, false, err
	}
	removed, err = a.remove(ctx, epoch, own)
	return own.Before, removed, err
}

// stuck is how many epochs before the last one wait behind an entry whose epoch cannot be archived, as far as the entry tells.
func (a *Archiver) stuck(ctx context.Context, from, last int64) int64 {
	epoch := int64(0)
	text, _, _ := a.Engine.Entry(ctx, from)
	count, _ := fmt.Sscanf(string(text), "ordup-node 1 epoch %d ", &epoch)
	if count != 1 || epoch < 1 || epoch >= last {
		return 1
	}
	return last - epoch
}

// own is the archive of this host that begins with an entry. It is written, if it is not there yet.
func (a *Archiver) own(ctx context.Context, archives map[int64]map[string]engine.Archive, from, end int64) (int64, engine.Archive, error) {
	for epoch, hosts := range archives {
		if own, isThere := hosts[a.Host]; isThere && own.From == from && own.Before <= end && from < own.Before {
			if a.looked[own] {
				return epoch, own, nil
			}
			if digest, err := digestOf(filepath.Join(a.Folder, NameOf(epoch))); err == nil && digest == own.Digest {
				a.looks(own)
				return epoch, own, nil
			}
		}
	}
	epoch, own, err := a.write(ctx, from, end)
	if err != nil {
		return epoch, own, err
	}
	if err := a.Engine.PutArchive(ctx, epoch, a.Host, own); err != nil {
		return epoch, own, fmt.Errorf("say that the archive is here: %w", err)
	}
	a.looks(own)
	a.Log.Info("archived", "epoch", epoch, "entries", own.Before-own.From, "digest", own.Digest[:16])
	return epoch, own, nil
}

func (a *Archiver) looks(own engine.Archive) {
	if a.looked == nil {
		a.looked = map[engine.Archive]bool{}
	}
	a.looked[own] = true
}

// remove takes an epoch out of the engine, if enough hosts have the same archive as this one.
func (a *Archiver) remove(ctx context.Context, epoch int64, own engine.Archive) (bool, error) {
	archives, err := a.Engine.Archives(ctx)
	if err != nil {
		return false, fmt.Errorf("read which hosts have archives: %w", err)
	}
	hosts := []string{}
	for host, archive := range archives[epoch] {
		if archive == own {
			hosts = append(hosts, host)
		} else {
			a.Log.Warn("archives-differ", "epoch", epoch, "host", host, "own", own.Digest, "other", archive.Digest)
		}
	}
	if len(hosts) < a.Copies {
		return false, nil
	}
	sort.Strings(hosts)
	removed, err := a.Engine.RemoveEpoch(ctx, epoch, hosts, own)
	if removed {
		a.Log.Info("removed", "epoch", epoch, "hosts", len(hosts))
	}
	if err != nil {
		return removed, fmt.Errorf("take the entries away: %w", err)
	}
	return removed, nil
}

// write writes the archive of the epoch that begins with an entry, whole or not at all.
func (a *Archiver) write(ctx context.Context, from, end int64) (epoch int64, own engine.Archive, err error) {
	if err = MakeFolder(a.Folder); err != nil {
		return 0, own, err
	}
	part, err := os.CreateTemp(a.Folder, "epoch-*.part")
	if err != nil {
		return 0, own, err
	}
	defer os.Remove(part.Name())
	defer part.Close()
	epoch, own, err = a.copy(ctx, part, from, end)
	if err != nil {
		return 0, own, err
	}
	if err = sync(part); err != nil {
		return 0, own, err
	}
	if err = os.Chmod(part.Name(), 0o640); err != nil {
		return 0, own, err
	}
	return epoch, own, a.name(part.Name(), filepath.Join(a.Folder, NameOf(epoch)), own.Digest)
}

// name gives a file that is on the disk its name, and has that on the disk too. Another file of this name is not written over.
func (a *Archiver) name(part, name, digest string) error {
	if before, err := digestOf(name); err == nil && before != digest {
		return fmt.Errorf("%s is there already, and of another script: move it away", name)
	}
	if err := os.Rename(part, name); err != nil {
		return err
	}
	folder, err := os.Open(a.Folder)
	if err != nil {
		return err
	}
	defer folder.Close()
	return sync(folder)
}

// copy copies the entries of one epoch, all of one revision.
func (a *Archiver) copy(ctx context.Context, to io.Writer, from, end int64) (epoch int64, own engine.Archive, err error) {
	sum, revision, next := sha256.New(), int64(0), from
	lines := bufio.NewWriterSize(io.MultiWriter(to, sum), 1<<16)
	var raws []engine.Raw
	for isSame := true; isSame && next < end; {
		raws, _, revision, err = a.Engine.Entries(ctx, next, revision)
		if err != nil {
			return 0, own, fmt.Errorf("read from the entry %d on: %w", next, err)
		}
		if len(raws) == 0 {
			return 0, own, &engine.MissingError{Number: next}
		}
		for _, raw := range raws {
			entry, err := script.Parse(raw.Text)
			switch {
			case err != nil:
				return 0, own, fmt.Errorf("the entry %d: %w", raw.Number, err)
			case raw.Number != next:
				return 0, own, &engine.MissingError{Number: next}
			case epoch == 0:
				epoch = entry.Epoch
			}
			isSame = entry.Epoch == epoch && next < end
			if !isSame {
				break
			}
			_, err = lines.Write(entry.AppendArchive(nil, next))
			if err != nil {
				return 0, own, err
			}
			next++
		}
	}
	own = engine.Archive{From: from, Before: next}
	err = lines.Flush()
	own.Digest = hex.EncodeToString(sum.Sum(nil))
	return epoch, own, err
}

func digestOf(name string) (string, error) {
	file, err := os.Open(name)
	if err != nil {
		return "", err
	}
	defer file.Close()
	sum := sha256.New()
	_, err = io.Copy(sum, file)
	return hex.EncodeToString(sum.Sum(nil)), err
}
