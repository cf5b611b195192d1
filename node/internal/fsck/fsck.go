package fsck

import (
	"context"
	"crypto/sha256"
	"errors"
	"fmt"
	"io"
	"os"
	"path/filepath"

	"ordup.dev/node/internal/archive"
	"ordup.dev/node/internal/engine"
	"ordup.dev/node/internal/epoch"
	"ordup.dev/node/internal/exit"
	"ordup.dev/node/internal/script"
	"ordup.dev/node/internal/store"
)

// A RecordError says that the record of a site is not `yes`.
type RecordError struct {
	Epoch     int64
	Site, Why string
}

func (e *RecordError) Error() string {
	return fmt.Sprintf("the record of %s in the epoch %d: %s", e.Site, e.Epoch, e.Why)
}

// ExitStatus is that of a process which meets it.
func (*RecordError) ExitStatus() exit.Status { return exit.Gap }

// A LostError says that archives lack something, or differ.
type LostError struct{ Why string }

func (e *LostError) Error() string { return e.Why }

// ExitStatus is that of a process which meets it.
func (*LostError) ExitStatus() exit.Status { return exit.Gap }

// A Config says what is checked.
type Config struct {
	// Folders have the archives of hosts. From is the first epoch that they have: 0 stands for 1, or the first that Prune left in each.
	Folders []string
	From    int64
	// Engine has the script that is not archived yet, or is nil.
	Engine   *engine.Engine
	Versions []string
	// Open gives the stores that run the script again, and Checker checks their records.
	Open    store.Open
	Checker store.Checker
	// Tell is told of each epoch that was found right.
	Tell func(Epoch)
}

// A reader gives an audit what it reads, and counts it.
type reader struct {
	Config
	audit             *Audit
	archives, entries int64
}

// Run checks all, up to the first fault. It returns how many archives and entries it has read.
func Run(ctx context.Context, config Config) (archives, entries int64, err error) {
	reader := &reader{Config: config}
	if reader.From == 0 {
		if reader.From, err = firstOf(config.Folders); err != nil {
			return 0, 0, err
		}
	}
	if err = reader.readFolders(ctx); err == nil && config.Engine != nil {
		err = reader.readEngine(ctx)
	}
	if err == nil && config.Engine == nil && reader.audit != nil && !reader.audit.HasEnded() {
		err = &LostError{fmt.Sprintf("the archive of the epoch %d is not whole: the epoch does not end in it", reader.audit.Core().Epoch())}
	}
	if reader.audit != nil {
		if err == nil {
			err = reader.audit.End()
		}
		reader.audit.Close()
	}
	if err == nil && reader.entries == 0 {
		err = exit.With(exit.Words, errors.New("there is no archive and no entry"))
	}
	return reader.archives, reader.entries, err
}

// take has an entry checked. The first one begins the audit.
func (r *reader) take(ctx context.Context, number int64, entry *script.Entry) error {
	if ctx.Err() != nil {
		return ctx.Err()
	}
	if r.audit == nil {
		r.audit = New(r.Config, number)
	}
	r.entries++
	return r.audit.Take(number, entry)
}

// readFolders reads the archives of all epochs, one after another.
func (r *reader) readFolders(ctx context.Context) error {
	number := r.From
	for ; ; number++ {
		name, err := fileOf(r.Folders, number)
		if err != nil {
			return err
		}
		if name == "" {
			break
		}
		take := func(at int64, entry *script.Entry) error { return r.take(ctx, at, entry) }
		if err = readFile(name, number, take); err != nil {
			return fmt.Errorf("%s: %w", name, err)
		}
		r.archives++
	}
	if later := laterThan(r.Folders, number); later != "" {
		return &LostError{fmt.Sprintf("no folder has the archive of the epoch %d, and %s is there", number, later)}
	}
	return nil
}

// fileOf is the archive of an epoch in the first folder that has it, or "". Those of all folders must be the same.
func fileOf(folders []string, number int64) (string, error) {
	found, digest := "", [sha256.Size]byte{}
	for _, folder := range folders {
		name := filepath.Join(folder, archive.NameOf(number))
		own, err := digestOf(name)
		if errors.Is(err, os.ErrNotExist) {
			continue
		}
		if err != nil {
			return "", err
		}
		if found != "" && own != digest {
			return "", &LostError{fmt.Sprintf("%s and %s differ", found, name)}
		}
		if found == "" {
			found, digest = name, own
		}
	}
	return found, nil
}

func digestOf(name string) (digest [sha256.Size]byte, err error) {
	file, err := os.Open(name)
	if err != nil {
		return digest, err
	}
	defer file.Close()
	sum := sha256.New()
	_, err = io.Copy(sum, file)
	sum.Sum(digest[:0])
	return digest, err
}

// laterThan is an archive of a later epoch than this one, or "".
func laterThan(folders []string, number int64) string {
	for _, folder := range folders {
		for _, other := range epochsIn(folder) {
			if other > number {
				return filepath.Join(folder, archive.NameOf(other))
			}
		}
	}
	return ""
}

// readFile reads the archive of an epoch, which has entries of that epoch alone.
func readFile(name string, number int64, take func(int64, *script.Entry) error) error {
	file, err := os.Open(name)
	if err != nil {
		return err
	}
	defer file.Close()
	var failure error
	err = archive.Read(file, func(at int64, entry *script.Entry) error {
		if entry.Epoch != number {
			failure = &epoch.BrokenError{Number: at, Why: fmt.Sprintf("it is of epoch %d", entry.Epoch)}
		} else {
			failure = take(at, entry)
		}
		return failure
	})
	if err != nil && failure == nil {
		return &LostError{err.Error()}
	}
	return err
}

// readEngine reads what the engine has after the archives, and looks whether the epoch that it names is that of the script.
func (r *reader) readEngine(ctx context.Context) error {
	next, err := r.Engine.First(ctx)
	if err != nil {
		return fmt.Errorf("read the first entry: %w", err)
	}
	if r.audit != nil {
		if next > r.audit.Next() {
			return fmt.Errorf("the archives end with the epoch %d, and behind them %w", r.audit.Core().Epoch(),
				&epoch.GapError{Number: r.audit.Next(), Instead: next})
		}
		next = r.audit.Next()
	}
	named, first, err := r.Engine.Epoch(ctx)
	if err != nil {
		return fmt.Errorf("read the last epoch: %w", err)
	}
	takeAll := func(raws []engine.Raw) error { return r.takeAll(ctx, raws) }
	_, err = r.Engine.ReadAll(ctx, next, takeAll)
	if err != nil || r.audit == nil {
		return err
	}
	if core := r.audit.Core(); core.Epoch() < named || core.Epoch() == named && core.First() != first {
		return &LostError{fmt.Sprintf("the engine names the epoch %d from the entry %d on, and the script has %d from %d on", named, first,
			core.Epoch(), core.First())}
	}
	return nil
}

func (r *reader) takeAll(ctx context.Context, raws []engine.Raw) error {
	for _, raw := range raws {
		entry, err := epoch.Parse(raw.Number, raw.Text)
		if err == nil {
			err = r.take(ctx, raw.Number, entry)
		}
		if err != nil {
			return err
		}
	}
	return nil
}
