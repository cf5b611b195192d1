package fsck

import (
	"context"
	"errors"
	"fmt"
	"os"
	"path/filepath"
	"sort"
	"strconv"
	"strings"
	"syscall"

	"ordup.dev/node/internal/archive"
	"ordup.dev/node/internal/exit"
	"ordup.dev/node/internal/script"
)

// prunedName is the file of a folder that says which epoch is the first of those that Prune left there.
const prunedName = "pruned"

// A PruneConfig says what is pruned.
type PruneConfig struct {
	// Config says how archives are checked. Its Folders are the one that is pruned, and it has an Engine.
	Config
	// Copies are folders of which each has a copy of what is deleted.
	Copies []string
	// Keep is how many epochs stay of those that have ended and left the engine: one at least, which the audit goes on from.
	Keep int64
	// IsDry is whether nothing is deleted.
	IsDry bool
	// Deletes is told of each file before it is deleted.
	Deletes func(name string)
}

// A Pruned says what was deleted: the epochs before First. From First on they stay.
type Pruned struct {
	Deleted, Kept int
	First         int64
	// OnOneDisk are folders with copies that are on the disk of the folder which was pruned.
	OnOneDisk []string
}

// Prune deletes the archives of old epochs from a folder. What stays are the last epochs without a gap: those that the engine has not
// dropped, which a start or a primary that stands by may need, and Keep before these. Nothing is deleted unless all archives are right up
// to the end of the script in the engine, those that stay are right without the others, and each folder of copies has a file of its own
// with the same bytes for each that goes. Then the folder says with which epoch it begins.
func Prune(ctx context.Context, config PruneConfig) (pruned Pruned, err error) {
	folder := config.Folders[0]
	if config.From, err = firstOf(config.Folders); err != nil {
		return pruned, err
	}
	epochs := epochsIn(folder)
	inEngine, err := config.firstInEngine(ctx)
	if err != nil {
		return pruned, err
	}
	old := sort.Search(len(epochs), func(at int) bool { return epochs[at] >= inEngine }) - int(config.Keep)
	if old < 0 {
		old = 0
	}
	if len(epochs) == 0 {
		return pruned, exit.With(exit.Words, fmt.Errorf("%s has no archive", folder))
	}
	if _, _, err = Run(ctx, config.Config); err != nil {
		return pruned, fmt.Errorf("nothing is deleted: %w", err)
	}
	pruned = Pruned{Kept: len(epochs) - old, First: epochs[0]}
	if old == 0 {
		return pruned, nil
	}
	if pruned.OnOneDisk, err = config.haveCopies(epochs[:old]); err != nil {
		return pruned, fmt.Errorf("nothing is deleted: %w", err)
	}
	left := config.Config
	left.From, left.Tell = epochs[old], func(Epoch) {}
	if _, _, err = Run(ctx, left); err != nil {
		return pruned, fmt.Errorf("nothing is deleted, since the epochs from %d on would not be enough: %w", left.From, err)
	}
	pruned.First = left.From
	return pruned, config.delete(epochs[:old], left.From, &pruned.Deleted)
}

// firstInEngine is the first epoch of which the engine has an entry.
func (c *PruneConfig) firstInEngine(ctx context.Context) (int64, error) {
	number, err := c.Engine.First(ctx)
	if err != nil {
		return 0, fmt.Errorf("read the first entry: %w", err)
	}
	text, isThere, err := c.Engine.Entry(ctx, number)
	if err != nil {
		return 0, fmt.Errorf("read the entry %d: %w", number, err)
	}
	if number == 0 || !isThere {
		return 0, &LostError{"the engine has no script, so nothing tells which epochs have left it"}
	}
	entry, err := script.Parse(text)
	if err != nil {
		return 0, fmt.Errorf("the entry %d: %w", number, err)
	}
	return entry.Epoch, nil
}

// haveCopies looks whether each folder of copies has one of each epoch, in a file of its own. It gives the folders whose copies are on the
// same disk.
func (c *PruneConfig) haveCopies(epochs []int64) (onOneDisk []string, err error) {
	for _, folder := range c.Copies {
		isOnOne := false
		for _, number := range epochs {
			own, other := filepath.Join(c.Folders[0], archive.NameOf(number)), filepath.Join(folder, archive.NameOf(number))
			same, err := isCopy(own, other)
			if err != nil {
				return nil, err
			}
			isOnOne = isOnOne || same
		}
		if isOnOne {
			onOneDisk = append(onOneDisk, folder)
		}
	}
	return onOneDisk, nil
}

// isCopy looks whether a file has the bytes of another one without being it. It says whether both are on one disk.
func isCopy(own, other string) (onOneDisk bool, err error) {
	ownInfo, err := os.Stat(own)
	if err != nil {
		return false, err
	}
	info, err := os.Stat(other)
	if err != nil {
		return false, &LostError{fmt.Sprintf("there is no copy of %s: %v", own, err)}
	}
	if os.SameFile(ownInfo, info) {
		return false, &LostError{fmt.Sprintf("%s is no copy: it is the same file as %s", other, own)}
	}
	digest, err := digestOf(own)
	if err != nil {
		return false, err
	}
	copied, err := digestOf(other)
	if err != nil {
		return false, err
	}
	if digest != copied {
		return false, &LostError{fmt.Sprintf("%s and %s differ", own, other)}
	}
	return deviceOf(ownInfo) == deviceOf(info), nil
}

func deviceOf(info os.FileInfo) uint64 {
	if is, isSo := info.Sys().(*syscall.Stat_t); isSo {
		return is.Dev
	}
	return 0
}

// delete deletes archives, the oldest one first, once the folder says which one is the first that stays.
func (c *PruneConfig) delete(epochs []int64, first int64, deleted *int) error {
	folder := c.Folders[0]
	if !c.IsDry {
		if err := putFirst(folder, first); err != nil {
			return fmt.Errorf("say which epoch is the first: %w", err)
		}
	}
	for _, number := range epochs {
		name := filepath.Join(folder, archive.NameOf(number))
		c.Deletes(name)
		if c.IsDry {
			continue
		}
		if err := os.Remove(name); err != nil {
			return err
		}
		*deleted++
	}
	return nil
}

// putFirst has a folder say, on its disk, with which epoch it begins.
func putFirst(folder string, first int64) error {
	part, err := os.CreateTemp(folder, prunedName+"-*.part")
	if err != nil {
		return err
	}
	defer os.Remove(part.Name())
	defer part.Close()
	if _, err = fmt.Fprintf(part, "%d\n", first); err != nil {
		return err
	}
	if err = part.Chmod(0o640); err != nil {
		return err
	}
	if err = part.Sync(); err != nil {
		return err
	}
	if err = os.Rename(part.Name(), filepath.Join(folder, prunedName)); err != nil {
		return err
	}
	open, err := os.Open(folder)
	if err != nil {
		return err
	}
	defer open.Close()
	return open.Sync()
}

// firstOf is the first epoch that some folders must have: 1, or where all were pruned the least that one begins with. Archives before that
// which are there are checked too.
func firstOf(folders []string) (int64, error) {
	first := int64(0)
	for _, folder := range folders {
		own := int64(1)
		text, err := os.ReadFile(filepath.Join(folder, prunedName))
		if err == nil {
			own, err = strconv.ParseInt(strings.TrimSpace(string(text)), 10, 64)
		}
		if err != nil && !errors.Is(err, os.ErrNotExist) {
			return 0, fmt.Errorf("with which epoch %s begins: %w", folder, err)
		}
		if epochs := epochsIn(folder); len(epochs) > 0 && epochs[0] < own {
			own = epochs[0]
		}
		if first == 0 || own < first {
			first = own
		}
	}
	if first < 1 {
		first = 1
	}
	return first, nil
}

// epochsIn are the epochs of which a folder has archives, in their order.
func epochsIn(folder string) []int64 {
	names, _ := filepath.Glob(filepath.Join(folder, "epoch-*.ordup"))
	epochs := []int64{}
	for _, name := range names {
		var number int64
		if count, _ := fmt.Sscanf(filepath.Base(name), "epoch-%d.ordup", &number); count == 1 && archive.NameOf(number) == filepath.Base(name) {
			epochs = append(epochs, number)
		}
	}
	sort.Slice(epochs, func(one, other int) bool { return epochs[one] < epochs[other] })
	return epochs
}
