package archive_test

import (
	"context"
	"errors"
	"fmt"
	"os"
	"path/filepath"
	"strings"
	"testing"

	"ordup.dev/node/internal/archive"
	"ordup.dev/node/internal/engine"
	"ordup.dev/node/internal/etcdtest"
	"ordup.dev/node/internal/script"
)

// write writes a script of some epochs, with entries of two steps.
func write(t *testing.T, to *engine.Engine, epochs ...int64) {
	for at, epoch := range epochs {
		number := int64(at + 1)
		entry := script.Entry{Epoch: epoch, Ordup: "1", Writer: "p1", Steps: []script.Step{
			{Kind: script.Ask, Client: "ann", Number: number, Words: "add:tea:1"}, {Kind: script.Settle, Count: 1}}}
		write := &engine.Write{Number: number, Text: entry.Text()}
		if at == 0 || epochs[at-1] != epoch {
			write.Epoch, write.First = epoch, number
		}
		if err := to.Write(context.Background(), write); err != nil {
			t.Fatal(err)
		}
	}
}

func pass(t *testing.T, archiver *archive.Archiver, wants int64) {
	t.Helper()
	waits, err := archiver.Pass(context.Background())
	if err != nil || waits != (wants > 0) || archiver.Waiting() != wants {
		t.Errorf("%v, %v, %d", waits, err, archiver.Waiting())
	}
}

func TestAnEpochStaysUntilEnoughHostsHaveIt(t *testing.T) {
	members := etcdtest.Start(t, 1)
	own := members.Engine()
	keep := func(host string) *archive.Archiver {
		return &archive.Archiver{Engine: members.Engine(), Folder: filepath.Join(t.TempDir(), host), Host: host, Copies: 2}
	}
	one, other := keep("p1"), keep("p2")
	pass(t, one, 0)
	write(t, own, 1, 1, 2, 2, 2, 3)
	pass(t, one, 2)
	pass(t, one, 2)
	// A file that was changed on the disk is written again by who starts anew.
	again := &archive.Archiver{Engine: own, Folder: one.Folder, Host: "p1", Copies: 2}
	name := filepath.Join(one.Folder, archive.NameOf(1))
	if err := os.WriteFile(name, []byte("other"), 0o644); err != nil {
		t.Fatal(err)
	}
	if _, err := again.Pass(context.Background()); err == nil || !strings.Contains(err.Error(), "move it away") {
		t.Error(err)
	}
	if err := os.Remove(name); err != nil {
		t.Fatal(err)
	}
	pass(t, again, 2)
	pass(t, other, 0)
	pass(t, again, 0)
	if again.Looked() > 0 {
		t.Error("an archiver remembers what has left the engine")
	}
	first, err := own.First(context.Background())
	archives, failure := own.Archives(context.Background())
	if first != 6 || err != nil || len(archives) != 0 || failure != nil {
		t.Error(first, err, archives, failure)
	}
	for _, archiver := range []*archive.Archiver{one, other} {
		for epoch, wants := range map[int64]int{1: 2, 2: 3} {
			text, err := os.ReadFile(filepath.Join(archiver.Folder, archive.NameOf(epoch)))
			if err != nil || strings.Count(string(text), "\npropose add:tea:1\n") != wants {
				t.Errorf("%s, %v", text, err)
			}
			isFor(t, filepath.Join(archiver.Folder, archive.NameOf(epoch)), 0o640)
		}
		isFor(t, archiver.Folder, 0o750)
		files, _ := os.ReadDir(archiver.Folder)
		if len(files) != 2 {
			t.Error(files)
		}
	}
}

// isFor looks whether nobody else may do anything with a file.
func isFor(t *testing.T, name string, most os.FileMode) {
	t.Helper()
	if found, err := os.Stat(name); err != nil || found.Mode().Perm()&^most != 0 {
		t.Error(name, found.Mode(), err)
	}
}

// An archive is on the disk before it has its name, and its name before other hosts are told. Where that fails nobody is told.
func TestAnArchiveIsOnTheDiskFirst(t *testing.T) {
	members := etcdtest.Start(t, 1)
	own, folder := members.Engine(), t.TempDir()
	write(t, own, 1, 2)
	name := filepath.Join(folder, archive.NameOf(1))
	synced, fails := []string{}, ""
	defer archive.SyncBy(func(file *os.File) error {
		what := "names"
		if strings.HasSuffix(file.Name(), ".part") {
			what = "file"
		}
		if _, err := os.Stat(name); err == nil {
			what += " of an archive"
		}
		archives, err := own.Archives(context.Background())
		synced = append(synced, what)
		if err != nil || len(archives) > 0 || what == fails {
			return errors.New("the disk fails")
		}
		return nil
	})()
	for _, fails = range []string{"file", "names of an archive", ""} {
		archiver := &archive.Archiver{Engine: own, Folder: folder, Host: "p1", Copies: 2}
		waits, err := archiver.Pass(context.Background())
		archives, _ := own.Archives(context.Background())
		if isWell := fails == ""; waits != isWell || (err == nil) != isWell || len(archives) == 1 != isWell {
			t.Errorf("%q: %v, %v, %v", fails, waits, err, archives)
		}
		os.Remove(name)
	}
	if said := strings.Join(synced, ", "); said != "file, file, names of an archive, file, names of an archive" {
		t.Error(said)
	}
}

// While an epoch cannot be archived, the number of those that wait counts it and those behind it.
func TestAnEpochThatCannotBeArchivedIsCounted(t *testing.T) {
	members := etcdtest.Start(t, 1)
	own := members.Engine()
	write(t, own, 1, 1, 2, 3, 4)
	archiver := &archive.Archiver{Engine: own, Folder: t.TempDir(), Host: "p1", Copies: 1}
	for _, row := range []struct {
		number int
		wants  int64
	}{{2, 3}, {1, 1}} {
		t.Run(fmt.Sprint("the entry ", row.number), func(t *testing.T) {
			members.Put(fmt.Sprintf("script/%012d", row.number), "by hand")
			if _, err := archiver.Pass(context.Background()); err == nil || archiver.Waiting() != row.wants {
				t.Error(row, err, archiver.Waiting())
			}
		})
	}
}

func TestArchivesThatDiffer(t *testing.T) {
	members := etcdtest.Start(t, 1)
	own := members.Engine()
	write(t, own, 1, 1, 2)
	archiver := &archive.Archiver{Engine: own, Folder: t.TempDir(), Host: "p1", Copies: 2}
	for _, value := range []string{"0123 1 3", "\xff", "x 1 y", ""} {
		members.Put("archive/000000000001/p2", value)
		members.Put("archive/\xff/p2", value)
		pass(t, archiver, 1)
	}
}

func TestAFolderThatCannotBeUsed(t *testing.T) {
	members := etcdtest.Start(t, 1)
	own := members.Engine()
	write(t, own, 1, 2)
	name := filepath.Join(t.TempDir(), "file")
	if err := os.WriteFile(name, nil, 0o644); err != nil {
		t.Fatal(err)
	}
	archiver := &archive.Archiver{Engine: own, Folder: name, Host: "p1", Copies: 1}
	if _, err := archiver.Pass(context.Background()); err == nil {
		t.Error("a file is a folder")
	}
	if err := os.Remove(name); err != nil {
		t.Fatal(err)
	}
	pass(t, archiver, 0)
}
