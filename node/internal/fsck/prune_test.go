package fsck_test

import (
	"context"
	"fmt"
	"os"
	"path/filepath"
	"strings"
	"testing"

	"ordup.dev/node/internal/archive"
	"ordup.dev/node/internal/engine"
	"ordup.dev/node/internal/etcdtest"
	"ordup.dev/node/internal/exit"
	"ordup.dev/node/internal/fsck"
	"ordup.dev/node/internal/script"
)

// inEngine writes a script into an engine, and takes its first epochs away.
func inEngine(t *testing.T, opened *engine.Engine, entries []*script.Entry, gone int64) {
	t.Helper()
	ctx, first := context.Background(), map[int64]int64{}
	for at, entry := range entries {
		number := int64(at + 1)
		if first[entry.Epoch] == 0 {
			first[entry.Epoch] = number
		}
		write := &engine.Write{Number: number, Text: entry.Text()}
		if entry.Begins() {
			write.Epoch, write.First = entry.Epoch, first[entry.Epoch]
		}
		if err := opened.Write(ctx, write); err != nil {
			t.Fatal(err)
		}
	}
	for number := int64(1); number <= gone; number++ {
		removed, err := opened.RemoveEpoch(ctx, number, nil, engine.Archive{From: first[number], Before: first[number+1]})
		if err != nil || !removed {
			t.Fatal(number, removed, err)
		}
	}
}

func configOf(opened *engine.Engine, folders ...string) fsck.Config {
	return fsck.Config{Folders: folders, Engine: opened, Versions: []string{"1"}, Open: openStore, Checker: checker, Tell: func(fsck.Epoch) {}}
}

// prunes prunes a folder, and gives what was told.
func prunes(opened *engine.Engine, folder, copies string, keep int64, isDry bool) (fsck.Pruned, []string, error) {
	told := []string{}
	pruned, err := fsck.Prune(context.Background(), fsck.PruneConfig{Config: configOf(opened, folder),
		Copies: []string{copies}, Keep: keep, IsDry: isDry, Deletes: func(name string) { told = append(told, filepath.Base(name)) }})
	return pruned, told, err
}

func has(folder string) string {
	names := []string{}
	for number := int64(1); number < 9; number++ {
		if _, err := os.Stat(filepath.Join(folder, archive.NameOf(number))); err == nil {
			names = append(names, fmt.Sprint(number))
		}
	}
	return strings.Join(names, " ")
}

func TestOldArchivesGo(t *testing.T) {
	t.Parallel()
	members, entries := etcdtest.Start(t, 1), scriptOf(t, 6)
	opened := members.Engine()
	inEngine(t, opened, entries, 4)
	folder, copies := write(t, entries, asItIs), write(t, entries, asItIs)
	check := func(folders ...string) error {
		_, _, err := fsck.Run(context.Background(), configOf(opened, folders...))
		return err
	}
	for _, row := range []struct {
		keep                 int64
		isDry                bool
		deleted, kept, first int
		told, left           string
	}{
		{9, false, 0, 6, 1, "", "1 2 3 4 5 6"},
		{4, false, 0, 6, 1, "", "1 2 3 4 5 6"},
		{2, true, 0, 4, 3, "epoch-1.ordup epoch-2.ordup", "1 2 3 4 5 6"},
		{2, false, 2, 4, 3, "epoch-1.ordup epoch-2.ordup", "3 4 5 6"},
		{2, false, 0, 4, 3, "", "3 4 5 6"},
		{1, false, 1, 3, 4, "epoch-3.ordup", "4 5 6"}, // The engine has 5 and 6.
	} {
		pruned, told, err := prunes(opened, folder, copies, row.keep, row.isDry)
		if err != nil || pruned.Deleted != row.deleted || pruned.Kept != row.kept || pruned.First != int64(row.first) ||
			strings.Join(told, " ") != row.told || has(folder) != row.left {
			t.Errorf("%+v: %+v, %v, %v, there are %s", row, pruned, told, err, has(folder))
		}
		if err := check(folder); err != nil {
			t.Error(row, err)
		}
		if err := check(folder, copies); err != nil {
			t.Error(row, err)
		}
	}
	if len(has(copies)) != len("1 2 3 4 5 6") {
		t.Error(has(copies))
	}
	// What went before is not missed, and what was left is.
	os.Remove(filepath.Join(folder, archive.NameOf(4)))
	if err := check(folder); exit.Of(err) != exit.Gap || !strings.Contains(err.Error(), "no folder has the archive of the epoch 4") {
		t.Error(err)
	}
	if err := check(folder, copies); err != nil {
		t.Error(err)
	}
}

// Where anything is wrong nothing is deleted.
func TestNothingIsDeletedWhereACheckFails(t *testing.T) {
	t.Parallel()
	members, entries := etcdtest.Start(t, 1), scriptOf(t, 5)
	opened := members.Engine()
	inEngine(t, opened, entries, 4)
	in := func(epoch int64, change func(text string) string) func(string, string) string {
		return func(name, text string) string {
			if name == archive.NameOf(epoch) {
				return change(text)
			}
			return text
		}
	}
	nothing := func(string) string { return "" }
	other := func(text string) string { return strings.ReplaceAll(text, "writer p1", "writer p2") }
	wrong := func(text string) string { return strings.Replace(text, "ok acked 2", "ok acked 3", 1) }
	for _, row := range []struct {
		name      string
		own, copy func(name, text string) string
		link      func(from, to string) error
		says      string
	}{
		{"no copy of one", asItIs, in(2, nothing), nil, "there is no copy of"},
		{"a copy that differs", asItIs, in(1, other), nil, "differ"},
		{"half a copy", asItIs, in(1, func(text string) string { return text[:len(text)/2] }), nil, "differ"},
		{"another name of the file", asItIs, in(2, nothing), os.Link, "is no copy: it is the same file"},
		{"a link to the file", asItIs, in(2, nothing), os.Symlink, "is no copy: it is the same file"},
		{"an answer of what goes is wrong", in(1, wrong), in(1, wrong), nil, "its answers are not those"},
		{"an answer of what stays is wrong", in(4, wrong), asItIs, nil, "it does not carry over the last request"},
		{"one that goes is missing", in(2, nothing), asItIs, nil, "no folder has the archive of the epoch 2"},
		{"one that stays is missing", in(4, nothing), asItIs, nil, "no folder has the archive of the epoch 4"},
		{"the first one is missing", in(1, nothing), asItIs, nil, "no folder has the archive of the epoch 1"},
	} {
		t.Run(row.name, func(t *testing.T) {
			folder, copies := write(t, entries, row.own), write(t, entries, row.copy)
			if row.link != nil {
				if err := row.link(filepath.Join(folder, archive.NameOf(2)), filepath.Join(copies, archive.NameOf(2))); err != nil {
					t.Fatal(err)
				}
			}
			before := has(folder)
			_, told, err := prunes(opened, folder, copies, 1, false)
			if exit.Of(err) != exit.Gap || !strings.Contains(err.Error(), row.says) || len(told) > 0 || has(folder) != before {
				t.Errorf("%v, %v, there are %s", err, told, has(folder))
			}
			if _, err := os.Stat(filepath.Join(folder, "pruned")); !os.IsNotExist(err) {
				t.Error(err)
			}
		})
	}
	folder := write(t, entries, asItIs)
	if _, _, err := prunes(opened, folder, folder, 1, false); err == nil || has(folder) != "1 2 3 4 5" {
		t.Error(err, has(folder))
	}
	_, _, err := prunes(opened, t.TempDir(), folder, 1, false)
	if exit.Of(err) != exit.Words || !strings.Contains(err.Error(), "has no archive") {
		t.Error(err)
	}
	empty := etcdtest.Start(t, 1)
	_, _, err = prunes(empty.Engine(), folder, write(t, entries, asItIs), 1, false)
	if exit.Of(err) != exit.Gap || !strings.Contains(err.Error(), "the engine has no script") {
		t.Error(err)
	}
}
