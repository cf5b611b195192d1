package fsck_test

import (
	"context"
	"fmt"
	"os"
	"path/filepath"
	"strings"
	"testing"

	"ordup.dev/node/internal/archive"
	"ordup.dev/node/internal/engine"
	"ordup.dev/node/internal/epoch"
	"ordup.dev/node/internal/etcdtest"
	"ordup.dev/node/internal/exit"
	"ordup.dev/node/internal/fsck"
	"ordup.dev/node/internal/modelstore"
	"ordup.dev/node/internal/script"
	"ordup.dev/node/internal/store"
)

// openStore and checker are those of the tests. With the tag library they are those of the program.
var (
	openStore store.Open    = modelstore.Open
	checker   store.Checker = modelstore.Checker{}
)

var declarations = []string{"object tea 1000", "object till 0", "site north 1", "site south 1", "limit north count 2", "start"}

// scriptOf runs epochs of a few updates, and gives their entries.
func scriptOf(t *testing.T, epochs int64) []*script.Entry {
	t.Helper()
	return redeclared(t, epochs, nil)
}

// redeclared gives those of a script in which an operator gives other declarations for the second epoch.
func redeclared(t *testing.T, epochs int64, second []string) []*script.Entry {
	t.Helper()
	wishes := map[int64][]string{1: second}
	config := epoch.Config{Open: openStore, Writer: "p1", Versions: []string{"1"}}
	settings := script.Settings{Every: 1000, Remembers: 2, Origin: epoch.DigestOf(declarations), Ordup: "1"}
	batch, err := epoch.FirstBatch(config, settings, declarations)
	core, entries := epoch.New(config, 1), []*script.Entry{}
	defer core.Close()
	keep := func(batch *epoch.Batch) {
		entry, err := epoch.Parse(batch.Number, batch.Text)
		if err != nil {
			t.Fatal(err)
		}
		entries = append(entries, entry)
	}
	if err == nil {
		keep(batch)
		err = core.Replay(1, batch.Entry())
	}
	for number := int64(1); err == nil && core.Epoch() <= epochs; number++ {
		if number%5 != 0 {
			_, err = core.Ask([]epoch.Request{{Client: fmt.Sprint("c", number%3), Number: number, Changes: "add:tea:-1 add:till:3"}}, 0)
		} else if err = core.AskNext(epoch.Wish{From: core.Epoch(), Declarations: wishes[core.Epoch()]}); err != nil {
			break
		}
		for err == nil {
			status := core.Status(0)
			for _, site := range status.Sites {
				core.Tell(epoch.Place{Site: site.Name, Member: site.Name, Epoch: core.Epoch(), Applied: status.Updates, Entry: status.Entries}, 0)
			}
			_, err = core.Work(1e9 * 100)
			if err != nil {
				break
			}
			batch, err = core.Seal(1e9 * 100)
			if err != nil || batch == nil {
				break
			}
			keep(batch)
			core.Written(batch.Number)
		}
	}
	if err != nil {
		t.Fatal(err)
	}
	return entries
}

// write writes the archives of all epochs but the last, changed by a function, and returns their folder.
func write(t *testing.T, entries []*script.Entry, change func(name, text string) string) string {
	t.Helper()
	folder, texts, most := t.TempDir(), map[int64][]byte{}, int64(0)
	for at, entry := range entries {
		texts[entry.Epoch] = entry.AppendArchive(texts[entry.Epoch], int64(at+1))
		most = entry.Epoch
	}
	for number, text := range texts {
		name := archive.NameOf(number)
		if number == most {
			continue
		}
		if changed := change(name, string(text)); changed != "" {
			if err := os.WriteFile(filepath.Join(folder, name), []byte(changed), 0o644); err != nil {
				t.Fatal(err)
			}
		}
	}
	return folder
}

func run(folders []string, opened *engine.Engine) (string, error) {
	text := ""
	_, _, err := fsck.Run(context.Background(), fsck.Config{Folders: folders, From: 1, Engine: opened, Versions: []string{"1"}, Open: openStore, Checker: checker,
		Tell: func(checked fsck.Epoch) { text += checked.String() + "\n" }})
	return text, err
}

func asItIs(_, text string) string { return text }

func TestAScriptIsRight(t *testing.T) {
	t.Parallel()
	folder := write(t, scriptOf(t, 3), asItIs)
	text, err := run([]string{folder, write(t, scriptOf(t, 2), asItIs)}, nil)
	if err != nil || strings.Count(text, "\n") != 3 || !strings.Contains(text, "epoch 2") || !strings.Contains(text, "updates 4 clients 3 north yes ") {
		t.Error(err, text)
	}
}

func TestWhatIsWrongIsFound(t *testing.T) {
	t.Parallel()
	entries := scriptOf(t, 3)
	second := func(old, new string) func(string, string) string {
		return func(name, text string) string {
			if name != "epoch-2.ordup" {
				return text
			}
			if !strings.Contains(text, old) {
				t.Errorf("there is no %q", old)
			}
			return strings.ReplaceAll(text, old, new)
		}
	}
	third := func(change func(string) string) func(string, string) string {
		return func(name, text string) string {
			if name == "epoch-3.ordup" {
				return change(text)
			}
			return text
		}
	}
	of := func(epoch int64) (text string) {
		for at, entry := range entries {
			if entry.Epoch == epoch {
				text += string(entry.AppendArchive(nil, int64(at+1)))
			}
		}
		return text
	}
	for _, row := range []struct {
		change func(name, text string) string
		says   string
	}{
		{second("object tea 996", "object tea 997"), "begins with `object tea 997`, and the epoch before ended with `object tea 996`"},
		{second("limit north count 2", "limit north count 3"), "it has other declarations"},
		{second("ok acked 2 epoch 2", "ok acked 3 epoch 2"), "its answers are not those"},
		{second("# settle 1\nsettle\n", ""), ""},
		{second("add:tea:-1", "add:tea:-2"), ""},
		{second("# known c1", "# known c9"), "it does not carry over the last request of c9"},
		{second("# tell north", "# tell south"), ""},
		{second("# ask c0 9 ", "# ask c0 6 "), "c0 asks under 6 after 6"},
		{second("# settle 1\nsettle\n", "# gone north 0\nreport north\n"), "the site north is gone, and was not taken out"},
		{func(name, text string) string { return strings.Replace(text, "# known", "#  known", 1) }, "line"},
		{func(name, text string) string { return map[bool]string{true: "", false: text}[name == "epoch-2.ordup"] }, "no folder has the archive of the epoch 2"},
		{func(name, text string) string { return map[bool]string{true: "", false: text}[name == "epoch-1.ordup"] }, "no folder has the archive of the epoch 1"},
		{third(func(string) string { return of(2) }), "it is of epoch 2"},
		{third(func(text string) string { return text + text }), "the script has the entry"},
		{third(func(text string) string { return text + of(2) }), "it is of epoch 2"},
		{third(func(text string) string { return text[:strings.LastIndex(text, "# answer ")] }), "its answers are not those"},
		{third(func(text string) string {
			return text[:strings.LastIndex(text[:strings.LastIndex(text, "# tell north")], "# entry ")]
		}), "the archive of the epoch 3 is not whole"},
		{second("# entry ", "# entry 1"), ""},
		{func(string, string) string { return "# nothing\n" }, ""},
		{func(_, text string) string { return text[:len(text)/2] }, ""},
	} {
		t.Run(row.says, func(t *testing.T) {
			text, err := run([]string{write(t, entries, row.change)}, nil)
			if err == nil || !strings.Contains(err.Error(), row.says) || exit.Of(err) != exit.Gap {
				t.Errorf("%q: %v, status %d, after %s", row.says, err, exit.Of(err), text)
			}
		})
	}
	other := write(t, entries, second("writer p1", "writer p2"))
	if _, err := run([]string{write(t, entries, asItIs), other}, nil); err == nil || !strings.Contains(err.Error(), "differ") {
		t.Error(err)
	}
	if _, err := run([]string{t.TempDir()}, nil); exit.Of(err) != exit.Words {
		t.Error(err)
	}
}

// Where an operator gives other declarations, the records of a site begin anew.
func TestAScriptIsRightThatWasDeclaredAnew(t *testing.T) {
	t.Parallel()
	folder := write(t, redeclared(t, 3, append([]string{"object milk 7"}, declarations...)), asItIs)
	if text, err := run([]string{folder}, nil); err != nil || strings.Count(text, "\n") != 3 {
		t.Error(err, text)
	}
}

func TestAClientThatIsLeftOutIsFound(t *testing.T) {
	t.Parallel()
	entries := scriptOf(t, 2)
	for _, entry := range entries {
		if entry.Steps[0].Kind == script.Known && entry.Epoch == 2 {
			entry.Steps = entry.Steps[1:]
		}
	}
	if _, err := run([]string{write(t, entries, asItIs)}, nil); err == nil || !strings.Contains(err.Error(), "is not carried over") {
		t.Error(err)
	}
}

func TestTheEngineGoesOnFromTheArchives(t *testing.T) {
	t.Parallel()
	members, entries := etcdtest.Start(t, 1), scriptOf(t, 3)
	opened, last, ctx := members.Engine(), int64(0), context.Background()
	for at, entry := range entries {
		write := &engine.Write{Number: int64(at + 1), Text: entry.Text()}
		if entry.Begins() {
			write.Epoch, write.First = entry.Epoch, int64(at+1)
			for write.First > 1 && entries[write.First-2].Epoch == entry.Epoch {
				write.First--
			}
			last = write.First
		}
		if err := opened.Write(ctx, write); err != nil {
			t.Fatal(err)
		}
	}
	folder := write(t, entries, asItIs)
	for _, folders := range [][]string{nil, {folder}} {
		text, err := run(folders, opened)
		if err != nil || strings.Count(text, "\n") != 4 || !strings.Contains(text, fmt.Sprintf("epoch 4 entries %d-%d", last, len(entries))) {
			t.Error(err, text)
		}
	}
	// The engine names the last epoch and its first entry.
	for _, row := range []struct {
		named string
		right bool
	}{{fmt.Sprintf("4 %d", last+1), false}, {fmt.Sprintf("5 %d", last), false}, {fmt.Sprintf("4 %d", last), true}} {
		t.Run(row.named, func(t *testing.T) {
			members.Put("epoch", row.named)
			if _, err := run(nil, opened); (err == nil) != row.right || err != nil && !strings.Contains(err.Error(), "the engine names the epoch") {
				t.Error(row, err)
			}
		})
	}
	// Without the archive of the third epoch, and with its entries gone.
	if removed, err := opened.RemoveEpoch(ctx, 3, nil, engine.Archive{From: 1, Before: last}); err != nil || !removed {
		t.Fatal(removed, err)
	}
	os.Remove(filepath.Join(folder, "epoch-3.ordup"))
	if _, err := run([]string{folder}, opened); exit.Of(err) != exit.Gap || !strings.Contains(err.Error(), "the archives end with the epoch 2, and behind them the script has the entry") {
		t.Error(err)
	}
}
