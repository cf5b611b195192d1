package fsck_test

import (
	"context"
	"fmt"
	"math/rand"
	"os"
	"path/filepath"
	"strings"
	"testing"
	"time"

	"ordup.dev/node/internal/epoch"
	"ordup.dev/node/internal/exit"
	"ordup.dev/node/internal/fsck"
	"ordup.dev/node/internal/script"
	"ordup.dev/node/internal/versions"
)

// What a made script declares and asks for. The library knows more than the model, and has all of it asked.
var (
	isLibrary bool
	declares  = []string{"object tea 1000", "object till 0", "site north 1", "site south 1", "limit north count 3"}
	changes   = []string{"add:tea:-1 add:till:3", "add:till:-7", "set:tea:900", "add:till:1000000000", "add:tie:1", "add:milk:1"}
)

// A maker runs a script as a primary does, and keeps its entries.
type maker struct {
	t       *testing.T
	chance  *rand.Rand
	core    *epoch.Core
	now     time.Duration
	entries []*script.Entry
}

// made gives a script of some epochs, whose requests, places and wishes follow from a seed: some requests are refused, sites lag, one of
// them is taken out and comes back, and clients are forgotten.
func made(t *testing.T, version string, epochs, seed int64) []*script.Entry {
	t.Helper()
	lines := append(append([]string{}, declares...), "start")
	config := epoch.Config{Open: openStore, Writer: "p1", Versions: []string{version}}
	settings := script.Settings{Every: 1000, Remembers: 1, Seconds: 60, Origin: epoch.DigestOf(lines), Ordup: version}
	settings.Began = script.Began{Every: settings.Every, Remembers: settings.Remembers, Seconds: settings.Seconds, Origin: settings.Origin}
	batch, err := epoch.FirstBatch(config, settings, lines)
	if err != nil {
		t.Fatal(err)
	}
	m := &maker{t: t, chance: rand.New(rand.NewSource(seed)), core: epoch.New(config, 1), now: 100 * time.Second}
	defer m.core.Close()
	m.keep(batch)
	m.is(m.core.Replay(1, batch.Entry()))
	for number := int64(1); m.core.Epoch() <= epochs; number++ {
		m.now += time.Duration(m.chance.Intn(3000)) * time.Millisecond
		if number%40 == 20 {
			limit := script.Limit{Scope: "count", Amount: m.chance.Int63n(9)}
			_, err := m.core.AskLimit(epoch.Limiting{Site: "north", Limit: limit}, m.now)
			m.is(err)
		}
		if number%40 != 0 {
			asks := epoch.Request{Client: fmt.Sprint("c", m.chance.Intn(int(4*m.core.Epoch()))), Number: number}
			asks.Changes = changes[m.chance.Intn(len(changes))]
			_, err := m.core.Ask([]epoch.Request{asks}, m.now)
			m.is(err)
			m.write(false)
			continue
		}
		wish := epoch.Wish{From: m.core.Epoch()}
		switch m.core.Epoch() % 3 {
		case 1:
			wish.Declarations = append([]string{"object milk 7", "object tea 5", "site south 1", "limit south count 2"}, "start")
		case 2:
			wish.Declarations = lines
		}
		m.is(m.core.AskNext(wish))
		for from := m.core.Epoch(); m.core.Epoch() == from; {
			m.write(true)
		}
	}
	return m.entries
}

// write writes all that there is, with what sites have applied by then: all of it at the end of an epoch, and else some.
func (m *maker) write(all bool) {
	status := m.core.Status(m.now)
	for _, site := range status.Sites {
		if site.Leaves {
			continue
		}
		applied := status.Updates
		if !all && site.Applied < applied {
			applied = site.Applied + m.chance.Int63n(applied-site.Applied+1)
		}
		place := epoch.Place{Site: site.Name, Member: site.Name, Epoch: m.core.Epoch(), Applied: applied, Entry: status.Entries}
		if all || m.chance.Intn(3) == 0 {
			m.is(m.core.Tell(place, m.now))
		}
	}
	for _, name := range m.core.Leaving() {
		m.is(m.core.Gone(name))
	}
	for {
		_, err := m.core.Work(m.now)
		m.is(err)
		batch, err := m.core.Seal(m.now)
		m.is(err)
		if batch == nil {
			return
		}
		m.keep(batch)
		m.core.Written(batch.Number)
	}
}

func (m *maker) keep(batch *epoch.Batch) {
	m.t.Helper()
	entry, err := epoch.Parse(batch.Number, batch.Text)
	m.is(err)
	m.entries = append(m.entries, entry)
}

func (m *maker) is(err error) {
	m.t.Helper()
	if err != nil {
		m.t.Fatal(err)
	}
}

// runOf checks archives by a program of these versions.
func runOf(versions []string, folder string) (archives int64, err error) {
	config := fsck.Config{Folders: []string{folder}, From: 1, Versions: versions, Open: openStore, Checker: checker, Tell: func(fsck.Epoch) {}}
	archives, _, err = fsck.Run(context.Background(), config)
	return archives, err
}

// What this version writes is right, and has a step of each kind. NODE_ARCHIVES names a folder to which the archives go: so those of a
// release are made for the versions after it.
func TestArchivesAreMade(t *testing.T) {
	entries := made(t, versions.All()[0], 6, 1)
	folder := write(t, entries, asItIs)
	if archives, err := runOf(versions.All(), folder); err != nil || archives != 6 {
		t.Errorf("%d archives: %v", archives, err)
	}
	has := map[script.Kind]bool{}
	for _, entry := range entries {
		for at := range entry.Steps {
			has[entry.Steps[at].Kind] = true
		}
	}
	for kind := script.Begin; kind <= script.Answered; kind++ {
		if !has[kind] {
			t.Errorf("no step is of the kind %s", kind)
		}
	}
	if to := os.Getenv("NODE_ARCHIVES"); to != "" && isLibrary {
		if err := os.Rename(folder, to); err != nil {
			t.Error(err)
		}
	}
}

// testdata has archives of each version before that of the program, which the library answers as that version did.
func TestArchivesOfEachVersion(t *testing.T) {
	for _, version := range versions.All()[1:] {
		version := version
		t.Run(version, func(t *testing.T) {
			folder := filepath.Join("testdata", version)
			names, _ := filepath.Glob(filepath.Join(folder, "epoch-*.ordup"))
			if len(names) < 3 {
				t.Fatalf("%s has %d archives: CONTRIBUTING.md says how those of a release are made", folder, len(names))
			}
			for _, name := range names {
				text, err := os.ReadFile(name)
				if err != nil || !strings.Contains(string(text), " ordup "+version+" writer ") {
					t.Errorf("%s is not of %s: %v", name, version, err)
				}
			}
			if !isLibrary {
				t.Skip("the model does not know all that a script may have")
			}
			if archives, err := runOf(versions.All(), folder); err != nil || archives != int64(len(names)) {
				t.Errorf("%d archives of %d: %v", archives, len(names), err)
			}
		})
	}
}

// Archives of a version that the program does not have are not checked. It is said which version is wanted.
func TestArchivesOfAnotherVersion(t *testing.T) {
	t.Parallel()
	folder := write(t, made(t, "9.1.0", 2, 1), asItIs)
	for _, own := range [][]string{{"9.0.0"}, {"9.2.0", "9.0.0"}} {
		_, err := runOf(own, folder)
		says := fmt.Sprintf("run by ordup 9.1.0, and this program has %v: take one that has 9.1.0", own)
		if exit.Of(err) != exit.Words || !strings.Contains(err.Error(), says) {
			t.Errorf("by %v: %v", own, err)
		}
	}
	if _, err := runOf([]string{"9.2.0", "9.1.0"}, folder); err != nil {
		t.Error(err)
	}
}
