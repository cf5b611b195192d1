package archive_test

import (
	"bytes"
	"errors"
	"reflect"
	"strings"
	"testing"

	"ordup.dev/node/internal/archive"
	"ordup.dev/node/internal/script"
)

func TestAnArchiveIsReadAsItWasWritten(t *testing.T) {
	t.Parallel()
	entries := []*script.Entry{
		{Epoch: 1, Ordup: "1", Writer: "p1", Steps: []script.Step{
			{Kind: script.Begin, Settings: &script.Settings{Every: 1, Remembers: 1, Origin: "a", Ordup: "1", Began: script.Began{Every: 1, Remembers: 1, Origin: "a"}}}, {Kind: script.Declare, Words: "start"}}},
		{Epoch: 1, Ordup: "1", Writer: "p2", Steps: []script.Step{}},
		{Epoch: 1, Ordup: "1", Writer: "p2", Steps: []script.Step{{Kind: script.Tell, Site: "south", Count: 3},
			{Kind: script.Ask, Client: "ann", Number: 7, Words: "# ordup-node 1"}, {Kind: script.Settle, Count: 2}}},
	}
	text := []byte{}
	for at, entry := range entries {
		text = entry.AppendArchive(text, int64(at+7))
	}
	read := []*script.Entry{}
	keep := func(number int64, entry *script.Entry) error {
		if number != int64(len(read)%len(entries)+7) {
			t.Error(number)
		}
		read = append(read, entry)
		return nil
	}
	if err := archive.Read(bytes.NewReader(text), keep); err != nil || !reflect.DeepEqual(read, entries) {
		t.Error(err, read)
	}
	if err := archive.Read(strings.NewReader(""), keep); err != nil {
		t.Error(err)
	}
	stop := errors.New("stop")
	if err := archive.Read(bytes.NewReader(text), func(int64, *script.Entry) error { return stop }); err != stop {
		t.Error(err)
	}
	keep = func(int64, *script.Entry) error { return nil }
	// No line may be missing, added or changed.
	lines := strings.SplitAfter(string(text), "\n")
	for at := range lines[:len(lines)-1] {
		for _, other := range []string{"", lines[at] + "settle\n", "# " + lines[at], "\xff\n", "settle\n"} {
			changed := strings.Join(lines[:at], "") + other + strings.Join(lines[at+1:], "")
			if err := archive.Read(strings.NewReader(changed), keep); err == nil && changed != string(text) {
				t.Errorf("%q for %q is read", other, lines[at])
			}
		}
	}
	// Nor may it be cut off within a line.
	for cut := 1; cut < len(text); cut++ {
		if err := archive.Read(bytes.NewReader(text[:cut]), keep); err == nil && text[cut-1] != '\n' {
			t.Errorf("%q is read", text[:cut])
		}
	}
}
