package settings_test

import (
	"errors"
	"flag"
	"os"
	"path/filepath"
	"reflect"
	"strings"
	"testing"
	"time"

	"ordup.dev/node/internal/settings"
)

type values struct {
	listen  string
	every   int64
	wait    time.Duration
	engine  []string
	replace bool
}

func read(t *testing.T, file string, words ...string) (values, []string, error) {
	t.Helper()
	given, set := values{}, settings.New("test")
	set.Text(&given.listen, "listen", "127.0.0.1:1", "the `ADDRESS`")
	set.Number(&given.every, "every", 7, 1, 100, "`NUMBER` of requests")
	set.Seconds(&given.wait, "wait", time.Second, time.Minute, "`SECONDS`")
	set.List(&given.engine, "engine", "`ADDRESS,..` of members")
	set.Switch(&given.replace, "replace", "whether")
	if file != "" {
		name := filepath.Join(t.TempDir(), "file")
		if err := os.WriteFile(name, []byte(file), 0o600); err != nil {
			t.Fatal(err)
		}
		words = append([]string{"--settings", name}, words...)
	}
	rest, err := set.Read(words, func(key string) bool { return key == "other" })
	if !strings.Contains(set.Help(), "--every NUMBER") {
		t.Error(set.Help())
	}
	return given, rest, err
}

func TestFlagsWin(t *testing.T) {
	t.Parallel()
	file := "# who\n\nlisten = :2 # not a comment\n every=9\nother = what it likes\nengine = http://a:1, http://b:2\n"
	given, rest, err := read(t, file, "ann", "--every", "8", "7", "--wait=0.5", "--replace", "add:tea:-5")
	want := values{":2 # not a comment", 8, 500 * time.Millisecond, []string{"http://a:1", "http://b:2"}, true}
	if err != nil || !reflect.DeepEqual(given, want) || !reflect.DeepEqual(rest, []string{"ann", "7", "add:tea:-5"}) {
		t.Error(given, rest, err)
	}
	given, rest, err = read(t, "", "--", "--every", "8")
	if want := (values{listen: "127.0.0.1:1", every: 7, wait: time.Second}); err != nil || !reflect.DeepEqual(given, want) || len(rest) != 2 {
		t.Error(given, rest, err)
	}
}

func TestWhatIsWrongIsNamed(t *testing.T) {
	t.Parallel()
	for _, row := range []struct{ file, flag, says string }{
		{"", "--evry=1", "there is no flag --evry"},
		{"", "--every=101", `"101" for --every: it is a number from 1 to 100`},
		{"", "--every=x", "for --every"},
		{"", "--wait=NaN", "for --wait"},
		{"", "--wait=61", "for --wait"},
		{"", "--engine=a,,b", "for --engine"},
		{"", "--every", "a value is missing after --every"},
		{"", "--replace=maybe", `"maybe" for --replace: `},
		{"", "--=1", "there is no flag --"},
		{"evry = 1", "", `line 1: there is no key "evry"`},
		{"\nevery = 0", "", `line 2: "0" for every: it is a number from 1 to 100`},
		{"every 1", "", "is not `key = value`"},
		{"other = 1\nother = 2", "", "the key other stands there twice"},
		{"every = 1\nevery = 2", "", "the key every stands there twice"},
		{"settings = more", "", `there is no key "settings"`},
		{"", "--settings=/nowhere/file", "/nowhere/file"},
	} {
		t.Run(row.file+row.flag, func(t *testing.T) {
			words := []string{}
			if row.flag != "" {
				words = append(words, row.flag)
			}
			if _, _, err := read(t, row.file, words...); err == nil || !strings.Contains(err.Error(), row.says) {
				t.Errorf("%q %q: %v", row.file, row.flag, err)
			}
		})
	}
	if _, _, err := read(t, "", "--help"); !errors.Is(err, flag.ErrHelp) {
		t.Error(err)
	}
}
