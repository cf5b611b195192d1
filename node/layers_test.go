package main

import (
	"go/parser"
	"go/token"
	"os"
	"path/filepath"
	"regexp"
	"strings"
	"testing"
)

// alone names the one package that imports another one.
var alone = map[string]string{"go.etcd.io/etcd/embed": "embedded", "ordup.dev/node/internal/embedded": "command"}

// A package imports those of the rows above it alone, by the table of docs/ARCHITECTURE.md, which has each but those for tests.
func TestThePackagesStandOnOneAnotherOneWay(t *testing.T) {
	page, err := os.ReadFile("../docs/ARCHITECTURE.md")
	if err != nil {
		t.Fatal(err)
	}
	_, section, _ := strings.Cut(string(page), "## The node\n")
	row := map[string]int{"modelstore": 1 << 10, "etcdtest": 1 << 10, "sim": 1 << 10}
	for at, line := range strings.Split(section, "\n") {
		cells := strings.Split(line, "|")
		if len(cells) < 2 || !strings.HasPrefix(cells[1], "`") {
			continue
		}
		for _, name := range regexp.MustCompile(`\w+`).FindAllString(cells[1], -1) {
			row[name] = at
		}
	}
	files, _ := filepath.Glob("internal/*/*.go")
	for _, file := range files {
		own := filepath.Base(filepath.Dir(file))
		parsed, err := parser.ParseFile(token.NewFileSet(), file, nil, parser.ImportsOnly)
		if err != nil || row[own] == 0 {
			t.Error(file, row[own], err)
			continue
		}
		for _, imported := range parsed.Imports {
			path := strings.Trim(imported.Path.Value, `"`)
			name := strings.TrimPrefix(path, "ordup.dev/node/internal/")
			if name != path && row[name] >= row[own] && !strings.HasSuffix(file, "_test.go") {
				t.Errorf("%s imports %s", file, name)
			}
			if by := alone[path]; by != "" && by != own {
				t.Errorf("%s imports %s, which is for %s", file, path, by)
			}
		}
	}
	if len(row) < 20 {
		t.Error(row)
	}
}
