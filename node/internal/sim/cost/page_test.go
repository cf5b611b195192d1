//go:build library

package main

import (
	"os"
	"strconv"
	"strings"
	"testing"
)

// Each row of docs/MACHINES.md on what a round costs is one that is printed. It takes some seconds, so it is seen once: without the race
// detector, with what needs the library.
func TestThePageHasTheRows(t *testing.T) {
	t.Parallel()
	text, err := os.ReadFile("../../../../docs/MACHINES.md")
	if err != nil {
		t.Fatal(err)
	}
	_, section, _ := strings.Cut(string(text), "## What a round costs\n")
	columns, cell, rows := limits, waitsAt, 0
	for _, line := range strings.Split(section, "\n") {
		if strings.HasPrefix(line, "sites |") {
			columns, cell = few, rateAt
		}
		first, _, _ := strings.Cut(line, " | ")
		row, err := strconv.Atoi(strings.ReplaceAll(first, ",", ""))
		if err != nil {
			continue
		}
		rows++
		want := []string{first}
		for _, column := range columns {
			text, _, err := cell(row, column)
			if err != nil {
				t.Fatal(err)
			}
			want = append(want, text)
		}
		if want := strings.Join(want, " | "); line != want {
			t.Errorf("the page has the row %s, and what is printed is %s", line, want)
		}
	}
	if rows < 6 {
		t.Errorf("the page has %d rows", rows)
	}
}
