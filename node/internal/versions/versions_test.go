package versions

import (
	"os"
	"regexp"
	"strconv"
	"strings"
	"testing"
)

// The list ends with the version of the sources, has none twice, and goes up.
func TestTheList(t *testing.T) {
	text, err := os.ReadFile("../../../clients/rust/Cargo.toml")
	if err != nil {
		t.Fatal(err)
	}
	found := regexp.MustCompile(`(?m)^version = "(.*)"$`).FindSubmatch(text)
	if found == nil || listed[len(listed)-1] != string(found[1]) {
		t.Errorf("the list %v does not end with the version of the sources, which is %s", listed, found[1])
	}
	for at := range listed[1:] {
		if !isBefore(t, listed[at], listed[at+1]) {
			t.Errorf("%s stands before %s", listed[at], listed[at+1])
		}
	}
	for _, version := range listed[:len(listed)-1] {
		if strings.HasSuffix(version, "-dev") {
			t.Errorf("%s was never released", version)
		}
	}
	if all := All(); len(all) != len(listed) || all[0] != listed[len(listed)-1] || all[len(all)-1] != listed[0] {
		t.Errorf("the program has %v", all)
	}
}

func TestTheOrder(t *testing.T) {
	rising := []string{"0.2.0", "0.9.1", "0.10.0-dev", "0.10.0", "0.10.1-dev", "1.0.0"}
	for at, one := range rising {
		for other := range rising {
			if is := isBefore(t, one, rising[other]); is != (at < other) {
				t.Errorf("%s comes before %s: %v", one, rising[other], is)
			}
		}
	}
}

// isBefore is whether a version comes before another one. One that was not released comes before the one that it is on its way to.
func isBefore(t *testing.T, one, other string) bool {
	left, right := numbers(t, one), numbers(t, other)
	for at := range left {
		if left[at] != right[at] {
			return left[at] < right[at]
		}
	}
	return false
}

// numbers are those of a version, and 0 behind them where it was not released.
func numbers(t *testing.T, version string) (all [4]int) {
	found := regexp.MustCompile(`^(\d+)\.(\d+)\.(\d+)(-dev)?$`).FindStringSubmatch(version)
	if found == nil {
		t.Fatalf("%q is no version", version)
	}
	for at := range all[:3] {
		all[at], _ = strconv.Atoi(found[at+1])
	}
	if found[4] == "" {
		all[3] = 1
	}
	return all
}

func TestABuildIsNamedUntilAVersionIsReleased(t *testing.T) {
	defer func(before []string) { listed, more, build = before, "", "" }(listed)
	for _, row := range []struct{ last, more, build, is string }{
		{"0.3.0", "", "0123456789ab", ""},
		{"0.3.0-dev", "", "0123456789ab", "0123456789ab"},
		{"0.3.0-dev", "", "", "unknown"},
		{"0.3.0-dev", "newer", "0123456789ab", ""},
	} {
		listed, more, build = []string{"0.2.0", row.last}, row.more, row.build
		if is := Build(); is != row.is {
			t.Errorf("of %v the build is %q", row, is)
		}
	}
	listed, more = []string{"0.2.0", "0.3.0"}, "newer"
	if all := strings.Join(All(), " "); all != "newer 0.3.0 0.2.0" {
		t.Errorf("the program has %s", all)
	}
}
