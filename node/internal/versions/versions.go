// Package versions has the list of the versions of ordup whose answers the library gives: the version of the program, and older ones.
//
// A script, and so an archive, names in each entry the version that runs it. A program runs, serves and checks scripts of the versions of
// its list alone. That the library gives the answers of a listed version is shown by archives of that version, in internal/fsck/testdata.
package versions

import "strings"

// listed are the versions in their order. The last one is that of the sources. `checks/versions --set` writes the list.
var listed = []string{
	"0.2.0",
	"0.3.0-dev",
}

// more is one more version behind the list, where node/build builds a program of it to try an upgrade.
var more string

// build is a digest of all that the program is made of. node/build sets it.
var build string

// All gives the versions, that of the program first.
func All() []string {
	all := []string{}
	for _, version := range append(append([]string{}, listed...), strings.Fields(more)...) {
		all = append([]string{version}, all...)
	}
	return all
}

// Build tells programs of one version apart that was not released: it is the digest of all that this one is made of. A version that was
// released is of one program, and needs none.
func Build() string {
	if !strings.HasSuffix(All()[0], "-dev") {
		return ""
	}
	if build == "" {
		return "unknown"
	}
	return build
}
