//go:build library

package fsck_test

import "ordup.dev/node/internal/library"

func init() {
	openStore, checker, isLibrary = library.Open, library.Checker, true
	declares = append(declares, "limit south object till 40")
	changes = append(changes, "take:tea:till", "mul:till:-1", "max:tea:900 min:till:1100", "mul:tea:1000000000", "add:tea:1 add:tea:2",
		"inc:tea:1")
}
