// Package library gives the stores of libordup, in this process, and its checker.
//
// It is linked with the tag library. Without that a program is built all the same, and says that it has no store.
package library

import "ordup.dev/node/internal/store"

// Checker is that of the library.
var Checker store.Checker = checker{}

type checker struct{}
