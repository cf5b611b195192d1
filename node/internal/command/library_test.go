//go:build library

package command_test

import "ordup.dev/node/internal/library"

func init() { openStore, checker = library.Open, library.Checker }
