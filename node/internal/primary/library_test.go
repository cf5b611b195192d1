//go:build library

package primary_test

import "ordup.dev/node/internal/library"

func init() { openStore = library.Open }
