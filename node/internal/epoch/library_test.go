//go:build library

package epoch

import "ordup.dev/node/internal/library"

func init() { openStore = library.Open }
