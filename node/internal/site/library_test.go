//go:build library

package site

import "ordup.dev/node/internal/library"

func init() { openStore = library.Open }
