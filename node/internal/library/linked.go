//go:build library

package library

import (
	"fmt"

	"ordup.dev/ordup"
	"ordup.dev/ordup/answer"

	"ordup.dev/node/internal/store"
)

// Open gives a store before its first line.
func Open() (store.Store, error) {
	opened, err := ordup.Open()
	if err != nil {
		return nil, fmt.Errorf("open a store: %w", err) // Else it would be a store that is nil, which is not nil.
	}
	return opened, nil
}

func (checker) Check(record []byte) (answer.Verdict, error) { return ordup.Check(record) }

func (checker) CheckSeries(records []byte) (answer.SeriesVerdict, error) {
	return ordup.CheckSeries(records)
}
