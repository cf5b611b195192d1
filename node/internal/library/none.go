//go:build !library

package library

import (
	"errors"

	"ordup.dev/ordup/answer"

	"ordup.dev/node/internal/store"
)

// errNone says that the program was built without the library.
var errNone = errors.New("this program was built without libordup: node/build builds one with it")

// Open gives no store.
func Open() (store.Store, error) { return nil, errNone }

func (checker) Check([]byte) (answer.Verdict, error) { return answer.Verdict{}, errNone }

func (checker) CheckSeries([]byte) (answer.SeriesVerdict, error) {
	return answer.SeriesVerdict{}, errNone
}
