package engine

import (
	"context"
	"crypto/sha256"
	"encoding/hex"
	"errors"
	"fmt"

	"ordup.dev/node/internal/exit"
)

// ErrLaterEpoch says that the script begins with a later epoch than the one that was run: that one is archived. Whoever ran it begins
// anew with the last epoch.
var ErrLaterEpoch = errors.New("the script begins with a later epoch now")

// A ChangedError says that the script has not what a process has run of it: it was restored from a past, or written by hand.
type ChangedError struct{ Number int64 }

func (e *ChangedError) Error() string {
	return fmt.Sprintf("the script has no more the entry %d that this process has run", e.Number)
}

// ExitStatus is that of a process which meets it.
func (*ChangedError) ExitStatus() exit.Status { return exit.Gap }

// A Mark is the last entry of a script that a process has run.
type Mark struct {
	number int64
	sum    [sha256.Size]byte
}

// Set marks an entry.
func (m *Mark) Set(number int64, text []byte) {
	m.number, m.sum = number, sha256.Sum256(text)
}

// A Digest tells an entry from others.
type Digest [8]byte

// String is the digest as it travels.
func (d Digest) String() string { return hex.EncodeToString(d[:]) }

// Number is that of the entry.
func (m *Mark) Number() int64 { return m.number }

// Digest is that of the entry.
func (m *Mark) Digest() (digest Digest) {
	copy(digest[:], m.sum[:])
	return digest
}

// Resume looks whether a process may go on behind the entry that it has run last. Else the error is ErrLaterEpoch or a ChangedError. It
// returns the first entry of the last epoch.
func (e *Engine) Resume(ctx context.Context, mark *Mark) (first int64, err error) {
	_, first, err = e.Epoch(ctx)
	switch {
	case err != nil || mark.number == 0 || first == mark.number+1:
		return first, err
	case first > mark.number:
		return first, ErrLaterEpoch
	}
	text, isThere, err := e.Entry(ctx, mark.number)
	if err == nil && !(isThere && sha256.Sum256(text) == mark.sum) {
		err = &ChangedError{mark.number}
	}
	return first, err
}

// WhyGap tells what it means that the entry of a number did not come: ErrLaterEpoch, or the given error where it is a fault.
func (e *Engine) WhyGap(ctx context.Context, number int64, fault error) error {
	_, first, err := e.Epoch(ctx)
	switch {
	case err != nil:
		return fmt.Errorf("look why the entry %d does not come: %w", number, err)
	case first > number:
		return ErrLaterEpoch
	}
	return fault
}
