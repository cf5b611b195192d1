package engine

import (
	"errors"
	"fmt"

	"go.etcd.io/etcd/etcdserver/api/v3rpc/rpctypes"

	"ordup.dev/node/internal/exit"
)

// An AwayError says that a member could not be reached, was too slow, or has no majority. Whether a write was taken is not known. The
// next call goes to another member.
type AwayError struct {
	Member string
	Cause  error
	// Full says that the engine has no space for a write. What it has stays.
	Full bool
}

func (e *AwayError) Error() string {
	if e.Full {
		return "the engine is full, and takes no write"
	}
	return fmt.Sprintf("the engine's member %s: %s", e.Member, e.Cause)
}

// Unwrap is why the member is away.
func (e *AwayError) Unwrap() error { return e.Cause }

// A WrongError says that the engine will never do what it was asked: a wrong user, or a key that is not of the deployment.
type WrongError struct{ Why string }

func (e *WrongError) Error() string { return e.Why }

// A TakenError says that another process has written an entry of this number, or that the script goes on without it.
type TakenError struct{ Why string }

func (e *TakenError) Error() string { return e.Why }

// A ServedError says that a site which must have no lease has one, so nothing was written.
type ServedError struct{ Sites []string }

func (e *ServedError) Error() string {
	return fmt.Sprintf("of the sites %v a process has a lease", e.Sites)
}

// A MissingError says that the script lacks an entry.
type MissingError struct{ Number int64 }

func (e *MissingError) Error() string {
	return fmt.Sprintf("the script lacks the entry %d", e.Number)
}

// ExitStatus is that of a process which meets it.
func (*MissingError) ExitStatus() exit.Status { return exit.Gap }

// errCompacted says that the past from which something was asked is gone.
var errCompacted = errors.New("the past is compacted")

// IsAway is whether an error says that a member is away.
func IsAway(err error) bool {
	var away *AwayError
	return errors.As(err, &away)
}

// IsFull is whether an error says that the engine is full.
func IsFull(err error) bool {
	var away *AwayError
	return errors.As(err, &away) && away.Full
}

// errorOf is what an error of the client says.
func errorOf(member string, err error) error {
	switch cause := rpctypes.Error(err); cause {
	case rpctypes.ErrNoSpace:
		return &AwayError{Member: member, Cause: cause, Full: true}
	case rpctypes.ErrCompacted, rpctypes.ErrFutureRev:
		return errCompacted
	case rpctypes.ErrRequestTooLarge, rpctypes.ErrTooManyOps, rpctypes.ErrAuthFailed, rpctypes.ErrPermissionDenied,
		rpctypes.ErrUserEmpty, rpctypes.ErrAuthNotEnabled, rpctypes.ErrUserNotFound:
		return &WrongError{fmt.Sprintf("the engine's member %s: %s", member, cause)}
	}
	return &AwayError{Member: member, Cause: err}
}
