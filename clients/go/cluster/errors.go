package cluster

import (
	"errors"
	"fmt"
)

// Refused is a refusal of the store, with its number and name in docs/FORMATS.md. Nothing changed. errors.As finds it in each error that
// stands for one, but for ErrBehind and ErrNotYet; and errors.Is finds one that is equal.
type Refused struct {
	Number int
	Name   string
}

func (r Refused) Error() string { return fmt.Sprintf("ordup: refused %d %s", r.Number, r.Name) }

// Refusals that a program may want to tell from others.
var (
	// ErrUnknownObject, ErrUnknownGroup and ErrUnknownSite: there is none. It was declared in another Setup.
	ErrUnknownObject error = Refused{6, "UnknownObject"}
	ErrUnknownGroup  error = Refused{7, "UnknownGroup"}
	ErrUnknownSite   error = Refused{8, "UnknownSite"}
	// ErrOutOfRange: a number, or a value after the update, is out of its range; or no update has the number.
	ErrOutOfRange error = Refused{9, "OutOfRange"}
	// ErrTooMany: a size would be passed.
	ErrTooMany error = Refused{10, "TooMany"}
	// ErrEmpty: there is no object or no site, no member, or no change.
	ErrEmpty error = Refused{11, "Empty"}
	// ErrRepeated: an object comes twice.
	ErrRepeated error = Refused{12, "Repeated"}
	// ErrLogFull: the log has all the updates that it may have. A successor has a log of its own.
	ErrLogFull error = Refused{13, "LogFull"}
	// ErrOverImport: the read would bring the query over its import limit.
	ErrOverImport error = Refused{20, "OverImport"}
	// ErrStopped: the cluster was stopped.
	ErrStopped error = Refused{23, "Stopped"}
	// ErrHeadPending: an update waits for sites, so no limit may change now.
	ErrHeadPending error = Refused{24, "HeadPending"}
	// ErrLagOver: the site lags by more than the new limit now.
	ErrLagOver error = Refused{25, "LagOver"}
	// ErrNoMemory: memory was refused to the library. Nothing is lost.
	ErrNoMemory error = Refused{26, "NoMemory"}
	// ErrMixed: a site does not hold the serial result of the updates that it applied: a bug of ordup, or memory that was written over.
	ErrMixed error = Refused{27, "Mixed"}
)

// ErrClosed says that the query has ended, or the memory of the cluster was given back.
var ErrClosed = errors.New("ordup: closed")

// ErrNotYet says that an update is numbered and not acknowledged. It stands: it is not to be proposed again, and Settle waits for it. Cause
// is the error of the context, ErrStopped or ErrNoMemory. Of Finish the number is that of the last update.
type ErrNotYet struct {
	Number uint64
	Cause  error
}

func (e ErrNotYet) Error() string {
	return fmt.Sprintf("ordup: update %d is not acknowledged yet: %v", e.Number, e.Cause)
}

// Unwrap gives the cause.
func (e ErrNotYet) Unwrap() error { return e.Cause }

// ErrBehind says that a site has not applied what the session has seen: only so many updates. Cause is none, or what ended the wait: the
// error of the context, or ErrStopped.
type ErrBehind struct {
	Applied uint64
	Cause   error
}

func (e ErrBehind) Error() string {
	if e.Cause != nil {
		return fmt.Sprintf("ordup: the site has applied %d updates, fewer than the session has seen: %v", e.Applied, e.Cause)
	}
	return fmt.Sprintf("ordup: the site has applied %d updates, fewer than the session has seen", e.Applied)
}

// Unwrap gives the cause, if there is one.
func (e ErrBehind) Unwrap() error { return e.Cause }

// ErrUnmet says which condition is the first that was not met. Nothing was numbered.
type ErrUnmet struct{ Index int }

func (e ErrUnmet) Error() string { return fmt.Sprintf("ordup: condition %d is not met", e.Index) }

// The names of the refusals, by their numbers.
var names = [...]string{
	1: "Syntax", "NotStarted", "AlreadyStarted", "BadName", "NameTaken", "UnknownObject", "UnknownGroup", "UnknownSite", "OutOfRange",
	"TooMany", "Empty", "Repeated", "LogFull", "NothingToSend", "FeedFull", "NothingToApply", "NothingToSettle", "UnknownQuery",
	"QueryOpen", "OverImport", "Behind", "NotYet", "Stopped", "HeadPending", "LagOver", "NoMemory", "Mixed",
}

// fault is the error that a status says, or nil.
func (s status) fault() error {
	switch {
	case s == statusDone:
		return nil
	case s == statusClosed:
		return ErrClosed
	case s > statusRefused && int(s-statusRefused) < len(names):
		return Refused{int(s - statusRefused), names[s-statusRefused]}
	}
	return fmt.Errorf("ordup: status %d", uint32(s))
}
