package ordup

import "ordup.dev/ordup/answer"

// An Answer is one of the types below, or a *Refused. Package answer says what each has. A place is the number of an update in the log, from
// 1.
type Answer = answer.Answer

// The answers to commands.
type (
	Declared  = answer.Declared
	Started   = answer.Started
	Proposed  = answer.Proposed
	Sent      = answer.Sent
	Applied   = answer.Applied
	Reported  = answer.Reported
	Settled   = answer.Settled
	Begun     = answer.Begun
	Read      = answer.Read
	Ended     = answer.Ended
	Abandoned = answer.Abandoned
	Shown     = answer.Shown
	Certified = answer.Certified
	Relimited = answer.Relimited
)

// Refused is the store's answer `refused NUMBER NAME` to a line. errors.As finds it.
type Refused = answer.Refused

// A State is one of a head.
type State = answer.State

// The states of a head.
const (
	Acked   = answer.Acked
	Round   = answer.Round
	Waiting = answer.Waiting
)

// What a record and a series show.
type (
	Verdict       = answer.Verdict
	SeriesVerdict = answer.SeriesVerdict
	VerdictKind   = answer.VerdictKind
)

// The kinds of verdicts.
const (
	Yes       = answer.Yes
	No        = answer.No
	Malformed = answer.Malformed
)
