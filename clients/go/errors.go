package ordup

import (
	"errors"
	"fmt"
)

// Why a call was not done, beside a *Refused, a *BadLine and a *NoMemory.
var (
	ErrClosed      = errors.New("ordup: the store is closed")
	ErrNotStarted  = errors.New("ordup: the store is not started")
	ErrUnknownSite = errors.New("ordup: there is no such site")
	ErrTooLong     = errors.New("ordup: the record has more bytes than a record may have")
	ErrNotYet      = errors.New("ordup: an update is not acknowledged yet")
)

// BadLine is a text that is no command, or no name. The store was not asked.
type BadLine struct{ Text string }

func (b *BadLine) Error() string {
	return fmt.Sprintf("ordup: %q is no command, or no name", b.Text)
}

// NoMemory says that memory was refused. Nothing is lost: the lines in the first Taken bytes of the text were taken, and the rest of
// it may be given again.
type NoMemory struct{ Taken int }

func (*NoMemory) Error() string { return "ordup: memory was refused" }
