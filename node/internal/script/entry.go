// Package script has the entries of a script: what a batch of the primary ran, and what was answered in it.
//
// An entry is a text of lines. Its first line has the version of the format, the epoch, the version of ordup that runs the epoch, and
// the process that wrote it. Each other line is a Step:
//
//	ordup-node 1 epoch 1 ordup 0.2.0 writer p1-17
//	tell south 2
//	ask ann 7 add:tea:-5
//	settle 1
//	answer ann 7 3c1b0c9e02f5d2aa ok acked 7 epoch 1
//
// It names no lines that follow from others: `tell south 2` stands for five lines of ordup. Step.AppendLines has these, and an archive
// has both. So an archive is a script for `ordup run`, with the entries as its comments.
package script

import (
	"crypto/sha256"
	"encoding/hex"
	"fmt"
	"strconv"
	"strings"

	"ordup.dev/node/internal/exit"
)

// Format is the version of the format of entries that this package writes, and the only one that it reads.
const Format = 1

const (
	// MostEntryBytes is how many bytes an entry may have. It is two thirds of what etcd takes as a request by default.
	MostEntryBytes = 1 << 20
	// MostChangesBytes is how many bytes the changes of a request may have. The line of ordup that they become has at most 4,096.
	MostChangesBytes = 4000
	// MostClientBytes is how many bytes the name of a client may have.
	MostClientBytes = 64
	// MostWriterBytes is how many bytes the name of a writer may have.
	MostWriterBytes = 256
	// MostCounted is what the steps of an entry count in sum at most: as many updates as a store may have.
	MostCounted = 1_000_000
	// MostNumber is the greatest number of a request.
	MostNumber = 999_999_999_999_999_999
)

// An Entry is one entry of a script.
type Entry struct {
	Epoch  int64
	Ordup  string
	Writer string
	Steps  []Step
}

// A FormatError says that an entry is of another version of the format: a later program wrote it.
type FormatError struct{ Format string }

func (e *FormatError) Error() string {
	return fmt.Sprintf("an entry has the format %s, and this program reads %d", e.Format, Format)
}

// ExitStatus is that of a process which meets it.
func (*FormatError) ExitStatus() exit.Status { return exit.Words }

// Text is the text of the entry, as the engine keeps it.
func (e *Entry) Text() []byte {
	text := make([]byte, 0, 128+64*len(e.Steps))
	text = append(text, "ordup-node "...)
	text = strconv.AppendInt(text, Format, 10)
	text = append(text, " epoch "...)
	text = strconv.AppendInt(text, e.Epoch, 10)
	text = append(append(text, " ordup "...), e.Ordup...)
	text = append(append(text, " writer "...), e.Writer...)
	text = append(text, '\n')
	for at := range e.Steps {
		text = e.Steps[at].Append(text)
	}
	return text
}

// AppendArchive appends the entry as an archive has it: its number and its lines as comments, each with the lines of ordup behind it.
func (e *Entry) AppendArchive(to []byte, number int64) []byte {
	to = append(strconv.AppendInt(append(to, "# entry "...), number, 10), '\n')
	header := Entry{Epoch: e.Epoch, Ordup: e.Ordup, Writer: e.Writer}
	to = append(append(to, "# "...), header.Text()...)
	for at := range e.Steps {
		to = e.Steps[at].Append(append(to, "# "...))
		to = e.Steps[at].AppendLines(to)
	}
	return to
}

// Answers are the steps of the entry that are answers.
func (e *Entry) Answers() []Step {
	for at := range e.Steps {
		if e.Steps[at].Kind == Answered {
			return e.Steps[at:]
		}
	}
	return nil
}

// A Room is how much the steps that still come in an entry may count. Who reads an entry keeps to it, and who writes one.
type Room int64

// Take takes the room of a step. It is false where there is not so much.
func (r *Room) Take(step *Step) bool {
	switch step.Kind {
	case Tell, Gone, Settle:
		*r -= Room(step.Count)
	}
	return *r >= 0
}

// Begins is whether the entry begins its epoch.
func (e *Entry) Begins() bool { return len(e.Steps) > 0 && e.Steps[0].Kind == Begin }

// DigestOf stands beside an answer for the changes, or the declarations, that it is of.
func DigestOf(text string) string {
	sum := sha256.Sum256([]byte(text))
	return hex.EncodeToString(sum[:8])
}

// IsClient is whether a client may have this name: 1 to 64 of a to z, 0 to 9, `_` and `-`.
func IsClient(name string) bool {
	return 1 <= len(name) && len(name) <= MostClientBytes && all(name, func(sign byte) bool {
		return isSmall(sign) || isDigit(sign) || sign == '_' || sign == '-'
	})
}

// IsName is whether a site may have this name: 1 to 16 of a to z, 0 to 9 and `_`, of which the first is a letter.
func IsName(name string) bool {
	return 1 <= len(name) && len(name) <= 16 && isSmall(name[0]) && all(name, func(sign byte) bool {
		return isSmall(sign) || isDigit(sign) || sign == '_'
	})
}

// IsChanges is whether a request may have this text: at most 4,000 bytes from space to `~`.
func IsChanges(text string) bool { return len(text) <= MostChangesBytes && IsPrintable(text) }

// IsNumber is whether a request may have this number.
func IsNumber(number int64) bool { return 1 <= number && number <= MostNumber }

// IsWord is whether a text is one word of at most so many bytes: a version, a digest, the name of a writer.
func IsWord(text string, most int) bool {
	return 1 <= len(text) && len(text) <= most && IsPrintable(text) && !strings.Contains(text, " ")
}

func isSmall(sign byte) bool { return 'a' <= sign && sign <= 'z' }
func isDigit(sign byte) bool { return '0' <= sign && sign <= '9' }

// IsPrintable is whether all bytes of a text are from space to `~`, as those of the lines of a script are.
func IsPrintable(text string) bool {
	return all(text, func(sign byte) bool { return ' ' <= sign && sign <= '~' })
}

func all(text string, is func(byte) bool) bool {
	for at := 0; at < len(text); at++ {
		if !is(text[at]) {
			return false
		}
	}
	return true
}
