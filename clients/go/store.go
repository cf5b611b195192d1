// Package ordup is a replicated store with a proved bound on its lag, in this process: a binding of libordup.
//
// A Store has a method for each command of docs/FORMATS.md, and Run for the lines of many. Goroutines may share it.
// docs/EMBEDDING.md says what is proved of the library. This package keeps to what ordup.h asks of a caller, but for the
// allocator and the processor, which are the program's. A store takes memory by malloc, and a *NoMemory says that this has none left.
//
// It links libordup.a of out/ in this repository, where ./ordup --library leaves it, or else of the folders that the C compiler knows.
// Where that is another folder, set CGO_CFLAGS to -I and CGO_LDFLAGS to -L with its name. With the tag pkgconfig it links the library
// that pkg-config finds, which may be the shared one.
package ordup

/*
#include <stdlib.h>
#include "ordup.h"
*/
import "C"

import (
	"bytes"
	"fmt"
	"runtime"
	"strings"
	"sync"
	"unsafe"

	"ordup.dev/ordup/answer"
)

// firstRoom and mostRoom are how many bytes of answers the library may write at once: at first, and where there were more answers.
const (
	firstRoom = 4096
	mostRoom  = 1 << 20
)

// mostBytes is how many bytes a line may have, without its line feed.
const mostBytes = 4096

// A Store is a store in this process. Goroutines may share it: a lock lets one call go on at a time.
type Store struct {
	lock sync.Mutex
	// The library's own, in memory of C.
	at *C.ordup_store
	// What a call writes: its answers, of which the caller gets a copy, and how many bytes were taken and written.
	room           []byte
	taken, written C.size_t
	// The line of the last command, and what was answered: the next one has their room.
	line, answers []byte
}

// Open gives a store before its first line. Close gives its memory back, and so does the collector for a store that is forgotten. The
// error is a *NoMemory, or tells that the library has another version than this package.
func Open() (*Store, error) {
	if version := C.ordup_version(); version != C.ORDUP_VERSION {
		return nil, fmt.Errorf("ordup: the library has version %d, and not %d", version, C.ORDUP_VERSION)
	}
	at := (*C.ordup_store)(C.calloc(1, C.sizeof_ordup_store))
	if at == nil {
		return nil, &NoMemory{0}
	}
	if status := C.ordup_open(at); status != C.ORDUP_DONE {
		C.free(unsafe.Pointer(at))
		return nil, fault(status, 0)
	}
	store := &Store{at: at, room: make([]byte, firstRoom)}
	runtime.SetFinalizer(store, (*Store).Close)
	return store, nil
}

// Close closes the store and gives its memory back. Each later call fails with ErrClosed. It returns nil.
func (s *Store) Close() error {
	s.lock.Lock()
	defer s.lock.Unlock()
	if s.at != nil {
		C.ordup_close(s.at)
		C.free(unsafe.Pointer(s.at))
		s.at = nil
		runtime.SetFinalizer(s, nil)
	}
	return nil
}

// Run answers the lines of a text: the same bytes as `ordup run` reads and writes. The last line needs no line feed. No line of
// another call comes between them.
//
// Where memory is refused the error is a *NoMemory, which says which lines were taken, and their answers are returned with it.
func (s *Store) Run(text []byte) ([]byte, error) {
	s.lock.Lock()
	defer s.lock.Unlock()
	return s.run(text, []byte{})
}

// run adds the answers to those that are there. The lock is held.
func (s *Store) run(text, answers []byte) ([]byte, error) {
	if s.at == nil {
		return nil, ErrClosed
	}
	var outcome error
	rest := text
	for {
		status := C.ordup_run(s.at, pointer(rest), C.size_t(len(rest)), &s.taken,
			pointer(s.room), C.size_t(len(s.room)), &s.written)
		answers, rest = append(answers, s.room[:s.written]...), rest[s.taken:]
		switch {
		case status == C.ORDUP_DONE:
			return answers, outcome
		case status == C.ORDUP_MORE:
			if len(s.room) < mostRoom {
				s.room = make([]byte, 2*len(s.room))
			}
		case status == C.ORDUP_NO_MEMORY:
			outcome = fault(status, len(text)-len(rest))
		default:
			return answers, fault(status, 0)
		}
		rest = nil // All lines that can be taken were. The rest of their answers comes.
	}
}

// Command answers one command, as it is. A refusal is the error, a *Refused.
func (s *Store) Command(line string) (Answer, error) {
	if !isCommand(line) {
		return nil, &BadLine{line}
	}
	return s.answer(line)
}

// answer answers the command of these words.
func (s *Store) answer(words ...string) (Answer, error) {
	s.lock.Lock()
	defer s.lock.Unlock()
	s.line = append(s.line[:0], words[0]...)
	for _, word := range words[1:] {
		s.line = append(append(s.line, ' '), word...)
	}
	if len(s.line) > mostBytes {
		return nil, &BadLine{string(s.line)}
	}
	answers, err := s.run(s.line, s.answers[:0])
	if err != nil {
		return nil, err
	}
	s.answers = answers
	one, rest, _ := strings.Cut(string(answers), "\n")
	given, err := answer.Parse(one, "")
	if err != nil || rest != "" {
		return nil, &answer.UnknownError{Text: string(answers), Line: string(s.line)}
	}
	if refused, isRefused := given.(*Refused); isRefused {
		refused.Line = string(s.line)
		return nil, refused
	}
	return given, nil
}

// Commands answers many commands. A refusal is one of the answers, a *Refused. Where one of the lines would have no answer, or is
// more than a line, the error is a *BadLine and no command was asked.
//
// Where memory is refused the answers to the commands that were taken are returned with the error, a *NoMemory.
func (s *Store) Commands(lines ...string) ([]Answer, error) {
	var text bytes.Buffer
	for _, line := range lines {
		if !isCommand(line) {
			return nil, &BadLine{line}
		}
		text.WriteString(line)
		text.WriteByte('\n')
	}
	outcomes, err := s.Answers(text.Bytes())
	taken := len(lines)
	if short, isShort := err.(*NoMemory); isShort {
		taken = bytes.Count(text.Bytes()[:short.Taken], []byte{'\n'})
	} else if err != nil {
		return nil, err
	}
	if len(outcomes) != taken {
		return nil, fmt.Errorf("ordup: there are %d answers to %d lines", len(outcomes), taken)
	}
	return outcomes, err
}

// Answers answers the lines of a text, as Run does. A refusal is one of the answers, a *Refused.
//
// Where memory is refused the answers to the lines that were taken are returned with the error, a *NoMemory.
func (s *Store) Answers(text []byte) ([]Answer, error) {
	given, err := s.Run(text)
	if err != nil && given == nil {
		return nil, err
	}
	answers, bad := answer.ParseAll(string(given), text)
	if bad != nil {
		return nil, bad
	}
	return answers, err
}

// Record gives the record of a site, for an auditor: as `ordup record` prints it. The store is as it was. The error is ErrNotStarted,
// ErrUnknownSite, ErrClosed or a *NoMemory.
func (s *Store) Record(site string) (string, error) {
	name := []byte(site)
	return s.given(func(room []byte, written *C.size_t) C.uint32_t {
		return C.ordup_record(s.at, pointer(name), C.size_t(len(name)), pointer(room), C.size_t(len(room)), written)
	})
}

// NextDeclarations gives the declarations of the successor, which begins with what this store ends with, once all updates are
// acknowledged: as `ordup next` prints them. The store is as it was. The error is ErrNotStarted, ErrNotYet, ErrClosed or a *NoMemory.
func (s *Store) NextDeclarations() (string, error) {
	return s.given(func(room []byte, written *C.size_t) C.uint32_t {
		return C.ordup_next(s.at, pointer(room), C.size_t(len(room)), written)
	})
}

func (s *Store) given(call func([]byte, *C.size_t) C.uint32_t) (string, error) {
	s.lock.Lock()
	defer s.lock.Unlock()
	if s.at == nil {
		return "", ErrClosed
	}
	return given(65536, call)
}

// Check checks a record, as `ordup check` does. It needs no store. The error is ErrTooLong where there are more than 8 GiB, or a
// *NoMemory.
func Check(record []byte) (Verdict, error) {
	text, err := given(64, func(room []byte, written *C.size_t) C.uint32_t {
		return C.ordup_check(pointer(record), C.size_t(len(record)), pointer(room), C.size_t(len(room)), written)
	})
	if err != nil {
		return Verdict{}, err
	}
	return answer.ParseVerdict(strings.TrimSuffix(text, "\n"))
}

// CheckSeries checks the records of a site, one after another, of a store and of those that go on from it, as `ordup check --series`
// does. It needs no store. The error is a *NoMemory.
func CheckSeries(records []byte) (SeriesVerdict, error) {
	text, err := given(64, func(room []byte, written *C.size_t) C.uint32_t {
		return C.ordup_check_series(pointer(records), C.size_t(len(records)), pointer(room), C.size_t(len(room)), written)
	})
	if err != nil {
		return SeriesVerdict{}, err
	}
	return answer.ParseSeriesVerdict(strings.TrimSuffix(text, "\n"))
}

// given is what a call writes, which says how much room it needs.
func given(size int, call func([]byte, *C.size_t) C.uint32_t) (string, error) {
	for {
		room := make([]byte, size)
		var written C.size_t
		switch status := call(room, &written); status {
		case C.ORDUP_DONE, C.ORDUP_MALFORMED:
			return string(room[:written]), nil
		case C.ORDUP_MORE:
			size = int(written)
		default:
			return "", fault(status, 0)
		}
	}
}

// nothing is what a pointer to no bytes points to, since none may be null.
var nothing [1]byte

func pointer(text []byte) *C.char {
	if len(text) == 0 {
		text = nothing[:]
	}
	return (*C.char)(unsafe.Pointer(&text[0]))
}

// isCommand is whether a text is one line that has an answer.
func isCommand(line string) bool {
	for _, byte := range []byte(line) {
		if byte < ' ' || byte > '~' {
			return false
		}
	}
	return len(line) <= mostBytes && answer.HasAnswer(line)
}

// fault is the error that a status says.
func fault(status C.uint32_t, taken int) error {
	switch status {
	case C.ORDUP_NO_MEMORY:
		return &NoMemory{taken}
	case C.ORDUP_CLOSED:
		return ErrClosed
	case C.ORDUP_NOT_STARTED:
		return ErrNotStarted
	case C.ORDUP_UNKNOWN_SITE:
		return ErrUnknownSite
	case C.ORDUP_TOO_LONG:
		return ErrTooLong
	case C.ORDUP_NOT_YET:
		return ErrNotYet
	}
	return fmt.Errorf("ordup: status %d", status)
}
