// Package logs writes one line an event: the time, the level, what happened, and its numbers.
//
//	2026-11-30T09:21:42.123Z info took-over epoch=3 entry=217
package logs

import (
	"fmt"
	"io"
	"strconv"
	"strings"
	"sync"
	"time"
)

// OncePer is how often an event of the same words is told at most, by Seldom.
const OncePer = 10 * time.Second

// A Log writes events. Goroutines may share it. A nil Log writes nothing.
type Log struct {
	lock sync.Mutex
	to   io.Writer
	now  func() time.Time
	said map[string]time.Time
}

// New gives a log that writes to a file.
func New(to io.Writer) *Log { return &Log{to: to, now: time.Now, said: map[string]time.Time{}} }

// Info tells what happens in good order. The words are names, each with a value behind it.
func (l *Log) Info(what string, words ...any) { l.write("info", what, words, false) }

// Warn tells what an operator should look at. It tells the same thing seldom.
func (l *Log) Warn(what string, words ...any) { l.write("warn", what, words, true) }

// Error tells why a process ends.
func (l *Log) Error(what string, words ...any) { l.write("error", what, words, false) }

func (l *Log) write(level, what string, words []any, seldom bool) {
	if l == nil {
		return
	}
	var text strings.Builder
	text.WriteString(level + " " + what)
	for at := 0; at+1 < len(words); at += 2 {
		fmt.Fprintf(&text, " %v=%s", words[at], quoted(fmt.Sprint(words[at+1])))
	}
	l.lock.Lock()
	defer l.lock.Unlock()
	now := l.now()
	if seldom && !l.isDue(text.String(), now) {
		return
	}
	fmt.Fprintf(l.to, "%s %s\n", now.UTC().Format("2006-01-02T15:04:05.000Z"), text.String())
}

// isDue is whether a text was not told a short time ago. Old texts are forgotten.
func (l *Log) isDue(text string, now time.Time) bool {
	if last, wasSaid := l.said[text]; wasSaid && now.Sub(last) < OncePer {
		return false
	}
	for old, last := range l.said {
		if now.Sub(last) >= OncePer {
			delete(l.said, old)
		}
	}
	l.said[text] = now
	return true
}

// quoted is a value as one word of printable signs.
func quoted(value string) string {
	for _, sign := range value {
		if sign <= ' ' || sign > '~' || sign == '"' || sign == '=' {
			return strconv.Quote(value)
		}
	}
	if value == "" {
		return `""`
	}
	return value
}
