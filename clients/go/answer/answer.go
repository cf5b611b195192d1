// Package answer has what a store of ordup answers, as types, and reads them. It links no library.
package answer

import (
	"bytes"
	"fmt"
	"strconv"
	"strings"
)

// An Answer is one of the types below, or a *Refused. A place is the number of an update in the log, from 1.
type Answer interface{ isAnswer() }

func (Declared) isAnswer()  {}
func (Started) isAnswer()   {}
func (Proposed) isAnswer()  {}
func (Sent) isAnswer()      {}
func (Applied) isAnswer()   {}
func (Reported) isAnswer()  {}
func (Settled) isAnswer()   {}
func (Begun) isAnswer()     {}
func (Read) isAnswer()      {}
func (Ended) isAnswer()     {}
func (Abandoned) isAnswer() {}
func (Shown) isAnswer()     {}
func (Certified) isAnswer() {}
func (Relimited) isAnswer() {}
func (*Refused) isAnswer()  {}

// Declared answers a declaration: of an "object", a "group", a "site" or a "limit". The name of a limit is that of its site.
type Declared struct{ Kind, Name string }

// Started answers start: the store is started.
type Started struct{}

// Proposed answers propose: the update has this place.
type Proposed struct{ Place uint64 }

// Sent answers send: the update at this place is in the feed of the site.
type Sent struct {
	Site  string
	Place uint64
}

// Applied answers apply: the site applied the update at this place.
type Applied struct {
	Site  string
	Place uint64
}

// Reported answers report: the primary goes by so many updates that the site has applied.
type Reported struct {
	Site    string
	Applied uint64
}

// Settled says what became of the head, which is the first update that is not acknowledged.
type Settled struct {
	State State
	Place uint64
	Sites []string
}

// A State is one of a head: Acked, or it waits for the reports of the sites of a forced round. Then it is Round at first, and Waiting
// later.
type State string

// The states of a head.
const (
	Acked   State = "acked"
	Round   State = "round"
	Waiting State = "waiting"
)

// Begun answers begin. The place is the query's reference: so many updates were acknowledged then.
type Begun struct {
	Query string
	Place uint64
}

// Read answers read. The value at the query's site is no further than Imported from the one at the query's reference. Total is what all
// its reads imported, in the unit of the values.
type Read struct {
	Query, Object   string
	Value           int64
	Imported, Total uint64
}

// Ended answers end. Sum is that of the values of all Reads, no further than Total from the sum at Place, the query's reference. Refused
// reads do not count.
type Ended struct {
	Query        string
	Place        uint64
	Sum          int64
	Total, Reads uint64
}

// Abandoned answers abandon: the query ended without its sum.
type Abandoned struct{ Query string }

// Shown answers show: how many updates were Sent to a site, Applied by it and last Reported, how many forced Rounds it had, with one that
// is waited for, and its values.
type Shown struct {
	Site                            string
	Sent, Applied, Reported, Rounds uint64
	Values                          map[string]int64
}

// Certified answers certify: how many forced rounds a site had. No schedule that keeps its limits has fewer. There is a window for each. A
// window {a, b} is of the updates a + 1 to b, which pass a limit alone, and no two windows share an update.
type Certified struct {
	Site    string
	Rounds  uint64
	Windows [][2]uint64
}

// Relimited answers relimit. The limit is in force from the place on.
type Relimited struct {
	Site  string
	Place uint64
}

// Refused is the store's answer `refused NUMBER NAME` to a line. After it all is as before. docs/FORMATS.md has the numbers, 1 to 26, and
// their names. errors.As finds it.
type Refused struct {
	Number int
	Name   string
	Line   string
}

func (r *Refused) Error() string {
	return fmt.Sprintf("%s: refused %d %s", r.Line, r.Number, r.Name)
}

// A Verdict is what a record shows.
type Verdict struct {
	Kind VerdictKind
	// Of Yes: no schedule that keeps the site's limits has fewer rounds.
	Rounds uint64
	// Of No and Malformed: the row that is wrong, from 1.
	Row uint64
	// Of No: the reason against the record, one of docs/FORMATS.md.
	Reason string
}

// A SeriesVerdict is what the records of a site show, one after another. Records and rows are counted from 1.
type SeriesVerdict struct {
	Kind VerdictKind
	// Of Yes: no schedule of all their updates that keeps the site's limits has fewer rounds.
	Rounds uint64
	// Of No and Malformed: the record that is wrong, and its row.
	Record, Row uint64
	// Of No: the reason against the record.
	Reason string
}

// A VerdictKind says that the rounds of a record or a series are the fewest (Yes), that there is a reason against it (No), or that it
// is none (Malformed).
type VerdictKind string

// The kinds of verdicts.
const (
	Yes       VerdictKind = "yes"
	No        VerdictKind = "no"
	Malformed VerdictKind = "malformed"
)

// words reads the words of an answer, and keeps whether it is over, and whether a word was not what it should be.
type words struct {
	rest      string
	over, bad bool
}

// next is the next word, up to one space or the end.
func (w *words) next() string {
	w.bad = w.bad || w.over
	word, end := w.rest, strings.IndexByte(w.rest, ' ')
	if end < 0 {
		w.rest, w.over = "", true
		return word
	}
	w.rest = word[end+1:]
	return word[:end]
}

func (w *words) number() uint64 { return w.numberOf(w.next()) }

func (w *words) numberOf(text string) uint64 {
	number, err := strconv.ParseUint(text, 10, 64)
	w.bad = w.bad || err != nil
	return number
}

func (w *words) value() int64 { return w.valueOf(w.next()) }

func (w *words) valueOf(text string) int64 {
	value, err := strconv.ParseInt(text, 10, 64)
	w.bad = w.bad || err != nil
	return value
}

// numberAfter reads a word that must be this one, and the number after it.
func (w *words) numberAfter(word string) uint64 {
	w.skip(word)
	return w.number()
}

func (w *words) skip(word string) { w.bad = w.next() != word || w.bad }

// all are the words that are left.
func (w *words) all() []string {
	all := []string{}
	for !w.over {
		all = append(all, w.next())
	}
	return all
}

func (w *words) pair(sign string) (string, string) {
	first, second, isPair := strings.Cut(w.next(), sign)
	w.bad = w.bad || !isPair
	return first, second
}

// An UnknownError says that a store answered what is no answer: it is of another version than this package.
type UnknownError struct{ Text, Line string }

func (e *UnknownError) Error() string {
	return fmt.Sprintf("ordup: %.80q is no answer to %.80q", e.Text, e.Line)
}

// Parse is what an answer says, which came for a line. Where it says nothing that is one, the error is an *UnknownError.
func Parse(text, line string) (Answer, error) {
	w := &words{rest: text}
	answer := parseWords(w, line)
	if w.bad || !w.over {
		return nil, &UnknownError{text, line}
	}
	return answer, nil
}

// ParseAll is what the answers to the lines of a text say. A line that is a comment, or blank, has none. There may be fewer answers than
// lines, where the store took no more.
func ParseAll(text string, lines []byte) ([]Answer, error) {
	answers := make([]Answer, 0, strings.Count(text, "\n"))
	asked := asked{rest: lines}
	for text != "" {
		one := text
		text = ""
		if end := strings.IndexByte(one, '\n'); end >= 0 {
			one, text = one[:end], one[end+1:]
		}
		answer, err := Parse(one, "")
		if err != nil {
			return answers, &UnknownError{one, asked.line(len(answers))}
		}
		if refused, isRefused := answer.(*Refused); isRefused {
			refused.Line = asked.line(len(answers))
		}
		answers = append(answers, answer)
	}
	return answers, nil
}

// asked gives lines of a text, each of which comes after those that it gave before.
type asked struct {
	rest []byte
	// Given is how many of those that have an answer are no more in the rest.
	given int
}

// line is the one with as many before it that have an answer.
func (a *asked) line(before int) string {
	for len(a.rest) > 0 {
		var line []byte
		line, a.rest, _ = bytes.Cut(a.rest, []byte{'\n'})
		if !HasAnswer(string(line)) {
			continue
		}
		a.given++
		if a.given > before {
			return string(line)
		}
	}
	return ""
}

// HasAnswer is whether a line has an answer: it is no comment, and not blank.
func HasAnswer(line string) bool {
	return !strings.HasPrefix(line, "#") && strings.Trim(line, " ") != ""
}

func parseWords(w *words, line string) Answer {
	if first := w.next(); first == "refused" {
		return &Refused{Number: int(w.number()), Name: w.next(), Line: line}
	} else if first != "ok" {
		w.bad = true
		return nil
	}
	switch kind := w.next(); kind {
	case "object", "group", "site", "limit":
		return Declared{kind, w.next()}
	case "start":
		return Started{}
	case "proposed":
		return Proposed{w.number()}
	case "sent":
		return Sent{w.next(), w.number()}
	case "applied":
		return Applied{w.next(), w.number()}
	case "reported":
		return Reported{w.next(), w.number()}
	case "acked", "round", "waiting":
		return Settled{State(kind), w.number(), w.all()}
	case "begun":
		return Begun{w.next(), w.number()}
	case "read":
		read := Read{Query: w.next(), Object: w.next()}
		w.skip("value")
		read.Value, read.Imported, read.Total = w.value(), w.numberAfter("import"), w.numberAfter("total")
		return read
	case "end":
		ended := Ended{Query: w.next(), Place: w.numberAfter("place")}
		w.skip("sum")
		ended.Sum, ended.Total, ended.Reads = w.value(), w.numberAfter("total"), w.numberAfter("reads")
		return ended
	case "abandoned":
		return Abandoned{w.next()}
	case "show":
		return parseShown(w)
	case "certified":
		certified := Certified{Site: w.next(), Rounds: w.number()}
		for !w.over {
			a, b := w.pair("-")
			certified.Windows = append(certified.Windows, [2]uint64{w.numberOf(a), w.numberOf(b)})
		}
		return certified
	case "relimit":
		return Relimited{w.next(), w.number()}
	}
	w.bad = true
	return nil
}

func parseShown(w *words) Shown {
	shown := Shown{Site: w.next(), Sent: w.numberAfter("sent"), Applied: w.numberAfter("applied")}
	shown.Reported, shown.Rounds = w.numberAfter("reported"), w.numberAfter("rounds")
	shown.Values = make(map[string]int64, strings.Count(w.rest, "="))
	for !w.over {
		name, value := w.pair("=")
		shown.Values[name] = w.valueOf(value)
	}
	return shown
}

// ParseVerdict reads a verdict on a record.
func ParseVerdict(text string) (Verdict, error) {
	w := &words{rest: text}
	verdict := Verdict{Kind: VerdictKind(w.next())}
	switch verdict.Kind {
	case Yes:
		verdict.Rounds = w.number()
	case No:
		verdict.Row, verdict.Reason = w.number(), w.next()
	case Malformed:
		verdict.Row = w.number()
	default:
		w.bad = true
	}
	if w.bad || !w.over {
		return Verdict{}, fmt.Errorf("ordup: %q is no verdict", text)
	}
	return verdict, nil
}

// ParseSeriesVerdict reads a verdict on a series.
func ParseSeriesVerdict(text string) (SeriesVerdict, error) {
	w := &words{rest: text}
	verdict := SeriesVerdict{Kind: VerdictKind(w.next())}
	switch verdict.Kind {
	case Yes:
		verdict.Rounds = w.number()
	case No:
		verdict.Record, verdict.Row, verdict.Reason = w.number(), w.number(), w.next()
	case Malformed:
		verdict.Record, verdict.Row = w.number(), w.number()
	default:
		w.bad = true
	}
	if w.bad || !w.over {
		return SeriesVerdict{}, fmt.Errorf("ordup: %q is no verdict on a series", text)
	}
	return verdict, nil
}
