package script

import (
	"bytes"
	"fmt"
	"math"
	"strconv"
	"strings"
)

// mostWordBytes is how many bytes a version or a digest may have.
const mostWordBytes = 64

// Parse reads the text of an entry. Any bytes that are none have an error.
func Parse(text []byte) (*Entry, error) {
	steps := make([]Step, 0, bytes.Count(text, []byte{'\n'}))
	entry, err := read(text, func(step *Step) { steps = append(steps, *step) })
	if err != nil {
		return nil, err
	}
	entry.Steps = steps
	return entry, nil
}

// Check has the error that Parse has, and keeps nothing.
func Check(text []byte) error {
	_, err := read(text, func(*Step) {})
	return err
}

// read reads an entry, and takes its steps one by one.
func read(text []byte, take func(*Step)) (*Entry, error) {
	if len(text) > 2*MostEntryBytes {
		return nil, fmt.Errorf("an entry has %d bytes", len(text))
	}
	header, rest, ended := strings.Cut(string(text), "\n")
	entry, err := parseHeader(header)
	if err != nil {
		return nil, err
	}
	if !ended || rest != "" && !strings.HasSuffix(rest, "\n") {
		return nil, fmt.Errorf("an entry does not end with a line feed")
	}
	var step Step
	for room := Room(MostCounted); rest != ""; {
		var line string
		line, rest, _ = strings.Cut(rest, "\n")
		last := step.Kind
		if !step.parse(line) || !fits(last, step.Kind) || !room.Take(&step) {
			return nil, fmt.Errorf("%.60q is no line of an entry there", line)
		}
		take(&step)
	}
	return entry, nil
}

func parseHeader(line string) (*Entry, error) {
	w := words{rest: line}
	if w.next() != "ordup-node" {
		return nil, fmt.Errorf("%.60q does not begin an entry", line)
	}
	if format := w.next(); format != strconv.Itoa(Format) {
		return nil, &FormatError{fmt.Sprintf("%.20q", format)}
	}
	entry := &Entry{}
	w.skip("epoch")
	entry.Epoch = w.number(1, MostNumber)
	w.skip("ordup")
	entry.Ordup = w.word(mostWordBytes)
	w.skip("writer")
	entry.Writer = w.word(MostWriterBytes)
	if w.bad || !w.over {
		return nil, fmt.Errorf("%.60q does not begin an entry", line)
	}
	return entry, nil
}

// fits is whether a step may follow the last one, which is 0 before the first: a beginning is the first one with what it declares, and
// behind an answer come answers alone.
func fits(last, kind Kind) bool {
	switch kind {
	case Begin:
		return last == 0
	case Declare:
		return last == Begin || last == Declare
	case Want:
		return last == Wish || last == Want
	case Answered:
		return true
	default:
		return last != Answered
	}
}

// parse reads the line of a step. It is false where there is none.
func (s *Step) parse(line string) bool {
	w := words{rest: line}
	*s = Step{Kind: kindOf(w.next())}
	switch s.Kind {
	case Begin, Wish:
		s.Settings = w.settings()
	case Declare, Want:
		s.Words = w.text()
	case Known:
		s.Client, s.Number, s.Digest = w.client(), w.number(1, MostNumber), w.word(mostWordBytes)
		s.Epoch, s.Age, s.Answer = w.number(1, MostNumber), w.age(), w.answer()
	case Tell:
		s.Site, s.Count = w.site(), w.number(1, MostCounted)
	case Gone:
		s.Site, s.Count = w.site(), w.number(0, MostCounted)
	case Ask:
		s.Client, s.Number, s.Words = w.client(), w.number(1, MostNumber), w.text()
	case Settle:
		s.Count = w.number(1, MostCounted)
	case Elapsed:
		s.Seconds = w.number(1, MostCounted)
	case Leave:
		s.Site = w.site()
	case Relimit:
		s.Site, s.Limit, s.Answer = w.site(), w.limit(), w.limited()
	case Answered:
		s.Client, s.Number = w.client(), w.number(1, MostNumber)
		s.Digest, s.Answer = w.word(mostWordBytes), w.answer()
	default:
		return false
	}
	return !w.bad && w.over
}

func kindOf(name string) Kind {
	for kind := Begin; kind <= Answered; kind++ {
		if kindNames[kind] == name {
			return kind
		}
	}
	return 0
}

// words reads the words of a line, and keeps whether it is over, and whether a word was not what it should be.
type words struct {
	rest      string
	over, bad bool
}

// next is the next word, up to one space or the end.
func (w *words) next() string {
	w.keep(!w.over)
	word, end := w.rest, strings.IndexByte(w.rest, ' ')
	if end < 0 {
		w.rest, w.over = "", true
		return word
	}
	w.rest = word[end+1:]
	return word[:end]
}

func (w *words) keep(is bool) { w.bad = w.bad || !is }

func (w *words) skip(word string) { w.keep(w.next() == word) }

func (w *words) word(most int) string {
	word := w.next()
	w.keep(IsWord(word, most))
	return word
}

func (w *words) client() string {
	name := w.next()
	w.keep(IsClient(name))
	return name
}

func (w *words) site() string {
	name := w.next()
	w.keep(IsName(name))
	return name
}

func (w *words) number(least, most int64) int64 {
	word := w.next()
	number, err := strconv.ParseInt(word, 10, 64)
	w.keep(err == nil && least <= number && number <= most && strconv.FormatInt(number, 10) == word)
	return number
}

// settings are those of an epoch. Scripts that began before clients were remembered for seconds do not have these.
func (w *words) settings() *Settings {
	settings := &Settings{Every: w.number(1, MostCounted), Remembers: w.number(1, MostCounted),
		Origin: w.word(mostWordBytes), Ordup: w.word(mostWordBytes)}
	began := &settings.Began
	began.Every, began.Remembers, began.Origin = w.number(1, MostCounted), w.number(1, MostCounted), w.word(mostWordBytes)
	if !w.over {
		settings.Seconds, began.Seconds = w.number(0, MostCounted), w.number(0, MostCounted)
		w.keep(settings.Seconds+began.Seconds > 0)
	}
	return settings
}

// age is the next word if it is a number, and else 0: an answer does not begin with one.
func (w *words) age() int64 {
	before := *w
	age := w.number(1, MostNumber)
	if w.bad || w.over {
		*w = before
		return 0
	}
	return age
}

// limit is one up to its amount.
func (w *words) limit() Limit {
	text := w.next()
	if text == "object" || text == "group" {
		text += " " + w.next()
	}
	w.keep(isScope(strings.Split(text, " ")))
	return Limit{text, w.number(0, math.MaxInt64)}
}

// text is the rest of the line.
func (w *words) text() string {
	text := w.rest
	w.keep(!w.over && IsChanges(text))
	w.rest, w.over = "", true
	return text
}
