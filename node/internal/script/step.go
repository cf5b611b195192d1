package script

import (
	"fmt"
	"strconv"
)

// A Kind says what a step is.
type Kind uint8

// The kinds of steps. The fields of a Step that a kind has stand behind it, in the order of its line.
const (
	// Begin begins the epoch of its entry: Settings. The steps Declare come after it.
	Begin Kind = iota + 1
	// Declare is a line of the declarations: Words.
	Declare
	// Known carries the last answer of a client from the epochs before: Client, Number, Digest, Epoch, Age, where that is not 0, and Answer.
	Known
	// Tell says that a site has applied more updates than it had told: Site, Count.
	Tell
	// Ask is the request of a client: Client, Number, Words (its changes). Its Digest, where it is known, has no place in the line.
	Ask
	// Settle asks for acknowledgements: Count.
	Settle
	// Wish says what an operator wants of the next epoch: Settings. Where it has Want steps behind it, these are its declarations.
	Wish
	// Want is a line of the declarations that are wanted: Words.
	Want
	// Leave says that a site is taken out, and serves no reader from here on: Site.
	Leave
	// Gone says that no process has a lease of a site that is taken out, which counts as at the end: Site, Count.
	Gone
	// Relimit changes a limit of a site, or gives it one, if the store takes that: Site, Limit, Answer, whose Place is the update from which on it
	// is in force.
	Relimit
	// Elapsed says that more seconds have passed, by the clock of the writer: Seconds.
	Elapsed
	// Answered is what was decided for a client in this entry: Client, Number, Digest, Answer.
	Answered
)

// kindNames are the first words of the lines.
var kindNames = [...]string{
	Begin: "begin", Declare: "declare", Known: "known", Tell: "tell", Ask: "ask", Settle: "settle",
	Wish: "wish", Want: "want", Leave: "leave", Gone: "gone", Relimit: "relimit", Elapsed: "elapsed", Answered: "answer",
}

// String is the first word of the line of a step of this kind.
func (k Kind) String() string {
	if int(k) < len(kindNames) {
		return kindNames[k]
	}
	return "kind " + strconv.Itoa(int(k))
}

// Settings are what all primaries agree on, since the script has them. They are those of an epoch.
type Settings struct {
	// Every is how many requests an epoch takes.
	Every int64
	// Remembers is for how many whole epochs a client is remembered after its last request, and Seconds for how long at least.
	Remembers, Seconds int64
	// Origin is the digest of the declarations that an operator gave last.
	Origin string
	// Ordup is the version of ordup that runs the epoch.
	Ordup string
	// Began stays the same in all epochs.
	Began Began
}

// Began has the settings of a primary that began the script, which those of all others are compared with.
type Began struct {
	Every, Remembers, Seconds int64
	// Origin is the digest of the declarations.
	Origin string
}

// A Step is one line of an entry. Which fields it has is said at its kind.
type Step struct {
	Kind Kind
	// Of a request: the client, its number, and the digest of its changes.
	Client string
	Number int64
	Digest string
	Site   string
	// Count is how many times the lines of ordup come for which the step stands.
	Count int64
	// Words are those of ordup: a declaration, or the changes of a request.
	Words  string
	Limit  Limit
	Answer Answer
	// Of a request that is carried over: the epoch that took it, and how many seconds it is older than what carries it over.
	Epoch, Age int64
	Seconds    int64
	Settings   *Settings
}

// Append appends the line of the step, and its line feed.
func (s *Step) Append(to []byte) []byte {
	to = append(to, s.Kind.String()...)
	word := func(text string) { to = append(append(to, ' '), text...) }
	number := func(value int64) { to = strconv.AppendInt(append(to, ' '), value, 10) }
	switch s.Kind {
	case Begin, Wish:
		to = s.Settings.append(to)
	case Declare, Want:
		word(s.Words)
	case Known:
		word(s.Client)
		number(s.Number)
		word(s.Digest)
		number(s.Epoch)
		if s.Age != 0 {
			number(s.Age)
		}
		to = s.Answer.append(append(to, ' '))
	case Tell, Gone:
		word(s.Site)
		number(s.Count)
	case Ask:
		word(s.Client)
		number(s.Number)
		word(s.Words)
	case Settle:
		number(s.Count)
	case Elapsed:
		number(s.Seconds)
	case Leave:
		word(s.Site)
	case Relimit:
		word(s.Site)
		word(s.Limit.String())
		to = s.Answer.appendLimit(append(to, ' '))
	case Answered:
		word(s.Client)
		number(s.Number)
		word(s.Digest)
		to = s.Answer.append(append(to, ' '))
	}
	return append(to, '\n')
}

// append appends the settings as words. Those in seconds are there where one is not 0.
func (s *Settings) append(to []byte) []byte {
	began := &s.Began
	to = append(to, fmt.Sprintf(" %d %d %s %s %d %d %s", s.Every, s.Remembers, s.Origin, s.Ordup,
		began.Every, began.Remembers, began.Origin)...)
	if s.Seconds != 0 || began.Seconds != 0 {
		to = append(to, fmt.Sprintf(" %d %d", s.Seconds, began.Seconds)...)
	}
	return to
}

// AppendLines appends the lines that a store is given for the step. `ordup run` reads the same ones in an archive.
func (s *Step) AppendLines(to []byte) []byte {
	switch s.Kind {
	case Declare:
		to = append(append(to, s.Words...), '\n')
	case Ask:
		to = append(append(append(to, "propose "...), s.Words...), '\n')
	case Settle:
		for count := int64(0); count < s.Count; count++ {
			to = append(to, "settle\n"...)
		}
	case Tell, Gone:
		for count := int64(0); count < s.Count; count++ {
			to = append(append(append(to, "send "...), s.Site...), '\n')
			to = append(append(append(to, "apply "...), s.Site...), '\n')
		}
		to = append(append(append(to, "report "...), s.Site...), '\n')
	case Relimit:
		to = append(append(append(append(append(to, "relimit "...), s.Site...), ' '), s.Limit.String()...), '\n')
	}
	return to
}
