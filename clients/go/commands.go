package ordup

import (
	"fmt"
	"strconv"
	"strings"
)

// A Change is a change of an object: Add("tea", -5). The changes of one update all read the values before it.
type Change struct {
	object, other, word string // The other object is "" but for Take.
}

func change(kind, object string, number int64) Change {
	return Change{object: object, word: kind + ":" + object + ":" + strconv.FormatInt(number, 10)}
}

// Add adds a number to the value of an object.
func Add(object string, number int64) Change { return change("add", object, number) }

// Set gives an object a value.
func Set(object string, value int64) Change { return change("set", object, value) }

// Mul multiplies the value of an object.
func Mul(object string, number int64) Change { return change("mul", object, number) }

// Max raises the value of an object to at least a number.
func Max(object string, number int64) Change { return change("max", object, number) }

// Min lowers the value of an object to at most a number.
func Min(object string, number int64) Change { return change("min", object, number) }

// Take gives an object the value of another one.
func Take(object, other string) Change {
	return Change{object, other, "take:" + object + ":" + other}
}

// A Scope is what a limit weighs of an update.
type Scope struct{ kind, name string }

// Object is how far the update moves the value of an object.
func Object(name string) Scope { return Scope{"object", name} }

// Group is how far it moves the values of a group's members, in sum.
func Group(name string) Scope { return Scope{"group", name} }

// All is how far it moves all values, in sum, and Count is 1.
var (
	All   = Scope{kind: "all"}
	Count = Scope{kind: "count"}
)

// words are the command's words on the scope: those that are names, and all.
func (s Scope) words() (names, words []string) {
	if s == All || s == Count {
		return nil, []string{s.kind}
	}
	return []string{s.name}, []string{s.kind, s.name}
}

func isName(text string) bool {
	if text == "" || len(text) > 16 || text[0] < 'a' || text[0] > 'z' {
		return false
	}
	for at := 1; at < len(text); at++ {
		if it := text[at]; (it < 'a' || it > 'z') && (it < '0' || it > '9') && it != '_' {
			return false
		}
	}
	return true
}

func number(it uint64) string { return strconv.FormatUint(it, 10) }

// ask answers the command of these words. A text that has not the form of a name, among those that must, is a *BadLine: it could make
// another command.
func ask[A Answer](s *Store, names []string, words ...string) (answer A, err error) {
	for _, name := range names {
		if !isName(name) {
			return answer, &BadLine{name}
		}
	}
	given, err := s.answer(words...)
	if err != nil {
		return answer, err
	}
	answer, isOne := given.(A)
	if !isOne {
		return answer, fmt.Errorf("ordup: %v is no answer to %q", given, strings.Join(words, " "))
	}
	return answer, nil
}

// Object declares an object with its initial value, from -1,000,000,000 to 1,000,000,000. There are at most 256 objects.
//
// Refused AlreadyStarted, NameTaken, OutOfRange or TooMany.
func (s *Store) Object(name string, value int64) error {
	_, err := ask[Declared](s, []string{name}, "object", name, strconv.FormatInt(value, 10))
	return err
}

// Group declares a group of 1 to 64 objects, which a limit weighs together. There are at most 32 groups.
//
// Refused AlreadyStarted, NameTaken, UnknownObject, TooMany, Empty or Repeated.
func (s *Store) Group(name string, members ...string) error {
	names := append([]string{name}, members...)
	_, err := ask[Declared](s, names, append([]string{"group"}, names...)...)
	return err
}

// Site declares a site. Its feed holds up to capacity updates that it has not applied, 1 to 1,024. There are at most 16 sites.
//
// Refused AlreadyStarted, NameTaken, OutOfRange or TooMany.
func (s *Store) Site(name string, capacity uint64) error {
	_, err := ask[Declared](s, []string{name}, "site", name, number(capacity))
	return err
}

// Limit gives a site a limit, before the start: the acknowledged updates that it has not applied never weigh more than amount on
// the scope, 0 to 10^18. A site has at most 64 limits, each on a scope of its own.
//
// Refused AlreadyStarted, UnknownObject, UnknownGroup, UnknownSite, OutOfRange, TooMany or Repeated.
func (s *Store) Limit(site string, scope Scope, amount uint64) error {
	_, err := askLimit[Declared](s, "limit", site, scope, amount)
	return err
}

// Start starts the store. The log is empty, and each site has the initial values. Declarations come before it, all else after it.
//
// Refused AlreadyStarted or Empty.
func (s *Store) Start() error {
	_, err := ask[Started](s, nil, "start")
	return err
}

// Propose proposes one update of 1 to 64 changes on distinct objects, all of which happen at once or not at all, and gives its
// place in the log, 1 to 1,000,000. Each number, and each value after the update, is from -1,000,000,000 to 1,000,000,000.
//
// Refused NotStarted, UnknownObject, OutOfRange, TooMany, Empty, Repeated or LogFull.
func (s *Store) Propose(changes ...Change) (uint64, error) {
	words, names := make([]string, 1, 8), make([]string, 0, 8)
	words[0] = "propose"
	for _, change := range changes {
		words, names = append(words, change.word), append(names, change.object)
		if strings.HasPrefix(change.word, "take:") {
			names = append(names, change.other)
		}
	}
	proposed, err := ask[Proposed](s, names, words...)
	return proposed.Place, err
}

// Send puts the first update that was not sent to a site into its feed, acknowledged or not, and gives its place.
//
// Refused NotStarted, UnknownSite, NothingToSend or FeedFull.
func (s *Store) Send(site string) (uint64, error) {
	sent, err := ask[Sent](s, []string{site}, "send", site)
	return sent.Place, err
}

// Apply has a site apply the next update of its feed, and gives its place.
//
// Refused NotStarted, UnknownSite or NothingToApply.
func (s *Store) Apply(site string) (uint64, error) {
	applied, err := ask[Applied](s, []string{site}, "apply", site)
	return applied.Place, err
}

// Report tells the primary how many updates a site has applied, and gives that number. The primary goes by it until the next
// report.
//
// Refused NotStarted or UnknownSite.
func (s *Store) Report(site string) (uint64, error) {
	reported, err := ask[Reported](s, []string{site}, "report", site)
	return reported.Applied, err
}

// Settle asks the primary to acknowledge the head, which is the first update that is not acknowledged, and says what became of it.
//
// Refused NotStarted or NothingToSettle.
func (s *Store) Settle() (Settled, error) { return ask[Settled](s, nil, "settle") }

// Begin begins a query at a site, and gives its reference: how many updates are acknowledged now. Its reads may import at most
// limit in sum, 0 to 10^18, in the unit of the values. At most 64 queries are open at a time.
//
// Refused NotStarted, UnknownSite, OutOfRange, TooMany or QueryOpen.
func (s *Store) Begin(query, site string, limit uint64) (uint64, error) {
	begun, err := ask[Begun](s, []string{query, site}, "begin", query, site, number(limit))
	return begun.Place, err
}

// Read reads an object by a query, at the query's site.
//
// Refused NotStarted, UnknownObject, UnknownQuery, TooMany or OverImport.
func (s *Store) Read(query, object string) (Read, error) {
	return ask[Read](s, []string{query, object}, "read", query, object)
}

// End ends a query, and gives the sum of what it read. Its name is free again.
//
// Refused NotStarted or UnknownQuery.
func (s *Store) End(query string) (Ended, error) {
	return ask[Ended](s, []string{query}, "end", query)
}

// Abandon ends a query without its sum. Its name is free again.
//
// Refused NotStarted or UnknownQuery.
func (s *Store) Abandon(query string) error {
	_, err := ask[Abandoned](s, []string{query}, "abandon", query)
	return err
}

// Show shows how far a site is, and its values.
//
// Refused NotStarted or UnknownSite.
func (s *Store) Show(site string) (Shown, error) {
	return ask[Shown](s, []string{site}, "show", site)
}

// Certify shows that the forced rounds of a site are the fewest. The answer has a window for each of them, so it may be long.
//
// Refused NotStarted or UnknownSite.
func (s *Store) Certify(site string) (Certified, error) {
	return ask[Certified](s, []string{site}, "certify", site)
}

// Relimit changes a limit of a site while the store runs, or gives it one, and gives the place of the head, from which on it is in
// force. The scope and the amount are those of Limit. A second change of the same scope before the head is acknowledged replaces
// the first.
//
// Refused NotStarted, UnknownObject, UnknownGroup, UnknownSite, OutOfRange, TooMany, HeadPending or LagOver.
func (s *Store) Relimit(site string, scope Scope, amount uint64) (uint64, error) {
	relimited, err := askLimit[Relimited](s, "relimit", site, scope, amount)
	return relimited.Place, err
}

func askLimit[A Answer](s *Store, command, site string, scope Scope, amount uint64) (A, error) {
	names, words := scope.words()
	words = append(append([]string{command, site}, words...), number(amount))
	return ask[A](s, append([]string{site}, names...), words...)
}
