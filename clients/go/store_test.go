package ordup

import (
	"errors"
	"fmt"
	"reflect"
	"sort"
	"strings"
	"sync"
	"testing"
)

// The answers are worked out by hand, or are those of the transcripts in README.md and docs/FORMATS.md.

func open(t *testing.T, lines ...string) *Store {
	t.Helper()
	store, err := Open()
	if err != nil {
		t.Fatal(err)
	}
	t.Cleanup(func() { store.Close() })
	for _, line := range lines {
		if _, err := store.Command(line); err != nil {
			t.Fatal(err)
		}
	}
	return store
}

// shop has 40 bags of tea, and a site that may lag by 6 of them.
func shop(t *testing.T) *Store {
	t.Helper()
	return open(t, "object tea 40", "site south 2", "limit south object tea 6", "start")
}

// is fails the test where a call gave something else, or an error.
func is(t *testing.T, wanted any, given any, err error) {
	t.Helper()
	if err != nil || !reflect.DeepEqual(given, wanted) {
		t.Errorf("%#v, %v instead of %#v", given, err, wanted)
	}
}

// isRefused fails the test where an error is not this refusal.
func isRefused(t *testing.T, number int, name string, err error) {
	t.Helper()
	var refused *Refused
	if !errors.As(err, &refused) || refused.Number != number || refused.Name != name {
		t.Errorf("%v instead of refused %d %s", err, number, name)
	}
}

// one makes the two results of a call that gives a number those of `is`.
func one(t *testing.T, wanted uint64) func(uint64, error) {
	t.Helper()
	return func(given uint64, err error) { t.Helper(); is(t, wanted, given, err) }
}

func TestTheTourOfTheReadmeByMethods(t *testing.T) {
	t.Parallel()
	store := shop(t)
	one(t, 1)(store.Propose(Add("tea", -5)))
	settled, err := store.Settle()
	is(t, Settled{State: Acked, Place: 1, Sites: []string{}}, settled, err)
	one(t, 1)(store.Begin("look", "south", 5))
	read, err := store.Read("look", "tea")
	is(t, Read{Query: "look", Object: "tea", Value: 40, Imported: 5, Total: 5}, read, err)
	ended, err := store.End("look")
	is(t, Ended{Query: "look", Place: 1, Sum: 40, Total: 5, Reads: 1}, ended, err)
	one(t, 2)(store.Propose(Add("tea", 2)))
	for _, state := range []State{Round, Waiting} {
		settled, err = store.Settle()
		is(t, Settled{State: state, Place: 2, Sites: []string{"south"}}, settled, err)
	}
	one(t, 1)(store.Send("south"))
	one(t, 2)(store.Send("south"))
	one(t, 1)(store.Apply("south"))
	one(t, 2)(store.Apply("south"))
	one(t, 2)(store.Report("south"))
	settled, err = store.Settle()
	is(t, Settled{State: Acked, Place: 2, Sites: []string{}}, settled, err)
	shown, err := store.Show("south")
	is(t, Shown{Site: "south", Sent: 2, Applied: 2, Reported: 2, Rounds: 1, Values: map[string]int64{"tea": 37}}, shown, err)
	certified, err := store.Certify("south")
	is(t, Certified{Site: "south", Rounds: 1, Windows: [][2]uint64{{0, 2}}}, certified, err)
}

func TestTheOtherCommandsByMethods(t *testing.T) {
	t.Parallel()
	store := open(t)
	for _, name := range []string{"a", "b", "c", "d", "e", "f"} {
		is(t, nil, nil, store.Object(name, 7))
	}
	is(t, nil, nil, store.Group("g", "a", "b"))
	is(t, nil, nil, store.Site("s", 2))
	is(t, nil, nil, store.Limit("s", Group("g"), 100))
	is(t, nil, nil, store.Limit("s", Object("a"), 100))
	is(t, nil, nil, store.Limit("s", All, 1000))
	is(t, nil, nil, store.Limit("s", Count, 10))
	is(t, nil, nil, store.Start())
	one(t, 1)(store.Propose(Add("a", -2), Set("b", -2), Mul("c", -2), Max("d", 8), Min("e", -2), Take("f", "a")))
	one(t, 1)(store.Send("s"))
	one(t, 1)(store.Apply("s"))
	shown, err := store.Show("s")
	is(t, map[string]int64{"a": 5, "b": -2, "c": -14, "d": 8, "e": -2, "f": 7}, shown.Values, err)
	one(t, 1)(store.Relimit("s", Count, 3))
	one(t, 0)(store.Begin("q", "s", 0))
	is(t, nil, nil, store.Abandon("q"))
	isRefused(t, 18, "UnknownQuery", store.Abandon("q"))
}

func TestARefusalChangesNothing(t *testing.T) {
	t.Parallel()
	store := shop(t)
	_, err := store.Apply("south")
	isRefused(t, 16, "NothingToApply", err)
	if err.Error() != "apply south: refused 16 NothingToApply" {
		t.Error(err)
	}
	isRefused(t, 3, "AlreadyStarted", store.Object("till", 0))
	_, err = store.Propose()
	isRefused(t, 11, "Empty", err)
	one(t, 1)(store.Propose(Add("tea", 1)))
}

func TestWhatIsNoCommandIsNotAsked(t *testing.T) {
	t.Parallel()
	store := shop(t)
	isBad := func(text string, err error) {
		t.Helper()
		if bad, isBad := err.(*BadLine); !isBad || bad.Text != text {
			t.Errorf("%q: %v", text, err)
		}
	}
	long := "settle" + strings.Repeat(" ", 4091)
	for _, text := range []string{"", " ", "# settle", "settle\nsettle", "settle\n", "s\u00e9ttle", "settle\t", long} {
		_, err := store.Command(text)
		isBad(text, err)
		_, err = store.Commands("propose add:tea:1", text)
		isBad(text, err)
	}
	_, err := store.Command(long[1:])
	isRefused(t, 1, "Syntax", err)
	for _, name := range []string{"", "South", "south\n", "south\nsettle", "a b", "seventeen_letters", "1st", "a:b"} {
		_, err := store.Send(name)
		isBad(name, err)
		_, err = store.Propose(Take("tea", name))
		isBad(name, err)
		_, err = store.Relimit("south", Object(name), 1)
		isBad(name, err)
		isBad(name, store.Group("g", "tea", name))
	}
	one(t, 1)(store.Propose(Add("tea", 1)))
}

func TestANameMayHave16Letters(t *testing.T) {
	t.Parallel()
	is(t, nil, nil, open(t).Object("sixteen_letters_", 0))
}

func TestALineThatBeginsWithASpaceIsNoComment(t *testing.T) {
	t.Parallel()
	_, err := open(t).Command(" # no comment")
	isRefused(t, 1, "Syntax", err)
}

func TestManyCommandsHaveTheirAnswersInOrder(t *testing.T) {
	t.Parallel()
	given, err := shop(t).Commands("settle", "propose add:tea:1", "bad", "settle")
	wanted := []Answer{
		&Refused{Number: 17, Name: "NothingToSettle", Line: "settle"}, Proposed{Place: 1}, &Refused{Number: 1, Name: "Syntax", Line: "bad"}, Settled{State: Acked, Place: 1, Sites: []string{}},
	}
	is(t, wanted, given, err)
	given, err = shop(t).Commands()
	is(t, []Answer{}, given, err)
}

func TestLinesHaveTheirAnswers(t *testing.T) {
	t.Parallel()
	store := open(t)
	for _, it := range [][2]string{
		{"object x 0\nsite a 2\nlimit a object x 5\nstart", "ok object x\nok site a\nok limit a\nok start\n"},
		{"propose add:x:6\nsettle\n# nothing\n\nbad\x00", "ok proposed 1\nok round 1 a\nrefused 1 Syntax\n"},
		{"", ""},
	} {
		answers, err := store.Run([]byte(it[0]))
		is(t, it[1], string(answers), err)
	}
}

func TestALongAnswerComesWhole(t *testing.T) {
	t.Parallel()
	store := open(t)
	for object := 0; object < 256; object++ {
		is(t, nil, nil, store.Object(fmt.Sprintf("object_%d", object), -1000000000))
	}
	_, err := store.Commands("site a 1", "start")
	is(t, nil, nil, err)
	answers, err := store.Run([]byte("show a\nshow a"))
	text := string(answers)
	is(t, []bool{true, true, true},
		[]bool{strings.Count(text, "\n") == 2, len(text) > 11000, strings.HasSuffix(text, "object_255=-1000000000\n")}, err)
	shown, err := store.Show("a")
	is(t, 256, len(shown.Values), err)
}

func TestARecordIsToldAndChecked(t *testing.T) {
	t.Parallel()
	store := open(t)
	if _, err := store.Record("a"); err != ErrNotStarted {
		t.Error(err)
	}
	_, err := store.Commands("object x 0", "object y 10", "site a 4", "limit a object x 5", "start")
	is(t, nil, nil, err)
	for _, name := range []string{"b", ""} {
		if _, err := store.Record(name); err != ErrUnknownSite {
			t.Error(err)
		}
	}
	_, err = store.Commands("propose add:x:5", "settle", "propose add:x:1", "settle")
	is(t, nil, nil, err)
	record, err := store.Record("a")
	is(t, "ordup,1,a,2\nobject,1,x,0\nobject,2,y,10\nlimit,1,object:x,5\nchange,1,1,add:x:5\nchange,2,1,add:x:1\nround,1,2,-\nwindow,1,0,2\n",
		record, err)
	verdict, err := Check([]byte(record))
	is(t, Verdict{Kind: Yes, Rounds: 1}, verdict, err)
	verdict, err = Check([]byte(strings.Replace(record, "x,5", "x,6", 1)))
	is(t, Verdict{Kind: No, Row: 8, Reason: "WindowLight"}, verdict, err)
	verdict, err = Check(nil)
	is(t, Verdict{Kind: Malformed, Row: 1}, verdict, err)
}

func TestASeriesIsChecked(t *testing.T) {
	t.Parallel()
	series := `ordup,2,a,2
object,1,tea,40
limit,1,object:tea,5@1
limit,2,object:tea,3@2
change,1,1,add:tea:-4
change,2,1,add:tea:-2
round,1,2,-
window,1,0,2
ordup,2,a,3
object,1,tea,34
limit,1,object:tea,4@1
limit,2,object:tea,1@3
change,1,1,add:tea:-3
change,2,1,add:tea:-2
change,3,1,add:tea:-1
report,3,2,-
round,1,2,-
window,1,0,2
`
	for _, it := range []struct {
		name, before, after string
		wanted              SeriesVerdict
	}{
		{"as it is", "", "", SeriesVerdict{Kind: Yes, Rounds: 2}},
		{"another value", "tea,34", "tea,35", SeriesVerdict{Kind: No, Record: 2, Row: 2, Reason: "NotNext"}},
		{"another site", ",a,3", ",b,3", SeriesVerdict{Kind: No, Record: 2, Row: 1, Reason: "NotNext"}},
		{"too many reported", "report,3", "report,4", SeriesVerdict{Kind: Malformed, Record: 2, Row: 8}},
		{"nothing", series, "", SeriesVerdict{Kind: Malformed, Record: 1, Row: 1}},
	} {
		t.Run(it.name, func(t *testing.T) {
			verdict, err := CheckSeries([]byte(strings.Replace(series, it.before, it.after, 1)))
			is(t, it.wanted, verdict, err)
		})
	}
}

func TestTheSuccessorIsDeclared(t *testing.T) {
	t.Parallel()
	store := open(t)
	if _, err := store.NextDeclarations(); err != ErrNotStarted {
		t.Error(err)
	}
	_, err := store.Commands("object x 0", "object y 10", "site a 4", "limit a object x 5", "start", "propose add:x:5 set:y:12")
	is(t, nil, nil, err)
	if _, err := store.NextDeclarations(); err != ErrNotYet {
		t.Error(err)
	}
	_, err = store.Commands("settle", "relimit a object x 7")
	is(t, nil, nil, err)
	lines, err := store.NextDeclarations()
	is(t, "object x 5\nobject y 12\nsite a 4\nlimit a object x 7\nstart\n", lines, err)
	answers, err := open(t).Run([]byte(lines))
	is(t, "ok object x\nok object y\nok site a\nok limit a\nok start\n", string(answers), err)
}

func TestALongRecordComesWhole(t *testing.T) {
	t.Parallel()
	store := shop(t)
	_, err := store.Run([]byte(strings.Repeat("propose add:tea:0\nsettle\n", 10000)))
	is(t, nil, nil, err)
	record, err := store.Record("south")
	is(t, true, len(record) > 65536 && strings.HasSuffix(record, "change,10000,1,add:tea:0\n"), err)
}

func TestGoroutinesShareAStore(t *testing.T) {
	t.Parallel()
	store := shop(t)
	places := make([][]uint64, 8)
	var group sync.WaitGroup
	for worker := range places {
		group.Add(1)
		go func(worker int) {
			defer group.Done()
			for i := 0; i < 1000; i++ {
				place, err := store.Propose(Add("tea", 1))
				if err != nil {
					t.Error(err)
				}
				places[worker] = append(places[worker], place)
			}
		}(worker)
	}
	group.Wait()
	var all []int
	for _, some := range places {
		for _, place := range some {
			all = append(all, int(place))
		}
	}
	sort.Ints(all)
	for index := range all {
		if all[index] != index+1 {
			t.Fatalf("place %d is %d", index+1, all[index])
		}
	}
	is(t, 8000, len(all), nil)
}

func TestAClosedStore(t *testing.T) {
	t.Parallel()
	store := shop(t)
	is(t, nil, nil, store.Close())
	is(t, nil, nil, store.Close())
	_, settled := store.Settle()
	_, recorded := store.Record("south")
	_, gone := store.NextDeclarations()
	is(t, []error{ErrClosed, ErrClosed, ErrClosed}, []error{settled, recorded, gone}, nil)
}

func TestTwoStoresAreTwo(t *testing.T) {
	t.Parallel()
	first, second := shop(t), shop(t)
	one(t, 1)(first.Propose(Add("tea", 1)))
	one(t, 1)(second.Propose(Add("tea", 1)))
}
