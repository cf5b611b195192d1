package script

import (
	"fmt"
	"math/rand"
	"reflect"
	"strings"
	"testing"
)

// whole has a step of each kind.
func whole() *Entry {
	settings := &Settings{Every: 100, Remembers: 2, Seconds: 60, Origin: "00ff", Ordup: "0.2.0", Began: Began{1000, 10, 0, "00aa"}}
	return &Entry{Epoch: 2, Ordup: "0.2.0", Writer: "p1-17", Steps: []Step{
		{Kind: Begin, Settings: settings},
		{Kind: Declare, Words: "object tea 5"},
		{Kind: Known, Client: "ann", Number: 3, Digest: "ab", Epoch: 1, Age: 17, Answer: Answer{Place: 7, Epoch: 1}},
		{Kind: Tell, Site: "south", Count: 2},
		{Kind: Ask, Client: "ann", Number: 4, Words: "add:tea:-1 set:till:3"},
		{Kind: Settle, Count: 2},
		{Kind: Wish, Settings: settings},
		{Kind: Want, Words: "start"},
		{Kind: Leave, Site: "south"},
		{Kind: Gone, Site: "south", Count: 0},
		{Kind: Relimit, Site: "south", Limit: Limit{"object tea", 20}, Answer: Answer{Place: 7}},
		{Kind: Relimit, Site: "south", Limit: Limit{"all", 0}, Answer: Answer{Refusal: Refusal{25, "LagOver"}}},
		{Kind: Elapsed, Seconds: 5},
		{Kind: Answered, Client: "ann", Number: 4, Digest: "cd", Answer: Answer{Refusal: Refusal{9, "OutOfRange"}}},
	}}
}

const wholeText = `ordup-node 1 epoch 2 ordup 0.2.0 writer p1-17
begin 100 2 00ff 0.2.0 1000 10 00aa 60 0
declare object tea 5
known ann 3 ab 1 17 ok acked 7 epoch 1
tell south 2
ask ann 4 add:tea:-1 set:till:3
settle 2
wish 100 2 00ff 0.2.0 1000 10 00aa 60 0
want start
leave south
gone south 0
relimit south object tea 20 ok 7
relimit south all 0 refused 25 LagOver
elapsed 5
answer ann 4 cd refused 9 OutOfRange
`

func TestAnEntryIsItsText(t *testing.T) {
	t.Parallel()
	if text := string(whole().Text()); text != wholeText {
		t.Errorf("the text is\n%s", text)
	}
	entry, err := Parse([]byte(wholeText))
	if err != nil || !reflect.DeepEqual(entry, whole()) {
		t.Errorf("%v, %v", entry, err)
	}
	if answers := entry.Answers(); len(answers) != 1 || answers[0].Answer.String() != "refused 9 OutOfRange" {
		t.Errorf("the answers are %v", answers)
	}
}

// Scripts that began before clients were remembered for seconds have neither these nor ages.
func TestAnEntryWithoutSeconds(t *testing.T) {
	t.Parallel()
	text := "ordup-node 1 epoch 2 ordup 1 writer p\nbegin 100 2 00ff 0.2.0 1000 10 00aa\nknown ann 3 ab 1 ok acked 7 epoch 1\n"
	entry, err := Parse([]byte(text))
	if err != nil {
		t.Fatal(err)
	}
	settings, known := entry.Steps[0].Settings, entry.Steps[1]
	if settings.Seconds != 0 || settings.Began != (Began{1000, 10, 0, "00aa"}) || known.Age != 0 || known.Answer != (Answer{Place: 7, Epoch: 1}) {
		t.Errorf("%v, %v", settings, known)
	}
	if string(entry.Text()) != text {
		t.Errorf("its text is\n%s", entry.Text())
	}
}

func TestAnArchiveHasTheLinesOfOrdup(t *testing.T) {
	t.Parallel()
	entry := &Entry{Epoch: 1, Ordup: "0.2.0", Writer: "p1", Steps: []Step{
		{Kind: Tell, Site: "south", Count: 2}, {Kind: Ask, Client: "ann", Number: 1, Words: "add:tea:1"}, {Kind: Settle, Count: 2},
		{Kind: Relimit, Site: "south", Limit: Limit{"group goods", 20}, Answer: Answer{Place: 7}},
	}}
	wants := strings.Join([]string{
		"# entry 17", "# ordup-node 1 epoch 1 ordup 0.2.0 writer p1",
		"# tell south 2", "send south", "apply south", "send south", "apply south", "report south",
		"# ask ann 1 add:tea:1", "propose add:tea:1", "# settle 2", "settle", "settle", "# relimit south group goods 20 ok 7", "relimit south group goods 20", ""}, "\n")
	if text := string(entry.AppendArchive(nil, 17)); text != wants {
		t.Errorf("the archive is\n%s", text)
	}
}

func TestWhatIsNoEntry(t *testing.T) {
	t.Parallel()
	header := "ordup-node 1 epoch 1 ordup 1 writer p\n"
	for _, text := range []string{
		"", "\n", "ordup-node", "# epoch 1\n", strings.TrimSuffix(header, "\n"), "ordup-node 1 epoch 0 ordup 1 writer p\n",
		"ordup-node 1 epoch 01 ordup 1 writer p\n", "ordup-node 1 epoch 1 ordup  writer p\n", "ordup-node 1 epoch 1 ordup 1 writer p q\n",
		header + "tell south 2", header + "\n", header + "told south 2\n", header + "tell south\n", header + "tell south 0\n",
		header + "tell South 1\n", header + "tell south 1 \n", header + "settle 1000001\n", header + "settle -1\n", header + "settle +1\n",
		header + "ask ann 0 add:tea:1\n", header + "ask Ann 1 add:tea:1\n", header + "ask ann 1000000000000000000 x\n",
		header + "ask ann 1 caf\xc3\xa9\n", header + "ask ann 1 \xff\n", header + "ask ann 1 " + strings.Repeat("x", 4001) + "\n",
		header + "declare start\n", header + "want start\n", header + "settle 1\nbegin 1 1 a b 1 1 a\n", header + "begin 1 1 a b\n", header + "begin 1 1 a b 1 0 a\n",
		header + "begin 1 1 a b 1 1 a 0 0\n", header + "begin 1 1 a b 1 1 a 5\n", header + "begin 1 1 a b 1 1 a 5 1000001\n",
		header + "elapsed 0\n", header + "elapsed 1000001\n", header + "elapsed\n", header + "known ann 3 ab 1\n", header + "settle 1\ndeclare start\n",
		header + "answer ann 1 ab ok acked 1 epoch 1\nsettle 1\n", header + "answer ann 1 ab ok\n", header + "answer ann 1 ab ok acked 0 epoch 1\n",
		header + "answer ann 1 ab ok acked 01 epoch 1\n", header + "answer ann 1 ab ok acked 1 epoch 1 2\n", header + "answer ann 1 ab refused 9\n",
		header + "answer ann 1 ab refused x Syntax\n", header + "answer ann 1 ab refused 9 OutOfRange \n", header + "known ann 3 ab 1 refused\n", header + "leave \xff\n", header + "leave south north\n",
		header + "relimit south count 3\n", header + "relimit south count 3 ok 0\n", header + "relimit south count none ok 1\n", header + "relimit south count 03 ok 1\n",
		header + "relimit south object Tea 3 ok 1\n", header + "relimit south tea 3 ok 1\n", header + "relimit south count 3 ok 1 2\n",
		header + "relimit south count 3 refused 25\n", header + "relimit South count 3 ok 1\n", header + "relimit south count 3 acked 1\n",
		strings.Repeat("x", 2*MostEntryBytes+1),
	} {
		t.Run(fmt.Sprintf("%.60q", text), func(t *testing.T) {
			if entry, err := Parse([]byte(text)); err == nil {
				t.Errorf("%.80q is %v", text, entry)
			}
		})
	}
}

func TestAnotherFormatIsTold(t *testing.T) {
	t.Parallel()
	_, err := Parse([]byte("ordup-node 2 epoch 1\nwhatever\n"))
	if _, is := err.(*FormatError); !is {
		t.Errorf("%v is not of the format", err)
	}
}

// Whatever bytes are changed, it is an entry with another meaning or none, and never a panic.
func TestAnyBytes(t *testing.T) {
	t.Parallel()
	chance := rand.New(rand.NewSource(1))
	for try := 0; try < 20000; try++ {
		text := []byte(wholeText)
		for change := 0; change <= chance.Intn(3); change++ {
			at := chance.Intn(len(text))
			switch chance.Intn(3) {
			case 0:
				text[at] = byte(chance.Intn(256))
			case 1:
				text = append(text[:at], text[at+1:]...)
			case 2:
				text = append(text[:at], append([]byte{"\n 0:\xff"[chance.Intn(5)]}, text[at:]...)...)
			}
		}
		if entry, err := Parse(text); err == nil {
			again, err := Parse(entry.Text())
			if err != nil || !reflect.DeepEqual(entry, again) {
				t.Fatalf("%q is %v, and its own text %v, %v", text, entry, again, err)
			}
		}
	}
}

func TestNames(t *testing.T) {
	t.Parallel()
	for name, is := range map[string][2]bool{
		"ann": {true, true}, "": {}, "A": {}, "9a": {true, false}, "_": {true, false}, "a-b": {true, false}, "a/b": {}, "\xff": {},
		"abcdefghijklmnop": {true, true}, "abcdefghijklmnopq": {true, false}, strings.Repeat("a", 64): {true, false}, strings.Repeat("a", 65): {},
	} {
		t.Run(fmt.Sprintf("%.20q", name), func(t *testing.T) {
			if got := [2]bool{IsClient(name), IsName(name)}; got != is {
				t.Errorf("%q is a client and a name: %v", name, got)
			}
		})
	}
	if !IsNumber(1) || !IsNumber(MostNumber) || IsNumber(0) || IsNumber(MostNumber+1) || IsNumber(-1) {
		t.Error("numbers")
	}
	if fmt.Sprint(Kind(200)) != "kind 200" || Ask.String() != "ask" {
		t.Error("kinds")
	}
}
