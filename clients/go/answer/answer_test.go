package answer_test

import (
	"errors"
	"reflect"
	"testing"

	"ordup.dev/ordup/answer"
)

func TestWhatAnAnswerSays(t *testing.T) {
	t.Parallel()
	for _, row := range []struct {
		text string
		says answer.Answer
	}{
		{"ok object tea", answer.Declared{Kind: "object", Name: "tea"}},
		{"ok limit south", answer.Declared{Kind: "limit", Name: "south"}},
		{"ok start", answer.Started{}},
		{"ok proposed 7", answer.Proposed{Place: 7}},
		{"ok sent south 2", answer.Sent{Site: "south", Place: 2}},
		{"ok applied south 2", answer.Applied{Site: "south", Place: 2}},
		{"ok reported south 0", answer.Reported{Site: "south"}},
		{"ok acked 1", answer.Settled{State: answer.Acked, Place: 1, Sites: []string{}}},
		{"ok round 2 north south", answer.Settled{State: answer.Round, Place: 2, Sites: []string{"north", "south"}}},
		{"ok waiting 2 south", answer.Settled{State: answer.Waiting, Place: 2, Sites: []string{"south"}}},
		{"ok show south sent 2 applied 1 reported 1 rounds 3 tea=-5 till=7",
			answer.Shown{Site: "south", Sent: 2, Applied: 1, Reported: 1, Rounds: 3, Values: map[string]int64{"tea": -5, "till": 7}}},
		{"ok certified south 1 0-2", answer.Certified{Site: "south", Rounds: 1, Windows: [][2]uint64{{0, 2}}}},
		{"refused 9 OutOfRange", &answer.Refused{Number: 9, Name: "OutOfRange", Line: "a line"}},
	} {
		t.Run(row.text, func(t *testing.T) {
			if says, err := answer.Parse(row.text, "a line"); err != nil || !reflect.DeepEqual(says, row.says) {
				t.Errorf("%#v, %v", says, err)
			}
		})
	}
}

func TestWhatIsNoAnswer(t *testing.T) {
	t.Parallel()
	for _, text := range []string{"", "no", "ok", "ok start ", "ok  start", "ok proposed", "ok proposed x", "ok proposed 1 2", "ok sent south",
		"ok show south sent 2 applied 1", "ok show south sent 2 applied 1 reported 1 rounds 3 tea", "refused 9", "refused x Syntax"} {
		t.Run(text, func(t *testing.T) {
			var unknown *answer.UnknownError
			if says, err := answer.Parse(text, ""); !errors.As(err, &unknown) {
				t.Errorf("%#v, %v", says, err)
			}
		})
	}
}

// Each answer is that of its own line, with which a refusal is told.
func TestTheAnswersToManyLines(t *testing.T) {
	t.Parallel()
	says, err := answer.ParseAll("ok start\nrefused 1 Syntax\nrefused 17 NothingToSettle\n", []byte("# a shop\nstart\n\nbad\n  \nsettle"))
	want := []answer.Answer{answer.Started{}, &answer.Refused{Number: 1, Name: "Syntax", Line: "bad"},
		&answer.Refused{Number: 17, Name: "NothingToSettle", Line: "settle"}}
	if err != nil || !reflect.DeepEqual(says, want) {
		t.Errorf("%v, %v", says, err)
	}
}
