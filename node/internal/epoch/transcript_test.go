package epoch

import (
	"fmt"
	"os"
	"path/filepath"
	"strconv"
	"strings"
	"testing"
	"time"

	"ordup.dev/node/internal/script"
)

// A transcript of testdata has what is asked of a core, in lines that begin with `> `, and behind each what the core answers. Digests are
// shown as `-`.
func TestTranscripts(t *testing.T) {
	files, err := filepath.Glob("testdata/*.txt")
	if err != nil || len(files) < 5 {
		t.Fatal(files, err)
	}
	for _, file := range files {
		file := file
		t.Run(strings.TrimSuffix(filepath.Base(file), ".txt"), func(t *testing.T) {
			t.Parallel()
			text, err := os.ReadFile(file)
			if err != nil {
				t.Fatal(err)
			}
			asked, says := &transcript{}, []string{}
			asked.world = &world{t: t, first: 1, now: time.Hour, config: config}
			for _, line := range strings.Split(string(text), "\n") {
				command, isCommand := cutPrefix(line, "> ")
				if isCommand {
					says = append(append(says, line), asked.do(command)...)
				}
			}
			if want := withoutComments(string(text)); strings.Join(says, "\n") != want {
				t.Errorf("it says\n%s", strings.Join(says, "\n"))
			}
		})
	}
}

func cutPrefix(text, prefix string) (string, bool) {
	return strings.TrimPrefix(text, prefix), strings.HasPrefix(text, prefix)
}

func withoutComments(text string) string {
	lines := []string{}
	for _, line := range strings.Split(text, "\n") {
		if line != "" && line[0] != '#' {
			lines = append(lines, line)
		}
	}
	return strings.Join(lines, "\n")
}

// A transcript is a core that is asked.
type transcript struct {
	*world
	flying *Batch
}

// do does a command, and gives the lines that it says.
func (tr *transcript) do(command string) []string {
	command, rest, _ := strings.Cut(command, ": ")
	words := strings.Fields(command)
	switch words[0] {
	case "begin": // EVERY REMEMBERS: DECLARATION, ..
		own := script.Settings{Every: tr.number(words[1]), Remembers: tr.number(words[2]), Origin: "0", Ordup: "1"}
		batch, err := FirstBatch(config("p1"), own, strings.Split(rest, ", "))
		is(tr.t, nil, err)
		tr.script = [][]byte{batch.Text}
		tr.core = tr.replay(config("p1"))
		return linesOf(batch)
	case "ask": // CLIENT NUMBER CHANGE..
		return []string{textOf(tr.ask(words[1], tr.number(words[2]), strings.Join(words[3:], " ")))}
	case "tell": // SITE APPLIED
		place := Place{Site: words[1], Member: words[1], Epoch: tr.core.Epoch(), Applied: tr.number(words[2]), Entry: tr.core.written}
		return []string{okOr(tr.core.Tell(place, tr.now))}
	case "wish": // : DECLARATION, ..
		wish := Wish{From: tr.core.Epoch()}
		if rest != "" {
			wish.Declarations = strings.Split(rest, ", ")
		}
		return []string{okOr(tr.core.AskNext(wish))}
	case "relimit": // SITE LIMIT
		limit, err := script.ParseLimit(strings.Join(words[2:], " "))
		is(tr.t, nil, err)
		limited, err := tr.core.AskLimit(Limiting{words[1], limit}, tr.now)
		if err != nil {
			return []string{err.Error()}
		}
		says := fmt.Sprintf("refused %d %s", limited.Answer.Refusal.Number, limited.Answer.Refusal.Name)
		if !limited.Answer.IsRefused() {
			says = fmt.Sprintf("from %d of epoch %d", limited.Answer.Place, limited.Answer.Epoch)
		}
		return []string{fmt.Sprintf("%s by entry %d", says, limited.Entry)}
	case "lags":
		lags, err := tr.core.Lags()
		is(tr.t, nil, err)
		says := []string{}
		for _, site := range tr.core.Status(tr.now).Sites {
			for at, limit := range site.Limits {
				says = append(says, fmt.Sprintf("%s %s %d of %d", site.Name, limit.Scope, lags[site.Name][at], limit.Amount))
			}
		}
		return says
	case "gone": // SITE
		return []string{okOr(tr.core.Gone(words[1]))}
	case "leaving":
		return tr.core.Leaving()
	case "later": // SECONDS
		tr.now += time.Duration(tr.number(words[1])) * time.Second
		return nil
	case "seal":
		tr.flying = tr.seal()
		return linesOf(tr.flying)
	case "written":
		before := len(tr.told)
		tr.keep(tr.flying)
		return tr.told[before:]
	case "take-over":
		tr.core = tr.replay(config("p2"))
		batch := tr.core.TakeOver()
		tr.script = append(tr.script, batch.Text)
		is(tr.t, nil, tr.core.Replay(batch.Number, batch.Entry()))
		return linesOf(batch)
	}
	tr.t.Fatalf("there is no command %q", command)
	return nil
}

func (tr *transcript) number(text string) int64 {
	tr.t.Helper()
	number, err := strconv.ParseInt(text, 10, 64)
	is(tr.t, nil, err)
	return number
}

func okOr(err error) string {
	if err != nil {
		return err.Error()
	}
	return "ok"
}

// textOf is what becomes of a request.
func textOf(reply Reply) string {
	switch reply.Kind {
	case Waits:
		return "waits"
	case Answered:
		return "answered " + reply.Answer.String()
	case Passed:
		return fmt.Sprint("passed ", reply.Last)
	case Differs:
		return "differs"
	case NotNow:
		return "not now"
	}
	return "malformed"
}

// linesOf are those of an entry.
func linesOf(batch *Batch) []string {
	if batch == nil {
		return []string{"nothing"}
	}
	first := fmt.Sprintf("entry %d epoch %d", batch.Number, batch.Entry().Epoch)
	if len(batch.Absent) > 0 {
		first += " without " + strings.Join(batch.Absent, " ")
	}
	lines := []string{first}
	for _, step := range batch.Entry().Steps {
		step.Digest = "-"
		if step.Settings != nil {
			own := *step.Settings
			own.Origin, own.Began.Origin = "-", "-"
			step.Settings = &own
		}
		lines = append(lines, strings.TrimSuffix(string(step.Append(nil)), "\n"))
	}
	return lines
}
