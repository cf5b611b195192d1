package epoch

import (
	"fmt"
	"math/rand"
	"strings"
	"testing"
	"time"

	"ordup.dev/node/internal/script"
)

// A random run: clients that ask again, sites that apply what is in the script, batches that are lost, writers that take over.
type randomRun struct {
	*world
	chance *rand.Rand
	// The last number of each client, its changes, and what it was told of each number.
	numbers map[string]int64
	changes map[string]string
	answers map[string]string
	flying  *Batch
	// What the steps of a batch count at most, if that is less than usual.
	room script.Room
}

func newRun(t *testing.T, every script.Settings, seed int64) *randomRun {
	return &randomRun{newWorld(t, every, shop), rand.New(rand.NewSource(seed)), map[string]int64{}, map[string]string{}, map[string]string{}, nil, 0}
}

func TestRandomRuns(t *testing.T) {
	t.Parallel()
	for seed := int64(1); seed <= 60; seed++ {
		every := settings
		every.Every, every.Remembers, every.Seconds = 30, 2, seed%3*20
		run, steps := newRun(t, every, seed), 1500
		if seed%4 == 0 {
			run.limit(2 + script.Room(seed)%5)
			steps = 2000
		}
		for step := 0; step < steps; step++ {
			run.step()
		}
		run.judge()
		if t.Failed() || run.core.Epoch() < 3 || len(run.answers) < 50 {
			t.Fatalf("seed %d: %d epochs, %d answers", seed, run.core.Epoch(), len(run.answers))
		}
	}
}

// limit has each batch count so much at most, of which many then have no more room.
func (r *randomRun) limit(room script.Room) {
	r.room = room
	r.config = func(writer string) Config {
		config := config(writer)
		config.room = room
		return config
	}
	r.core = r.replay(r.config("p1"))
}

func (r *randomRun) step() {
	r.now += time.Duration(r.chance.Intn(200)) * time.Millisecond
	client := fmt.Sprintf("c%d", r.chance.Intn(6))
	switch dice := r.chance.Intn(100); {
	case dice < 35:
		r.askSome(client)
	case dice < 55:
		site := r.core.sites.all[r.chance.Intn(len(r.core.sites.all))]
		r.core.Tell(Place{Site: site.name, Epoch: r.core.Epoch(), Applied: r.written(), Entry: r.core.written}, r.now)
	case dice < 80:
		r.fly()
	case dice < 90:
		r.land()
	case dice < 93:
		r.core.AskNext(Wish{From: r.core.Epoch() - int64(r.chance.Intn(2))})
	case dice < 96:
		r.takeOver()
	case dice < 97:
		limit := script.Limit{Scope: "count", Amount: int64(r.chance.Intn(4))}
		if _, err := r.core.AskLimit(Limiting{"north", limit}, r.now); err != nil && err != ErrNotNow {
			r.t.Fatal(err)
		}
	}
}

// written is how many updates of the epoch stand in the script, where a site may be.
func (r *randomRun) written() int64 {
	core := r.replay(r.config("site"))
	if core.Epoch() != r.core.Epoch() || core.updates == 0 {
		return 0
	}
	return core.updates - int64(r.chance.Intn(2))
}

func (r *randomRun) askSome(client string) {
	if r.answers[key(client, r.numbers[client])] != "" || r.numbers[client] == 0 {
		r.numbers[client]++
		r.changes[client] = []string{"add:tea:-1", "add:tea:2 add:till:1", "set:till:7", "nonsense"}[r.chance.Intn(4)]
	}
	reply := r.ask(client, r.numbers[client], r.changes[client])
	switch reply.Kind {
	case Answered:
		r.hear(client, r.numbers[client], reply.Answer.String())
	case Waits, NotNow:
	default:
		r.t.Errorf("%s has the reply %v", client, reply)
	}
}

func key(client string, number int64) string { return fmt.Sprintf("%s %d", client, number) }

func (r *randomRun) hear(client string, number int64, text string) {
	if before := r.answers[key(client, number)]; before != "" && before != text {
		r.t.Errorf("%s %d was told %s, and then %s", client, number, before, text)
	}
	r.answers[key(client, number)] = text
}

// fly seals a batch where none is on its way.
func (r *randomRun) fly() {
	if r.flying == nil {
		r.flying = r.seal()
	}
}

// land writes the batch that is on its way.
func (r *randomRun) land() {
	if r.flying == nil {
		return
	}
	for _, answer := range r.flying.Answers {
		r.hear(answer.Client, answer.Number, answer.Answer.String())
	}
	r.keep(r.flying)
	r.flying = nil
}

// takeOver has another writer go on. What was on its way is written or lost, and told to nobody.
func (r *randomRun) takeOver() {
	if r.flying != nil && r.chance.Intn(2) == 0 {
		r.script = append(r.script, r.flying.Text)
		if r.flying.First > 0 {
			r.first = r.flying.First
		}
	}
	r.flying = nil
	r.core = r.replay(r.config(fmt.Sprintf("p%d", len(r.script))))
	batch := r.core.TakeOver()
	if err := r.core.Replay(batch.Number, batch.Entry()); err != nil {
		r.t.Error(err)
	}
	r.keep(batch)
}

// judge looks at the whole script: each number is asked once and answered once, as was told; each epoch begins with what was before.
func (r *randomRun) judge() {
	asked, answered, tea, epoch, judge := map[string]bool{}, map[string]string{}, int64(100), int64(0), &Judge{}
	for at, text := range r.script {
		entry, err := script.Parse(text)
		if err != nil {
			r.t.Fatal(err)
		}
		r.keepsToRoom(entry)
		is(r.t, nil, judge.Take(int64(at+1), entry))
		if entry.Begins() {
			epoch++
			if entry.Epoch != epoch || entry.Steps[1].Words != fmt.Sprintf("object tea %d", tea) {
				r.t.Errorf("epoch %d begins with %s, and not %d", entry.Epoch, entry.Steps[1].Words, tea)
			}
		}
		for _, step := range entry.Steps {
			switch name := key(step.Client, step.Number); step.Kind {
			case script.Ask:
				if asked[name] {
					r.t.Errorf("%s is asked twice", name)
				}
				asked[name] = true
				if strings.HasPrefix(step.Words, "add:tea:") {
					tea += map[bool]int64{true: -1, false: 2}[step.Words == "add:tea:-1"]
				}
			case script.Answered:
				if answered[name] != "" {
					r.t.Errorf("%s is answered twice", name)
				}
				answered[name] = step.Answer.String()
			}
		}
	}
	for name, text := range r.answers {
		if answered[name] != text {
			r.t.Errorf("%s was told %s, and the script has %s", name, text, answered[name])
		}
	}
}

func (r *randomRun) keepsToRoom(entry *script.Entry) {
	room := r.room
	for at := range entry.Steps {
		if r.room > 0 && !room.Take(&entry.Steps[at]) {
			r.t.Errorf("an entry counts more than %d: %s", r.room, entry.Text())
		}
	}
}

// Entries of any bytes, and steps where they do not belong, are refused or run, and never a panic.
func TestAnyEntries(t *testing.T) {
	t.Parallel()
	chance := rand.New(rand.NewSource(7))
	every := settings
	every.Every = 5
	run := newRun(t, every, 7)
	for step := 0; step < 400; step++ {
		run.step()
	}
	for try := 0; try < 3000; try++ {
		core := New(config("p2"), 1)
		for at := 0; at < 12 && at < len(run.script); at++ {
			text := append([]byte{}, run.script[at]...)
			if chance.Intn(8) == 0 {
				other := run.script[chance.Intn(len(run.script))]
				lines := strings.SplitAfter(string(text), "\n")
				others := strings.SplitAfter(string(other), "\n")
				lines[chance.Intn(len(lines))] = others[chance.Intn(len(others))]
				text = []byte(strings.Join(lines, ""))
			}
			entry, err := script.Parse(text)
			if err != nil || core.Replay(int64(at+1), entry) != nil {
				break
			}
		}
	}
}
