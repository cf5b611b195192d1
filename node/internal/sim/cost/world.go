package main

import (
	"context"
	"fmt"
	"math"
	"math/rand"
	"sort"
	"time"

	"ordup.dev/ordup/answer"

	"ordup.dev/node/internal/engine"
	"ordup.dev/node/internal/epoch"
	"ordup.dev/node/internal/fleet"
	"ordup.dev/node/internal/follower"
	"ordup.dev/node/internal/script"
	"ordup.dev/node/internal/sim"
	"ordup.dev/node/internal/site"
	"ordup.dev/node/internal/store"
	"ordup.dev/node/internal/writer"
)

// What one thing takes on a busy computer.
const (
	fsync   = 800 * time.Microsecond // A majority of three members near each other has what came together on disk.
	command = 50 * time.Microsecond  // The engine takes a transaction, or sends an entry to one site.
	call    = 100 * time.Microsecond // The primary takes a request or a place by HTTP.
	line    = 300 * time.Nanosecond  // The primary runs a line of the script.
	update  = 2 * time.Microsecond   // A site runs an update.
	near    = 200 * time.Microsecond // A round trip between the engine, the primary, a client and a fleet.
)

// most is how many sites a primary has. Where there are more, they are in so many fleets.
const most = 16

// version is that of ordup in the script, which nothing here depends on.
const version = "1"

// A setup is a deployment, and who asks: so many clients, each again once it has its answer, or clients that come at a rate a second.
type setup struct {
	sites          int
	trip           time.Duration
	limit, clients int
	rate           float64
	// How long a write takes the engine, and how long its members take to hear of each other.
	fsync, between time.Duration
}

// A world is a primary, and all else.
type world struct {
	clock
	setup
	random   *rand.Rand
	engine   engineModel
	store    counted
	core     *epoch.Core
	writer   writer.Writer
	digests  writer.Digests
	follower follower.Follower
	replica  *site.Replica
	fleets   []*fleetModel
	sites    []*siteModel
	// Until when the primary takes calls and runs lines, and when it looks what to write though nothing comes.
	calls, runs, alarm time.Duration
	// When each request was sent, and how long those waited that have their answers.
	sent, waits []time.Duration
	err         error
}

// A counted store counts what it runs.
type counted struct {
	store.Store
	lines, rounds int
}

// Answers counts the lines, and the rounds among their answers.
func (c *counted) Answers(lines []byte) ([]answer.Answer, error) {
	answers, err := c.Store.Answers(lines)
	c.lines += len(answers)
	for _, given := range answers {
		if settled, isSettled := given.(answer.Settled); isSettled && settled.State == answer.Round {
			c.rounds++
		}
	}
	return answers, err
}

// newWorld gives one whose script has begun, before anybody asks.
func newWorld(of setup, seed int64) *world {
	w := &world{setup: of, random: rand.New(rand.NewSource(seed)), clock: clock{now: time.Minute}}
	w.engine = engineModel{clock: &w.clock, fsync: of.fsync, between: of.between}
	declarations, settings := w.addSites(), script.Settings{Every: script.MostCounted, Remembers: 1, Origin: "0", Ordup: version}
	config := epoch.Config{Writer: "primary", Versions: []string{version}, Open: func() (store.Store, error) {
		opened, err := sim.OpenModel()
		w.store.Store = opened
		return &w.store, err
	}}
	first, err := epoch.FirstBatch(config, settings, declarations)
	if err != nil {
		w.check("begin the script", err)
		return w
	}
	w.core, w.replica = epoch.New(config, 1), site.NewReplica(sim.OpenModel, config.Versions, w.fleets[0].name, 1)
	w.check("begin the script", w.core.Replay(1, first.Entry()))
	w.store.lines = 0
	begun := w.show(first)
	w.digests.Add(&w.follower.Mark, true)
	for _, it := range w.sites {
		it.came, it.shown = begun, begun
		it.tell()
	}
	return w
}

// normal is the value that so much of what is spread normally does not pass.
func normal(share float64) float64 { return math.Sqrt2 * math.Erfinv(2*share-1) }

// addSites adds the sites, and gives the declarations. They are spread evenly over all sites that there may be: half of those are nearer than
// the round trip says, and one in a hundred is more than 4.3 times as far.
func (w *world) addSites() []string {
	declarations := []string{"object tea 0"}
	for at := 0; at < w.setup.sites; at++ {
		if at < most {
			name := fmt.Sprintf("f%d", at)
			w.fleets = append(w.fleets, &fleetModel{world: w, name: name})
			declarations = append(declarations, "site "+name+" 1", fmt.Sprintf("limit %s count %d", name, w.limit))
		}
		far := math.Pow(4.3, normal((float64(at)+0.5)/float64(w.setup.sites))/normal(0.99))
		of := w.fleets[at%most]
		it := &siteModel{world: w, name: fmt.Sprintf("s%d", at), fleet: of, oneWay: time.Duration(far * float64(w.trip/2))}
		w.sites, of.names = append(w.sites, it), append(of.names, it.name)
	}
	for _, it := range w.fleets {
		it.fleet = fleet.New(it.name, it.names, it)
		w.check("look for keys", it.fleet.Look(context.Background(), it))
	}
	return append(declarations, "start")
}

// check keeps the first error.
func (w *world) check(doing string, err error) {
	if err != nil && w.err == nil {
		w.err = fmt.Errorf("%s: %w", doing, err)
	}
}

// start has clients ask from now on.
func (w *world) start() {
	for count := 0; count < w.clients; count++ {
		w.ask()
	}
	if w.rate > 0 {
		w.come()
	}
}

// come has clients come at the rate.
func (w *world) come() {
	w.ask()
	w.after(time.Duration(w.random.ExpFloat64()/w.rate*float64(time.Second)), w.come)
}

// ask has a client send a request. The core takes all as of one client.
func (w *world) ask() {
	sent := w.now
	w.after(near/2, func() {
		w.take(func() {
			w.sent = append(w.sent, sent)
			replies, err := w.core.Ask([]epoch.Request{{Client: "all", Number: int64(len(w.sent)), Changes: "add:tea:1"}}, w.now)
			if err == nil && replies[0].Kind != epoch.Waits {
				err = fmt.Errorf("the reply is %d", replies[0].Kind)
			}
			w.check("ask", err)
		})
	})
}

// hear has a place come to the primary, which answers.
func (w *world) hear(place epoch.Place, answer func()) {
	w.take(func() {
		w.check("tell the primary", w.digests.Tell(w.core, place, w.now))
		answer()
	})
}

// take has the primary take a call, after those that came before.
func (w *world) take(do func()) {
	w.calls = latest(w.calls, w.now) + call
	w.after(w.calls-w.now, func() {
		do()
		w.work()
	})
}

func latest(one, other time.Duration) time.Duration {
	if one > other {
		return one
	}
	return other
}

// work makes a round of the loop of a primary that writes.
func (w *world) work() {
	again, err := w.core.Work(w.now)
	w.check("work", err)
	batch, err := w.writer.Seal(w.core, &w.digests, w.now)
	w.check("seal", err)
	w.runs = latest(w.runs, w.now) + line*time.Duration(w.store.lines)
	w.store.lines = 0
	if batch != nil {
		w.after(w.runs-w.now+near/2, func() { w.engine.take(true, func() { w.written(batch) }) })
	}
	if again > 0 {
		w.wake(&w.alarm, again, w.work)
	}
}

// written has the engine answer that it has an entry, and send it to the sites.
func (w *world) written(batch *epoch.Batch) {
	w.after(near/2, w.land)
	common := w.show(batch)
	for at := range batch.Entry().Steps {
		step := &batch.Entry().Steps[at]
		for _, it := range w.fleets {
			if step.Kind == script.Tell && step.Site == it.name {
				it.told += step.Count
			}
		}
	}
	for _, it := range w.sites {
		it, shown := it, *common
		shown.Told = it.fleet.told
		w.engine.take(false, func() { w.after(it.oneWay, func() { it.bring(&shown) }) })
	}
}

// show is what each site comes to by an entry, but for what it has told.
func (w *world) show(batch *epoch.Batch) *site.Shown {
	_, err := w.follower.Run(w.replica, engine.Raw{Number: batch.Number, Text: batch.Text})
	w.check("run an entry", err)
	shown, err := w.replica.Show()
	w.check("show", err)
	shown.Digest = w.follower.Mark.Digest().String()
	return shown
}

// land has the primary hear that an entry is written, and the clients their answers.
func (w *world) land() {
	batch, _ := w.writer.Land(w.core)
	w.after(near/2, func() {
		for at := range batch.Answers {
			w.waits = append(w.waits, w.now-w.sent[batch.Answers[at].Number-1])
			if w.clients > 0 {
				w.ask()
			}
		}
	})
	w.work()
}

// until has things happen until so many requests are answered.
func (w *world) until(answered int) {
	for w.err == nil && len(w.waits) < answered {
		w.step()
	}
}

// A cost is how many updates are acknowledged each second, the wait that half and that 99 in 100 do not pass, in ms, and how many rounds
// 100 updates take.
type cost struct{ rate, half, most, rounds float64 }

// simulate gives the cost of so many updates, after a third of them that is a start.
func simulate(updates int, of setup) (cost, error) {
	w := newWorld(of, 1)
	w.start()
	w.until(updates / 3)
	first, began, rounds := len(w.waits), w.now, w.store.rounds
	w.until(first + updates)
	if w.err != nil {
		return cost{}, w.err
	}
	waits := w.waits[first:]
	sort.Slice(waits, func(i, j int) bool { return waits[i] < waits[j] })
	ms := func(at int) float64 { return float64(waits[at]) / float64(time.Millisecond) }
	return cost{float64(len(waits)) / (w.now - began).Seconds(), ms(len(waits) / 2), ms(len(waits) * 99 / 100),
		100 * float64(w.store.rounds-rounds) / float64(len(waits))}, nil
}
