package sim

import (
	"errors"
	"fmt"
	"time"

	"ordup.dev/node/internal/engine"
	"ordup.dev/node/internal/fleet"
	"ordup.dev/node/internal/lease"
	"ordup.dev/node/internal/script"
)

// Counts are what a run came to, by which it is seen that runs come to something.
type Counts struct {
	Events, Entries, TakeOvers, Refusals, Epochs, Rounds, Answers, Passed, Differs int
	Terms, Places, Reads, Gones, Left, LateCalls, Forged, Removed, Wishes          int
	Relimits, RefusedLimits, Imports                                               int
}

// Outcome is what came of a run.
type Outcome struct {
	Failure *Failure
	Counts  Counts
	// Notes are what happened at each event, where they were asked for.
	Notes []string
}

// A world is a deployment while things happen to it.
type world struct {
	run       *Run
	next      int
	engine    engineModel
	judge     *judge
	primaries [primaries]primary
	processes [processes]process
	clients   [2]client
	fleet     *fleet.Fleet
	listed    []string
	// The primary that the fleet tells.
	fleetTells *primary
	messages   []message
	lates      []lateCall
	// What a process of each key told, from the first epoch on.
	toldBy  [3]int64
	outcome Outcome
	isTold  bool
}

// A lateCall is one that was given up, and that the engine may do later.
type lateCall struct {
	write *engine.Write
	step  lease.Step
	key   int
	value string
}

// A client asks under one number after the other.
type client struct {
	name     string
	number   int64
	variant  byte
	hasHeard bool
}

var versions = []string{"1"}

// errStopped says that an operator ended a process.
var errStopped = errors.New("it is stopped")

// Try does a run, up to its first failure. With notes it says what happened.
func Try(run *Run, isTold bool) (outcome *Outcome) {
	w := &world{run: run, engine: newEngine(), isTold: isTold}
	w.engine.now = time.Hour
	w.judge = newJudge(&w.outcome.Counts, w.fails)
	for at := range w.primaries {
		w.primaries[at].start(w, at)
	}
	for at := range w.processes {
		w.processes[at].start(w, at)
	}
	for at := range w.clients {
		w.clients[at] = client{name: [...]string{"ann", "bob"}[at], number: 1}
	}
	w.list(0)
	defer func() {
		if why := recover(); why != nil {
			w.fails(RightProcessFails, "it panics: %v", why)
		}
		outcome = &w.outcome
	}()
	for w.outcome.Failure == nil && w.next < len(run.Events) {
		w.step()
	}
	return &w.outcome
}

// fails notes the first property that does not hold.
func (w *world) fails(property Property, why string, words ...any) {
	if w.outcome.Failure == nil {
		w.outcome.Failure = &Failure{property, fmt.Sprintf(why, words...)}
		w.note("%s", w.outcome.Failure)
	}
}

// note says what happened.
func (w *world) note(what string, words ...any) {
	if w.isTold {
		w.outcome.Notes = append(w.outcome.Notes, fmt.Sprintf("    # "+what, words...))
	}
}

// step has the next event happen, and those that happen within it.
func (w *world) step() {
	event := w.run.Events[w.next]
	w.next++
	w.outcome.Counts.Events++
	if w.isTold {
		w.outcome.Notes = append(w.outcome.Notes, event.String())
	}
	w.happens(event)
	for key := range w.engine.keys {
		w.relyAlone(key)
	}
}

// relyAlone looks whether two processes rely on a key.
func (w *world) relyAlone(key int) {
	var first *process
	for at := range w.processes {
		process := &w.processes[at]
		if process.key != key || !process.lease.Relies(process.now()) {
			continue
		}
		if first != nil {
			w.fails(TwoProcessesRely, "%s and %s", first.own, process.own)
		}
		first = process
	}
}

// within has so many of the next events happen within this one.
func (w *world) within(count byte) {
	for ; count > 0 && w.outcome.Failure == nil && w.next < len(w.run.Events); count-- {
		w.step()
	}
}

func (w *world) happens(event Event) {
	writer, process := &w.primaries[event.Who%primaries], &w.processes[event.Who%processes]
	switch event.Kind {
	case Passes:
		w.engine.now += durations[int(event.How)%len(durations)]
	case Calms:
		w.calm(event.How)
	case Leads:
		writer.lead()
	case Lapses:
		writer.relies = false
	case Drops:
		writer.drop()
	case Stands:
		writer.stand(int(event.How) + 1)
	case Works:
		writer.work()
	case Writes:
		writer.write(event.How)
	case Dies:
		writer.die()
	case Looks:
		writer.look()
	case Comes:
		w.come(event.Who)
	case Leases:
		process.step(event.How)
	case Follows:
		process.follow(int(event.How) + 1)
	case Tells:
		process.tell(event.How)
	case Arrives:
		w.arrive(event.Who, event.How)
	case Reads:
		process.read(event.How)
	case Falls:
		if event.How%2 == 1 && !process.isOver {
			process.finish(errStopped)
		} else {
			process.fall()
		}
	case Asks:
		w.ask(&w.clients[int(event.Who)%len(w.clients)], event.How)
	case Wishes:
		w.wish(writer, event.How)
	case Hands:
		w.engine.put(process.key, "hand", 0)
	case Ends:
		if key := &w.engine.keys[process.key]; event.How%2 == 0 {
			w.engine.endOld()
		} else if key.id > 0 && w.engine.leases[key.id-1].ends <= w.engine.now {
			w.engine.end(key.id)
		}
	case Archives:
		w.engine.archive()
	case Lists:
		w.list(event.How)
	case Finds:
		w.find()
	case Forges:
		w.forge(event.How)
	case Relimits:
		w.relimit(writer, event.How)
	}
}

// calm has all do what they do where nothing fails: with the primary of bit 1 where none writes. It looks for the keys of sites that are
// taken out (2), processes that ended are started (4), one process sleeps (0 to 3 times 8), and the fleet does not look for its keys (64).
func (w *world) calm(how byte) {
	w.engine.endOld()
	if how&64 == 0 {
		w.find()
	}
	writer := &w.primaries[how%primaries]
	for at := range w.primaries {
		if w.primaries[at].mode == writes && w.primaries[at].isHeld {
			writer = &w.primaries[at]
		}
	}
	writer.lead()
	for tries := 0; tries < 3 && writer.flight != nil; tries++ {
		writer.write(done)
	}
	for at := range w.processes {
		process := &w.processes[at]
		if int(how>>3&7) == at {
			continue
		}
		if process.isOver && how&4 > 0 {
			process.fall()
		}
		process.follow(1 << 10)
		for tries := 0; tries < 4 && !process.lease.Relies(process.now()); tries++ {
			process.step(done)
		}
		told := len(w.messages)
		process.tell(0)
		if len(w.messages) > told {
			w.arrive(0, byte(writer.index))
		}
	}
	if how&2 > 0 {
		writer.look()
	}
	for tries := 0; tries < 2; tries++ {
		writer.work()
		writer.write(done)
	}
}

// come has the engine do a call that was given up.
func (w *world) come(back byte) {
	if len(w.lates) == 0 {
		return
	}
	at := len(w.lates) - 1 - int(back)%len(w.lates)
	call := w.lates[at]
	w.lates = append(w.lates[:at:at], w.lates[at+1:]...)
	w.outcome.Counts.LateCalls++
	switch {
	case call.write != nil:
		w.note("entry %d comes late: %v", call.write.Number, w.commit(call.write))
	case call.step.Kind == lease.Create:
		w.note("the key %s is created late for %s: %v", w.engine.keys[call.key].name, call.value, w.engine.create(call.key, call.value, call.step.ID))
	case call.step.Kind == lease.Renew:
		w.note("the lease %d is renewed late: %v", call.step.ID, w.engine.renew(call.step.ID))
	case call.step.Kind == lease.Revoke:
		w.engine.end(call.step.ID)
		w.note("the lease %d is revoked late", call.step.ID)
	}
}

// commit does the transaction that writes an entry.
func (w *world) commit(write *engine.Write) error {
	e := &w.engine
	for _, compare := range write.Compares() {
		if e.holds(&compare) {
			continue
		}
		var epoch []byte
		if e.epoch > 0 {
			epoch = []byte(e.epochValue())
		}
		w.outcome.Counts.Refusals++
		return write.Refusal(e.entry(write.Number), epoch, e.entry(write.Number-1) != nil)
	}
	switch {
	case write.Number <= e.last():
		w.fails(UpdateIsLost, "the entry %d is written over", write.Number)
		return nil
	case write.Number > e.last()+1:
		w.fails(UpdateIsLost, "the entry %d is written behind %d", write.Number, e.last())
		return nil
	}
	e.entries = append(e.entries, engine.Raw{Number: write.Number, Text: write.Text})
	if write.First > 0 {
		e.epoch, e.first = write.Epoch, write.First
	}
	if w.isTold {
		w.note("entry %d: %q", write.Number, write.Text)
	}
	w.judge.written(write.Number, write.Text)
	return nil
}

// declarations are those of the script, with the site far or without it.
func (w *world) declarations(hasFar bool) []string {
	lines := []string{"object tea 100", "object till 0", "site north 4"}
	if hasFar {
		lines = append(lines, "site far 4")
	}
	lines = append(lines, fmt.Sprintf("limit north count %d", w.run.Limits[0]))
	if hasFar {
		lines = append(lines, fmt.Sprintf("limit far count %d", w.run.Limits[1]))
	}
	return append(lines, "start")
}

func (w *world) settings() script.Settings {
	return script.Settings{Every: int64(w.run.Every), Remembers: 1000, Origin: "0", Ordup: versions[0]}
}
