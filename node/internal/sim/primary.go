package sim

import (
	"errors"
	"fmt"
	"time"

	"ordup.dev/node/internal/engine"
	"ordup.dev/node/internal/epoch"
	"ordup.dev/node/internal/follower"
	"ordup.dev/node/internal/script"
	"ordup.dev/node/internal/writer"
)

// A mode is what a primary does.
type mode byte

const (
	stands mode = iota
	takes
	writes
)

// A primary is a process that stands by, takes over, or writes. Whether it has the lease of the one that writes, and relies on that, any
// event may say: nothing that holds stands on it.
type primary struct {
	world     *world
	index     int
	lives     int
	own       string
	mode      mode
	isHeld    bool
	relies    bool
	core      *epoch.Core
	follower  follower.Follower
	digests   writer.Digests
	writer    writer.Writer
	unleased  writer.Unleased[siteKey]
	flight    *flight
	queue     []*call
	waiting   []*call
	nexts     []*epoch.Wish
	wishes    []*epoch.Wish
	limits    []*limitCall
	limited   []*limitCall
	roundsWas int64
}

// A flight is an entry on its way to the engine, and what came of it.
type flight struct {
	batch  *epoch.Batch
	write  *engine.Write
	isDone bool
	err    error
}

// A call is a request that waits for its answer. It may be that nobody hears it.
type call struct {
	request epoch.Request
	client  *client
	isHeard bool
}

// errNotWriter says that the process does not write.
var errNotWriter = errors.New("this primary does not write")

func (p *primary) start(world *world, index int) {
	*p = primary{world: world, index: index, lives: p.lives + 1}
	p.own = fmt.Sprintf("p%d-%d@p%d", index+1, p.lives, index+1)
}

// now is by the clock of the process.
func (p *primary) now() time.Duration { return p.world.engine.now + time.Duration(p.index)*time.Minute }

func (p *primary) fails(doing string, err error) {
	p.world.fails(RightProcessFails, "%s cannot %s: %v", p.own, doing, err)
}

// die ends the process. What it has on its way may come later.
func (p *primary) die() {
	if f := p.flight; f != nil && !f.isDone {
		p.world.lates = append(p.world.lates, lateCall{write: f.write})
	}
	p.forget()
	p.start(p.world, p.index)
}

// forget drops what was run.
func (p *primary) forget() {
	if p.core != nil {
		p.core.Close()
	}
	p.core, p.follower, p.digests = nil, follower.Follower{}, writer.Digests{}
}

// stand runs some entries of the script.
func (p *primary) stand(most int) {
	if p.mode == stands {
		p.replay(most)
	}
}

// replay runs so many entries at most, up to the end of the script.
func (p *primary) replay(most int) {
	if p.core == nil {
		p.core = epoch.New(epoch.Config{Open: openModel, Writer: p.own, Versions: versions}, p.world.engine.first)
	}
	for ; most > 0; most-- {
		raw, isThere := p.world.engine.from(p.core.Next())
		if !isThere {
			return
		}
		entry, err := p.follower.Run(p.core, raw)
		var gap *epoch.GapError
		switch {
		case err == nil:
			p.digests.Add(&p.follower.Mark, entry.Begins())
		case errors.As(err, &gap) && p.world.engine.first > gap.Number:
			p.forget() // The script begins with a later epoch now.
			p.replay(most)
			return
		default:
			p.fails("run the script", err)
			return
		}
	}
}

// lead has the process get the lease of the one that writes.
func (p *primary) lead() {
	p.isHeld, p.relies = true, true
	if p.mode == stands {
		p.takeOver()
	}
}

// takeOver runs the script to its end, and sends an entry behind that.
func (p *primary) takeOver() {
	p.mode = takes
	p.replay(1 << 10)
	batch := p.core.TakeOver()
	if p.core.Epoch() == 0 {
		var err error
		batch, err = epoch.FirstBatch(epoch.Config{Open: openModel, Writer: p.own, Versions: versions}, p.world.settings(), p.world.declarations(true))
		if err != nil {
			p.fails("begin the script", err)
			return
		}
	}
	p.flight = &flight{batch: batch, write: writer.WriteOf(batch)}
}

// drop has the process lose its lease.
func (p *primary) drop() {
	p.isHeld, p.relies = false, false
	p.endIfOver()
}

// endIfOver ends its time as the writer, once it has no lease and nothing on its way.
func (p *primary) endIfOver() {
	if p.mode == writes && p.writer.IsOver(p.isHeld, false, false) {
		isIdle := p.writer.IsIdle(p.core)
		p.end()
		if !isIdle {
			p.forget()
		}
	}
}

// end has the process stand by. All who wait are told that it does not write.
func (p *primary) end() {
	p.mode, p.flight, p.queue, p.waiting, p.nexts, p.wishes = stands, nil, nil, nil, nil, nil
	p.limits, p.limited = nil, nil
}

// write has the engine meet what is on its way.
func (p *primary) write(how byte) {
	f := p.flight
	if f == nil {
		if p.mode == takes {
			p.takeOver()
		}
		return
	}
	if f.isDone {
		p.land(f.err)
		return
	}
	switch how % fates {
	case done:
		p.land(p.world.commit(f.write))
	case doneAndSlow:
		f.err, f.isDone = p.world.commit(f.write), true
	case doneAndLost:
		p.world.commit(f.write)
	case late:
		p.world.lates = append(p.world.lates, lateCall{write: f.write})
	}
}

// land is what comes of an answer to a write.
func (p *primary) land(err error) {
	f := p.flight
	p.flight = nil
	p.world.note("%s has of entry %d: %v", p.own, f.batch.Number, err)
	if p.mode == takes {
		p.landTakeOver(f.batch, err)
		return
	}
	switch {
	case err == nil:
	case writer.RunsAgain(err):
		p.end()
		p.forget()
		return
	default:
		p.fails("write", err)
		return
	}
	batch, mark := p.writer.Land(p.core)
	p.follower.Mark = mark
	p.tell(batch.Answers)
	p.endIfOver()
}

func (p *primary) landTakeOver(batch *epoch.Batch, err error) {
	var taken *engine.TakenError
	switch {
	case errors.As(err, &taken):
		return // The primary before was faster, or a write of it was late. It runs that too.
	case err != nil:
		p.fails("take over", err)
		return
	}
	p.world.outcome.Counts.TakeOvers++
	p.follower.Mark.Set(batch.Number, batch.Text)
	p.digests.Add(&p.follower.Mark, batch.First > 0)
	if err = p.core.Replay(batch.Number, batch.Entry()); err != nil {
		p.fails("run the entry by which it took over", err)
		return
	}
	p.mode, p.writer, p.unleased = writes, writer.Writer{}, writer.Unleased[siteKey]{}
}

// work makes one round of the loop of a writer.
func (p *primary) work() {
	if p.mode != writes || !p.isHeld {
		return
	}
	now := p.now()
	var came []*call
	if p.writer.Takes(now) {
		came, p.queue = p.queue, nil
	}
	p.takeWishes()
	if err := p.takeLimits(now); err != nil {
		p.fails("change a limit", err)
		return
	}
	if err := p.ask(came, now); err != nil {
		p.fails("take requests", err)
		return
	}
	if _, err := p.core.Work(now); err != nil {
		p.fails("work", err)
		return
	}
	p.tellWishes()
	p.tellLimits()
	batch, err := p.writer.Seal(p.core, &p.digests, now)
	if err != nil {
		p.fails("seal", err)
		return
	}
	if batch != nil {
		p.flight = &flight{batch: batch, write: writer.WriteOf(batch)}
	}
	p.countRounds()
}

func (p *primary) countRounds() {
	rounds := int64(0)
	for _, site := range p.core.Status(0).Sites {
		rounds += site.Rounds
	}
	if rounds > p.roundsWas {
		p.world.outcome.Counts.Rounds += int(rounds - p.roundsWas)
	}
	p.roundsWas = rounds
}

// ask has the core take requests.
func (p *primary) ask(came []*call, now time.Duration) error {
	if len(came) == 0 {
		return p.core.Failure()
	}
	requests := make([]epoch.Request, len(came))
	for at, call := range came {
		requests[at] = call.request
	}
	replies, err := p.core.Ask(requests, now)
	if err != nil {
		return err
	}
	for at, reply := range replies {
		switch call := came[at]; reply.Kind {
		case epoch.Waits:
			p.waiting = append(p.waiting, call)
		case epoch.NotNow:
			p.queue = append(p.queue, call)
		case epoch.Malformed:
			p.fails("read a request", errors.New(call.request.Changes))
		default:
			p.world.tells(call, reply.Kind, reply.Answer, reply.Last)
		}
	}
	if len(p.queue) > 0 {
		p.writer.Postpone(now)
	}
	return p.core.Failure()
}

// tell tells answers to those who wait for them.
func (p *primary) tell(answers []script.Step) {
	for at := range answers {
		left := p.waiting[:0]
		for _, call := range p.waiting {
			if call.request.Client == answers[at].Client && call.request.Number == answers[at].Number {
				p.world.tells(call, epoch.Answered, answers[at].Answer, 0)
			} else {
				left = append(left, call)
			}
		}
		p.waiting = left
	}
}

// takeWishes has the core take what operators wish.
func (p *primary) takeWishes() {
	nexts := p.nexts
	p.nexts = nil
	for _, wish := range nexts {
		switch err := p.core.AskNext(*wish); {
		case err == nil:
			p.wishes = append(p.wishes, wish)
		case errors.Is(err, epoch.ErrNotNow):
			p.nexts = append(p.nexts, wish)
		case errors.Is(err, epoch.ErrOtherWish):
			p.world.judge.tellsOperator(wish, true)
		}
	}
}

// tellWishes tells whose epoch has begun.
func (p *primary) tellWishes() {
	left := p.wishes[:0]
	for _, wish := range p.wishes {
		if wish.From >= p.core.Begun() {
			left = append(left, wish)
			continue
		}
		p.world.outcome.Counts.Wishes++
		p.world.judge.tellsOperator(wish, errors.Is(p.core.AskNext(*wish), epoch.ErrOtherWish))
	}
	p.wishes = left
}

// look looks for the keys of sites that are taken out.
func (p *primary) look() {
	if p.mode != writes || !p.isHeld {
		return
	}
	p.unleased.Look()
	for _, site := range p.core.Leaving() {
		isHeld := false
		for at := range p.world.engine.keys {
			key := &p.world.engine.keys[at]
			if key.site != site || !key.has() {
				continue
			}
			isHeld = true
			if key.id == 0 && p.unleased.See(*key, p.now()) {
				p.world.outcome.Counts.Removed++
				p.world.engine.put(at, "", 0)
			}
		}
		if isHeld {
			continue
		}
		if err := p.core.Gone(site); err != nil {
			p.fails("count a site as gone", err)
		}
	}
}

// mayTake is whether the process takes requests, places and wishes.
func (p *primary) mayTake() bool { return p.mode == writes && p.relies }

// takePlace takes the place of a site.
func (p *primary) takePlace(place epoch.Place) error {
	switch {
	case !p.mayTake():
		return errNotWriter
	case p.core == nil:
		return epoch.ErrBehind
	}
	return p.digests.Tell(p.core, place, p.now())
}
