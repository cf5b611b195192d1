package sim

import (
	"context"
	"errors"
	"fmt"
	"time"

	"ordup.dev/node/internal/epoch"
	"ordup.dev/node/internal/follower"
	"ordup.dev/node/internal/lease"
	"ordup.dev/node/internal/site"
)

// A process is one of a site: it follows the script, holds the key of its site, serves readers and tells places.
type process struct {
	world *world
	index int
	lives int
	// The name in the script, its own, and its key in the engine.
	site, name string
	key        int
	own        string
	lease      lease.Key
	view       site.View
	follower   follower.Follower
	replica    *site.Replica
	// The last entry that there was when it started. From there on it wants the key.
	end           int64
	wants, isOver bool
	call          *keyCall
	// The place whose answer it waits for, or 0.
	message int
}

// A keyCall is a step for a key whose answer is on its way.
type keyCall struct {
	step  lease.Step
	found lease.Found
	id    lease.ID
	is    bool
	last  int64
}

func (p *process) start(world *world, index int) {
	*p = process{world: world, index: index, lives: p.lives + 1, site: "north", name: "north"}
	if index > 1 {
		p.site, p.name, p.key = "far", [...]string{"east", "west"}[index-2], index-1
	}
	p.own = fmt.Sprintf("%s%d-%d", p.name, index, p.lives)
	p.lease = lease.New(world.engine.keys[p.key].name, p.own)
}

// now is by the clock of the process, which has a rate of its own.
func (p *process) now() time.Duration {
	return p.world.engine.now/100*time.Duration(p.world.run.Rates[p.index]) + time.Duration(p.index)*time.Minute
}

// fall ends the process at once, and starts another one. What it asked may come later.
func (p *process) fall() {
	if p.replica != nil {
		p.replica.Close()
	}
	p.start(p.world, p.index)
}

// finish ends the process cleanly: it shows nothing, and gives its lease back.
func (p *process) finish(why error) {
	p.world.note("%s ends: %v", p.own, why)
	p.view.Show(nil)
	p.isOver, p.wants, p.call = true, false, nil
	p.lease.GiveUp()
	if step := p.lease.Next(p.now()); step.Kind == lease.Revoke {
		p.world.lates = append(p.world.lates, lateCall{step: step, key: p.key})
	}
}

// follow runs so many entries at most, and shows what that comes to.
func (p *process) follow(most int) {
	if p.isOver {
		return
	}
	if p.replica == nil {
		p.end = p.world.engine.last()
		p.replica = site.NewReplica(openModel, versions, p.site, p.world.engine.first)
	}
	for ; most > 0; most-- {
		raw, isThere := p.world.engine.from(p.replica.Next())
		if !isThere {
			break
		}
		if _, err := p.follower.Run(p.replica, raw); err != nil {
			p.heed(err)
			return
		}
	}
	shown, err := p.replica.Show()
	if err != nil {
		p.world.fails(RightProcessFails, "%s cannot show: %v", p.own, err)
		return
	}
	if shown != nil {
		shown.Digest = p.follower.Mark.Digest().String()
		p.wants = p.wants || shown.Entry >= p.end
	}
	p.view.Show(shown)
}

// heed is what becomes of an error of the script.
func (p *process) heed(err error) {
	var gap *epoch.GapError
	var left *site.LeftError
	switch {
	case errors.As(err, &left):
		p.world.outcome.Counts.Left++
		if !p.world.judge.left[p.site] {
			p.world.fails(RightProcessFails, "%s ends: %v", p.own, err)
		}
		p.finish(err)
	case errors.As(err, &gap) && p.world.engine.first > gap.Number:
		// The script begins with a later epoch now. What is shown stays until there is more.
		p.replica.Close()
		p.replica, p.follower = nil, follower.Follower{}
	default:
		p.world.fails(RightProcessFails, "%s cannot run the script: %v", p.own, err)
	}
}

// step takes the next step for the key, or takes the answer to the last one.
func (p *process) step(how byte) {
	if !p.wants {
		return
	}
	if call := p.call; call != nil {
		p.call = nil
		p.take(call)
		return
	}
	step := p.lease.Next(p.now())
	for step.Kind == lease.Await || step.Kind == lease.Rest {
		p.lease.Waited()
		step = p.lease.Next(p.now())
	}
	call := &keyCall{step: step}
	switch how % fates {
	case done:
		p.ask(call)
		p.take(call)
		return
	case doneAndSlow:
		p.ask(call)
		call.is = call.is || step.Kind == lease.Renew // A former leader of the engine does not know yet that the lease has ended.
		p.call = call
		return
	case doneAndLost:
		p.ask(call)
	case late:
		p.askLate(step)
	}
	p.lose(step)
}

// ask has the engine do a step.
func (p *process) ask(call *keyCall) {
	e := &p.world.engine
	switch call.step.Kind {
	case lease.Find:
		call.found = e.find(p.key)
	case lease.Create:
		call.id = e.grant()
		call.is = e.create(p.key, p.own, call.id)
	case lease.Renew:
		call.is, call.found = e.renew(call.step.ID), e.find(p.key)
	case lease.Begin:
		call.last = e.last()
	case lease.Revoke:
		e.end(call.step.ID)
	}
}

// askLate has the engine perhaps do a step later. A lease is granted before the key is to be created.
func (p *process) askLate(step lease.Step) {
	switch step.Kind {
	case lease.Create:
		step.ID = p.world.engine.grant()
	case lease.Find, lease.Begin:
		return
	}
	p.world.lates = append(p.world.lates, lateCall{step: step, key: p.key, value: p.own})
}

// take takes the answer to a step.
func (p *process) take(call *keyCall) {
	switch call.step.Kind {
	case lease.Find:
		if err := p.lease.Found(call.found); err != nil {
			p.world.note("%s: %v", p.own, err)
		}
	case lease.Create:
		p.lease.Created(call.id, call.is)
	case lease.Renew:
		if err := p.lease.Renewed(call.is, call.found); err != nil {
			p.world.note("%s: %v", p.own, err)
		}
	case lease.Begin:
		p.world.outcome.Counts.Terms++
		p.view.Begin(call.step.Term, call.last)
		p.lease.Begun(true)
	case lease.Revoke:
		p.lease.Revoked()
	}
	if p.world.isTold {
		p.world.note("%s: %+v, relies: %v", p.own, *call, p.lease.Relies(p.now()))
	}
}

// lose says that a step has no answer.
func (p *process) lose(step lease.Step) {
	p.world.note("%s: %+v has no answer", p.own, step)
	switch step.Kind {
	case lease.Begin:
		p.lease.Begun(false)
	case lease.Revoke:
		p.lease.Revoked()
	default:
		p.lease.Failed()
	}
}

// lookNow looks at what may be told. So many events happen between one look, at the values or at the lease, and the next. It also gives what
// a reader is to see who takes these values, and is false where the process ended meanwhile.
func (p *process) lookNow(within byte) (now site.Moment, must glance, isThere bool) {
	life, looks := p.lives, 0
	between := func() {
		looks++
		if looks > 1 {
			p.world.within(within)
		}
	}
	now = site.Look(func() site.View {
		between()
		must = p.world.judge.glance(p.site, p.world.toldBy[p.key])
		return p.view
	}, func(term lease.Term) bool {
		between()
		return p.lease.Lives(term, p.now())
	})
	return now, must, life == p.lives && !p.isOver
}

// read has a reader come.
func (p *process) read(within byte) {
	now, must, isThere := p.lookNow(within)
	shown := now.Served()
	if !isThere || shown == nil {
		return
	}
	p.world.outcome.Counts.Reads++
	place := p.world.judge.place(shown.Epoch, shown.Place)
	p.world.note("%s serves the place %d of epoch %d", p.own, shown.Place, shown.Epoch)
	p.world.judge.serves(p.own, place, shown.Values, must)
	p.world.judge.tellsBesides(p.own, p.site, shown)
}

// A message is a place that was told.
type message struct {
	process *process
	life    int
	term    lease.Term
	place   epoch.Place
}

// tell has the process tell its place.
func (p *process) tell(within byte) {
	if !p.wants {
		return
	}
	now, _, isThere := p.lookNow(within)
	if !isThere || now.Shown == nil {
		return
	}
	w := p.world
	place := site.PlaceOf(p.site, p.name, now.Shown)
	from := w.judge.place(place.Epoch, place.Applied)
	if from > w.toldBy[p.key] {
		w.toldBy[p.key] = from
	}
	if p.site == p.name {
		w.judge.tells(p.site, from)
	}
	w.note("%s tells the place %d of epoch %d", p.own, place.Applied, place.Epoch)
	w.messages = append(w.messages, message{p, p.lives, now.Term, place})
	p.message = len(w.messages)
}

// arrive has a place come to a primary, through the fleet where it is of a site of one, and its answer back.
func (w *world) arrive(back, how byte) {
	if len(w.messages) == 0 {
		return
	}
	at := len(w.messages) - 1 - int(back)%len(w.messages)
	came, writer := &w.messages[at], &w.primaries[how%primaries]
	var err error
	if came.place.Site == came.place.Member {
		err = w.takePlace(writer, came.place)
	} else {
		w.fleetTells = writer
		err = w.fleet.Tell(context.Background(), came.place)
	}
	process := came.process
	w.note("%s has of its place: %v", process.own, err)
	if how&2 > 0 || process.lives != came.life || process.isOver || process.message != at+1 {
		return
	}
	process.message = 0
	switch {
	case err == nil:
		w.outcome.Counts.Places++
		process.view.Take(came.term)
	case site.IsRefused(err):
		process.finish(err)
	}
}

// takePlace has a primary take an honest place.
func (w *world) takePlace(writer *primary, place epoch.Place) error {
	err := writer.takePlace(place)
	var cannotBe *epoch.CannotBeError
	if errors.As(err, &cannotBe) || errors.Is(err, epoch.ErrOtherScript) || errors.Is(err, epoch.ErrNoSite) && !w.judge.left[place.Site] {
		w.fails(HonestPlaceIsRefused, "%+v: %v", place, err)
	}
	return err
}
