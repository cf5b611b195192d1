package epoch

import (
	"errors"
	"fmt"
	"strings"

	"ordup.dev/ordup/answer"

	"ordup.dev/node/internal/script"
)

// run runs steps, and notes what comes of them. After an error the core is of no more use.
func (c *Core) run(steps []script.Step) error {
	if c.failure == nil {
		c.failure = c.runAll(steps)
	}
	return c.failure
}

func (c *Core) runAll(steps []script.Step) error {
	if len(steps) > 0 && steps[0].Kind == script.Begin {
		if err := c.begin(steps[0].Settings); err != nil {
			return err
		}
	}
	c.lines = c.lines[:0]
	for at := range steps {
		c.lines = steps[at].AppendLines(c.lines)
	}
	answers := answers{}
	if len(c.lines) > 0 {
		if c.store == nil {
			return &BrokenError{c.running, "it comes before the beginning of its epoch"}
		}
		given, err := c.store.Answers(c.lines)
		if err != nil {
			return c.unanswered(err)
		}
		answers.rest = given
	}
	for at := range steps {
		if why := c.lawless(&steps[at]); why != "" {
			return &BrokenError{c.running, why}
		}
		c.note(&steps[at], &answers)
		if answers.bad != "" {
			return &BrokenError{c.running, fmt.Sprintf("the store answers %.80s to the step %s", answers.bad, steps[at].Kind)}
		}
	}
	return nil
}

// unanswered is the error of lines that have no answers: where the store answers what is none, it is none of this script.
func (c *Core) unanswered(err error) error {
	var unknown *answer.UnknownError
	if errors.As(err, &unknown) {
		return &BrokenError{c.running, unknown.Error()}
	}
	return fmt.Errorf("run the lines of the entry %d: %w", c.running, err)
}

// note notes what came of a step.
func (c *Core) note(step *script.Step, answers *answers) {
	switch step.Kind {
	case script.Declare:
		c.noteDeclared(step, answers)
	case script.Known:
		c.carry.clients.carry(step, c.running)
	case script.Ask:
		c.noteAsk(step, answers)
	case script.Elapsed:
		c.clock += step.Seconds
	case script.Settle:
		for count := int64(0); count < step.Count; count++ {
			c.noteSettle(answers)
		}
	case script.Tell:
		c.noteTell(step, answers)
	case script.Wish:
		c.noteWish(step, c.running)
	case script.Want:
		c.wish.Declarations = append(c.wish.Declarations, step.Words)
	case script.Leave:
		c.sites.leave(step.Site, c.running)
	case script.Gone:
		c.noteTell(step, answers)
		c.sites.of(step.Site).gone = true
	case script.Relimit:
		c.noteRelimit(step, answers)
	}
}

func (c *Core) noteDeclared(step *script.Step, answers *answers) {
	given := answers.next()
	switch given := given.(type) {
	case answer.Started:
		return
	case answer.Declared:
		switch given.Kind {
		case "object":
			c.objects = append(c.objects, strings.Clone(given.Name))
		case "group":
			words := strings.Fields(strings.Clone(step.Words))
			c.groups[words[1]] = words[2:]
		case "site":
			c.sites.add(strings.Clone(given.Name))
		case "limit":
			c.sites.declareLimit(strings.Fields(step.Words))
		}
		return
	}
	answers.refuse(given)
}

func (c *Core) noteAsk(step *script.Step, answers *answers) {
	asked := asker{step.Client, step.Number, step.Digest}
	c.asks++
	given := answers.next()
	switch given := given.(type) {
	case answer.Proposed:
		if int64(given.Place) == c.updates+1 {
			c.updates++
			c.waiting.push(asked)
			return
		}
	case *answer.Refused:
		c.decide(asked, script.Answer{Refusal: RefusalOf(given)})
		return
	}
	answers.refuse(given)
}

// RefusalOf is a refusal of a store as an entry has it. The name is a copy: that of the store is a part of all its answers.
func RefusalOf(given *answer.Refused) script.Refusal {
	return script.Refusal{Number: int64(given.Number), Name: strings.Clone(given.Name)}
}

func (c *Core) noteSettle(answers *answers) {
	given := answers.next()
	settled, isSettled := given.(answer.Settled)
	if !isSettled {
		answers.refuse(given)
		return
	}
	if settled.State != answer.Acked {
		c.noteRound(settled.Sites)
		return
	}
	place := int64(settled.Place)
	if place != c.acknowledged+1 || place > c.updates {
		answers.refuse(given)
		return
	}
	c.acknowledged, c.round = place, nil
	c.decide(c.waiting.pop(), script.Answer{Place: place, Epoch: c.epoch})
}

// noteRound notes the sites that the head waits for.
func (c *Core) noteRound(sites []string) {
	isNew := c.round == nil
	c.round = []string{}
	for _, name := range sites {
		site := c.sites.of(name)
		if site == nil {
			continue
		}
		c.round = append(c.round, site.name)
		if isNew {
			site.rounds++
		}
	}
}

func (c *Core) noteTell(step *script.Step, answers *answers) {
	for count := int64(0); count < step.Count; count++ {
		given := answers.next()
		if _, isSent := given.(answer.Sent); !isSent {
			answers.refuse(given)
		}
		given = answers.next()
		if _, isApplied := given.(answer.Applied); !isApplied {
			answers.refuse(given)
		}
	}
	site := c.sites.of(step.Site)
	given := answers.next()
	reported, isReported := given.(answer.Reported)
	if place := site.applied + step.Count; !isReported || reported.Site != site.name || int64(reported.Applied) != place {
		answers.refuse(given)
		return
	}
	site.applied += step.Count
}

// decide has the answer to a request in the entry that is run.
func (c *Core) decide(asked asker, decided script.Answer) {
	c.clients.answer(asked, decided, c.running)
	c.decided = append(c.decided,
		script.Step{Kind: script.Answered, Client: asked.name, Number: asked.number, Digest: asked.digest, Answer: decided})
}

// answers gives the answers of a store one by one, and keeps the first one that is not what it should be.
type answers struct {
	rest []answer.Answer
	bad  string
}

// next is the next answer, or nil.
func (a *answers) next() answer.Answer {
	if len(a.rest) == 0 {
		return nil
	}
	given := a.rest[0]
	a.rest = a.rest[1:]
	return given
}

func (a *answers) refuse(given answer.Answer) {
	if a.bad == "" {
		a.bad = fmt.Sprintf("%T %+v", given, given)
	}
}
