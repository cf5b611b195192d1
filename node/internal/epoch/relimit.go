package epoch

import (
	"fmt"
	"strings"
	"time"

	"ordup.dev/ordup/answer"

	"ordup.dev/node/internal/script"
)

// A Limiting is the limit that a site is to have.
type Limiting struct {
	Site  string
	Limit script.Limit
}

// A Limited is what becomes of a change of a limit: the answer of the store, which may be told once the entry is written.
type Limited struct {
	Entry  int64
	Answer script.Answer
}

// AskLimit has a limit of a site changed from the head on, or the store refuses it. It adds first what sites told and the acknowledgement
// that this allows, so that the store refuses no more than it must. A limit that is so already has the answer that it had. ErrNotNow says
// that the next epoch is being written, or that the batch is full. With another error the core is of no more use.
func (c *Core) AskLimit(asked Limiting, now time.Duration) (Limited, error) {
	if c.epoch == 0 || c.carry != nil || c.batch.bytes >= askBytes || c.begun > c.written {
		return Limited{}, ErrNotNow
	}
	if site := c.sites.of(asked.Site); site != nil {
		if limit, isThere := site.limits.Of(asked.Limit.Scope); isThere && limit == asked.Limit {
			since, hasChanged := site.since[asked.Limit.Scope]
			if !hasChanged {
				since.place, since.entry = 1, c.begun
			}
			return Limited{since.entry, script.Answer{Epoch: c.epoch, Place: since.place}}, nil
		}
	}
	if err := c.freeHead(now); err != nil {
		return Limited{}, err
	}
	steps := []script.Step{{Kind: script.Relimit, Site: asked.Site, Limit: asked.Limit}}
	if err := c.add(steps); err != nil {
		return Limited{}, err
	}
	answer := steps[0].Answer
	answer.Epoch = c.epoch
	return Limited{c.running, answer}, nil
}

// freeHead acknowledges the head that was decided and waits for nobody any more.
func (c *Core) freeHead(now time.Duration) error {
	if c.round == nil || !c.maySettle() {
		return nil
	}
	if _, err := c.addTold(now); err != nil || !c.headIsFree() || c.batch.most(1) == 0 {
		return err
	}
	return c.add([]script.Step{{Kind: script.Settle, Count: 1}})
}

// noteRelimit notes the answer of the store, which is that of an entry that is run again.
func (c *Core) noteRelimit(step *script.Step, answers *answers) {
	given := answers.next()
	var came script.Answer
	switch given := given.(type) {
	case answer.Relimited:
		came.Place = int64(given.Place)
		if given.Site != step.Site || came.Place != c.acknowledged+1 {
			answers.refuse(given)
			return
		}
	case *answer.Refused:
		came.Refusal = RefusalOf(given)
	default:
		answers.refuse(given)
		return
	}
	if none := (script.Answer{}); step.Answer == none {
		step.Answer = came
	} else if step.Answer != came {
		answers.refuse(given)
		return
	}
	if !came.IsRefused() {
		c.sites.relimit(step, c.running)
	}
}

// A since is from which update on a limit is in force, and the entry that says so.
type since struct{ place, entry int64 }

// declareLimit notes the limit that a declaration has.
func (s *sites) declareLimit(words []string) {
	name, limit, is := script.DeclaredLimit(words)
	if site := s.of(name); is && site != nil {
		limit.Scope = strings.Clone(limit.Scope)
		site.limits = append(site.limits, limit)
	}
}

// relimit notes a limit that was changed.
func (s *sites) relimit(step *script.Step, entry int64) {
	site, limit := s.of(step.Site), step.Limit
	if site == nil {
		return
	}
	limit.Scope = strings.Clone(limit.Scope)
	site.limits = site.limits.Changed(limit)
	if site.since == nil {
		site.since = map[string]since{}
	}
	site.since[limit.Scope] = since{step.Answer.Place, entry}
}

// noteRelimit notes a limit that was changed, or tells why it cannot be in force from there on. Which updates the entry acknowledged before
// stands behind it: some of those for which it asked by then.
func (j *Judge) noteRelimit(entry int64, step *script.Step) string {
	if step.Answer.IsRefused() {
		return ""
	}
	if j.sites.of(step.Site) == nil {
		return fmt.Sprintf("there is no site %s", step.Site)
	}
	if head := step.Answer.Place; head <= j.acknowledged || head > j.acknowledged+j.settled+1 {
		return fmt.Sprintf("the step relimit gives %s a limit from the update %d on, and %d are acknowledged before", step.Site, head,
			j.acknowledged)
	}
	j.sites.relimit(step, entry)
	return ""
}

// LimitsOf are those that are in force at a site.
func (j *Judge) LimitsOf(name string) script.Limits {
	if site := j.sites.of(name); site != nil {
		return site.limits
	}
	return nil
}

// Acknowledged is how many updates of the epoch are acknowledged.
func (j *Judge) Acknowledged() int64 { return j.acknowledged }
