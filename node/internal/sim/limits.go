package sim

import (
	"errors"
	"fmt"
	"strings"
	"time"

	"ordup.dev/node/internal/epoch"
	"ordup.dev/node/internal/script"
	"ordup.dev/node/internal/site"
)

// siteNames are the sites of the script.
var siteNames = [2]string{"north", "far"}

// A limitCall is a change of a limit, for which an operator waits.
type limitCall struct {
	asked   epoch.Limiting
	limited epoch.Limited
}

// takeLimits has the core take changes of limits.
func (p *primary) takeLimits(now time.Duration) error {
	limits := p.limits
	p.limits = nil
	for _, call := range limits {
		limited, err := p.core.AskLimit(call.asked, now)
		switch {
		case errors.Is(err, epoch.ErrNotNow):
			p.limits = append(p.limits, call)
		case err != nil:
			return err
		default:
			call.limited = limited
			p.limited = append(p.limited, call)
		}
	}
	return nil
}

// tellLimits tells those whose entry is written.
func (p *primary) tellLimits() {
	left := p.limited[:0]
	for _, call := range p.limited {
		if !p.core.IsWritten(call.limited.Entry) {
			left = append(left, call)
			continue
		}
		p.world.note("an operator is told of %s %s: %s", call.asked.Site, call.asked.Limit, call.limited.Answer)
		p.world.judge.tellsLimit(&call.asked, call.limited.Answer)
	}
	p.limited = left
}

// A told is what a reader is to be told beside the values that come after an entry: the limits of the sites, and what is acknowledged.
type told struct {
	limits map[string]int64
	acked  int64
}

// limit notes a limit that an epoch declares. Where no operator gave declarations they are those that were in force.
func (j *judge) limit(site, amount string) {
	limit, err := script.ParseLimit("count " + amount)
	if has, isThere := j.limits[site]; err != nil || !j.isWanted && isThere && has != limit.Amount {
		j.fails(LimitsDiffer, "the epoch %d begins with the limit %s of %s, and had %d", j.epoch, amount, site, has)
	}
	j.limits[site] = limit.Amount
	j.said[sayingOf(j.epoch, site, limit, script.Answer{Place: 1})] = true
}

// relimit judges a change of a limit that is written: it is in force from the head on, and no site is over it then.
func (j *judge) relimit(step *script.Step) {
	j.said[sayingOf(j.epoch, step.Site, step.Limit, step.Answer)] = true
	if step.Answer.IsRefused() {
		j.counts.RefusedLimits++
		return
	}
	j.counts.Relimits++
	j.limits[step.Site] = step.Limit.Amount
}

func sayingOf(epoch int64, site string, limit script.Limit, answer script.Answer) string {
	answer.Epoch = 0
	return fmt.Sprintf("epoch %d: %s %s %s", epoch, site, limit, answer)
}

// tellsLimit judges what an operator is told of a limit: the script says it, of the epoch that is named.
func (j *judge) tellsLimit(asked *epoch.Limiting, answer script.Answer) {
	if saying := sayingOf(answer.Epoch, asked.Site, asked.Limit, answer); !j.said[saying] {
		j.fails(ToldBeforeItIsWritten, "an operator is told what is not in the script: %s", saying)
	}
}

// tellsBesides judges what a reader is told beside the values: the limits, what is acknowledged, and how far that moves the values.
func (j *judge) tellsBesides(who, name string, shown *site.Shown) {
	is := j.after[shown.Entry]
	limits := fmt.Sprintf("count %d", is.limits[name])
	if has := strings.Join(shown.Limits.Texts(), ", "); has != limits {
		j.fails(LimitsDiffer, "%s tells a reader the limits %q, which are %q after the entry %d", who, has, limits, shown.Entry)
	}
	if shown.Acknowledged != is.acked {
		j.fails(LimitsDiffer, "%s tells a reader that %d updates are acknowledged, which are %d after the entry %d", who, shown.Acknowledged, is.acked,
			shown.Entry)
	}
	for at, object := range objects {
		weight := int64(0)
		for from := j.begun[shown.Epoch] + is.acked; from < j.begun[shown.Epoch]+shown.Place; from++ {
			if moved := j.values[from+1][at] - j.values[from][at]; moved > 0 {
				weight += moved
			} else {
				weight -= moved
			}
		}
		if weight > 0 {
			j.counts.Imports++
		}
		if shown.Imports[object] != weight {
			j.fails(LimitsDiffer, "%s tells a reader that %s moves by %d, which is %d after the entry %d", who, object, shown.Imports[object], weight,
				shown.Entry)
		}
	}
}
