package sim

import (
	"fmt"
	"strconv"
	"strings"

	"ordup.dev/node/internal/epoch"
	"ordup.dev/node/internal/script"
)

// A Property is what must hold of each run. The first ten are those of the model in checks/waking/node.pml, under their names there.
type Property string

// The properties, as the model has them.
const (
	// An entry extends the one before: an acknowledged update is in the script, and stays.
	UpdateIsLost Property = "UPDATE_IS_LOST"
	// A request is in the script once.
	RequestIsDoneTwice Property = "REQUEST_IS_DONE_TWICE"
	// The answers to a request are the same, whoever is asked, in the script and by word.
	AnswerChanges Property = "ANSWER_CHANGES"
	// A wish or so many requests end an epoch, once all is acknowledged, and each site has told the last place or is gone.
	EpochEndsTooEarly Property = "EPOCH_ENDS_TOO_EARLY"
	// What is told to a client for good stands in a written entry.
	ToldBeforeItIsWritten Property = "TOLD_BEFORE_IT_IS_WRITTEN"
	// Only the one who took over last writes.
	TwoPrimariesWrite Property = "TWO_PRIMARIES_WRITE"
	// No two processes rely on a key.
	TwoProcessesRely Property = "TWO_PROCESSES_RELY"
	// What a reader is told has all that was told for the site by HTTP, and lacks at most the limit of what is acknowledged.
	ReaderSeesTooLittle Property = "READER_SEES_TOO_LITTLE"
	// After a written gone no reader of the site is served.
	GoneSiteServes Property = "GONE_SITE_SERVES"
	// No honest place is called one that cannot be, or one of another script, nor its site one that there is not.
	HonestPlaceIsRefused Property = "HONEST_PLACE_IS_REFUSED"
)

// Those that the model takes as given.
const (
	// What a reader is told is the serial result of the log.
	ValuesDiffer Property = "VALUES_DIFFER"
	// A right process can run the script, write it on, and does not panic.
	RightProcessFails Property = "RIGHT_PROCESS_FAILS"
	// A reader and an operator are told the limits that are in force, and what is acknowledged, by the entry that is shown. They go on.
	LimitsDiffer Property = "LIMITS_DIFFER"
	// An entry that no right primary writes is refused by whoever runs the script.
	WriterIsBelieved Property = "WRITER_IS_BELIEVED"
)

// A Failure is a property that does not hold.
type Failure struct {
	Property Property
	Why      string
}

func (f *Failure) Error() string { return string(f.Property) + ": " + f.Why }

// A request is one number of a client.
type request struct {
	client string
	number int64
}

// A scripted is what the script has of a request. Its answer is "" before there is one.
type scripted struct {
	changes, answer string
	place           int64
}

// A standing is a site of the epoch, as the script has it.
type standing struct{ leaves, gone bool }

// A judge reads each entry as it is written, and by it what is told. It has nothing of the code that it judges but the form of entries.
type judge struct {
	fails  func(Property, string, ...any)
	counts *Counts
	every  int64
	// The epoch, how many updates there were before it, and what it has come to.
	epoch, before        int64
	updates, acked, asks int64
	begun                map[int64]int64
	sites                map[string]standing
	// The sites that are gone, and that no epoch has declared since, and those that were taken out ever.
	gone, left map[string]bool
	last       map[string]int64
	requests   map[request]*scripted
	carried    map[string]*script.Step
	pending    []request
	wished     bool
	settings   map[int64]script.Settings
	writer     string
	values     [][2]int64
	// Which epochs operators wished to end.
	wishes map[int64]bool
	// From the first epoch on, what was told for each site of the script, and what clients were told as acknowledged.
	told         map[string]int64
	acknowledged int64
	// The limits in force, whether an operator gave declarations for the next epoch, what the script says of limits, and what readers are to be
	// told after each entry.
	limits   map[string]int64
	isWanted bool
	said     map[string]bool
	after    map[int64]told
}

var objects = [2]string{"tea", "till"}

func newJudge(counts *Counts, fails func(Property, string, ...any)) *judge {
	return &judge{fails: fails, counts: counts, begun: map[int64]int64{}, sites: map[string]standing{}, gone: map[string]bool{}, left: map[string]bool{}, last: map[string]int64{},
		requests: map[request]*scripted{}, settings: map[int64]script.Settings{}, wishes: map[int64]bool{}, told: map[string]int64{},
		values: [][2]int64{{100, 0}}, limits: map[string]int64{}, said: map[string]bool{}, after: map[int64]told{}}
}

// written judges an entry that is written behind the others.
func (j *judge) written(number int64, text []byte) {
	entry, err := script.Parse(text)
	if err != nil {
		j.fails(RightProcessFails, "entry %d: %v", number, err)
		return
	}
	switch {
	case entry.Writer == j.writer:
	case len(entry.Steps) > 0 && number > 1:
		j.fails(TwoPrimariesWrite, "entry %d is of %s, and %s took over last", number, entry.Writer, j.writer)
	default:
		j.writer = entry.Writer
	}
	j.counts.Entries++
	if entry.Begins() {
		j.begins(entry)
	}
	refused := map[request]bool{}
	for _, step := range entry.Answers() {
		if step.Answer.IsRefused() {
			refused[request{step.Client, step.Number}] = true
		}
	}
	for at := range entry.Steps {
		j.step(&entry.Steps[at], refused)
	}
	is := told{map[string]int64{}, j.acked}
	for site, limit := range j.limits {
		is.limits[site] = limit
	}
	j.after[number] = is
	if entry.Begins() {
		j.isWanted = false
	}
}

// begins judges the end of an epoch, and begins the next one.
func (j *judge) begins(entry *script.Entry) {
	early := func(why string, words ...any) { j.fails(EpochEndsTooEarly, why, words...) }
	if entry.Epoch != j.epoch+1 {
		early("the epoch %d comes after %d", entry.Epoch, j.epoch)
	}
	if j.epoch > 0 {
		switch {
		case !j.wishes[j.epoch] && j.asks < j.every:
			early("nobody wished for the end of epoch %d, which has %d requests", j.epoch, j.asks)
		case j.acked < j.updates:
			early("the epoch %d has %d updates, of which %d are acknowledged", j.epoch, j.updates, j.acked)
		}
		for name, site := range j.sites {
			if !site.gone && (site.leaves || j.told[name] < j.before+j.updates) {
				early("the site %s has told %d of %d", name, j.told[name], j.before+j.updates)
			}
		}
		for client, number := range j.last {
			if j.carried[client] == nil {
				j.fails(AnswerChanges, "the client %s, which asked under %d, is not carried over", client, number)
			}
		}
	}
	j.epoch, j.before = entry.Epoch, j.before+j.updates
	j.begun[j.epoch], j.settings[j.epoch], j.every = j.before, *entry.Steps[0].Settings, entry.Steps[0].Settings.Every
	j.counts.Epochs++
	j.updates, j.acked, j.asks, j.wished, j.pending, j.carried = 0, 0, 0, false, nil, nil
	j.sites = map[string]standing{}
}

func (j *judge) step(step *script.Step, refused map[request]bool) {
	named := request{step.Client, step.Number}
	switch step.Kind {
	case script.Declare:
		j.declare(strings.Fields(step.Words))
	case script.Known:
		if j.carried == nil {
			j.carried = map[string]*script.Step{}
		}
		j.carried[step.Client] = step
		if has := j.requests[named]; has == nil || has.answer != step.Answer.String() || j.last[step.Client] != step.Number {
			j.fails(AnswerChanges, "%v is carried over with %s, and has %+v", named, step.Answer, has)
		}
	case script.Ask:
		j.ask(named, step.Words, refused[named])
	case script.Leave:
		site := j.sites[step.Site]
		site.leaves = true
		j.sites[step.Site], j.left[step.Site] = site, true
	case script.Gone:
		site := j.sites[step.Site]
		site.gone = true
		j.counts.Gones++
		j.sites[step.Site], j.gone[step.Site] = site, true
	case script.Relimit:
		j.relimit(step)
	case script.Want:
		j.isWanted = true
	case script.Wish:
		j.wished, j.isWanted = true, false
		j.settings[j.epoch+1] = *step.Settings
	case script.Answered:
		j.answer(named, step)
	}
}

func (j *judge) declare(words []string) {
	switch words[0] {
	case "site":
		j.sites[words[1]] = standing{}
		delete(j.gone, words[1])
		j.tells(words[1], j.before) // One that is new, or comes back, begins with the values of the epoch.
	case "limit":
		j.limit(words[1], words[3])
	case "object":
		has := j.values[len(j.values)-1]
		for at, name := range objects {
			if words[1] == name && words[2] != strconv.FormatInt(has[at], 10) {
				j.fails(ValuesDiffer, "the epoch %d begins with %s of %s, and had %d", j.epoch, words[2], name, has[at])
			}
		}
	}
}

func (j *judge) ask(named request, changes string, isRefused bool) {
	if j.requests[named] != nil || j.last[named.client] >= named.number {
		j.fails(RequestIsDoneTwice, "%v is in the script again, after %d", named, j.last[named.client])
	}
	j.asks++
	j.last[named.client] = named.number
	j.requests[named] = &scripted{changes: changes}
	if isRefused {
		return
	}
	j.updates++
	j.pending = append(j.pending, named)
	values := j.values[len(j.values)-1]
	parts := strings.Split(changes, ":")
	number, _ := strconv.ParseInt(parts[len(parts)-1], 10, 64)
	for at, name := range objects {
		if parts[1] == name {
			values[at] += number
		}
	}
	j.values = append(j.values, values)
}

func (j *judge) answer(named request, step *script.Step) {
	has := j.requests[named]
	switch {
	case has == nil:
		j.fails(UpdateIsLost, "%v has the answer %s, and was not asked", named, step.Answer)
		return
	case has.answer != "" && has.answer != step.Answer.String():
		j.fails(AnswerChanges, "%v has the answers %s and %s", named, has.answer, step.Answer)
	}
	has.answer = step.Answer.String()
	if step.Answer.IsRefused() {
		return
	}
	has.place = j.before + step.Answer.Place
	j.acked++
	if j.acked > int64(len(j.pending)) || j.pending[j.acked-1] != named || step.Answer.Place != j.acked || step.Answer.Epoch != j.epoch {
		j.fails(UpdateIsLost, "%v is acknowledged as %s, where %d of %d updates are", named, step.Answer, j.acked, j.updates)
	}
}

// tellsClient judges what a client is told for good.
func (j *judge) tellsClient(asked *epoch.Request, kind epoch.ReplyKind, answer script.Answer, last int64) {
	named := request{asked.Client, asked.Number}
	has := j.requests[named]
	early := func(why string, words ...any) { j.fails(ToldBeforeItIsWritten, why, words...) }
	switch kind {
	case epoch.Answered:
		switch {
		case has == nil || has.answer == "":
			early("%v is told %s, which is not in the script", named, answer)
			return
		case has.answer != answer.String() || has.changes != asked.Changes:
			j.fails(AnswerChanges, "%v is told %s for %s, and the script has %s for %s", named, answer, asked.Changes, has.answer, has.changes)
		}
		if has.place > j.acknowledged {
			j.acknowledged = has.place
		}
	case epoch.Passed:
		if j.last[asked.Client] <= asked.Number || j.last[asked.Client] < last {
			early("%s is told that %d is behind %d, and the script has %d", asked.Client, asked.Number, last, j.last[asked.Client])
		}
	case epoch.Differs:
		if has == nil || has.changes == asked.Changes {
			early("%v is told that it differs, and the script has %+v", named, has)
		}
	}
}

// tellsOperator judges what an operator is told for good: that an epoch has ended, or that it ends by another wish.
func (j *judge) tellsOperator(wish *epoch.Wish, isOther bool) {
	_, isWished := j.settings[wish.From+1]
	switch {
	case isOther && !isWished:
		j.fails(ToldBeforeItIsWritten, "an operator is told that another wish ends the epoch %d, which is not in the script", wish.From)
	case !isOther && j.epoch <= wish.From:
		j.fails(ToldBeforeItIsWritten, "an operator is told that the epoch %d has ended", wish.From)
	}
}

// A glance is what a reader has to see at least, as it takes the values.
type glance struct {
	least  int64
	isGone bool
}

// glance gives what a reader of a site is to see, of which its own process has told so much.
func (j *judge) glance(site string, own int64) glance {
	least, limit := j.told[site], j.limits[site]
	for _, other := range []int64{own, j.before + j.acked - limit, j.acknowledged - limit} {
		if other > least {
			least = other
		}
	}
	return glance{least, j.gone[site]}
}

// place is that of an epoch, counted from the first epoch on.
func (j *judge) place(epoch, place int64) int64 { return j.begun[epoch] + place }

// serves judges what a reader is told.
func (j *judge) serves(who string, place int64, values map[string]int64, must glance) {
	if must.isGone {
		j.fails(GoneSiteServes, "%s serves the place %d", who, place)
	}
	if place < must.least {
		j.fails(ReaderSeesTooLittle, "%s serves the place %d, and %d is to be seen", who, place, must.least)
	}
	if place >= int64(len(j.values)) {
		j.fails(ValuesDiffer, "%s serves the place %d, and there are %d", who, place, len(j.values)-1)
		return
	}
	for at, name := range objects {
		if values[name] != j.values[place][at] {
			j.fails(ValuesDiffer, "%s serves %v at the place %d: %v", who, values, place, j.values[place])
		}
	}
}

// tells notes the place that is told for a site of the script.
func (j *judge) tells(site string, place int64) {
	if place > j.told[site] {
		j.told[site] = place
	}
}

func (f *Failure) String() string { return fmt.Sprintf("%s: %s", f.Property, f.Why) }

// has is whether the epoch has a site of this name.
func (j *judge) has(site string) bool {
	_, isThere := j.sites[site]
	return isThere
}
