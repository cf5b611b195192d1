package sim

import (
	"context"
	"errors"
	"strconv"

	"ordup.dev/node/internal/engine"
	"ordup.dev/node/internal/epoch"
	"ordup.dev/node/internal/fleet"
	"ordup.dev/node/internal/script"
	"ordup.dev/node/internal/site"
)

// changes is what a client asks under a number. Each variant is another text.
func changes(number int64, variant byte) string {
	return [...]string{"add:tea:-1", "add:till:2", "add:salt:1", "add:tea:3"}[(number+int64(variant%2)*3)%4]
}

// ask has a client ask the primary of bit 1. By bits 2 and 4 it asks the same again, or under the next number where it has an answer; under
// the next number though it has none (4); or under one before or with other changes (6, by bit 8). By bit 16 it hears no answer.
func (w *world) ask(client *client, how byte) {
	number, variant := client.number, client.variant
	switch how >> 1 & 3 {
	case 0, 1:
		if client.hasHeard {
			client.next()
			number, variant = client.number, client.variant
		}
	case 2:
		client.next()
		number, variant = client.number, client.variant
	default:
		if how&8 > 0 && number > 1 {
			number--
		} else {
			variant++
		}
	}
	writer := &w.primaries[how&1]
	if !writer.mayTake() {
		return
	}
	w.note("%s asks %s under %d for %s", client.name, writer.own, number, changes(number, variant))
	writer.queue = append(writer.queue, &call{epoch.Request{Client: client.name, Number: number, Changes: changes(number, variant)}, client, how&16 == 0})
}

// next has a client come to its next number.
func (c *client) next() { c.number, c.hasHeard = c.number+1, false }

// tells has a client hear for good what became of its request.
func (w *world) tells(call *call, kind epoch.ReplyKind, answer script.Answer, last int64) {
	w.note("%s is told under %d: %s, %d, %d", call.request.Client, call.request.Number, answer, kind, last)
	w.judge.tellsClient(&call.request, kind, answer, last)
	switch client := call.client; kind {
	case epoch.Answered:
		w.outcome.Counts.Answers++
		client.hasHeard = client.hasHeard || call.isHeard && call.request.Number == client.number
	case epoch.Passed:
		w.outcome.Counts.Passed++
		if call.isHeard && last > client.number {
			client.number, client.hasHeard = last+1, false
		}
	case epoch.Differs:
		w.outcome.Counts.Differs++
	}
}

// wish has an operator wish for the next epoch: again for the one that has ended (1), with other settings (2), without the site far (3) or
// with it (4), in place of another wish (5), or for the end of one that has not begun (6).
func (w *world) wish(writer *primary, how byte) {
	wish := &epoch.Wish{From: w.judge.epoch}
	switch how % 7 {
	case 1:
		wish.From--
	case 2:
		wish.Settings.Every = int64(w.run.Every) + 1
	case 3, 4:
		wish.Declarations = w.declarations(how%7 == 4)
	case 5:
		wish.Settings.Every, wish.Replaces = int64(w.run.Every)+2, true
	case 6:
		wish.From++
	}
	if wish.From < 1 || !writer.mayTake() {
		return
	}
	w.judge.wishes[wish.From] = true
	writer.nexts = append(writer.nexts, wish)
}

// relimit has an operator ask for another limit of the site north, or far (1): 0, 1, 2 or 5 (2 to 6), of a site that there is not (120 on).
func (w *world) relimit(writer *primary, how byte) {
	asked := epoch.Limiting{Site: siteNames[how&1], Limit: script.Limit{Scope: "count", Amount: [...]int64{0, 1, 2, 5}[how>>1&3]}}
	if how >= 120 {
		asked.Site = "nowhere"
	}
	if writer.mayTake() {
		w.note("an operator asks %s for %s %s", writer.own, asked.Site, asked.Limit)
		writer.limits = append(writer.limits, &limitCall{asked: asked})
	}
}

// list has the process of the fleet be started anew, with both its sites or with one alone.
func (w *world) list(how byte) {
	w.listed = []string{"east", "west"}[:2-how%2]
	w.fleet = fleet.New("far", w.listed, w)
}

// find has the fleet look for keys.
func (w *world) find() { w.fleet.Look(context.Background(), w) }

// SiteKeys gives the keys under the name of the fleet.
func (w *world) SiteKeys(_ context.Context, name string) ([]engine.Key, error) {
	keys := []engine.Key{}
	for at := range w.engine.keys {
		if key := &w.engine.keys[at]; key.site == name && key.has() {
			keys = append(keys, engine.Key{Name: key.name, IsLeased: key.id != 0})
		}
	}
	return keys, nil
}

// Tell takes the place of the fleet to a primary.
func (w *world) Tell(_ context.Context, place epoch.Place) error {
	w.judge.tells(place.Site, w.judge.place(place.Epoch, place.Applied))
	w.note("the fleet tells the place %d of epoch %d", place.Applied, place.Epoch)
	return w.takePlace(w.fleetTells, place)
}

// forge gives whoever runs the script an entry that no right primary writes: a number that was asked before (0), a place beyond the updates
// (1), a site that is gone and was not taken out (2), the next epoch before the end of this one (3), or a limit from another update on than
// the head (4).
func (w *world) forge(how byte) {
	j := w.judge
	if j.epoch == 0 || len(j.carried) > 0 {
		return
	}
	step := script.Step{}
	entry := &script.Entry{Epoch: j.epoch, Ordup: versions[0], Writer: "forged"}
	switch how % 5 {
	case 0:
		if j.last["ann"] == 0 {
			return
		}
		step = script.Step{Kind: script.Ask, Client: "ann", Number: j.last["ann"], Words: "add:tea:1"}
	case 1:
		step = script.Step{Kind: script.Tell, Site: "north", Count: j.updates + 1}
	case 2:
		step = script.Step{Kind: script.Gone, Site: "north"}
	case 3:
		if j.wished || j.asks >= j.every {
			return
		}
		settings := j.settings[j.epoch]
		entry.Epoch++
		step = script.Step{Kind: script.Begin, Settings: &settings}
	case 4:
		step = script.Step{Kind: script.Relimit, Site: "north", Limit: script.Limit{Scope: "count", Amount: 9}, Answer: script.Answer{Place: j.acked + 2}}
	}
	entry.Steps = append(entry.Steps, step)
	if entry.Begins() {
		values := j.values[len(j.values)-1]
		for at, line := range w.declarations(j.has("far")) {
			if at < len(objects) {
				line = objectLine(objects[at], values[at])
			}
			entry.Steps = append(entry.Steps, script.Step{Kind: script.Declare, Words: line})
		}
	}
	w.outcome.Counts.Forged++
	w.refuses(epoch.New(epoch.Config{Open: openModel, Writer: "reader", Versions: versions}, w.engine.first), entry)
	w.refuses(site.NewReplica(openModel, versions, "north", w.engine.first), entry)
}

// A runner runs a script.
type runner interface {
	Next() int64
	Replay(number int64, entry *script.Entry) error
	Close()
}

// refuses looks whether somebody who has run the script refuses an entry behind it.
func (w *world) refuses(by runner, forged *script.Entry) {
	defer by.Close()
	for {
		raw, isThere := w.engine.from(by.Next())
		if !isThere {
			break
		}
		entry, err := epoch.Parse(raw.Number, raw.Text)
		if err == nil {
			err = by.Replay(raw.Number, entry)
		}
		if err != nil {
			return
		}
	}
	entry, err := script.Parse(forged.Text())
	if err != nil {
		w.fails(RightProcessFails, "a forged entry cannot be read: %v", err)
		return
	}
	var broken *epoch.BrokenError
	if err = by.Replay(by.Next(), entry); !errors.As(err, &broken) {
		w.fails(WriterIsBelieved, "%T takes %q: %v", by, forged.Text(), err)
	}
}

func objectLine(name string, value int64) string {
	return "object " + name + " " + strconv.FormatInt(value, 10)
}
