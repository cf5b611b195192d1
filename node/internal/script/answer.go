package script

import "strconv"

// An Answer is what was decided about a request, for good: its update is acknowledged as the one at Place in the log of Epoch, or the store
// refuses it.
type Answer struct {
	Place, Epoch int64
	// Refusal is that of the store, or zero.
	Refusal Refusal
}

// A Refusal is one of the store, by its number and its name.
type Refusal struct {
	Number int64
	Name   string
}

// IsRefused is whether the store refuses the update.
func (a *Answer) IsRefused() bool { return a.Refusal != Refusal{} }

// String is the answer as an entry has it: `ok acked K epoch E`, or `refused N NAME`.
func (a Answer) String() string { return string(a.append(nil)) }

// String is the refusal as an entry has it.
func (r Refusal) String() string { return string(r.append(nil)) }

func (r *Refusal) append(to []byte) []byte {
	to = strconv.AppendInt(append(to, "refused "...), r.Number, 10)
	return append(append(to, ' '), r.Name...)
}

func (a *Answer) append(to []byte) []byte {
	if a.IsRefused() {
		return a.Refusal.append(to)
	}
	to = strconv.AppendInt(append(to, "ok acked "...), a.Place, 10)
	return strconv.AppendInt(append(to, " epoch "...), a.Epoch, 10)
}

// appendLimit appends the answer to a change of a limit: `ok PLACE` or `refused N NAME`.
func (a *Answer) appendLimit(to []byte) []byte {
	if a.IsRefused() {
		return a.Refusal.append(to)
	}
	return strconv.AppendInt(append(to, "ok "...), a.Place, 10)
}

// limited reads the answer to a change of a limit up to the end of the line.
func (w *words) limited() Answer {
	first := w.next()
	if first == "refused" {
		return Answer{Refusal: Refusal{w.number(1, MostCounted), w.word(mostWordBytes)}}
	}
	w.keep(first == "ok")
	return Answer{Place: w.number(1, MostCounted+1)} // A log that is full has no such update.
}

// answer reads an answer up to the end of the line.
func (w *words) answer() Answer {
	first := w.next()
	if first == "refused" {
		return Answer{Refusal: Refusal{w.number(1, MostCounted), w.word(mostWordBytes)}}
	}
	w.keep(first == "ok")
	w.skip("acked")
	place := w.number(1, MostCounted)
	w.skip("epoch")
	return Answer{Place: place, Epoch: w.number(1, MostNumber)}
}
