package site

import (
	"fmt"

	"ordup.dev/ordup/answer"

	"ordup.dev/node/internal/epoch"
	"ordup.dev/node/internal/script"
)

// acknowledge has the store know what is acknowledged. Its one site has reported all by then, so nothing waits.
func (r *Replica) acknowledge() error {
	acked := r.acked
	if r.acked = r.judge.Acknowledged(); acked == r.acked {
		return nil
	}
	r.text = append(append(append(r.text[:0], "report "...), r.name...), '\n')
	for ; acked < r.acked; acked++ {
		r.text = append(r.text, "settle\n"...)
	}
	return r.run(r.text, func(given answer.Answer) bool {
		settled, isSettled := given.(answer.Settled)
		return isDone(given) && (!isSettled || settled.State == answer.Acked)
	})
}

// relimit has the store look at the limits of the site that the entry changes. It refuses what no store takes, as the script must have it
// then. That it takes the others says nothing, since it knows of no round, of no update that the site lacks, and of few limits.
func (r *Replica) relimit(entry *script.Entry) error {
	for at := range entry.Steps {
		step := &entry.Steps[at]
		if step.Kind != script.Relimit || step.Site != r.name {
			continue
		}
		err := r.run(step.AppendLines(r.text[:0]), func(given answer.Answer) bool {
			refused, isRefused := given.(*answer.Refused)
			return !isRefused || step.Answer.Refusal == epoch.RefusalOf(refused)
		})
		if err != nil {
			return err
		}
	}
	return nil
}

// imports are how far each value may be from what the acknowledged updates make of it, where it may: the store weighs the updates that are
// shown beyond them.
func (r *Replica) imports(values map[string]int64) (map[string]int64, error) {
	if r.store == nil || r.place == r.acked {
		return nil, nil
	}
	r.text = append(r.text[:0], fmt.Sprintf("begin read %s %d\n", r.name, script.MostAmount)...)
	for object := range values {
		r.text = append(append(append(r.text, "read read "...), object...), '\n')
	}
	imports := map[string]int64{}
	return imports, r.run(append(r.text, "abandon read\n"...), func(given answer.Answer) bool {
		read, isRead := given.(answer.Read)
		if isRead && read.Imported > 0 {
			imports[read.Object] = int64(read.Imported)
		}
		return isDone(given) && (!isRead || read.Value == values[read.Object])
	})
}
