package epoch

import (
	"bytes"
	"fmt"
	"strconv"
	"testing"
	"time"

	"ordup.dev/ordup/answer"

	"ordup.dev/node/internal/script"
	"ordup.dev/node/internal/store"
)

// A plain store answers as one without limits does, and computes nothing: what is measured is the core.
type plain struct {
	proposed, acked int64
	places          map[string]int64
	answers         []byte
}

func (p *plain) Answers(lines []byte) ([]answer.Answer, error) {
	p.answers = p.answers[:0]
	for left := lines; len(left) > 0; {
		end := bytes.IndexByte(left, '\n')
		p.answer(left[:end])
		left = left[end+1:]
	}
	return answer.ParseAll(string(p.answers), lines)
}

func (p *plain) answer(line []byte) {
	say := func(words string, number int64) {
		p.answers = append(strconv.AppendInt(append(p.answers, words...), number, 10), '\n')
	}
	switch line[1] {
	case 'r': // propose
		p.proposed++
		say("ok proposed ", p.proposed)
	case 'e':
		switch line[0] {
		case 's':
			if line[2] == 't' {
				p.acked++
				say("ok acked ", p.acked)
			} else {
				say("ok sent south ", 1)
			}
		case 'r':
			name := string(line[len("report "):])
			say("ok reported "+name+" ", p.places[name])
		}
	case 'p':
		p.places[string(line[len("apply "):])]++
		say("ok applied south ", 1)
	case 'i':
		p.answers = append(append(append(p.answers, "ok site "...), bytes.Fields(line)[1]...), '\n')
	default:
		p.answers = append(p.answers, "ok start\n"...)
	}
}

func (p *plain) NextDeclarations() (string, error) { return "", nil }
func (p *plain) Record(string) (string, error)     { return "", nil }
func (p *plain) Close() error                      { return nil }

// written gives the entries of so many updates, a thousand a batch, with four sites.
func written(b *testing.B, updates int) []*script.Entry {
	config := Config{Open: func() (store.Store, error) { return &plain{places: map[string]int64{}}, nil }, Writer: "p1", Versions: []string{"1"}}
	begin := &script.Entry{Epoch: 1, Ordup: "1", Writer: "p1", Steps: beginning(script.Settings{Every: MostEvery, Remembers: 1, Origin: "0", Ordup: "1",
		Began: script.Began{Every: 1, Remembers: 1, Origin: "0"}},
		[]string{"object tea 1", "site north 1", "site south 1", "site east 1", "site west 1", "start"})}
	core, entries := New(config, 1), []*script.Entry{begin}
	if err := core.Replay(1, begin); err != nil {
		b.Fatal(err)
	}
	for count := 0; count < updates; {
		requests := []Request{}
		for client := 0; client < 1000 && count < updates; client++ {
			requests = append(requests, Request{fmt.Sprintf("client-%d", client), int64(count/1000 + 1), "add:tea:-1 add:till:2"})
			count++
		}
		for _, site := range core.sites.all {
			if err := core.Tell(Place{Site: site.name, Epoch: 1, Applied: core.updates}, time.Hour); err != nil {
				b.Fatal(err)
			}
		}
		if _, err := core.Ask(requests, time.Hour); err != nil {
			b.Fatal(err)
		}
		if _, err := core.Work(time.Hour); err != nil {
			b.Fatal(err)
		}
		batch, err := core.Seal(time.Hour)
		if err != nil {
			b.Fatal(err)
		}
		core.Written(batch.Number)
		entries = append(entries, batch.Entry())
	}
	return entries
}

// BenchmarkBatches is an update from its request to the text of its entry.
func BenchmarkBatches(b *testing.B) {
	b.ReportAllocs()
	written(b, b.N)
}

// BenchmarkReplay is an update as a process that starts runs it, from the text of its entry.
func BenchmarkReplay(b *testing.B) {
	texts := [][]byte{}
	bytes := 0
	for _, entry := range written(b, b.N) {
		texts = append(texts, entry.Text())
		bytes += len(texts[len(texts)-1])
	}
	core := New(Config{Open: func() (store.Store, error) { return &plain{places: map[string]int64{}}, nil }, Versions: []string{"1"}}, 1)
	b.ReportAllocs()
	b.ReportMetric(float64(bytes)/float64(b.N), "bytes/update")
	b.ResetTimer()
	for at, text := range texts {
		entry, err := script.Parse(text)
		if err == nil {
			err = core.Replay(int64(at+1), entry)
		}
		if err != nil {
			b.Fatal(err)
		}
	}
}

// BenchmarkCarry is a client that is carried over to the next epoch, from the end of the one before to the text of its entry. No update is
// taken meanwhile, so it tells also how many entries that is, one after another, for 300,000 clients, and of how many bytes.
func BenchmarkCarry(b *testing.B) {
	core := New(Config{Open: func() (store.Store, error) { return &plain{places: map[string]int64{}}, nil }, Writer: "p1", Versions: []string{"1"}}, 1)
	begins := beginning(script.Settings{Every: MostEvery, Remembers: 1, Origin: "0", Ordup: "1"}, []string{"object tea 1", "site north 1", "start"})
	if err := core.Replay(1, &script.Entry{Epoch: 1, Ordup: "1", Writer: "p1", Steps: begins}); err != nil {
		b.Fatal(err)
	}
	for at := 0; at < b.N; at++ {
		core.clients.take(client{name: fmt.Sprintf("client-%d", at), number: 1, digest: script.DigestOf("add:tea:-1"), epoch: 1, asked: 1})
		core.clients.answer(asker{fmt.Sprintf("client-%d", at), 1, ""}, script.Answer{Place: int64(at + 1), Epoch: 1}, 1)
	}
	core.startCarry(2)
	b.ReportAllocs()
	b.ResetTimer()
	entries, bytes := 0, 0
	for carried := 0; carried < b.N; entries++ {
		batch, err := core.Seal(time.Hour)
		if err != nil {
			b.Fatal(err)
		}
		core.Written(batch.Number)
		carried, bytes = carried+len(batch.Entry().Steps), bytes+len(batch.Text)
	}
	b.ReportMetric(float64(entries)*300_000/float64(b.N), "entries")
	b.ReportMetric(float64(bytes)/float64(b.N), "bytes/client")
}
