package sim

import (
	"bytes"
	"errors"
	"strconv"
	"strings"

	"ordup.dev/ordup/answer"

	"ordup.dev/node/internal/store"
)

// A model is a store of ordup, as package modelstore has one, without any text between it and who asks it: a run opens hundreds. It knows
// objects, sites, limits by count, which change, requests to add, and a query.
type model struct {
	objects  []string
	values   []int64
	sites    []*modelSite
	log      []added
	acked    int
	round    []*modelSite
	isRound  bool
	isOpened bool
	// The site at which the one query reads, and its reference.
	reads *modelSite
	place int
}

type added struct {
	object int
	number int64
}

type modelSite struct {
	name, capacity          string
	limit                   int
	sent, applied, reported int
	values                  []int64
}

// openModel gives a store.
func openModel() (store.Store, error) { return &model{}, nil }

// Close does nothing.
func (m *model) Close() error { return nil }

// Record gives none: nobody audits a simulation.
func (m *model) Record(string) (string, error) { return "", errors.New("a model has no record") }

// NextDeclarations gives the declarations of the successor.
func (m *model) NextDeclarations() (string, error) {
	if m.acked < len(m.log) {
		return "", errors.New("an update is not acknowledged yet")
	}
	var text strings.Builder
	for at, name := range m.objects {
		text.WriteString("object " + name + " " + strconv.FormatInt(m.values[at], 10) + "\n")
	}
	for _, site := range m.sites {
		text.WriteString("site " + site.name + " " + site.capacity + "\n")
	}
	for _, site := range m.sites {
		if site.limit >= 0 {
			text.WriteString("limit " + site.name + " count " + strconv.Itoa(site.limit) + "\n")
		}
	}
	return text.String() + "start\n", nil
}

// Answers answers the lines of a text.
func (m *model) Answers(lines []byte) ([]answer.Answer, error) {
	answers := make([]answer.Answer, 0, bytes.Count(lines, []byte{'\n'}))
	for text := string(lines); text != ""; {
		var line string
		line, text, _ = strings.Cut(text, "\n")
		kind, rest, _ := strings.Cut(line, " ")
		given := m.answer(kind, rest)
		if refused, isRefused := given.(*answer.Refused); isRefused {
			refused.Line = line
		}
		answers = append(answers, given)
	}
	return answers, nil
}

func refuse(number int, name string) answer.Answer {
	return &answer.Refused{Number: number, Name: name}
}

func (m *model) answer(kind, rest string) answer.Answer {
	switch kind {
	case "object", "site", "limit":
		return m.declare(kind, rest)
	case "start":
		return m.start()
	case "propose":
		return m.propose(rest)
	case "settle":
		return m.settle()
	case "relimit":
		return m.relimit(rest)
	case "begin", "read", "abandon":
		return m.query(kind, rest)
	}
	if site := m.of(rest); site != nil {
		return m.move(kind, site)
	}
	return refuse(8, "UnknownSite")
}

func (m *model) of(name string) *modelSite {
	for _, site := range m.sites {
		if site.name == name {
			return site
		}
	}
	return nil
}

func (m *model) declare(kind, rest string) answer.Answer {
	name, rest, _ := strings.Cut(rest, " ")
	switch {
	case m.isOpened:
		return refuse(3, "AlreadyStarted")
	case kind == "object":
		value, err := strconv.ParseInt(rest, 10, 64)
		if err != nil {
			return refuse(1, "Syntax")
		}
		m.objects, m.values = append(m.objects, name), append(m.values, value)
	case kind == "site":
		m.sites = append(m.sites, &modelSite{name: name, capacity: rest, limit: -1})
	default:
		scope, number, _ := strings.Cut(rest, " ")
		limit, err := strconv.Atoi(number)
		site := m.of(name)
		if err != nil || scope != "count" || site == nil {
			return refuse(1, "Syntax")
		}
		site.limit = limit
	}
	return answer.Declared{Kind: kind, Name: name}
}

func (m *model) start() answer.Answer {
	if len(m.objects) == 0 || len(m.sites) == 0 {
		return refuse(11, "Empty")
	}
	for _, site := range m.sites {
		site.values = append([]int64{}, m.values...)
	}
	m.isOpened = true
	return answer.Started{}
}

// propose takes a request of one change: add:OBJECT:NUMBER.
func (m *model) propose(changes string) answer.Answer {
	kind, rest, _ := strings.Cut(changes, ":")
	name, digits, _ := strings.Cut(rest, ":")
	number, err := strconv.ParseInt(digits, 10, 64)
	if kind != "add" || err != nil {
		return refuse(1, "Syntax")
	}
	for at, object := range m.objects {
		if object == name {
			m.values[at] += number
			m.log = append(m.log, added{at, number})
			return answer.Proposed{Place: uint64(len(m.log))}
		}
	}
	return refuse(6, "UnknownObject")
}

func (m *model) settle() answer.Answer {
	head := m.acked + 1
	if head > len(m.log) {
		return refuse(17, "NothingToSettle")
	}
	state := answer.Waiting
	if !m.isRound {
		state, m.isRound = answer.Round, true
		for _, site := range m.sites {
			if site.limit >= 0 && head-site.reported > site.limit {
				m.round = append(m.round, site)
			}
		}
	}
	var waits []string
	for _, site := range m.round {
		if site.reported < head {
			waits = append(waits, site.name)
		}
	}
	if len(waits) > 0 {
		return answer.Settled{State: state, Place: uint64(head), Sites: waits}
	}
	m.acked, m.round, m.isRound = head, m.round[:0], false
	return answer.Settled{State: answer.Acked, Place: uint64(head)}
}

func (m *model) move(kind string, site *modelSite) answer.Answer {
	switch kind {
	case "send":
		if site.sent == len(m.log) {
			return refuse(14, "NothingToSend")
		}
		site.sent++
		return answer.Sent{Site: site.name, Place: uint64(site.sent)}
	case "apply":
		if site.applied == site.sent {
			return refuse(16, "NothingToApply")
		}
		change := m.log[site.applied]
		site.values[change.object] += change.number
		site.applied++
		return answer.Applied{Site: site.name, Place: uint64(site.applied)}
	case "report":
		site.reported = site.applied
		return answer.Reported{Site: site.name, Applied: uint64(site.reported)}
	case "show":
		values := make(map[string]int64, len(m.objects))
		for at, name := range m.objects {
			values[name] = site.values[at]
		}
		return answer.Shown{Site: site.name, Sent: uint64(site.sent), Applied: uint64(site.applied), Reported: uint64(site.reported), Values: values}
	}
	return refuse(1, "Syntax")
}

// relimit takes another limit of a site: SITE count NUMBER.
func (m *model) relimit(rest string) answer.Answer {
	name, rest, _ := strings.Cut(rest, " ")
	scope, number, _ := strings.Cut(rest, " ")
	limit, err := strconv.Atoi(number)
	site := m.of(name)
	switch {
	case err != nil || scope != "count":
		return refuse(1, "Syntax")
	case site == nil:
		return refuse(8, "UnknownSite")
	case m.isRound:
		return refuse(24, "HeadPending")
	case m.acked-site.reported > limit:
		return refuse(25, "LagOver")
	}
	site.limit = limit
	return answer.Relimited{Site: name, Place: uint64(m.acked + 1)}
}

// query begins and ends the one query, and reads by it.
func (m *model) query(kind, rest string) answer.Answer {
	query, rest, _ := strings.Cut(rest, " ")
	switch kind {
	case "abandon":
		return answer.Abandoned{Query: query}
	case "begin":
		name, _, _ := strings.Cut(rest, " ")
		m.reads, m.place = m.of(name), m.acked
		return answer.Begun{Query: query, Place: uint64(m.place)}
	}
	from, to := m.reads.applied, m.place
	if from > to {
		from, to = to, from
	}
	read := answer.Read{Query: query, Object: rest}
	for at, name := range m.objects {
		if name != rest {
			continue
		}
		read.Value = m.reads.values[at]
		for _, change := range m.log[from:to] {
			switch {
			case change.object != at:
			case change.number < 0:
				read.Imported += uint64(-change.number)
			default:
				read.Imported += uint64(change.number)
			}
		}
	}
	return read
}
