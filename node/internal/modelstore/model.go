// Package modelstore has a store for tests, which link no library: a plain model of the lines that the program gives a store.
//
// It knows objects, sites, limits by count which change, add and set, and queries that read at a site. It keeps the whole of what it is given, and is slow.
package modelstore

import (
	"errors"
	"fmt"
	"strconv"
	"strings"

	"ordup.dev/ordup/answer"

	"ordup.dev/node/internal/store"
)

// mostValue is the greatest value of an object, as in ordup.
const mostValue = 1_000_000_000

// mostLimit is the greatest amount of a limit.
const mostLimit = 1_000_000_000_000_000_000

// A Model is a store before or after its start.
type Model struct {
	objects []string
	values  map[string]int64
	sites   []string
	at      map[string]*site
	started bool
	log     []string
	acked   int
	round   []string
	// The site at which the one query reads, or nil, and its reference.
	reads *site
	place int
	// The values before the first update.
	first map[string]int64
	// Wrong, where it is not nil, changes the answer to a line: a store that is wrong.
	Wrong func(line, answer string) string
}

type site struct {
	capacity                string
	limit                   int
	sent, applied, reported int
	values                  map[string]int64
}

// Open gives a model.
func Open() (store.Store, error) {
	return &Model{values: map[string]int64{}, at: map[string]*site{}}, nil
}

// Close does nothing.
func (m *Model) Close() error { return nil }

// Answers answers the lines of a text.
func (m *Model) Answers(lines []byte) ([]answer.Answer, error) {
	var answers strings.Builder
	for _, line := range strings.Split(strings.TrimSuffix(string(lines), "\n"), "\n") {
		if !answer.HasAnswer(line) {
			continue
		}
		says := m.answer(strings.Fields(line))
		if m.Wrong != nil {
			says = m.Wrong(line, says)
		}
		answers.WriteString(says + "\n")
	}
	return answer.ParseAll(answers.String(), lines)
}

// NextDeclarations gives the declarations of the successor.
func (m *Model) NextDeclarations() (string, error) {
	if m.acked < len(m.log) {
		return "", errors.New("an update is not acknowledged yet")
	}
	text := ""
	for _, name := range m.objects {
		text += fmt.Sprintf("object %s %d\n", name, m.values[name])
	}
	for _, name := range m.sites {
		text += fmt.Sprintf("site %s %s\n", name, m.at[name].capacity)
	}
	for _, name := range m.sites {
		if limit := m.at[name].limit; limit >= 0 {
			text += fmt.Sprintf("limit %s count %d\n", name, limit)
		}
	}
	return text + "start\n", nil
}

// Record gives no record that an auditor would read: a Checker of this package takes it.
func (m *Model) Record(site string) (string, error) { return "record " + site + "\n", nil }

// A Checker says yes to any record.
type Checker struct{}

// Check says yes.
func (Checker) Check([]byte) (answer.Verdict, error) { return answer.Verdict{Kind: answer.Yes}, nil }

// CheckSeries says yes.
func (Checker) CheckSeries([]byte) (answer.SeriesVerdict, error) {
	return answer.SeriesVerdict{Kind: answer.Yes}, nil
}

func (m *Model) answer(words []string) string {
	if len(words) == 0 {
		return "refused 1 Syntax"
	}
	kind := words[0]
	isDeclaration := kind == "object" || kind == "site" || kind == "limit" || kind == "start"
	switch {
	case isDeclaration && m.started:
		return "refused 3 AlreadyStarted"
	case isDeclaration:
		return m.declare(words)
	case !m.started:
		return "refused 2 NotStarted"
	case kind == "propose":
		return m.propose(words[1:])
	case kind == "settle":
		return m.settle()
	case kind == "relimit":
		return m.relimit(words[1:])
	case kind == "begin" || kind == "read" || kind == "abandon":
		return m.query(kind, words[1:])
	case len(words) == 2 && m.at[words[1]] == nil:
		return "refused 8 UnknownSite"
	case len(words) == 2:
		return m.move(kind, words[1], m.at[words[1]])
	}
	return "refused 1 Syntax"
}

func (m *Model) declare(words []string) string {
	switch {
	case words[0] == "object" && len(words) == 3:
		value, err := strconv.ParseInt(words[2], 10, 64)
		if err != nil {
			return "refused 1 Syntax"
		}
		m.objects, m.values[words[1]] = append(m.objects, words[1]), value
	case words[0] == "site" && len(words) == 3:
		m.sites, m.at[words[1]] = append(m.sites, words[1]), &site{capacity: words[2], limit: -1}
	case words[0] == "limit" && len(words) == 4 && words[2] == "count" && m.at[words[1]] != nil:
		m.at[words[1]].limit, _ = strconv.Atoi(words[3])
	case words[0] == "start" && len(words) == 1:
		return m.start()
	default:
		return "refused 1 Syntax"
	}
	return "ok " + words[0] + " " + words[1]
}

func (m *Model) start() string {
	if len(m.objects) == 0 || len(m.sites) == 0 {
		return "refused 11 Empty"
	}
	for _, site := range m.at {
		site.values = map[string]int64{}
		for name, value := range m.values {
			site.values[name] = value
		}
	}
	m.started, m.first = true, m.values
	return "ok start"
}

func (m *Model) propose(changes []string) string {
	if len(changes) == 0 {
		return "refused 11 Empty"
	}
	values := map[string]int64{}
	for name, value := range m.values {
		values[name] = value
	}
	if refused := change(values, changes); refused != "" {
		return refused
	}
	m.values = values
	m.log = append(m.log, strings.Clone(strings.Join(changes, " ")))
	return fmt.Sprintf("ok proposed %d", len(m.log))
}

func change(values map[string]int64, changes []string) string {
	for _, text := range changes {
		parts := strings.Split(text, ":")
		if len(parts) != 3 {
			return "refused 1 Syntax"
		}
		number, err := strconv.ParseInt(parts[2], 10, 64)
		value, isThere := values[parts[1]]
		switch {
		case err != nil || parts[0] != "add" && parts[0] != "set":
			return "refused 1 Syntax"
		case !isThere:
			return "refused 6 UnknownObject"
		case parts[0] == "add":
			number += value
		}
		if number > mostValue || number < -mostValue {
			return "refused 9 OutOfRange"
		}
		values[parts[1]] = number
	}
	return ""
}

func (m *Model) settle() string {
	head := m.acked + 1
	if head > len(m.log) {
		return "refused 17 NothingToSettle"
	}
	kind := "waiting"
	if m.round == nil {
		kind = "round"
		for _, name := range m.sites {
			if site := m.at[name]; site.limit >= 0 && head-site.reported > site.limit {
				m.round = append(m.round, name)
			}
		}
	}
	waits := ""
	for _, name := range m.round {
		if m.at[name].reported < head {
			waits += " " + name
		}
	}
	if waits != "" {
		return fmt.Sprintf("ok %s %d%s", kind, head, waits)
	}
	m.acked, m.round = head, nil
	return fmt.Sprintf("ok acked %d", head)
}

// relimit changes the limit by count, which holds from the head on.
func (m *Model) relimit(words []string) string {
	if len(words) != 3 || words[1] != "count" {
		return "refused 1 Syntax"
	}
	site := m.at[words[0]]
	if site == nil {
		return "refused 8 UnknownSite"
	}
	limit, err := strconv.Atoi(words[2])
	switch {
	case err != nil:
		return "refused 1 Syntax"
	case limit > mostLimit:
		return "refused 9 OutOfRange"
	case m.round != nil:
		return "refused 24 HeadPending"
	case m.acked-site.reported > limit:
		return "refused 25 LagOver"
	}
	site.limit = limit
	return fmt.Sprintf("ok relimit %s %d", words[0], m.acked+1)
}

// query begins the one query, or reads by it what the updates between its site and its reference weigh on an object.
func (m *Model) query(kind string, words []string) string {
	switch {
	case kind == "begin" && len(words) == 3 && m.at[words[1]] == nil:
		return "refused 8 UnknownSite"
	case kind == "begin" && len(words) == 3:
		m.reads, m.place = m.at[words[1]], m.acked
		return fmt.Sprintf("ok begun %s %d", words[0], m.place)
	case m.reads == nil:
		return "refused 18 UnknownQuery"
	case kind == "abandon":
		m.reads = nil
		return "ok abandoned " + words[0]
	case kind != "read" || len(words) != 2:
		return "refused 1 Syntax"
	}
	value, isThere := m.reads.values[words[1]]
	if !isThere {
		return "refused 6 UnknownObject"
	}
	from, to, weight := m.reads.applied, m.place, int64(0)
	if from > to {
		from, to = to, from
	}
	values := map[string]int64{}
	for name := range m.values {
		values[name] = m.first[name]
	}
	for at, changes := range m.log[:to] {
		before := values[words[1]]
		change(values, strings.Fields(changes))
		if moved := values[words[1]] - before; at >= from && moved > 0 {
			weight += moved
		} else if at >= from {
			weight -= moved
		}
	}
	return fmt.Sprintf("ok read %s %s value %d import %d total %d", words[0], words[1], value, weight, weight)
}

func (m *Model) move(kind, name string, site *site) string {
	switch kind {
	case "send":
		if site.sent == len(m.log) {
			return "refused 14 NothingToSend"
		}
		site.sent++
		return fmt.Sprintf("ok sent %s %d", name, site.sent)
	case "apply":
		if site.applied == site.sent {
			return "refused 16 NothingToApply"
		}
		change(site.values, strings.Fields(m.log[site.applied]))
		site.applied++
		return fmt.Sprintf("ok applied %s %d", name, site.applied)
	case "report":
		site.reported = site.applied
		return fmt.Sprintf("ok reported %s %d", name, site.reported)
	case "show":
		text := fmt.Sprintf("ok show %s sent %d applied %d reported %d rounds 0", name, site.sent, site.applied, site.reported)
		for _, object := range m.objects {
			text += fmt.Sprintf(" %s=%d", object, site.values[object])
		}
		return text
	}
	return "refused 1 Syntax"
}

// OpenWrong opens models that change their answers.
func OpenWrong(wrong func(line, answer string) string) store.Open {
	return func() (store.Store, error) {
		opened, err := Open()
		opened.(*Model).Wrong = wrong
		return opened, err
	}
}
