package numbers

import (
	"fmt"
	"os"
	"regexp"
	"strings"
	"testing"
	"time"

	"ordup.dev/node/internal/engine"
	"ordup.dev/node/internal/epoch"
	"ordup.dev/node/internal/exit"
	"ordup.dev/node/internal/fleet"
	"ordup.dev/node/internal/primary"
	"ordup.dev/node/internal/script"
	"ordup.dev/node/internal/site"
	"ordup.dev/node/internal/wire"
)

// machines is the page for operators.
func machines(t *testing.T) string {
	t.Helper()
	text, err := os.ReadFile("../../../docs/MACHINES.md")
	if err != nil {
		t.Fatal(err)
	}
	return string(text)
}

// toldOf are the numbers that the page has of each kind of process, each as `name{label} type`.
func toldOf(t *testing.T, page string) map[string]map[string]bool {
	t.Helper()
	_, table, isThere := strings.Cut(page, "\nprocess | numbers\n---|---\n")
	if !isThere {
		t.Fatal("the page has no table of the numbers")
	}
	table, _, _ = strings.Cut(table, "\n\n")
	told := map[string]map[string]bool{"primary": {}, "site": {}, "fleet": {}}
	for _, row := range strings.Split(table, "\n") {
		heads, numbers, _ := strings.Cut(row, " | ")
		kinds := strings.Split(heads, ", ")
		if heads == "each" {
			kinds = []string{"primary", "site", "fleet"}
		}
		for _, kind := range kinds {
			for _, number := range regexp.MustCompile("(the histogram )?`([^`]+)`").FindAllStringSubmatch(numbers, -1) {
				name := number[2] + " " + typeOf(number[2], number[1] != "")
				if told[kind] == nil || told[kind][name] {
					t.Errorf("the page has twice, or of no process: %s of a %s", name, kind)
					continue
				}
				told[kind][name] = true
			}
		}
	}
	return told
}

// typeOf is the type that a name stands for by Prometheus' conventions.
func typeOf(name string, isHistogram bool) string {
	plain, _, _ := strings.Cut(name, "{")
	switch {
	case isHistogram:
		return "HISTOGRAM"
	case strings.HasSuffix(plain, "_total"):
		return "COUNTER"
	}
	return "GAUGE"
}

// madeBy are the numbers that a process makes, in the same form.
func madeBy(t *testing.T, numbers *Numbers) map[string]bool {
	families, err := numbers.registry.Gather()
	if err != nil {
		t.Fatal(err)
	}
	made := map[string]bool{}
	for _, family := range families {
		if name := strings.TrimPrefix(family.GetName(), "ordup_"); name != family.GetName() {
			labels, label := []string{}, ""
			for _, each := range family.Metric[0].Label {
				labels = append(labels, each.GetName())
			}
			if len(labels) > 0 {
				label = "{" + strings.Join(labels, ",") + "}"
			}
			made[name+label+" "+family.GetType().String()] = true
		}
	}
	return made
}

func allMade(t *testing.T) map[string]map[string]bool {
	members := func() fleet.Status {
		return fleet.Status{Members: []fleet.MemberStatus{{Place: epoch.Place{Member: "east", Epoch: 2}}}}
	}
	served := func() site.Status { return site.Status{HasTold: true, HasSeen: true} }
	all := map[string]map[string]bool{}
	for kind, numbers := range map[string]*Numbers{"primary": OfPrimary("1", zero, func() primary.Status { return status }).Numbers,
		"site": OfSite("1", "north", zero, served), "fleet": OfFleet("1", zero, members)} {
		numbers.Shows(func() map[string]time.Time { return map[string]time.Time{"node.pem": time.Unix(1_900_000_000, 0)} })
		all[kind] = madeBy(t, numbers)
	}
	return all
}

func TestThePageHasEachNumberWithItsType(t *testing.T) {
	t.Parallel()
	told := toldOf(t, machines(t))
	for kind, made := range allMade(t) {
		for number := range made {
			if !told[kind][number] {
				t.Errorf("the page has no %s of a %s", number, kind)
			}
		}
		for number := range told[kind] {
			if !made[number] {
				t.Errorf("a %s has no %s", kind, number)
			}
		}
	}
}

func TestThePageTheAlertsAndTheDashboardNameNoOtherNumber(t *testing.T) {
	t.Parallel()
	names := map[string]bool{}
	for _, made := range allMade(t) {
		for number := range made {
			name, _, _ := strings.Cut(strings.Fields(number)[0], "{")
			names["ordup_"+name] = true
			if strings.HasSuffix(number, " HISTOGRAM") {
				names["ordup_"+name+"_bucket"] = true
			}
		}
	}
	for _, file := range []string{"docs/MACHINES.md", "docs/HOSTS.md", "node/prometheus/ordup-node.rules.yml", "node/grafana/ordup-node.json"} {
		text, err := os.ReadFile("../../../" + file)
		if err != nil {
			t.Fatal(err)
		}
		named := regexp.MustCompile(`\bordup_\w+`).FindAllString(string(text), -1)
		if len(named) == 0 {
			t.Errorf("no number is in %s", file)
		}
		for _, name := range named {
			if !names[name] {
				t.Errorf("there is no %s, which is in %s", name, file)
			}
		}
	}
}

// words are the numbers that the page writes out.
var words = []string{"none", "one", "two", "three", "four", "five", "six", "seven", "eight", "nine", "ten"}

// grouped is a number with a comma before each three digits.
func grouped(number int64) string {
	if number < 1000 {
		return fmt.Sprint(number)
	}
	return fmt.Sprintf("%s,%03d", grouped(number/1000), number%1000)
}

// Each number of this list is one of the code.
func TestThePageHasTheStatusesAndSizesOfTheCode(t *testing.T) {
	t.Parallel()
	page, status := machines(t), func(name wire.Name) int { return wire.NewError(name, "").Status }
	seconds := func(time time.Duration) string { return words[int(time.Seconds())] }
	for _, says := range []string{
		fmt.Sprintf("The engine drops it %s seconds after it was renewed; the process relies on it for %s,", seconds(engine.LeaseTime), seconds(engine.Relied)),
		fmt.Sprintf("After `--every` requests, %s by default,", grouped(primary.UsualEvery)),
		fmt.Sprintf("a client that has not asked for %s epochs, and for %s minutes, is forgotten.", words[primary.UsualRemembers],
			words[primary.UsualSeconds/60]),
		fmt.Sprintf("lacks more than %s updates,", grouped(epoch.Near)),
		fmt.Sprintf("has told no new place for %s seconds.", seconds(epoch.Away)),
		fmt.Sprintf("readers are served for %s seconds at most,", seconds(engine.Relied)),
		fmt.Sprintf("after %s seconds no readers.", seconds(engine.Relied)),
		fmt.Sprintf("One of a site that is taken out goes after %s seconds", seconds(engine.LeaseTime)),
		fmt.Sprintf("A request has at most %s bytes,", grouped(script.MostChangesBytes)),
		fmt.Sprintf("\nthe engine is full | requests have the status %d.", status(wire.Full)),
		fmt.Sprintf("comes to other answers | who meets it ends with status %d,", exit.Gap),
		fmt.Sprintf("\na site is not in the script, or not in its fleet | it ends with status %d |", exit.NotInScript),
		fmt.Sprintf("\na site tells a place that cannot be, or it follows another script than the primary | it ends with status %d |", exit.NoPlace),
		fmt.Sprintf("the user of etcd | the process ends with status %d |", exit.Environment),
		fmt.Sprintf("also its version | the process ends with status %d |", exit.Words),
		fmt.Sprintf("answers what it can, and ends with %d.", exit.Done),
		fmt.Sprintf("`update`, `value`, `next` and `relimit` end with %d where the store answered or refused; with %d where no answer came in time,", exit.Done, exit.Environment),
		fmt.Sprintf("with %d where it can never be done.", exit.Words),
	} {
		if strings.Count(page, says) != 1 {
			t.Errorf("the page does not say once: %q", says)
		}
	}
}
