package primary_test

import (
	"context"
	"fmt"
	"math/rand"
	"os"
	"path/filepath"
	"strconv"
	"strings"
	"sync"
	"syscall"
	"testing"
	"time"

	"ordup.dev/node/internal/archive"
	"ordup.dev/node/internal/epoch"
	"ordup.dev/node/internal/etcdtest"
	"ordup.dev/node/internal/script"
	"ordup.dev/node/internal/site"
)

// A trial has clients, readers and faults for NODE_TRIAL seconds, and judges what they saw: by default for a few.
type trial struct {
	*deployment
	chance *rand.Rand
	end    time.Time
	links  map[string]*etcdtest.Link
	sites  map[string]*site.Site
	// What is acknowledged as far as clients know, and what they were told of each request.
	lock     sync.Mutex
	known    site.Seen
	told     map[string]string
	readings int
	behind   int
}

// The limits by count of the sites. North has two processes.
var limits = map[string]int64{"north": 3, "south": 20, "east": 0}

func TestTrial(t *testing.T) {
	seconds, _ := strconv.Atoi(os.Getenv("NODE_TRIAL"))
	if seconds == 0 {
		seconds = 6
	}
	seed := time.Now().UnixNano()
	t.Logf("seed %d", seed)
	trial := &trial{deployment: deploy(t, 3), chance: rand.New(rand.NewSource(seed)), end: time.Now().Add(time.Duration(seconds) * time.Second),
		links: map[string]*etcdtest.Link{}, sites: map[string]*site.Site{}, told: map[string]string{}}
	folder := trial.begin()
	var others sync.WaitGroup
	for client := 0; client < 8; client++ {
		others.Add(1)
		go func(client int) { defer others.Done(); trial.client(client) }(client)
	}
	for name := range trial.sites {
		others.Add(1)
		go func(name string) { defer others.Done(); trial.reader(name) }(name)
	}
	for time.Now().Before(trial.end) {
		trial.fault()
	}
	for _, link := range trial.links {
		link.Mend()
	}
	others.Wait()
	trial.judge(folder)
}

func (tr *trial) begin() string {
	declarations := []string{"object tea 1000000", "object till 0"}
	for _, name := range []string{"north", "south", "east"} {
		declarations = append(declarations, "site "+name+" 1", fmt.Sprintf("limit %s count %d", name, limits[name]))
	}
	folder := tr.t.TempDir()
	for _, host := range []string{"p1", "p2"} {
		tr.links[host] = tr.members.Link()
		config := tr.config(host)
		config.Engine, config.Declarations, config.Every = tr.links[host].Engine(tr.t), append(declarations, "start"), 400
		config.Folder = filepath.Join(folder, host)
		tr.primary(config)
	}
	for _, name := range []string{"north", "north-2", "south", "east"} {
		tr.links[name] = tr.members.Link()
		tr.sites[name], _ = tr.siteBy(strings.TrimSuffix(name, "-2"), tr.links[name].Engine(tr.t))
	}
	return folder
}

// fault does one thing, for a while.
func (tr *trial) fault() {
	names := []string{"p1", "p2", "north", "north-2", "south", "east"}
	link := tr.links[names[tr.chance.Intn(len(names))]]
	member, while := tr.chance.Intn(3), time.Duration(tr.chance.Intn(1500))*time.Millisecond
	switch tr.chance.Intn(6) {
	case 0:
		link.Cut()
		time.Sleep(while * 4)
		link.Mend()
	case 1:
		link.Cut()
		time.Sleep(while / 2)
		link.Mend()
	case 2:
		link.Delay(20 * time.Millisecond)
		time.Sleep(while)
		link.Delay(0)
	case 3:
		tr.members.Kill(member)
		time.Sleep(while)
		tr.members.Begin(member)
	case 4:
		tr.members.Signal(member, syscall.SIGSTOP)
		time.Sleep(while)
		tr.members.Signal(member, syscall.SIGCONT)
	case 5:
		tr.lock.Lock()
		from := tr.known.Epoch
		tr.lock.Unlock()
		go tr.next(epoch.Wish{From: from})
		time.Sleep(while)
	}
	time.Sleep(while / 2)
}

// client asks for one update after another, some of them twice.
func (tr *trial) client(client int) {
	chance := rand.New(rand.NewSource(int64(client)))
	name := fmt.Sprintf("c%d", client)
	for number := int64(1); time.Now().Before(tr.end); number++ {
		changes := []string{"add:tea:-1 add:till:2", "add:tea:-1 add:till:2", "nonsense"}[chance.Intn(3)]
		answer := tr.ask(name, number, changes)
		if again := ""; chance.Intn(4) == 0 {
			again = tr.ask(name, number, changes)
			if again != answer {
				tr.t.Errorf("%s %d is told %s, and then %s", name, number, answer, again)
			}
		}
		var acked site.Seen
		fmt.Sscanf(answer, "ok acked %d epoch %d", &acked.Place, &acked.Epoch)
		tr.lock.Lock()
		tr.told[fmt.Sprintf("%s %d", name, number)] = answer
		if acked.Epoch > tr.known.Epoch || acked.Epoch == tr.known.Epoch && acked.Place > tr.known.Place {
			tr.known = acked
		}
		tr.lock.Unlock()
		time.Sleep(time.Duration(chance.Intn(20)) * time.Millisecond)
	}
}

// reader reads at a process of a site. It sees no less than the limit of the site allows of what was acknowledged as it began.
func (tr *trial) reader(name string) {
	limit := limits[strings.TrimSuffix(name, "-2")]
	for time.Now().Before(tr.end) {
		tr.lock.Lock()
		known := tr.known
		tr.lock.Unlock()
		reading, err := tr.sites[name].Read(context.Background(), site.Seen{})
		if err == nil {
			tr.weigh(name, known, reading, limit)
		}
		time.Sleep(2 * time.Millisecond)
	}
}

func (tr *trial) weigh(name string, known site.Seen, reading site.Reading, limit int64) {
	missing := int64(0)
	if reading.Epoch == known.Epoch {
		missing = known.Place - reading.Place
	} else if reading.Epoch < known.Epoch {
		missing = known.Place // All of the epoch before was told.
	}
	if missing > limit || reading.Epoch < known.Epoch-1 {
		tr.t.Errorf("%s shows %d of epoch %d, and %d of epoch %d was acknowledged", name, reading.Place, reading.Epoch, known.Place, known.Epoch)
	}
	tea := reading.Values["tea"]
	till := reading.Values["till"]
	if till != 2*(1_000_000-tea) {
		tr.t.Errorf("%s shows %v", name, reading.Values)
	}
	tr.lock.Lock()
	defer tr.lock.Unlock()
	tr.readings++
	if missing > 0 {
		tr.behind++
	}
}

// judge looks at the archives and the script: each request stands there once, with the answer that the client was told.
func (tr *trial) judge(folder string) {
	from := tr.known.Epoch
	if _, err := tr.next(epoch.Wish{From: from}); err != nil {
		tr.t.Fatal(err)
	}
	until(tr.t, 20*time.Second, "the epochs stay in the engine", func() bool {
		_, err := os.Stat(filepath.Join(folder, "p1", archive.NameOf(from)))
		_, failure := os.Stat(filepath.Join(folder, "p2", archive.NameOf(from)))
		return err == nil && failure == nil
	})
	asked, answered, updates := map[string]int{}, map[string]string{}, 0
	for number := int64(1); number <= from; number++ {
		text, err := os.ReadFile(filepath.Join(folder, "p1", archive.NameOf(number)))
		is(tr.t, nil, err)
		for _, line := range strings.Split(string(text), "\n") {
			words := strings.SplitN(line, " ", 6)
			switch {
			case strings.HasPrefix(line, "# ask "):
				asked[words[2]+" "+words[3]]++
			case strings.HasPrefix(line, "# answer "):
				answered[words[2]+" "+words[3]] = words[5]
				updates += strings.Count(words[5], "ok acked")
			}
		}
	}
	for name, answer := range tr.told {
		if asked[name] != 1 || answered[name] != answer {
			tr.t.Errorf("%s stands there %d times with %q, and was told %q", name, asked[name], answered[name], answer)
		}
	}
	_, first, err := tr.members.Engine().Epoch(context.Background())
	is(tr.t, nil, err)
	text, _, err := tr.members.Engine().Entry(context.Background(), first)
	is(tr.t, nil, err)
	entry, err := script.Parse(text)
	is(tr.t, nil, err)
	tr.t.Logf("%d requests, %d updates, %d epochs, %d readings, %d behind; the epoch %d begins with entry %d", len(tr.told), updates, from,
		tr.readings, tr.behind, entry.Epoch, first)
}
