package sim

import (
	"fmt"
	"math"
	"os"
	"path/filepath"
	"reflect"
	"runtime"
	"runtime/debug"
	"strconv"
	"strings"
	"sync"
	"sync/atomic"
	"testing"
	"time"
)

// usualSeeds is how many runs there are, if NODE_SEEDS does not say it. NODE_SEED is the first seed, NODE_KEEP the file to which a run is
// written that breaks a property, and NODE_RUN the one file of testdata that is tried, if not all are.
const usualSeeds = 2000

func name(of, usual string) string {
	if name := os.Getenv(of); name != "" {
		return name
	}
	return usual
}

func number(of string, usual int64) int64 {
	if number, err := strconv.ParseInt(os.Getenv(of), 10, 64); err == nil {
		return number
	}
	return usual
}

// Every property holds in runs of any seeds, and runs come to what they are for. Of the first seed that breaks one the run is shrunk, and
// told as a file of testdata has it.
func TestRuns(t *testing.T) {
	defer debug.SetGCPercent(debug.SetGCPercent(800)) // A run leaves much and keeps nothing: workers would wait for the collector.
	first, count := number("NODE_SEED", 1), number("NODE_SEEDS", usualSeeds)
	began, next, failed := time.Now(), first-1, int64(math.MaxInt64)
	var lock sync.Mutex
	var counts Counts
	var workers sync.WaitGroup
	for worker := 0; worker < runtime.GOMAXPROCS(0); worker++ {
		workers.Add(1)
		go func() {
			defer workers.Done()
			var own Counts
			for seed := atomic.AddInt64(&next, 1); seed < first+count && seed < atomic.LoadInt64(&failed); seed = atomic.AddInt64(&next, 1) {
				outcome := Try(Generate(seed), false)
				own.Add(&outcome.Counts)
				for before := atomic.LoadInt64(&failed); outcome.Failure != nil && seed < before; before = atomic.LoadInt64(&failed) {
					atomic.CompareAndSwapInt64(&failed, before, seed)
				}
			}
			lock.Lock()
			defer lock.Unlock()
			counts.Add(&own)
		}()
	}
	workers.Wait()
	t.Logf("%d seeds, %.0f a second by %d workers: %+v", count, float64(count)/time.Since(began).Seconds(), runtime.GOMAXPROCS(0), counts)
	if failed < math.MaxInt64 {
		shrunk := Shrink(Generate(failed))
		broken := Try(shrunk, false).Failure
		if file := os.Getenv("NODE_KEEP"); file != "" {
			if err := os.WriteFile(file, []byte(fmt.Sprintf("# %v\n%v", broken, shrunk)), 0o644); err != nil {
				t.Error(err)
			}
		}
		t.Fatalf("seed %d: %v\n%s", failed, broken, tell(shrunk))
	}
	comes(t, counts, count)
}

// comes looks whether runs come to what they are for.
func comes(t *testing.T, counts Counts, seeds int64) {
	if seeds < usualSeeds {
		return
	}
	is := reflect.ValueOf(counts)
	for at := 0; at < is.NumField(); at++ {
		if name := is.Type().Field(at).Name; is.Field(at).Int() < seeds/1000 {
			t.Errorf("%d seeds come to %d %s", seeds, is.Field(at).Int(), name)
		}
	}
}

// tell is a run as a file has it, with what happens.
func tell(run *Run) string {
	head, _, _ := strings.Cut(run.String(), "\n")
	return head + "\n" + strings.Join(Try(run, true).Notes, "\n")
}

// A run is the same each time.
func TestARunIsTheSameEachTime(t *testing.T) {
	for seed := int64(1); seed <= 100; seed++ {
		if one, other := Try(Generate(seed), true), Try(Generate(seed), true); !reflect.DeepEqual(one, other) {
			t.Fatalf("seed %d comes to this and to that:\n%v\n%v", seed, one, other)
		}
	}
}

// A run that breaks a property is shrunk to what does so, and each event of that is needed.
func TestShrinking(t *testing.T) {
	run := Generate(1)
	run.Events = append(run.Events, Event{Kind: Calms, How: 1}, Event{Kind: Passes})
	breaks := func(tried *Run) *Failure {
		for _, event := range tried.Events {
			if event.Kind == Calms && event.How == 1 {
				return &Failure{Property: UpdateIsLost}
			}
		}
		return nil
	}
	if shrunk := shrink(run, breaks); len(shrunk.Events) != 1 || shrunk.Events[0] != (Event{Kind: Calms, How: 1}) {
		t.Errorf("it is shrunk to %v", shrunk)
	}
}

// Each file of testdata has the run by which a mistake was told. The right code has it done, and nothing is broken.
func TestRunsOfMistakes(t *testing.T) {
	files, _ := filepath.Glob("testdata/" + name("NODE_RUN", "*"))
	for _, file := range files {
		text, err := os.ReadFile(file)
		if err != nil {
			t.Fatal(err)
		}
		run, err := ParseRun(string(text))
		if err != nil {
			t.Fatalf("%s: %v", file, err)
		}
		if outcome := Try(run, false); outcome.Failure != nil {
			t.Errorf("%s: %v", file, outcome.Failure)
		}
		if again, err := ParseRun(run.String()); err != nil || !reflect.DeepEqual(run, again) {
			t.Errorf("%s: its text is of another run: %v", file, err)
		}
	}
}
