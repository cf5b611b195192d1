package command_test

import (
	"bufio"
	"context"
	"fmt"
	"io"
	"net/http"
	"os"
	"os/exec"
	"path/filepath"
	"sort"
	"strings"
	"sync"
	"syscall"
	"testing"
	"time"

	"ordup.dev/node/internal/client"
	"ordup.dev/node/internal/etcdtest"
	"ordup.dev/node/internal/wire"
)

// NODE_LOAD=1,10,100,1000 measures so many clients over HTTP, at processes of the program NODE_PROGRAM, for NODE_SECONDS each: the answers a
// second and the wait of each, beside the engine's own transactions. NODE_READERS=1,100,1000 measures so many readers of one site, each on a
// connection that it keeps: the readings a second and the wait of each.
var load, readers, program, loadTime = os.Getenv("NODE_LOAD"), os.Getenv("NODE_READERS"), os.Getenv("NODE_PROGRAM"), 4 * time.Second

func TestLoadOverHTTP(t *testing.T) {
	if load+readers == "" || program == "" {
		t.Skip("NODE_LOAD and NODE_READERS say how many ask at once, and NODE_PROGRAM the program")
	}
	if seconds := os.Getenv("NODE_SECONDS"); seconds != "" {
		fmt.Sscan(seconds, (*int64)(&loadTime))
		loadTime *= time.Second
	}
	members, primary, north := beginAll(t)
	asker, err := client.New(client.Config{Addresses: []string{"http://" + primary}})
	if err != nil {
		t.Fatal(err)
	}
	asks(t, asker, 1, time.Second)
	reader := client.HTTP(nil)
	for end := time.Now().Add(10 * time.Second); read(reader, north) != nil && time.Now().Before(end); {
		time.Sleep(100 * time.Millisecond)
	}
	for _, clients := range countsOf(load) {
		entries, bytes := written(t, primary)
		waits := asks(t, asker, clients, loadTime)
		moreEntries, moreBytes := written(t, primary)
		entries, bytes = moreEntries-entries, moreBytes-bytes
		alone := transactions(t, members, int(bytes/entries))
		fmt.Printf("%5d clients: %s; %5.0f entries/s of %6.0f bytes; the engine alone %6.2f ms each\n", clients, seen(waits, "answers"),
			entries/loadTime.Seconds(), bytes/entries, ms(alone))
	}
	for _, count := range countsOf(readers) {
		fmt.Printf("%5d readers: %s\n", count, seen(repeat(t, count, loadTime, func(int, int64) error { return read(reader, north) }), "readings"))
	}
}

func countsOf(text string) (counts []int) {
	for _, word := range strings.FieldsFunc(text, func(sign rune) bool { return sign == ',' }) {
		count := 0
		fmt.Sscan(word, &count)
		counts = append(counts, count)
	}
	return counts
}

// seen says how many there were a second, and how long they took.
func seen(waits []time.Duration, what string) string {
	sort.Slice(waits, func(one, other int) bool { return waits[one] < waits[other] })
	return fmt.Sprintf("%7.0f %s/s, wait %7.2f ms median %7.2f ms p99", float64(len(waits))/loadTime.Seconds(), what, ms(waits[len(waits)/2]),
		ms(waits[len(waits)*99/100]))
}

// beginAll begins an engine, a primary and four sites.
func beginAll(t *testing.T) (members *etcdtest.Members, primary, north string) {
	members, primary, north = etcdtest.Start(t, 3), etcdtest.FreePort(t), etcdtest.FreePort(t)
	declarations := "object tea 1000000\nobject till 0\n"
	for _, name := range []string{"north", "south", "east", "west"} {
		declarations += "site " + name + " 1\nlimit " + name + " count 100000\n"
	}
	engine := "--engine=" + strings.Join(members.Clients, ",")
	begin(t, "primary", engine, "--listen", primary, "--archive", t.TempDir(), "--copies", "1", "--every", "1000000", "--declarations",
		file(t, "shop", declarations+"start\n"))
	for name, address := range map[string]string{"north": north, "south": etcdtest.FreePort(t), "east": etcdtest.FreePort(t), "west": etcdtest.FreePort(t)} {
		begin(t, "site", engine, "--site", name, "--listen", address, "--primaries", "http://"+primary)
	}
	return members, primary, north
}

func ms(duration time.Duration) float64 { return duration.Seconds() * 1000 }

// begin starts a process of the program.
func begin(t *testing.T, words ...string) {
	t.Helper()
	process := exec.Command(program, words...)
	log, err := os.Create(filepath.Join(t.TempDir(), "log"))
	if err == nil {
		process.Stderr, process.SysProcAttr = log, &syscall.SysProcAttr{Pdeathsig: syscall.SIGKILL}
		err = process.Start()
	}
	if err != nil {
		t.Fatal(err)
	}
	t.Cleanup(func() { process.Process.Signal(syscall.SIGTERM); process.Wait() })
}

// written is how many entries and bytes the primary has written.
func written(t *testing.T, primary string) (entries, bytes float64) {
	t.Helper()
	answer, err := http.Get("http://" + primary + "/metrics")
	if err != nil {
		t.Fatal(err)
	}
	defer answer.Body.Close()
	for lines := bufio.NewScanner(answer.Body); lines.Scan(); {
		fmt.Sscanf(lines.Text(), "ordup_entries_written_total %g", &entries)
		fmt.Sscanf(lines.Text(), "ordup_entries_written_bytes_total %g", &bytes)
	}
	return entries, bytes
}

// asks has clients ask one after another for a time, and returns how long each request took.
func asks(t *testing.T, asker *client.Client, clients int, most time.Duration) []time.Duration {
	begun := time.Now().Unix()
	return repeat(t, clients, most, func(at int, number int64) error {
		update := wire.Update{Client: fmt.Sprintf("c%d-%d-%d", clients, at, begun), Number: number, Changes: []string{"add:tea:-1", "add:till:1"}}
		_, err := asker.Update(context.Background(), update)
		return err
	})
}

// read reads a value at a site.
func read(by *http.Client, site string) error {
	answer, err := by.Get("http://" + site + "/value/tea")
	if err != nil {
		return err
	}
	defer answer.Body.Close()
	_, err = io.Copy(io.Discard, answer.Body)
	if err == nil && answer.StatusCode != http.StatusOK {
		err = fmt.Errorf("the status is %d", answer.StatusCode)
	}
	return err
}

// repeat has some do something again and again for a time, and returns how long each took.
func repeat(t *testing.T, count int, most time.Duration, do func(at int, number int64) error) []time.Duration {
	end := time.Now().Add(most)
	var lock sync.Mutex
	var all []time.Duration
	var done sync.WaitGroup
	for at := 0; at < count; at++ {
		done.Add(1)
		go func(at int) {
			defer done.Done()
			waits := []time.Duration{}
			for number := int64(1); time.Now().Before(end); number++ {
				begun := time.Now()
				if err := do(at, number); err != nil {
					t.Error(err)
					return
				}
				waits = append(waits, time.Since(begun))
			}
			lock.Lock()
			defer lock.Unlock()
			all = append(all, waits...)
		}(at)
	}
	done.Wait()
	return all
}

// transactions writes entries of a size one after another, in a script of their own, and returns how long each took.
func transactions(t *testing.T, members *etcdtest.Members, bytes int) time.Duration {
	alone := members.Client()
	text := []byte(strings.Repeat("x", bytes))
	begun, count := time.Now(), int64(0)
	for ; time.Since(begun) < time.Second; count++ {
		if err := members.Create(alone, fmt.Sprintf("alone/%d", count), text); err != nil {
			t.Fatal(err)
		}
	}
	took := time.Since(begun) / time.Duration(count)
	members.Delete("alone/")
	return took
}
