package primary_test

import (
	"context"
	"fmt"
	"os"
	"sort"
	"strings"
	"sync"
	"testing"
	"time"

	"ordup.dev/node/internal/epoch"
	"ordup.dev/node/internal/primary"
)

// NODE_LOAD=1,10,100,1000 measures so many clients: the answers a second and the wait of each, beside the engine's own transactions.
var load = os.Getenv("NODE_LOAD")

// NODE_NAMES=100000,300000 measures for how long updates wait at the end of an epoch while so many clients are carried over.
var names = os.Getenv("NODE_NAMES")

const loadTime = 4 * time.Second

func TestLoad(t *testing.T) {
	if load == "" {
		t.Skip("NODE_LOAD says how many clients ask at once")
	}
	deployment := deploy(t, 3)
	config := deployment.config("p1")
	config.Every, config.Copies = 1_000_000, 1
	config.Declarations = []string{"object tea 1000000", "object till 0", "site north 1", "site south 1", "site east 1", "site west 1",
		"limit north count 100000", "limit south count 100000", "limit east count 100000", "limit west count 100000", "start"}
	own, process := deployment.primary(config)
	for _, name := range []string{"north", "south", "east", "west"} {
		deployment.site(name, "")
	}
	until(t, 10*time.Second, "p1 does not write", func() bool { return own.Status().Writes })
	for _, word := range strings.Split(load, ",") {
		var clients int
		fmt.Sscan(word, &clients)
		before := own.Status().Counts
		waits := asks(t, own, clients)
		after := own.Status().Counts
		entries, bytes := after.Entries-before.Entries, after.Bytes-before.Bytes
		sort.Slice(waits, func(one, other int) bool { return waits[one] < waits[other] })
		seconds := loadTime.Seconds()
		alone := transactions(t, deployment, int(bytes/entries))
		fmt.Printf("%5d clients: %7.0f answers/s, wait %6.2f ms median %6.2f ms p99; %5.0f entries/s of %6d bytes; the engine alone %5.0f/s of them, %5.2f ms\n",
			clients, float64(len(waits))/seconds, ms(waits[len(waits)/2]), ms(waits[len(waits)*99/100]),
			float64(entries)/seconds, bytes/entries, 1000/ms(alone), ms(alone))
	}
	is(t, nil, process.end())
}

func TestNames(t *testing.T) {
	if names == "" {
		t.Skip("NODE_NAMES says how many clients are carried over")
	}
	for _, word := range strings.Split(names, ",") {
		var clients int
		fmt.Sscan(word, &clients)
		deployment := deploy(t, 3)
		config := deployment.config("p1")
		config.Every, config.Copies = 1_000_000, 1
		config.Declarations = []string{"object tea 1000000", "site north 1", "limit north count 100000", "start"}
		own, process := deployment.primary(config)
		deployment.site("north", "")
		until(t, 10*time.Second, "p1 does not write", func() bool { return own.Status().Writes })
		ask := func(name string, number int) time.Duration {
			asked := time.Now()
			_, err := own.Submit(context.Background(), epoch.Request{Client: name, Number: int64(number), Changes: "add:tea:-1"})
			is(t, nil, err)
			return time.Since(asked)
		}
		var done sync.WaitGroup
		for first := 0; first < 1000; first++ {
			done.Add(1)
			go func(first int) {
				defer done.Done()
				for client := first; client < clients; client += 1000 {
					ask(fmt.Sprintf("name%d", client), 1)
				}
			}(first)
		}
		done.Wait()
		before, begun := own.Status().Counts, make(chan error, 1)
		go func() {
			_, err := own.Next(context.Background(), epoch.Wish{From: 1})
			begun <- err
		}()
		longest, number := time.Duration(0), 0
		for isOver := false; !isOver; number++ {
			if wait := ask("ann", number+1); wait > longest {
				longest = wait
			}
			select {
			case err := <-begun:
				is(t, nil, err)
				isOver = true
			default:
			}
		}
		after := own.Status().Counts
		fmt.Printf("%7d clients: updates waited for %5.2f s, for %d entries of %d bytes\n", clients, longest.Seconds(),
			after.Entries-before.Entries, after.Bytes-before.Bytes)
		is(t, nil, process.end())
	}
}

func ms(duration time.Duration) float64 { return duration.Seconds() * 1000 }

// asks has clients ask one after another for a time, and returns how long each request took.
func asks(t *testing.T, own *primary.Primary, clients int) []time.Duration {
	ctx, cancel := context.WithTimeout(context.Background(), loadTime)
	defer cancel()
	var lock sync.Mutex
	var all []time.Duration
	var done sync.WaitGroup
	for client := 0; client < clients; client++ {
		done.Add(1)
		go func(client int) {
			defer done.Done()
			waits := []time.Duration{}
			name := fmt.Sprintf("c%d-%d", clients, client)
			for number := int64(1); ctx.Err() == nil; number++ {
				asked := time.Now()
				_, err := own.Submit(ctx, epoch.Request{Client: name, Number: number, Changes: "add:tea:-1 add:till:1"})
				if err == nil {
					waits = append(waits, time.Since(asked))
				} else if ctx.Err() == nil {
					t.Error(err)
				}
			}
			lock.Lock()
			defer lock.Unlock()
			all = append(all, waits...)
		}(client)
	}
	done.Wait()
	return all
}

// transactions writes entries of a size one after another, in a script of their own, and returns how long each took.
func transactions(t *testing.T, deployment *deployment, bytes int) time.Duration {
	alone := deployment.members.Client()
	text := []byte(strings.Repeat("x", bytes))
	begun, count := time.Now(), int64(0)
	for ; time.Since(begun) < loadTime/2; count++ {
		if err := deployment.members.Create(alone, fmt.Sprintf("alone/%012d", count), text); err != nil {
			t.Fatal(err)
		}
	}
	took := time.Since(begun) / time.Duration(count)
	deployment.members.Delete("alone/")
	return took
}
