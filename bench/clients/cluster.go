// cluster WAY LOAD THREADS SECONDS: measures a cluster of a program in Go, or a sync.RWMutex and a map, and prints a number.
// bench/clients/clusters tells the loads, and runs it.
package main

import (
	"context"
	"fmt"
	"log"
	"math"
	"os"
	"strconv"
	"strings"
	"sync"
	"sync/atomic"
	"syscall"
	"time"

	"ordup.dev/ordup/cluster"
)

const (
	sites    = 4
	objects  = 64
	clusters = 100
	updates  = 100_000
)

// A store, of which each goroutine makes a call for each object in a batch.
type store interface {
	read(session *cluster.Session, at int) int64
	update(session *cluster.Session)
	most() int // updates, after which a load ends
}

type ordup struct{ *cluster.Cluster }

func open(limit int) ordup {
	var setup cluster.Setup
	for object := 0; object < objects; object++ {
		setup.Object(fmt.Sprintf("x%d", object), 0)
	}
	for at := 0; at < sites; at++ {
		site := setup.Site(fmt.Sprintf("s%d", at), 1024)
		if limit >= 0 {
			setup.Limit(site, cluster.All, uint64(limit))
		}
	}
	opened, err := cluster.Open(setup)
	if err != nil {
		log.Fatal(err)
	}
	return ordup{opened}
}

func (o ordup) read(session *cluster.Session, at int) (sum int64) {
	for object := cluster.Object(0); object < objects; object++ {
		seen, err := o.Read(session, cluster.Site(at), object)
		if err != nil {
			log.Fatal(err)
		}
		sum += seen.Value
	}
	return sum
}

func (o ordup) update(session *cluster.Session) {
	for object := 0; object < objects; object++ {
		if _, err := o.Propose(context.Background(), session, cluster.Add(cluster.Object(object), by(object))); err != nil {
			log.Fatal(err)
		}
	}
}

// A log has a million updates at most.
func (ordup) most() int { return 900_000 }

// by has the numbers of a batch add up to nothing.
func by(object int) int64 { return int64(1 - object%2*2) }

type plain struct {
	lock   sync.RWMutex
	values map[int]int64
}

func (p *plain) get(object int) int64 {
	p.lock.RLock()
	defer p.lock.RUnlock()
	return p.values[object]
}

func (p *plain) add(object int) {
	p.lock.Lock()
	defer p.lock.Unlock()
	p.values[object] += by(object)
}

func (p *plain) read(*cluster.Session, int) (sum int64) {
	for object := 0; object < objects; object++ {
		sum += p.get(object)
	}
	return sum
}

func (p *plain) update(*cluster.Session) {
	for object := 0; object < objects; object++ {
		p.add(object)
	}
}

func (*plain) most() int { return math.MaxInt }

// rate is how many calls a second so many goroutines make, beside one that makes updates where there is a writer.
func rate(of store, load string, threads int, passed time.Duration) (sum float64) {
	var isOver atomic.Bool
	var ready, ended sync.WaitGroup
	start := make(chan struct{})
	rates := make([]float64, threads+1)
	begin := func(me, most int, batch func(*cluster.Session)) {
		ready.Add(1)
		ended.Add(1)
		go func() {
			defer ended.Done()
			var session struct {
				cluster.Session
				_ [120]byte // no other goroutine's line of the cache
			}
			made := 0
			ready.Done()
			<-start
			begun := time.Now()
			for ; made == 0 || !isOver.Load() && made < most; made += objects {
				batch(&session.Session)
			}
			rates[me] = float64(made) / time.Since(begun).Seconds()
			if made >= most {
				isOver.Store(true)
			}
		}()
	}
	for me := 0; me < threads; me++ {
		at := me % sites
		switch {
		case load == "reads-one":
			begin(me, math.MaxInt, func(session *cluster.Session) { of.read(session, 0) })
		case strings.HasPrefix(load, "reads-"):
			begin(me, math.MaxInt, func(session *cluster.Session) { of.read(session, at) })
		default:
			begin(me, of.most()/threads, of.update)
		}
	}
	if load == "reads-beside" {
		begin(threads, of.most(), of.update)
	}
	ready.Wait()
	close(start)
	time.Sleep(passed)
	isOver.Store(true)
	ended.Wait()
	for _, rate := range rates[:threads] {
		sum += rate
	}
	return sum
}

// used is how many seconds the processors gave to this process.
func used() float64 {
	var usage syscall.Rusage
	if err := syscall.Getrusage(syscall.RUSAGE_SELF, &usage); err != nil {
		log.Fatal(err)
	}
	return time.Duration(usage.Utime.Nano() + usage.Stime.Nano()).Seconds()
}

func idle(passed time.Duration) float64 {
	of := open(0)
	if _, err := of.Propose(context.Background(), nil, cluster.Add(0, 1)); err != nil {
		log.Fatal(err)
	}
	time.Sleep(100 * time.Millisecond)
	before := used()
	time.Sleep(passed)
	before = used() - before
	of.Stop()
	return before
}

// resident is how many bytes are resident.
func resident() float64 {
	said, err := os.ReadFile("/proc/self/statm")
	if err != nil {
		log.Fatal(err)
	}
	pages, err := strconv.Atoi(strings.Fields(string(said))[1])
	if err != nil {
		log.Fatal(err)
	}
	return float64(pages * os.Getpagesize())
}

func ofACluster() float64 {
	before := resident()
	for n := 0; n < clusters; n++ {
		open(-1)
	}
	return (resident() - before) / clusters
}

func ofAnUpdate() float64 {
	of, session, made := open(-1), cluster.Session{}, 0
	before := resident()
	for ; made < updates; made += objects {
		of.update(&session)
	}
	if err := of.Finish(context.Background()); err != nil {
		log.Fatal(err)
	}
	return (resident() - before) / float64(made)
}

func main() {
	if len(os.Args) != 5 {
		log.Fatal("usage: cluster ordup|map LOAD THREADS SECONDS")
	}
	load := os.Args[2]
	threads, err := strconv.Atoi(os.Args[3])
	if err != nil {
		log.Fatal(err)
	}
	passed, err := time.ParseDuration(os.Args[4] + "s")
	if err != nil {
		log.Fatal(err)
	}
	limit := -1
	fmt.Sscanf(load, "round-%d", &limit)
	number := 0.0
	switch {
	case os.Args[1] == "map":
		of := &plain{values: map[int]int64{}}
		of.update(nil)
		number = rate(of, load, threads, passed)
	case load == "idle":
		number = idle(passed)
	case load == "memory":
		number = ofACluster()
	case load == "memory-update":
		number = ofAnUpdate()
	default:
		number = rate(open(limit), load, threads, passed)
	}
	fmt.Printf("%.9f\n", number)
}
