// Runs a plan from the standard input in a cluster, and prints what came of it, as `ordup threads CALLERS` but for the last lines:
//
//	threads CALLERS [EPOCHS FOLDER]
//
// EPOCHS clusters, one after the other, share the sets evenly. FOLDER gets the record of each site in each: EPOCH_SITE.csv.
package main

import (
	"bufio"
	"context"
	"errors"
	"fmt"
	"io"
	"log"
	"os"
	"path/filepath"
	"strconv"
	"strings"
	"sync"
	"sync/atomic"

	"ordup.dev/ordup/cluster"
)

type plan struct {
	setup                  cluster.Setup
	objects, groups, sites []string
	sets                   [][]cluster.Change
}

// id is that of a name, which is declared.
func id(names []string, name string) uint32 {
	for at, it := range names {
		if it == name {
			return uint32(at)
		}
	}
	log.Fatalf("%s is not declared", name)
	return 0
}

func number(word string) int64 {
	number, err := strconv.ParseInt(word, 10, 64)
	if err != nil {
		log.Fatal(err)
	}
	return number
}

func (p *plan) object(name string) cluster.Object { return cluster.Object(id(p.objects, name)) }

func (p *plan) change(text string) cluster.Change {
	parts := strings.Split(text, ":")
	of, operand := p.object(parts[1]), parts[2]
	if parts[0] == "take" {
		return cluster.Take(of, p.object(operand))
	}
	become := map[string]func(cluster.Object, int64) cluster.Change{
		"add": cluster.Add, "set": cluster.Set, "mul": cluster.Mul, "max": cluster.Max, "min": cluster.Min,
	}[parts[0]]
	return become(of, number(operand))
}

func (p *plan) scope(words []string) cluster.Scope {
	switch words[0] {
	case "object":
		return cluster.OfObject(p.object(words[1]))
	case "group":
		return cluster.OfGroup(cluster.Group(id(p.groups, words[1])))
	case "all":
		return cluster.All
	}
	return cluster.Count
}

func (p *plan) read(line string) {
	words := strings.Fields(line)
	last := words[len(words)-1]
	switch words[0] {
	case "object":
		p.setup.Object(words[1], number(last))
		p.objects = append(p.objects, words[1])
	case "group":
		var members []cluster.Object
		for _, it := range words[2:] {
			members = append(members, p.object(it))
		}
		p.setup.Group(words[1], members...)
		p.groups = append(p.groups, words[1])
	case "site":
		p.setup.Site(words[1], uint64(number(last)))
		p.sites = append(p.sites, words[1])
	case "limit":
		p.setup.Limit(cluster.Site(id(p.sites, words[1])), p.scope(words[2:]), uint64(number(last)))
	case "propose":
		var set []cluster.Change
		for _, it := range words[1:] {
			set = append(set, p.change(it))
		}
		p.sets = append(p.sets, set)
	}
}

func readPlan(from io.Reader) *plan {
	p := &plan{}
	lines := bufio.NewScanner(from)
	for lines.Scan() {
		p.read(lines.Text())
	}
	if err := lines.Err(); err != nil {
		log.Fatal(err)
	}
	return p
}

// An outcome is what came of a plan so far.
type outcome struct {
	refused, pending atomic.Int64
	rounds           []uint64
}

// runEpoch proposes some sets of a plan, and closes the cluster.
func (p *plan) runEpoch(c *cluster.Cluster, sessions []cluster.Session, from, to int, out *outcome) *cluster.Closed {
	var callers sync.WaitGroup
	for me := range sessions {
		callers.Add(1)
		go func(me int) {
			defer callers.Done()
			for set := from; set < to; set++ {
				if set%len(sessions) != me {
					continue
				}
				_, err := c.Propose(context.Background(), &sessions[me], p.sets[set]...)
				var notYet cluster.ErrNotYet
				switch {
				case errors.Is(err, cluster.ErrOutOfRange) || errors.Is(err, cluster.ErrLogFull):
					out.refused.Add(1)
				case errors.As(err, &notYet):
					out.pending.Add(1)
				case err != nil:
					log.Fatal(err)
				}
			}
		}(me)
	}
	callers.Wait()
	if err := c.Finish(context.Background()); err != nil {
		log.Fatal(err)
	}
	closed, err := c.Close()
	if err != nil {
		log.Fatal(err)
	}
	for at := range p.sites {
		numbers, err := c.SiteNumbers(cluster.Site(at))
		if err != nil {
			log.Fatal(err)
		}
		out.rounds[at] += numbers.Rounds
	}
	return closed
}

func (p *plan) writeRecords(closed *cluster.Closed, folder string, epoch int) {
	for at := range p.sites {
		rows, err := closed.Record(cluster.Site(at))
		if err == nil {
			err = os.WriteFile(filepath.Join(folder, fmt.Sprintf("%d_%d.csv", epoch, at)), rows, 0o666)
		}
		if err != nil {
			log.Fatal(err)
		}
	}
}

func (p *plan) print(c *cluster.Cluster, out *outcome) {
	fmt.Printf("log %d\nrefused %d\npending %d\n", c.Numbers().Length, out.refused.Load(), out.pending.Load())
	for at, name := range p.sites {
		numbers, err := c.SiteNumbers(cluster.Site(at))
		if err != nil {
			log.Fatal(err)
		}
		fmt.Printf("site %s applied %d rounds %d", name, numbers.Applied, out.rounds[at])
		for object, name := range p.objects {
			seen, err := c.Read(nil, cluster.Site(at), cluster.Object(object))
			if err != nil {
				log.Fatal(err)
			}
			fmt.Printf(" %s=%d", name, seen.Value)
		}
		fmt.Println()
	}
}

func main() {
	log.SetFlags(0)
	epochs, folder := 1, ""
	if len(os.Args) == 4 {
		epochs, folder = int(number(os.Args[2])), os.Args[3]
	} else if len(os.Args) != 2 {
		log.Fatal("usage: threads CALLERS [EPOCHS FOLDER]")
	}
	p := readPlan(os.Stdin)
	sessions, out := make([]cluster.Session, number(os.Args[1])), &outcome{rounds: make([]uint64, len(p.sites))}
	c, err := cluster.Open(p.setup)
	if err != nil {
		log.Fatal(err)
	}
	for epoch := 0; ; epoch++ {
		closed := p.runEpoch(c, sessions, len(p.sets)*epoch/epochs, len(p.sets)*(epoch+1)/epochs, out)
		if folder != "" {
			p.writeRecords(closed, folder, epoch)
		}
		if epoch+1 == epochs {
			break
		}
		next, err := closed.Successor()
		if err != nil {
			log.Fatal(err)
		}
		closed.Release()
		c = next
	}
	p.print(c, out)
}
