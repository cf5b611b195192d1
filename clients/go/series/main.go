// Series is a service that never stops: a cluster that has had its sales is closed, and its successor goes on. Clerks sell meanwhile. It
// prints the record of the south of each cluster:
//
//	go run ./series | ordup check --series
package main

import (
	"context"
	"log"
	"os"
	"sync"

	"ordup.dev/ordup/cluster"
)

const (
	clerks = 4
	sales  = 25 // of a clerk
	most   = 30 // updates of a cluster, after which its successor is opened
)

type service struct {
	lock  sync.RWMutex // a call of a clerk shares it, and who exchanges the cluster has it alone
	open  *cluster.Cluster
	tea   cluster.Object
	south cluster.Site
}

// sell sells a bag, and says whether the cluster has had its updates.
func (s *service) sell(ctx context.Context, session *cluster.Session) (bool, error) {
	s.lock.RLock()
	defer s.lock.RUnlock()
	_, err := s.open.ProposeIf(ctx, session, []cluster.Condition{cluster.AtLeast(s.tea, 0)}, cluster.Add(s.tea, -1))
	return isFull(s.open), err
}

// goOn puts the successor in the place of a cluster that has had its updates, unless another clerk did.
func (s *service) goOn() error {
	s.lock.Lock()
	defer s.lock.Unlock()
	if !isFull(s.open) {
		return nil
	}
	closed, err := s.archive()
	if err != nil {
		return err
	}
	defer closed.Release()
	s.open, err = closed.Successor()
	return err
}

// archive closes the cluster, and prints its record.
func (s *service) archive() (*cluster.Closed, error) {
	closed, err := s.open.Close()
	if err != nil {
		return nil, err
	}
	record, err := closed.Record(s.south)
	if err != nil {
		return nil, err
	}
	_, err = os.Stdout.Write(record)
	return closed, err
}

func (s *service) clerk(ctx context.Context) error {
	var session cluster.Session // it lasts over all clusters
	for sale := 0; sale < sales; sale++ {
		full, err := s.sell(ctx, &session)
		if full && err == nil {
			err = s.goOn()
		}
		if err != nil {
			return err
		}
	}
	return nil
}

func isFull(open *cluster.Cluster) bool {
	numbers := open.Numbers()
	return numbers.Length-numbers.Before >= most
}

func main() {
	var setup cluster.Setup
	tea, south := setup.Object("tea", 1000), setup.Site("south", 64)
	setup.Limit(south, cluster.All, 4)
	open, err := cluster.Open(setup)
	if err != nil {
		log.Fatal(err)
	}
	s := &service{open: open, tea: tea, south: south}
	var group sync.WaitGroup
	for clerk := 0; clerk < clerks; clerk++ {
		group.Add(1)
		go func() {
			defer group.Done()
			if err := s.clerk(context.Background()); err != nil {
				log.Fatal(err)
			}
		}()
	}
	group.Wait()
	if _, err := s.archive(); err != nil {
		log.Fatal(err)
	}
}
