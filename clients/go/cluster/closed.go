package cluster

import "fmt"

// Closed is a cluster whose updates are all acknowledged and applied, and whose sites agree with its log. Goroutines may share it. The cluster
// still answers reads, queries and numbers.
type Closed struct{ cluster *Cluster }

// Close stops a cluster, waits until its goroutines ended, acknowledges and applies what is numbered, and compares each site with the log. Called
// again it gives the same. No goroutine of the cluster is left, whatever the error.
//
// ErrMixed: a site does not hold the serial result of the updates that it applied. ErrNoMemory: it was not compared; call again. ErrClosed: it
// was released.
func (c *Cluster) Close() (*Closed, error) {
	c.Stop()
	c.goroutines.Wait()
	c.gate.Lock()
	defer c.gate.Unlock()
	if c.isClosed {
		return &Closed{c}, nil
	}
	c.lock.Lock()
	c.isClosing = true
	c.lock.Unlock()
	if err := c.finishAlone(); err != nil {
		return nil, fmt.Errorf("ordup: close: %w", err)
	}
	for at := range c.sites {
		if err := c.compare(&c.sites[at]).fault(); err != nil {
			return nil, fmt.Errorf("ordup: close: site %d: %w", at, err)
		}
	}
	c.isClosed = true
	return &Closed{c}, nil
}

// finishAlone applies, tells and makes turns, until none of these does anything: no goroutine is left that would, and nothing is numbered.
func (c *Cluster) finishAlone() error {
	var was told
	for {
		applied := 0
		for at := range c.sites {
			applied += c.applyAll(&c.sites[at])
		}
		c.told.ring()
		is, err := c.turn()
		if err != nil {
			return err
		}
		if is.isStarved {
			return ErrNoMemory
		}
		if applied == 0 && is == was {
			return nil
		}
		was = is
	}
}

// applyAll applies what was sent to a site, and gives how much that was.
func (c *Cluster) applyAll(here *room) (applied int) {
	here.lock.Lock()
	for here.site.apply() == statusDone {
		applied++
	}
	here.lock.Unlock()
	if applied > 0 {
		here.moved.ring()
	}
	return applied
}

// compare is the one hold that takes two locks: that of the book, then that of the site.
func (c *Cluster) compare(here *room) status {
	c.lock.Lock()
	defer c.lock.Unlock()
	here.lock.Lock()
	defer here.lock.Unlock()
	return c.book.compare(&here.site)
}

// Record gives the record of a site, as Cluster.Record does.
func (c *Closed) Record(at Site) ([]byte, error) { return c.cluster.Record(at) }

// Successor opens the cluster that goes on from this one: with the same declarations, each object at its last value, and numbers that go on.
// Each is closed and released by itself. The error is LogFull where more than 10^18 updates came before, NoMemory, or ErrClosed.
func (c *Closed) Successor() (*Cluster, error) {
	held, status := newSetup()
	defer held.close()
	if err := status.fault(); err != nil {
		return nil, err
	}
	it := c.cluster
	it.lock.Lock()
	status = it.book.successor(held)
	before := it.before + it.last.logged
	it.lock.Unlock()
	if err := status.fault(); err != nil {
		return nil, fmt.Errorf("ordup: successor: %w", err)
	}
	if before > mostBefore {
		return nil, ErrLogFull
	}
	return open(held, before)
}

// Release gives the memory of the cluster back now, which the collector would do later. Each later call on it fails with ErrClosed, but for those
// that take no lock of it.
func (c *Closed) Release() { c.cluster.release() }
