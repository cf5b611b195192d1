package cluster

import (
	"context"
	"runtime"
	"sync"
	"sync/atomic"
	"time"
)

const (
	// So many bells are there for callers whose update is not the head: more cost a few bytes each, fewer wake callers for nothing.
	headBells = 256
	// So many updates a site applies before it tells.
	appliedUntold = 32
	// Where memory was refused nobody rings once there is some, so the keeper tries again after this time.
	retry = 10 * time.Millisecond
	// The most sites that there are, and the most updates that may come before a cluster.
	mostSites  = 16
	mostBefore = 1_000_000_000_000_000_000
)

// A Cluster is a store with its sites. Goroutines may share it. Open opens one, and Close ends it.
type Cluster struct {
	before     uint64
	sites      []room
	goroutines sync.WaitGroup
	stopped    atomic.Bool

	gate     sync.Mutex // of Close, and of this
	isClosed bool

	lock      sync.Mutex // of the book, and of these
	book      book
	last      told // what the last hold told
	isClosing bool // nothing is numbered any more

	// Of the last hold, for those that have no lock. They are written in this order, under it.
	logged, acked atomic.Uint64
	hasWork       atomic.Bool
	looked        atomic.Uint64 // how often told had rung before it looked at the sites

	turners atomic.Int32    // how many callers make holds until they leave
	sent    bell            // appliers sleep on it
	told    bell            // the head's caller sleeps on it
	work    bell            // the keeper sleeps on it
	heads   [headBells]bell // a caller sleeps on that of its update until that is the head
}

// A room is a site under its lock, on cache lines of its own.
type room struct {
	lock  sync.Mutex
	site  site
	moved bell // readers sleep on it
	_     [128]byte
}

// The clusters that were opened, so that the library knows a query of another one.
var clusters atomic.Uint64

// Open opens a cluster, and starts an applier for each site and a keeper, which Close ends. A cluster that is not closed stays for ever.
//
// The error is a Refused, which says of which declaration: AlreadyStarted never; BadName, NameTaken, UnknownObject, UnknownGroup, UnknownSite,
// OutOfRange, TooMany, Empty, Repeated, LogFull where Before is over 10^18, or NoMemory.
func Open(setup Setup) (*Cluster, error) {
	if setup.Before > mostBefore {
		return nil, ErrLogFull
	}
	held, status := newSetup()
	defer held.close()
	if status == statusDone {
		status = held.open()
	}
	if err := status.fault(); err != nil {
		return nil, err
	}
	if err := setup.tell(held); err != nil {
		return nil, err
	}
	return open(held, setup.Before)
}

func open(setup *setup, before uint64) (*Cluster, error) {
	c := &Cluster{before: before}
	status := c.book.open(setup, clusters.Add(1))
	if status == statusDone {
		status = c.openSites()
	}
	if err := status.fault(); err != nil {
		c.release()
		return nil, err
	}
	c.goroutines.Add(len(c.sites) + 1)
	for at := range c.sites {
		go c.applier(Site(at))
	}
	go c.keeper()
	runtime.SetFinalizer(c, (*Cluster).release)
	return c, nil
}

// openSites opens the sites of the book, which come in any order.
func (c *Cluster) openSites() status {
	c.sites = make([]room, mostSites)
	for count := 0; ; count++ {
		var one site
		index, status := one.open(&c.book)
		if status == statusDone && index < mostSites {
			c.sites[index].site = one
			continue
		}
		one.close()
		switch status {
		case statusDone:
			return statusOther
		case statusNoSite:
			c.sites = c.sites[:count]
			return statusDone
		}
		return status
	}
}

// release gives the memory back. Whoever calls the cluster then is told that it is closed.
func (c *Cluster) release() {
	for at := range c.sites {
		here := &c.sites[at]
		here.lock.Lock()
		here.site.close()
		here.lock.Unlock()
	}
	c.lock.Lock()
	c.book.close()
	c.lock.Unlock()
	runtime.SetFinalizer(c, nil)
}

// Sites is how many sites there are.
func (c *Cluster) Sites() int { return len(c.sites) }

// ---- holds ----

// handOn rings the keeper where work is left, and a site told something that no hold has looked at, and no caller will: it looks at hasWork,
// at looked, at how often told rang, and at turners.
func (c *Cluster) handOn() {
	if !c.hasWork.Load() {
		return
	}
	if looked := c.looked.Load(); looked != c.told.listen() && c.turners.Load() == 0 {
		c.work.ring()
	}
}

func (c *Cluster) ringHeads(after, acked uint64) {
	for number := after + 1; number <= acked+1 && number <= after+headBells; number++ {
		c.heads[number%headBells].ring()
	}
}

// tell tells those who sleep what a hold changed: appliers, then callers, then the keeper. After a hold that was refused memory one may change
// what no site told, so told rings; but not where it was refused again and changed nothing, or the keeper would not rest.
func (c *Cluster) tell(was, is *told) {
	if is.sent != was.sent {
		c.sent.ring()
	}
	if is.acked != was.acked {
		c.ringHeads(was.acked, is.acked)
	}
	if was.isStarved && (!is.isStarved || is.acked != was.acked) {
		c.told.ring()
	}
	c.handOn()
}

// publish tells what a hold did to those that have no lock: what it looked at last, and that it did as the last of all.
func (c *Cluster) publish(heard uint64) {
	c.logged.Store(c.last.logged)
	c.acked.Store(c.last.acked)
	c.hasWork.Store(c.last.hasWork)
	c.looked.Store(heard)
}

// number is a hold of the book, in which a set is numbered and a turn is made: it listens to told under the lock before the book looks, and
// tells after it.
func (c *Cluster) number(changes []Change, conditions []Condition) (told, error) {
	c.lock.Lock()
	heard := c.told.listen()
	was := c.last
	is, status := was, statusStopped
	if !c.isClosing {
		is, status = c.book.propose(changes, conditions)
	}
	if status == statusDone {
		c.last = is
		c.publish(heard)
	}
	c.lock.Unlock()
	if status == statusUnmet {
		return is, ErrUnmet{int(is.unmet)}
	}
	if status != statusDone {
		return is, status.fault()
	}
	c.tell(&was, &is)
	return is, nil
}

// turn is a hold of the book, in which a turn is made, unless there is nothing new for it.
func (c *Cluster) turn() (told, error) {
	status := statusDone
	c.lock.Lock()
	heard := c.told.listen()
	was := c.last
	is := was
	if was.isStarved || c.looked.Load() != heard {
		is, status = c.book.turn()
	}
	if status == statusDone {
		c.last = is
		c.publish(heard)
	}
	c.lock.Unlock()
	if status != statusDone {
		return is, status.fault()
	}
	c.tell(&was, &is)
	return is, nil
}

// isReached is whether an update is acknowledged; of the number 0, whether no work is left.
func (c *Cluster) isReached(number uint64) bool {
	if number > 0 {
		return c.acked.Load() >= number
	}
	return !c.hasWork.Load()
}

// until waits until an update is acknowledged, or for the number 0 until no work is left, and makes turns meanwhile if that is its to do. Each
// time it looks whether its context ended, listens to the bell of its update and to told, reads looked, then looks whether it is there, then whether it may wait; before the
// update is the head it sleeps on the bell, and then on told, as long as no site told anything new. It leaves with handOn.
func (c *Cluster) until(ctx context.Context, number uint64) (err error) {
	if c.isReached(number) {
		return nil
	}
	head := &c.heads[number%headBells]
	turns := false
	for {
		ended := ctx.Err()
		heardOfHead, heard, looked := head.listen(), c.told.listen(), c.looked.Load()
		if c.isReached(number) {
			break
		}
		if ended != nil {
			err = ended
			break
		}
		if c.stopped.Load() {
			err = ErrStopped
			break
		}
		if number > c.acked.Load()+1 {
			head.waitFor(ctx, heardOfHead)
			continue
		}
		if !turns {
			c.turners.Add(1)
		}
		turns = true
		if looked == heard {
			c.told.waitFor(ctx, heard)
			continue
		}
		var is told
		is, err = c.turn()
		if err == nil && is.isStarved {
			c.work.ring()
			if !c.isReached(number) {
				err = ErrNoMemory
			}
			break
		}
		if err != nil {
			break
		}
	}
	if turns {
		c.turners.Add(-1)
		c.handOn()
	}
	return err
}

// ---- goroutines of a cluster ----

// applier applies what is sent to a site, until the cluster is stopped and there is no more. It listens to sent, looks whether it is stopped,
// then at its feed, and sleeps where that is empty. After an update it rings the readers of the site, and after some, or the last one, told.
func (c *Cluster) applier(at Site) {
	defer c.goroutines.Done()
	here := &c.sites[at]
	untold := 0
	for {
		heard := c.sent.listen()
		stopping := c.stopped.Load()
		here.lock.Lock()
		status := here.site.apply()
		here.lock.Unlock()
		if status == statusDone {
			here.moved.ring()
			untold++
		}
		if untold > 0 && (status != statusDone || untold == appliedUntold) {
			c.told.ring()
			c.handOn()
			untold = 0
		}
		if status == statusDone {
			continue
		}
		if stopping {
			return
		}
		// It is started by Open, whose caller may be gone: Stop rings, and no context ends it.
		c.sent.waitFor(context.Background(), heard)
	}
}

// keeper finishes what no caller waits for, until the cluster is stopped. It listens to work, looks whether it is stopped, then makes a turn
// where work is left, and sleeps.
func (c *Cluster) keeper() {
	defer c.goroutines.Done()
	for {
		heard := c.work.listen()
		stopping := c.stopped.Load()
		var is told
		if c.hasWork.Load() {
			is, _ = c.turn()
		}
		if stopping {
			return
		}
		soon, cancel := soonIf(is.isStarved)
		c.work.waitFor(soon, heard)
		cancel()
	}
}

// soonIf is a context that ends after a while, or one that does not end. It is of no caller: the goroutines of a cluster end once it stops.
func soonIf(isSoon bool) (context.Context, context.CancelFunc) {
	if isSoon {
		return context.WithTimeout(context.Background(), retry)
	}
	return context.Background(), func() {}
}

// Stop refuses proposals from now on, and wakes and answers whoever waits. Close finishes what is numbered. It is stopped, then all bells ring.
func (c *Cluster) Stop() {
	c.stopped.Store(true)
	c.sent.ring()
	c.told.ring()
	c.work.ring()
	for head := range c.heads {
		c.heads[head].ring()
	}
	for at := range c.sites {
		c.sites[at].moved.ring()
	}
}
