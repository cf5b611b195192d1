package cluster

import (
	"context"
	"errors"
	"runtime"
	"sync"
)

// Seen is a value at a site that has applied so many updates.
type Seen struct {
	Value   int64
	Applied uint64
}

// here gives a site, and how many updates of this cluster a session has seen.
func (c *Cluster) here(at Site, session *Session) (*room, uint64, error) {
	if uint64(at) >= uint64(len(c.sites)) {
		return nil, 0, ErrUnknownSite
	}
	if session == nil || session.Seen < c.before {
		return &c.sites[at], 0, nil
	}
	return &c.sites[at], session.Seen - c.before, nil
}

// Read reads an object at a site, which has applied all that the session has seen. The session has then seen what the site has applied. It
// takes the lock of the site alone, and waits for nobody else.
//
// ErrBehind: the site has not applied what the session has seen. Else a Refused, UnknownSite or UnknownObject, or ErrClosed.
func (c *Cluster) Read(session *Session, at Site, object Object) (Seen, error) {
	here, seen, err := c.here(at, session)
	if err != nil {
		return Seen{}, err
	}
	here.lock.Lock()
	found, status := here.site.read(object, seen)
	here.lock.Unlock()
	found.Applied += c.before
	if status == statusDone {
		session.see(found.Applied)
		return found, nil
	}
	return Seen{}, status.readFault(found.Applied)
}

// ReadMany does the same of several objects, whose values are all of one state: they are given with how many updates the site has applied.
func (c *Cluster) ReadMany(session *Session, at Site, objects ...Object) ([]int64, uint64, error) {
	here, seen, err := c.here(at, session)
	if err != nil {
		return nil, 0, err
	}
	values := make([]int64, len(objects))
	here.lock.Lock()
	applied, status := here.site.readMany(objects, seen, values)
	here.lock.Unlock()
	applied += c.before
	if status == statusDone {
		session.see(applied)
		return values, applied, nil
	}
	return nil, 0, status.readFault(applied)
}

func (s status) readFault(applied uint64) error {
	if s == statusBehind {
		return ErrBehind{Applied: applied}
	}
	return s.fault()
}

// ReadWhenLevel is Read, but waits until the site has applied what the session has seen. ErrBehind: the context ended before, or the cluster was
// stopped.
func (c *Cluster) ReadWhenLevel(ctx context.Context, session *Session, at Site, object Object) (seen Seen, err error) {
	err = c.readLevel(ctx, at, func() error {
		seen, err = c.Read(session, at, object)
		return err
	})
	return seen, err
}

// ReadManyWhenLevel is ReadMany, but waits as ReadWhenLevel does.
func (c *Cluster) ReadManyWhenLevel(ctx context.Context, session *Session, at Site, objects ...Object) (values []int64, applied uint64, err error) {
	err = c.readLevel(ctx, at, func() error {
		values, applied, err = c.ReadMany(session, at, objects...)
		return err
	})
	return values, applied, err
}

// readLevel reads until the site is not behind: it listens to the bell of the site, looks whether the context ended or the cluster is stopped, reads,
// and sleeps.
func (c *Cluster) readLevel(ctx context.Context, at Site, readOnce func() error) error {
	err := readOnce()
	var behind ErrBehind
	if !errors.As(err, &behind) {
		return err
	}
	moved := &c.sites[at].moved
	for {
		heard := moved.listen()
		ended := ctx.Err()
		if ended == nil && c.stopped.Load() {
			ended = ErrStopped
		}
		err = readOnce()
		if !errors.As(err, &behind) {
			return err
		}
		if ended != nil {
			return ErrBehind{behind.Applied, ended}
		}
		moved.waitFor(ctx, heard)
	}
}

// Charged is what a query read: a value, no further than Import from that at the query's reference. Total is what all its reads imported, in
// the unit of the values. Place is the reference: how many updates were acknowledged as the query began. Reads is how many it made.
type Charged struct {
	Value                       int64
	Import, Total, Place, Reads uint64
}

// Ended is a query that ended: how many updates were acknowledged as it began, its reference, and the sums of its values and of its imports,
// with how many reads there were. Refused reads do not count.
type Ended struct {
	Place        uint64
	Sum          int64
	Total, Reads uint64
}

// A Query reads at a site, and imports at most so much: what its reads miss of the updates that were acknowledged as it began. End ends it, and
// the collector one that is forgotten.
type Query struct {
	cluster *Cluster
	at      Site
	lock    sync.Mutex
	query   query
}

// Query begins a query at a site, whose reads may import at most importLimit in sum, 0 to 10^18. The error is a Refused, one of UnknownSite,
// OutOfRange and NoMemory, or ErrClosed.
func (c *Cluster) Query(at Site, importLimit uint64) (*Query, error) {
	if uint64(at) >= uint64(len(c.sites)) {
		return nil, ErrUnknownSite
	}
	q := &Query{cluster: c, at: at}
	c.lock.Lock()
	status := q.query.open(&c.book, importLimit)
	c.lock.Unlock()
	if err := status.fault(); err != nil {
		q.query.close()
		return nil, err
	}
	runtime.SetFinalizer(q, (*Query).forget)
	return q, nil
}

// Read reads an object. The error is a Refused, one of UnknownObject, TooMany after 256 reads and OverImport, or ErrClosed.
func (q *Query) Read(object Object) (Charged, error) {
	q.lock.Lock()
	here := &q.cluster.sites[q.at]
	here.lock.Lock()
	charged, status := q.query.read(&here.site, object)
	here.lock.Unlock()
	q.lock.Unlock()
	if err := status.fault(); err != nil {
		return Charged{}, err
	}
	charged.Place += q.cluster.before
	return charged, nil
}

// End ends the query, be it after its cluster was released. ErrClosed: it has ended.
func (q *Query) End() (Ended, error) {
	q.lock.Lock()
	ended, status := q.query.end()
	if status == statusDone {
		q.query.close()
	}
	q.lock.Unlock()
	if err := status.fault(); err != nil {
		return Ended{}, err
	}
	runtime.SetFinalizer(q, nil)
	ended.Place += q.cluster.before
	return ended, nil
}

func (q *Query) forget() {
	q.lock.Lock()
	q.query.close()
	q.lock.Unlock()
}
