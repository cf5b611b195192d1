package cluster

// Numbers are those of a cluster: how many updates came before it, how many there are with these, and how many of those are acknowledged.
type Numbers struct{ Before, Length, Acknowledged uint64 }

// Numbers gives the numbers of a cluster. It takes no lock.
func (c *Cluster) Numbers() Numbers {
	acked := c.acked.Load()
	return Numbers{c.before, c.before + c.logged.Load(), c.before + acked}
}

// SiteNumbers are those of a site: how many updates it was sent, has applied and has reported, those before the cluster among them, where
// Reported <= Applied <= Sent; and its rounds in this cluster, which are how many of its updates waited for the site.
type SiteNumbers struct{ Sent, Applied, Reported, Rounds uint64 }

// SiteNumbers gives the numbers of a site. It takes the lock of the site, and then that of the book. The error is UnknownSite, or ErrClosed.
func (c *Cluster) SiteNumbers(at Site) (SiteNumbers, error) {
	here, _, err := c.here(at, nil)
	if err != nil {
		return SiteNumbers{}, err
	}
	here.lock.Lock()
	seen, status := here.site.read(0, 0)
	here.lock.Unlock()
	if err := status.fault(); err != nil {
		return SiteNumbers{}, err
	}
	c.lock.Lock()
	sent, reported, rounds, status := c.book.progress(at)
	c.lock.Unlock()
	if err := status.fault(); err != nil {
		return SiteNumbers{}, err
	}
	// What was reported meanwhile was applied meanwhile.
	if seen.Applied < reported {
		seen.Applied = reported
	}
	return SiteNumbers{c.before + sent, c.before + seen.Applied, c.before + reported, rounds}, nil
}

// A Lag is a limit of a site as it is now, and what the acknowledged updates weigh that the site has not reported.
type Lag struct {
	Scope          Scope
	Amount, Weight uint64
}

// Lags gives each limit of a site with its lag, all of one moment. The error is UnknownSite, or ErrClosed.
func (c *Cluster) Lags(at Site) ([]Lag, error) {
	if _, _, err := c.here(at, nil); err != nil {
		return nil, err
	}
	var lags []Lag
	c.lock.Lock()
	defer c.lock.Unlock()
	for {
		lag, status := c.book.lag(at, uint32(len(lags)))
		if status == statusClosed {
			return nil, ErrClosed
		}
		if status != statusDone {
			return lags, nil
		}
		lags = append(lags, lag)
	}
}

// Relimit changes the limit of a site on a scope, or begins one, and gives the number of the first update that it is for.
//
// The error is a Refused: UnknownObject, UnknownGroup, UnknownSite, OutOfRange, TooMany, HeadPending while an update waits for sites, LagOver
// where the site lags by more now, or NoMemory; or ErrClosed.
func (c *Cluster) Relimit(at Site, scope Scope, amount uint64) (uint64, error) {
	c.lock.Lock()
	place, status := c.book.relimit(at, scope, amount)
	c.lock.Unlock()
	if err := status.fault(); err != nil {
		return 0, err
	}
	return c.before + place, nil
}

// Record gives the record of a site in this cluster, for an auditor: the bytes that `ordup check` takes. Proposals wait meanwhile. The error is
// UnknownSite, NoMemory or ErrClosed.
func (c *Cluster) Record(at Site) ([]byte, error) {
	var rows []byte
	for {
		c.lock.Lock()
		written, status := c.book.record(at, rows)
		c.lock.Unlock()
		if status == statusMore {
			rows = make([]byte, written)
			continue
		}
		if err := status.fault(); err != nil {
			return nil, err
		}
		return rows[:written], nil
	}
}
