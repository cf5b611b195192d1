package engine

import (
	"context"
	"fmt"
	"sync"
	"time"

	"go.etcd.io/etcd/clientv3"
	pb "go.etcd.io/etcd/etcdserver/etcdserverpb"

	"ordup.dev/node/internal/clock"
	"ordup.dev/node/internal/lease"
	"ordup.dev/node/internal/logs"
)

const (
	// LeaseTime and Relied are those of package lease.
	LeaseTime, Relied = lease.Time, lease.Relied
	// renewAfter is after how long a lease is renewed, and leaseCall how long a call for it may take.
	renewAfter, leaseCall = Relied / 4, time.Second
	// afterFailure is how long whoever was failed waits before it asks again.
	afterFailure = 200 * time.Millisecond
)

// A Term is one of package lease.
type Term = lease.Term

// A Lease is a key that one process holds at a time, under a lease of the engine. Package lease decides what is asked, and what that means.
type Lease struct {
	engine     *Engine
	key, value string
	// From and to are the range of the keys that exclude this one, if there are such.
	from, to string
	whenHeld func(context.Context, Term) error
	log      *logs.Log

	// What stands below lock up to the blank line is under it. Its times are by package clock.
	lock    sync.Mutex
	state   lease.Key
	changed chan struct{}

	// The revision at which the key was looked for last, of the goroutine of Run alone.
	revision int64
}

// NewLease gives a lease that Run takes. The value names the process, and no other one ever has the same. When the process has the key,
// and before it relies on it, whenHeld is called with the term that begins; with an error the key is given up.
func (e *Engine) NewLease(key, value string, log *logs.Log, whenHeld func(context.Context, Term) error) *Lease {
	return &Lease{engine: e.Apart(), key: key, value: value, whenHeld: whenHeld, log: log, state: lease.New(key, value),
		changed: make(chan struct{})}
}

// NewSiteLease gives the lease of a process that serves a site of a fleet, or one that is none of a fleet and has its own name there. Of a
// name in the script there are only the sites of a fleet at a time or only the one site, which tells for that name alone.
func (e *Engine) NewSiteLease(fleet, site, value string, log *logs.Log, whenHeld func(context.Context, Term) error) *Lease {
	lease := e.NewLease(SiteKey(fleet, site), value, log, whenHeld)
	lease.from, lease.to = keysOf(fleet)
	if fleet != site {
		lease.from, lease.to = SiteKey(fleet, fleet), SiteKey(fleet, fleet)+"\x00"
	}
	return lease
}

// Lives is whether this term of the lease goes on, and the process may rely on it now.
func (l *Lease) Lives(term Term) bool {
	l.lock.Lock()
	defer l.lock.Unlock()
	return l.state.Lives(term, clock.Now())
}

// Until is until when the process may rely on the lease, as far as is known now.
func (l *Lease) Until() time.Duration {
	l.lock.Lock()
	defer l.lock.Unlock()
	return l.state.Until()
}

// Held is whether the process has the key, as far as it knows. It may be lost by now.
func (l *Lease) Held() bool {
	l.lock.Lock()
	defer l.lock.Unlock()
	return l.state.Held()
}

// Relies is whether the process has the key, and may rely on it now.
func (l *Lease) Relies() bool {
	l.lock.Lock()
	defer l.lock.Unlock()
	return l.state.Relies(clock.Now())
}

// Changed is closed when after this call Held changes, or Relies becomes true.
func (l *Lease) Changed() <-chan struct{} {
	l.lock.Lock()
	defer l.lock.Unlock()
	return l.changed
}

// note has the state step on, and wakes who waits for a change.
func (l *Lease) note(came func(state *lease.Key)) {
	l.lock.Lock()
	defer l.lock.Unlock()
	now, state := clock.Now(), &l.state
	held, relied := state.Held(), state.Relies(now)
	came(state)
	if state.Held() != held || state.Relies(now) && !relied {
		close(l.changed)
		l.changed = make(chan struct{})
	}
}

// next gives what is to be done now.
func (l *Lease) next() lease.Step {
	l.lock.Lock()
	defer l.lock.Unlock()
	return l.state.Next(clock.Now())
}

// Run takes the key, renews its lease, and takes it again where it was lost, until the context ends. Then it gives it up.
func (l *Lease) Run(ctx context.Context) {
	defer l.engine.Close()
	defer l.giveUp()
	for ctx.Err() == nil {
		err := l.step(ctx)
		if err == nil || ctx.Err() != nil {
			continue
		}
		l.log.Warn("lease", "key", l.key, "why", err)
		clock.Pause(ctx, afterFailure)
	}
}

// step does what is to be done, and gives back at once what is to be given back by what came of that.
func (l *Lease) step(ctx context.Context) error {
	err := l.do(ctx, l.next())
	if step := l.next(); step.Kind == lease.Revoke {
		l.revoke(step.ID)
	}
	return err
}

func (l *Lease) do(ctx context.Context, step lease.Step) (err error) {
	switch step.Kind {
	case lease.Find:
		err = l.find(ctx)
	case lease.Create:
		err = l.create(ctx)
	case lease.Renew:
		err = l.renew(ctx, step.ID)
	case lease.Begin:
		return l.begin(ctx, step.Term)
	case lease.Await:
		err = l.awaitEnd(ctx, l.revision+1)
		l.note(func(state *lease.Key) { state.Waited() })
		return err
	case lease.Rest:
		clock.Pause(ctx, renewAfter)
		l.note(func(state *lease.Key) { state.Waited() })
	}
	return err
}

// failed notes that a call has no answer, and returns what it was for and why.
func (l *Lease) failed(doing string, err error) error {
	l.note(func(state *lease.Key) { state.Failed() })
	return fmt.Errorf("%s: %w", doing, err)
}

// renew renews the lease, and looks whether its key is still there.
func (l *Lease) renew(ctx context.Context, id lease.ID) error {
	isKept, found := false, lease.Found{}
	err := l.engine.call(ctx, leaseCall, func(ctx context.Context, client *clientv3.Client) error {
		stream, err := pb.NewLeaseClient(client.ActiveConnection()).LeaseKeepAlive(ctx)
		if err != nil {
			return err
		}
		if err = stream.Send(&pb.LeaseKeepAliveRequest{ID: int64(id)}); err != nil {
			return err
		}
		kept, err := stream.Recv()
		if err != nil || kept.TTL <= 0 {
			return err
		}
		answer, err := client.Get(ctx, l.key)
		if err == nil {
			isKept, found = true, foundIn(answer)
		}
		return err
	})
	if err != nil {
		return l.failed("renew the lease", err)
	}
	l.note(func(state *lease.Key) { err = state.Renewed(isKept, found) })
	return err
}

// foundIn is what an answer has of the key.
func foundIn(answer *clientv3.GetResponse) lease.Found {
	if len(answer.Kvs) == 0 {
		return lease.Found{}
	}
	return lease.Found{IsThere: true, Value: string(answer.Kvs[0].Value), ID: lease.ID(answer.Kvs[0].Lease)}
}

// find looks for the key, and where it is not there for one that excludes it.
func (l *Lease) find(ctx context.Context) error {
	var found lease.Found
	err := l.engine.call(ctx, leaseCall, func(ctx context.Context, client *clientv3.Client) error {
		answer, err := client.Get(ctx, l.key)
		if err != nil {
			return err
		}
		found, l.revision = foundIn(answer), answer.Header.Revision
		if found.IsThere || l.from == "" {
			return nil
		}
		others, err := client.Get(ctx, l.from, clientv3.WithRange(l.to), clientv3.WithKeysOnly(), clientv3.WithLimit(1))
		if err == nil && len(others.Kvs) > 0 && string(others.Kvs[0].Key) != l.key {
			found.Excludes = string(others.Kvs[0].Key)
		}
		return err
	})
	if err != nil {
		return l.failed("look for the key", err)
	}
	if found.Excludes != "" {
		clock.Pause(ctx, lookAfter)
	}
	l.note(func(state *lease.Key) { err = state.Found(found) })
	return err
}

func (l *Lease) create(ctx context.Context) error {
	isFree := []clientv3.Cmp{clientv3.Compare(clientv3.CreateRevision(l.key), "=", 0)}
	if l.from != "" {
		isFree = append(isFree, clientv3.Compare(clientv3.CreateRevision(l.from), "=", 0).WithRange(l.to))
	}
	var id clientv3.LeaseID
	isOurs := false
	err := l.engine.call(ctx, leaseCall, func(ctx context.Context, client *clientv3.Client) error {
		granted, err := client.Grant(ctx, int64(LeaseTime/time.Second))
		if err != nil {
			return err
		}
		id = granted.ID
		done, err := client.Txn(ctx).If(isFree...).Then(clientv3.OpPut(l.key, l.value, clientv3.WithLease(id))).Commit()
		isOurs = err == nil && done.Succeeded
		return err
	})
	if err != nil {
		return l.failed("create the key", err)
	}
	l.note(func(state *lease.Key) { state.Created(lease.ID(id), isOurs) })
	return nil
}

// begin has whenHeld do its work, before the lease is relied on.
func (l *Lease) begin(ctx context.Context, term Term) (err error) {
	if l.whenHeld != nil {
		err = l.whenHeld(ctx, term)
	}
	l.note(func(state *lease.Key) { state.Begun(err == nil) })
	return err
}

// awaitEnd waits until something becomes of the key, or a short time.
func (l *Lease) awaitEnd(ctx context.Context, revision int64) error {
	client, _, err := l.engine.connected()
	if err != nil {
		return fmt.Errorf("watch the key: %w", err)
	}
	watching, cancel := context.WithTimeout(clientv3.WithRequireLeader(ctx), lookAfter)
	defer cancel()
	for came := range client.Watch(watching, l.key, clientv3.WithRev(revision)) {
		if came.Err() != nil || len(came.Events) > 0 {
			break
		}
	}
	return nil
}

// giveUp lets another process have the key at once.
func (l *Lease) giveUp() {
	l.note(func(state *lease.Key) { state.GiveUp() })
	if step := l.next(); step.Kind == lease.Revoke {
		l.revoke(step.ID)
	}
}

// revoke gives a lease back, by any member. Where none answers, the engine may be told of it later, or ends the lease in its time.
func (l *Lease) revoke(id lease.ID) {
	defer l.note(func(state *lease.Key) { state.Revoked() })
	for range l.engine.config.Members {
		// The context of Run has ended where the process ends, and the lease is given back all the same.
		err := l.engine.call(context.Background(), leaseCall, func(ctx context.Context, client *clientv3.Client) error {
			_, err := client.Revoke(ctx, clientv3.LeaseID(id))
			return err
		})
		if !IsAway(err) {
			return
		}
	}
}
