// Package lease has what a process decides of a key that it holds under a lease of the engine: what it asks next, what an answer means, and
// until when it relies on the lease.
//
// It has no engine, no threads and no clock. Whoever has these asks for the next step, does it, and says what came of it, with the time:
//
//	step := key.Next(now)              what is to be done, noted as asked now
//	err := key.Found(found)            and so on: for each kind of step what its answer means
//	key.Failed()                       the step has no answer, so it is not known whether it was done
package lease

import (
	"errors"
	"fmt"
	"time"
)

const (
	// Time is after how long without renewal the engine drops a lease.
	Time = 5 * time.Second
	// Relied is for how long its holder relies on it, from before it asked. So two never rely on it at once while the clocks of the
	// engine and of the holder run at rates that differ by less than two fifths.
	Relied = 3 * time.Second
)

// An ID is that of a lease in the engine. None is 0.
type ID int64

// A Term counts the times that a process got its key. Within one nobody else had it.
type Term int64

// A Kind says what a step is.
type Kind uint8

const (
	// Find looks for the key, and where it is not there for one that excludes it: Found.
	Find Kind = iota
	// Create has the engine grant a lease, and creates the key under it where there is none: Created.
	Create
	// Renew renews the lease, and then looks for the key: Renewed.
	Renew
	// Begin does what a process has to do once it has the key and before it relies on it: Begun.
	Begin
	// Revoke gives the lease back. The engine may hear of it late, or never: Revoked.
	Revoke
	// Await waits until something becomes of the key, or a short time: Waited.
	Await
	// Rest waits until the lease is to be renewed: Waited.
	Rest
)

// A Step is what is to be done next. The lease is that of Renew, Begin and Revoke, and the term that of Begin.
type Step struct {
	Kind Kind
	ID   ID
	Term Term
}

// A Found is what the engine has of the key.
type Found struct {
	IsThere bool
	Value   string
	// ID is its lease, or 0 where it was put by hand.
	ID ID
	// Excludes is another key that is there, if this one is not and cannot be beside it.
	Excludes string
}

// A Key is a key that one process holds at a time, as far as the process knows. Its value names the process, and no other one ever has the
// same.
type Key struct {
	name, value string
	// Until is up to when the process relies on the lease, and id is 0 where it has none.
	until time.Duration
	term  Term
	id    ID
	// What is to be done next, and when that was asked by which the lease is held from its answer on.
	next  Step
	asked time.Duration
	// The last lease that was given back. The engine may hear of that at any time, so it is never taken up again.
	given ID
}

// New gives a key that the process does not have.
func New(name, value string) Key { return Key{name: name, value: value} }

// Lives is whether this term of the lease goes on, and the process may rely on it now.
func (k *Key) Lives(term Term, now time.Duration) bool { return k.term == term && now < k.until }

// Until is until when the process may rely on the lease, as far as is known now.
func (k *Key) Until() time.Duration { return k.until }

// Held is whether the process has the key, as far as it knows. It may be lost by now.
func (k *Key) Held() bool { return k.id != 0 }

// Relies is whether the process has the key, and may rely on it now.
func (k *Key) Relies(now time.Duration) bool { return k.id != 0 && now < k.until }

// Next gives what is to be done now.
func (k *Key) Next(now time.Duration) Step {
	if kind := k.next.Kind; kind == Find || kind == Create || kind == Renew && k.id != 0 {
		k.asked = now
	}
	return k.next
}

// Failed says that the step has no answer, but for those of which nothing fails.
func (k *Key) Failed() {
	// The lease may be there still. If it is, nobody else had the key meanwhile.
	k.next = Step{}
	if k.id != 0 {
		k.next = Step{Kind: Renew, ID: k.id}
	}
}

// Found says what Find found. With an error the key cannot be had now.
func (k *Key) Found(found Found) error {
	switch {
	case found.Excludes != "":
		return fmt.Errorf("there is the key %s: a name is that of one site or of a fleet", found.Excludes)
	case !found.IsThere:
		k.next = Step{Kind: Create}
	case found.ID == 0:
		return fmt.Errorf("the key %s has no lease, so it was put by hand: take it away", k.name)
	case found.Value != k.value || found.ID == k.given:
		k.next = Step{Kind: Await}
	default:
		// An earlier call created it, whose answer was lost.
		k.next = Step{Kind: Renew, ID: found.ID}
	}
	return nil
}

// Created says whether the key was created, under this lease.
func (k *Key) Created(id ID, isOurs bool) {
	if isOurs {
		k.begin(id)
	} else {
		k.revoke(id)
	}
}

// Renewed says whether the engine renewed the lease, and what it had of the key after that. With an error the lease is lost.
func (k *Key) Renewed(isKept bool, found Found) error {
	id := k.next.ID
	isOurs := isKept && found.IsThere && found.Value == k.value && found.ID == id
	switch {
	case k.id == 0 && isOurs:
		k.begin(id)
	case k.id == 0:
		k.next = Step{}
	case isOurs:
		k.rely(id)
		k.next = Step{Kind: Rest}
	default:
		k.GiveUp()
		return errors.New("it was lost")
	}
	return nil
}

// begin begins a term, before the process relies on the lease.
func (k *Key) begin(id ID) {
	k.term++
	k.next = Step{Begin, id, k.term}
}

// Begun says whether the process has done what it has to do before it relies on the lease. Else the key is given up.
func (k *Key) Begun(isDone bool) {
	id := k.next.ID
	if !isDone {
		k.revoke(id)
		return
	}
	k.rely(id)
	k.next = Step{Kind: Renew, ID: id}
}

// rely has the process rely on the lease, from before it asked.
func (k *Key) rely(id ID) { k.id, k.until = id, k.asked+Relied }

// Waited says that Await or Rest is over.
func (k *Key) Waited() { k.Failed() }

// GiveUp lets another process have the key at once: the process relies on its lease no more, and gives it back.
func (k *Key) GiveUp() {
	id := k.id
	if k.next.Kind == Begin {
		id = k.next.ID
	}
	k.id, k.until = 0, 0
	if id != 0 {
		k.revoke(id)
	}
}

func (k *Key) revoke(id ID) { k.given, k.next = id, Step{Kind: Revoke, ID: id} }

// Revoked says that the engine was asked to end the lease.
func (k *Key) Revoked() { k.next = Step{} }
