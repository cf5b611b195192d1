package primary

import (
	"testing"

	"ordup.dev/node/internal/epoch"
	"ordup.dev/node/internal/script"
)

func newCalls() *calls {
	calls := &calls{}
	calls.init("http://p1")
	return calls
}

func ask(client string) *call {
	return &call{request: epoch.Request{Client: client, Number: 1}, done: make(chan outcome, 1)}
}

// answer is that to a request of ask.
func answer(client string, decided script.Answer) []script.Step {
	return []script.Step{{Kind: script.Answered, Client: client, Number: 1, Answer: decided}}
}

// Who gives up while the core looks at the request is forgotten too.
func TestWhoGivesUpIsForgotten(t *testing.T) {
	t.Parallel()
	calls := newCalls()
	waits, queued, taken, later := ask("ann"), ask("bob"), ask("cec"), ask("dan")
	calls.sort([]*call{waits}, []epoch.Reply{{Kind: epoch.Waits}})
	calls.queue = []*call{queued}
	for _, gone := range []*call{waits, queued, taken, later} {
		calls.drop(gone)
	}
	count := calls.sort([]*call{taken, later}, []epoch.Reply{{Kind: epoch.Waits}, {Kind: epoch.NotNow}})
	if came := calls.takeLocked(); len(came) != 0 {
		t.Error(came)
	}
	if waiting, left := calls.sizes(); waiting != 0 || left != 0 || count != 0 || len(calls.waiting) != 0 {
		t.Error(waiting, left, count, calls.waiting)
	}
}

// Of those that ask for the same, each may give up. The others have the answer, and none waits then.
func TestWhoIsAnsweredWaitsNoMore(t *testing.T) {
	t.Parallel()
	const count = 4
	for first := 0; first < count; first++ {
		calls, all := newCalls(), []*call{}
		for at := 0; at < count; at++ {
			all = append(all, ask("ann"))
			calls.sort(all[at:], []epoch.Reply{{Kind: epoch.Waits}})
		}
		second := (first + 2) % count
		for _, at := range []int{first, second, first} {
			calls.drop(all[at])
		}
		if waiting, _ := calls.sizes(); waiting != count-2 {
			t.Error(first, waiting)
		}
		calls.tell(answer("bob", script.Answer{Refusal: script.Refusal{Number: 9, Name: "OutOfRange"}}))
		calls.tell(answer("ann", script.Answer{Place: 7, Epoch: 1}))
		for at, call := range all {
			if isGone := at == first || at == second; len(call.done) == 0 != isGone || !isGone && (<-call.done).answer.String() != "ok acked 7 epoch 1" {
				t.Error(first, at)
			}
		}
		// Who gives up after that takes nobody's place, though others have asked for the same since.
		again := ask("ann")
		calls.sort([]*call{again}, []epoch.Reply{{Kind: epoch.Waits}})
		for _, call := range all {
			calls.drop(call)
		}
		if waiting, _ := calls.sizes(); waiting != 1 || calls.waiting[asked{"ann", 1}][0] != again {
			t.Error(first, waiting)
		}
	}
}

// The last entry names its writer also after that writes no more. The process then knows of none.
func TestAProcessThatWritesNoMoreDoesNotNameItself(t *testing.T) {
	t.Parallel()
	calls := newCalls()
	for _, row := range []struct {
		open          bool
		address, want string
	}{{true, "http://p1", "http://p1"}, {false, "http://p1", ""}, {false, "http://p2", "http://p2"}, {false, "", ""}} {
		calls.set(row.open, row.address)
		if calls.writer() != row.want || calls.isOpen() != row.open {
			t.Errorf("%v: %s", row, calls.writer())
		}
	}
}
