package main

import (
	"container/heap"
	"time"
)

// A clock has what happens in simulated time, in order.
type clock struct {
	now    time.Duration
	count  int
	events events
}

type event struct {
	at    time.Duration
	order int
	do    func()
}

type events []event

func (e events) Len() int      { return len(e) }
func (e events) Swap(i, j int) { e[i], e[j] = e[j], e[i] }
func (e *events) Push(it any)  { *e = append(*e, it.(event)) }
func (e events) Less(i, j int) bool {
	return e[i].at < e[j].at || e[i].at == e[j].at && e[i].order < e[j].order
}

func (e *events) Pop() any {
	last := len(*e) - 1
	it := (*e)[last]
	*e = (*e)[:last]
	return it
}

func (c *clock) after(wait time.Duration, do func()) {
	c.count++
	heap.Push(&c.events, event{c.now + wait, c.count, do})
}

// step has the next event happen.
func (c *clock) step() {
	it := heap.Pop(&c.events).(event)
	c.now = it.at
	it.do()
}

// wake calls after so long, unless it does so sooner: an alarm is when it does.
func (c *clock) wake(alarm *time.Duration, wait time.Duration, do func()) {
	if when := c.now + wait; *alarm <= c.now || when < *alarm {
		*alarm = when
		c.after(wait, do)
	}
}

// An engineModel is one thread: it takes all that has come, syncs once where there is a write among it, and answers. Members at a distance
// answer a round trip later, and take what comes meanwhile.
type engineModel struct {
	clock          *clock
	fsync, between time.Duration
	isBusy         bool
	came           []asked
}

type asked struct {
	writes bool
	answer func()
}

func (e *engineModel) take(writes bool, answer func()) {
	e.came = append(e.came, asked{writes, answer})
	if !e.isBusy {
		e.work()
	}
}

func (e *engineModel) work() {
	came, cost, later := e.came, command*time.Duration(len(e.came)), time.Duration(0)
	for _, it := range came {
		if it.writes { // The primary has one on its way at a time.
			cost, later = cost+e.fsync, e.between
		}
	}
	e.came, e.isBusy = nil, true
	e.clock.after(cost+later, func() {
		for _, it := range came {
			it.answer()
		}
	})
	e.clock.after(cost, func() {
		e.isBusy = false
		if len(e.came) > 0 {
			e.work()
		}
	})
}
