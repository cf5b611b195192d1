package cluster

/*
#include <stdlib.h>
#include <string.h>
#include "ordup_holds.h"

// A handle, and where the calls on it write, under the same lock.
typedef struct held_setup { ordup_handle handle; uint32_t id; } held_setup;
typedef struct held_book {
    ordup_handle handle;
    ordup_told told;
    ordup_progress progress;
    ordup_lag lag;
    uint64_t place;
    size_t written;
    uint32_t index;
} held_book;
typedef struct held_site { ordup_handle handle; ordup_seen seen; uint64_t number; } held_site;
typedef struct held_query { ordup_handle handle; ordup_charged charged; ordup_ended ended; } held_query;

// So many zero bytes, on cache lines of their own; or null.
static void *zeroed(size_t size) {
    size = (size + 127) / 128 * 128;
    void *at = aligned_alloc(128, size);
    return at ? memset(at, 0, size) : at;
}
*/
import "C"

import "unsafe"

// This file alone calls C. Each type here is a handle of ordup_holds.h in memory of C: one call at a time is made on it, and whoever shares
// it has a lock around it. One that is closed, or was never opened, answers statusClosed.

type status uint32

const (
	statusDone    = status(C.ORDUP_DONE)
	statusMore    = status(C.ORDUP_MORE)
	statusClosed  = status(C.ORDUP_CLOSED)
	statusOther   = status(C.ORDUP_OTHER)
	statusUnmet   = status(C.ORDUP_UNMET)
	statusRefused = status(C.ORDUP_REFUSED)
	statusBehind  = statusRefused + 21
	statusNoSite  = statusRefused + 8
	statusStopped = statusRefused + 23
	statusNoRoom  = statusRefused + 26
)

const (
	scopeObject = uint32(C.ORDUP_SCOPE_OBJECT)
	scopeGroup  = uint32(C.ORDUP_SCOPE_GROUP)
	scopeAll    = uint32(C.ORDUP_SCOPE_ALL)
	scopeCount  = uint32(C.ORDUP_SCOPE_COUNT)
)

const (
	opAdd, opSet, opMul    = uint32(C.ORDUP_ADD), uint32(C.ORDUP_SET), uint32(C.ORDUP_MUL)
	opMax, opMin, opTake   = uint32(C.ORDUP_MAX), uint32(C.ORDUP_MIN), uint32(C.ORDUP_TAKE)
	boundAtLeast, boundMax = uint32(C.ORDUP_AT_LEAST), uint32(C.ORDUP_AT_MOST)
)

// A Change, a Condition and an Object are for the library what they are here.
var (
	_ = [1]struct{}{}[unsafe.Sizeof(Change{})-C.sizeof_ordup_change]
	_ = [1]struct{}{}[unsafe.Offsetof(Change{}.operand)-8]
	_ = [1]struct{}{}[unsafe.Sizeof(Condition{})-C.sizeof_ordup_condition]
	_ = [1]struct{}{}[unsafe.Offsetof(Condition{}.number)-8]
	_ = [1]struct{}{}[unsafe.Sizeof(Object(0))-4]
)

// What a pointer to no elements points to, since none may be null.
var (
	noChange    [1]Change
	noCondition [1]Condition
	noObject    [1]Object
	noValue     [1]int64
	noByte      [1]byte
)

func text(of string) (*C.char, C.size_t) { return row([]byte(of)) }

func row(of []byte) (*C.char, C.size_t) {
	size := C.size_t(len(of))
	if len(of) == 0 {
		of = noByte[:]
	}
	return (*C.char)(unsafe.Pointer(&of[0])), size
}

func array(of []Object) (*C.uint32_t, C.size_t) {
	size := C.size_t(len(of))
	if len(of) == 0 {
		of = noObject[:]
	}
	return (*C.uint32_t)(unsafe.Pointer(&of[0])), size
}

// ---- declarations ----

type setup struct{ at *C.held_setup }

// newSetup gives the handle of no setup; or none, where memory was refused.
func newSetup() (*setup, status) {
	it := &setup{(*C.held_setup)(C.zeroed(C.sizeof_held_setup))}
	if it.at == nil {
		return it, statusNoRoom
	}
	return it, statusDone
}

func (s *setup) open() status { return status(C.ordup_setup_open(&s.at.handle)) }

func (s *setup) object(name string, initial int64) (uint32, status) {
	letters, size := text(name)
	status := status(C.ordup_setup_object(&s.at.handle, letters, size, C.int64_t(initial), &s.at.id))
	return uint32(s.at.id), status
}

func (s *setup) group(name string, members []Object) (uint32, status) {
	letters, size := text(name)
	them, count := array(members)
	status := status(C.ordup_setup_group(&s.at.handle, letters, size, them, count, &s.at.id))
	return uint32(s.at.id), status
}

func (s *setup) site(name string, capacity uint64) (uint32, status) {
	letters, size := text(name)
	status := status(C.ordup_setup_site(&s.at.handle, letters, size, C.uint64_t(capacity), &s.at.id))
	return uint32(s.at.id), status
}

func (s *setup) limit(site Site, scope Scope, amount uint64) status {
	return status(C.ordup_setup_limit(&s.at.handle, C.uint32_t(site), C.uint32_t(scope.kind), C.uint32_t(scope.id), C.uint64_t(amount)))
}

func (s *setup) close() {
	if s.at != nil {
		C.ordup_handle_close(&s.at.handle)
		C.free(unsafe.Pointer(s.at))
		s.at = nil
	}
}

// ---- books ----

type book struct{ at *C.held_book }

// told is what a hold of the book told.
type told struct {
	number, acked, logged, sent uint64
	unmet                       uint64
	isStarved, hasWork          bool
}

func (b *book) open(setup *setup, cluster uint64) status {
	if b.at = (*C.held_book)(C.zeroed(C.sizeof_held_book)); b.at == nil {
		return statusNoRoom
	}
	return status(C.ordup_book_open(&setup.at.handle, C.uint64_t(cluster), &b.at.handle))
}

func (b *book) told() told {
	it := &b.at.told
	return told{uint64(it.number), uint64(it.acked), uint64(it.logged), uint64(it.sent), uint64(it.unmet), it.is_starved != 0, it.has_work != 0}
}

func (b *book) propose(changes []Change, conditions []Condition) (told, status) {
	if b.at == nil {
		return told{}, statusClosed
	}
	count, conditionCount := C.size_t(len(changes)), C.size_t(len(conditions))
	if count == 0 {
		changes = noChange[:]
	}
	if conditionCount == 0 {
		conditions = noCondition[:]
	}
	status := status(C.ordup_book_propose(&b.at.handle, (*C.ordup_change)(unsafe.Pointer(&changes[0])), count,
		(*C.ordup_condition)(unsafe.Pointer(&conditions[0])), conditionCount, &b.at.told))
	return b.told(), status
}

func (b *book) turn() (told, status) {
	if b.at == nil {
		return told{}, statusClosed
	}
	status := status(C.ordup_book_turn(&b.at.handle, &b.at.told))
	return b.told(), status
}

func (b *book) relimit(site Site, scope Scope, amount uint64) (uint64, status) {
	if b.at == nil {
		return 0, statusClosed
	}
	status := status(C.ordup_book_relimit(&b.at.handle, C.uint32_t(site), C.uint32_t(scope.kind), C.uint32_t(scope.id), C.uint64_t(amount),
		&b.at.place))
	return uint64(b.at.place), status
}

// progress gives what the primary knows of a site: how many updates were sent to it and reported, and its rounds.
func (b *book) progress(site Site) (sent, reported, rounds uint64, _ status) {
	if b.at == nil {
		return 0, 0, 0, statusClosed
	}
	status := status(C.ordup_book_progress(&b.at.handle, C.uint32_t(site), &b.at.progress))
	it := &b.at.progress
	return uint64(it.sent), uint64(it.reported), uint64(it.rounds), status
}

func (b *book) lag(site Site, limit uint32) (Lag, status) {
	if b.at == nil {
		return Lag{}, statusClosed
	}
	status := status(C.ordup_book_lag(&b.at.handle, C.uint32_t(site), C.uint32_t(limit), &b.at.lag))
	it := &b.at.lag
	return Lag{Scope{uint32(it.kind), uint32(it.id)}, uint64(it.amount), uint64(it.weight)}, status
}

func (b *book) record(site Site, rows []byte) (int, status) {
	if b.at == nil {
		return 0, statusClosed
	}
	room, size := row(rows)
	status := status(C.ordup_book_record(&b.at.handle, C.uint32_t(site), room, size, &b.at.written))
	return int(b.at.written), status
}

func (b *book) compare(with *site) status {
	if b.at == nil || with.at == nil {
		return statusClosed
	}
	return status(C.ordup_book_compare(&b.at.handle, &with.at.handle))
}

func (b *book) successor(to *setup) status {
	if b.at == nil {
		return statusClosed
	}
	return status(C.ordup_book_successor(&b.at.handle, &to.at.handle))
}

func (b *book) close() {
	if b.at != nil {
		C.ordup_handle_close(&b.at.handle)
		C.free(unsafe.Pointer(b.at))
		b.at = nil
	}
}

// ---- sites ----

type site struct{ at *C.held_site }

// open opens a site of a book that is not open, and gives its index. statusNoSite: all are.
func (s *site) open(of *book) (uint32, status) {
	if s.at = (*C.held_site)(C.zeroed(C.sizeof_held_site)); s.at == nil {
		return 0, statusNoRoom
	}
	status := status(C.ordup_site_open(&of.at.handle, &s.at.handle, &of.at.index))
	return uint32(of.at.index), status
}

func (s *site) apply() status {
	if s.at == nil {
		return statusClosed
	}
	return status(C.ordup_site_apply(&s.at.handle, &s.at.number))
}

func (s *site) read(object Object, seen uint64) (Seen, status) {
	if s.at == nil {
		return Seen{}, statusClosed
	}
	status := status(C.ordup_site_read(&s.at.handle, C.uint32_t(object), C.uint64_t(seen), &s.at.seen))
	return Seen{int64(s.at.seen.value), uint64(s.at.seen.applied)}, status
}

// readMany writes as many values as there are objects.
func (s *site) readMany(objects []Object, seen uint64, values []int64) (uint64, status) {
	if s.at == nil {
		return 0, statusClosed
	}
	them, count := array(objects)
	if count == 0 {
		values = noValue[:]
	}
	status := status(C.ordup_site_read_many(&s.at.handle, them, count, C.uint64_t(seen), (*C.int64_t)(unsafe.Pointer(&values[0])), count,
		&s.at.number))
	return uint64(s.at.number), status
}

func (s *site) close() {
	if s.at != nil {
		C.ordup_handle_close(&s.at.handle)
		C.free(unsafe.Pointer(s.at))
		s.at = nil
	}
}

// ---- queries ----

type query struct{ at *C.held_query }

func (q *query) open(of *book, limit uint64) status {
	if of.at == nil {
		return statusClosed
	}
	if q.at = (*C.held_query)(C.zeroed(C.sizeof_held_query)); q.at == nil {
		return statusNoRoom
	}
	return status(C.ordup_query_open(&of.at.handle, C.uint64_t(limit), &q.at.handle))
}

func (q *query) read(at *site, object Object) (Charged, status) {
	if q.at == nil || at.at == nil {
		return Charged{}, statusClosed
	}
	status := status(C.ordup_query_read(&q.at.handle, &at.at.handle, C.uint32_t(object), &q.at.charged))
	it := &q.at.charged
	return Charged{int64(it.value), uint64(it._import), uint64(it.total), uint64(it.place), uint64(it.reads)}, status
}

func (q *query) end() (Ended, status) {
	if q.at == nil {
		return Ended{}, statusClosed
	}
	status := status(C.ordup_query_end(&q.at.handle, &q.at.ended))
	it := &q.at.ended
	return Ended{uint64(it.place), int64(it.sum), uint64(it.total), uint64(it.reads)}, status
}

func (q *query) close() {
	if q.at != nil {
		C.ordup_handle_close(&q.at.handle)
		C.free(unsafe.Pointer(q.at))
		q.at = nil
	}
}
