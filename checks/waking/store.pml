/* What the threads of a store do under its locks and with its two counts, for cluster.pml and epochs.pml.

   There is no limit in time: what the code sleeps for at most a millisecond, the models sleep for ever. So a lost wake-up is a
   thread that never ends, an invalid end state.

   Each access to what threads share is a step, in the order of the code, and sequentially consistent, as all accesses in the code
   are. What is local to a thread, or under a lock that it has, belongs to the step before it. With FINE, a wait and a ring have the
   steps of the code too. Without it each is one step.

   book.pml has the book, and the sizes of sites. With BACKOFF an applier makes turns without a key too, as before its backoff is
   completed.

   A comment with the name of a function says for which of its steps a line stands: checks/waking/steps. */

#include "book.pml"

/* A count that a sleeper compares with what it was. The comparison says only whether it moved, so there is a bit for each thread:
   whether the count moved since the thread read it. `waiters` tells how many are counted as sleepers, and `asleep` has a bit for
   each thread that sleeps. */
typedef Count { byte moved = 255; byte waiters; byte asleep }

Count sent;    /* an `EventCount`: appliers sleep on it */
Count told;    /* a `Bell`: the head's caller, readers and the keeper sleep on it */
Count heads[NUMBERS]; /* a `Bell` for each number: a caller sleeps on that of its update until that is the head */

/* Of each site: how many updates it took from its feed, and how many it told. The applier has the lock of the site between the two. */
byte taken[SITES], tells[SITES];

#if SITES == 1
#define ALL_APPLIED (tells[0] == numbered)
#else
#define ALL_APPLIED (tells[0] == numbered && tells[1] == numbered)
#endif

bool stopped;
byte noted;            /* how many updates the log has, for those that have no lock */
byte due = 255;        /* so many updates are wanted, and so many the keeper waits for */
byte kept = 255;
byte acked_told;       /* how many updates are acknowledged, for those that have no lock */

/* ---- crossbeam_utils::sync::EventCount, and the Bell ---- */

inline listen(count, me) { count.moved = count.moved & ~me }   /* Bell::listen: rung.load */ /* Cluster::listen: told.listen */

inline forget(count, me) { count.moved = count.moved | me }

#ifdef FINE

inline prepare_wait(count, me) {
#ifndef SLEEPERS_ARE_NOT_COUNTED
    count.waiters++;
#endif
    listen(count, me)
}

inline drop_key(count, me) {
#ifndef SLEEPERS_ARE_NOT_COUNTED
    count.waiters--;
#endif
    forget(count, me)
}

/* A futex: a thread falls asleep only where the count is what it read, and sleeps until someone wakes it. */
inline park(count, me) {
    atomic { if :: count.moved & me :: else -> count.asleep = count.asleep | me fi };
    !(count.asleep & me)
}

inline wait_by_key(count, me) {
    do
    :: count.moved & me -> break
    :: else -> park(count, me)
    od;
    drop_key(count, me)
}

inline notify_all(count) {
    if
    :: count.waiters != 0 ->
#ifdef NOTIFY_WAKES_BEFORE_IT_COUNTS
       count.asleep = 0;
       count.moved = 255
#else
       count.moved = 255;
       count.asleep = 0
#endif
    :: else
    fi
}

inline ring(bell) {
#ifdef RING_LOOKS_FOR_SLEEPERS_BEFORE_IT_COUNTS
    if
    :: bell.waiters != 0 -> bell.moved = 255; bell.asleep = 0
    :: else -> bell.moved = 255
    fi
#else
    bell.moved = 255;                                         /* Bell::ring: rung.fetch_add */
    if :: bell.waiters != 0 -> bell.asleep = 0 :: else fi     /* Bell::ring: sleepers.load rung.wake_all */
#endif
}

/* `wait`, and `pause` too: the looks that `pause` begins with change nothing. */
inline wait(bell, me) {
#ifndef SLEEPERS_ARE_NOT_COUNTED
    bell.waiters++;       /* Bell::pause: self.listen sleepers.fetch_add */ /* Bell::wait: sleepers.fetch_add */
#endif
    park(bell, me);       /* Bell::pause: self.listen rung.park_timeout */ /* Bell::wait: self.listen rung.park */
    drop_key(bell, me)    /* Bell::pause: sleepers.fetch_sub */ /* Bell::wait: sleepers.fetch_sub */
}

#else

inline prepare_wait(count, me) { listen(count, me) }

inline drop_key(count, me) { forget(count, me) }

inline wait_by_key(count, me) { count.moved & me }

inline notify_all(count) { count.moved = 255 }

inline ring(bell) { bell.moved = 255 }

inline wait(bell, me) { bell.moved & me }

#endif

/* ---- the book ---- */

/* A turn is a hold of the lock of the book: a look at each site, settlements, and what may be sent. Where it is refused memory it
   sends no more. `begin_turn` belongs to the step that takes the lock, and `end_turn` gives it back. */
inline begin_turn() {
    book = true; was_acked = acked; sent_more = false; refused = false;
    reported[0] = tells[0];                 /* turn: report_all */ /* report: end.look primary.report */
#if SITES == 1
    settle_all();                           /* turn: settle_all */
    to_next_unsent()
#endif
}

inline end_turn() {
#if SITES == 2
    atomic { reported[1] = tells[1]; settle_all(); to_next_unsent() };
#endif
    do                                      /* turn: send_all */ /* send: end.is_full end.push */
    :: atomic { site < SITES && pushed[site] - taken[site] < CAPACITY -> pushed[site]++; sent_more = true; to_next_unsent() }
    :: atomic { site < SITES && pushed[site] - taken[site] == CAPACITY -> site++; to_next_unsent() }
    :: atomic { site < SITES && refusals < REFUSALS -> refusals++; refused = true; site = SITES }
    :: atomic { site == SITES -> site = 0; known = acked; book = false; break }
    od
}

/* ---- what the threads do in a store ---- */

/* An applier of the site `site`, until the store is stopped. */
inline apply_all(me) {
    do
    ::
#ifdef BACKOFF
        if :: keyed = true :: keyed = false fi;
#else
        keyed = true;
#endif
#ifdef APPLIER_LOOKS_AT_STOPPED_BEFORE_IT_PREPARES
        stopping = stopped;
        if :: keyed -> prepare_wait(sent, me) :: else fi;
#else
        if :: keyed -> prepare_wait(sent, me) :: else fi;             /* Cluster::applier: sent.prepare_wait */
        stopping = stopped;                                           /* Cluster::applier: stopped.load */
#endif
        if                                                            /* Cluster::applier: self.apply_next */
        :: atomic { taken[site] < pushed[site] -> taken[site]++ };    /* Cluster::apply_next: cells.lock cells.lock take */
                                                                      /* take: end.pop */
#ifdef APPLIER_RINGS_BEFORE_IT_TELLS
            ring(told);
            tells[site] = taken[site];
#else
            tells[site] = taken[site];                                /* take: site.apply end.tell */
#ifndef APPLIER_RINGS_NOBODY
            ring(told);                                               /* Cluster::applier: told.ring */
#endif
#endif
            atomic { if :: keyed -> drop_key(sent, me) :: else fi; stopping = false }
        :: atomic { taken[site] == pushed[site] && stopping -> if :: keyed -> drop_key(sent, me) :: else fi; break }
        :: taken[site] == pushed[site] && !stopping && !keyed
        :: taken[site] == pushed[site] && !stopping && keyed ->
#ifdef APPLIER_LOOKS_BEFORE_IT_PREPARES
            atomic { drop_key(sent, me) }; prepare_wait(sent, me);
#endif
            wait_by_key(sent, me)                                     /* Cluster::applier: key.wait */
        fi
    od;
    atomic { stopping = false; keyed = false }
}

/* What a hold of the book changed is told to those who wait for it. Each acknowledged update makes the next one the head. */
inline tell() {
    if
#ifndef TURN_RINGS_NO_APPLIER
    :: sent_more -> sent_more = false; notify_all(sent)       /* Cluster::tell: sent.notify_all */
#else
    :: sent_more -> sent_more = false
#endif
    :: else
    fi;
    if
    :: known > was_acked ->
#ifdef TURN_RINGS_HEADS_FIRST
        ring_heads();
#endif
        atomic { if :: acked_told < known -> acked_told = known :: else fi };   /* Cluster::tell: acked.fetch_max */
#if !defined(TURN_RINGS_HEADS_FIRST) && !defined(TURN_RINGS_NO_HEAD)
        ring_heads()                                          /* Cluster::tell: heads.ring(before.acked,after.acked.saturating_add(1)) */
#endif
    :: else
    fi;
    was_acked = 0
}

inline ring_heads() {
    do
    :: was_acked <= known -> was_acked++; ring(heads[was_acked])   /* Bells::ring: self.of(number.saturating_add(1)) .ring */
    :: else -> break
    od
}

/* A turn that was refused memory wakes the keeper. */
inline counted() {
    if
#ifndef REFUSED_TURN_RINGS_NOBODY
    :: refused -> ring(told)                     /* Cluster::counted: told.ring */
#endif
    :: else
    fi
}

/* A turn by itself. */
inline turn() {
    atomic { !book -> begin_turn() };            /* Cluster::turn: book.lock turn */
    end_turn();                                  /* Cluster::turn: drop(book) */
    tell();                                      /* Cluster::turn: self.tell */
    counted()                                    /* Cluster::turn: self.counted */
}

/* The hold of a proposal, with its first turn. */
inline number_one(me) {
#ifndef CALLER_LISTENS_AFTER_ITS_TURN
    listen(told, me);                            /* Cluster::propose_if: self.listen */
#endif                                           /* Cluster::propose_if: self.number */
    atomic { !book && MAY_NUMBER -> numbered++; number = numbered; begin_turn() };
                                                 /* Cluster::number: stopped.load book.lock number_unless_stopped */
    end_turn();                                  /* Cluster::number: drop(book) */
    tell();                                      /* Cluster::number: self.tell */
#ifdef NUMBERING_NOTES_AFTER_IT_LOOKED
    if :: number >= kept -> ring(told) :: else fi;
#endif
    atomic { if :: noted < number -> noted = number :: else fi };
                                                 /* Cluster::number: self.note */ /* Cluster::note: numbered.fetch_max */
#if !defined(NUMBERING_NOTES_AFTER_IT_LOOKED) && !defined(DUE_NUMBERING_RINGS_NOBODY)
    if :: number >= kept -> ring(told) :: else fi;   /* Cluster::note: due.load told.ring */
#endif
    counted();                                   /* Cluster::number: self.counted */
#ifdef CALLER_LISTENS_AFTER_ITS_TURN
    listen(told, me)
#endif
}

/* A further turn of a caller, after a pause. */
inline pause_and_turn(me) {
    pause_for(me, number);                       /* Cluster::propose_if: self.wait */ /* BookTurns::turn: store.pause_for */
    listen(told, me);                            /* BookTurns::turn: store.listen */
    turn()                                       /* BookTurns::turn: store.turn */
}

/* A caller sleeps until a site told something, where its update is the head, and else until it is. */
inline pause_for(me, number) {
#ifdef CALLER_LOOKS_FOR_THE_HEAD_BEFORE_IT_LISTENS
    if
    :: acked_told + 1 < number -> listen(heads[number], me); wait(heads[number], me)
    :: else -> wait(told, me)
    fi
#else
    listen(heads[number], me);                   /* Cluster::pause_for: heads.of(number.saturating_sub(self.before)) head.listen */
    if                                           /* Cluster::pause_for: acked.load */
    :: acked_told + 1 < number -> wait(heads[number], me)           /* Cluster::pause_for: head.pause */
    :: else -> forget(heads[number], me); wait(told, me)            /* Cluster::pause_for: told.pause */
    fi
#endif
}

/* A reader, until the site `at` has applied so many updates. It makes turns, as a caller that waits does. */
inline read_when_level(me, at, seen) {
    do
    ::
#ifndef READER_LISTENS_AFTER_IT_READS
        listen(told, me);                        /* Cluster::read_when_level: self.listen */
#endif                                           /* Cluster::read_when_level: self.read */
        atomic { taken[at] == tells[at] -> if :: tells[at] >= seen -> break :: else fi };
#ifdef READER_LISTENS_AFTER_IT_READS
        listen(told, me);
#endif
#ifndef READER_MAKES_NO_TURN
        turn();                                  /* Cluster::read_when_level: self.turn */
#endif
        wait(told, me)                           /* Cluster::read_when_level: self.pause self.read */ /* Cluster::pause: told.pause */
    od
}

/* A keeper, until the store is stopped, or until it is due. */
inline keep_store(me) {
    until = due;
    kept = until;                                /* Cluster::keeper_until: due.store */
    do
    ::
#ifdef KEEPER_LOOKS_BEFORE_IT_LISTENS
        ending = (stopped || noted >= until);
        listen(told, me);
#else
#ifndef KEEPER_LISTENS_AFTER_ITS_TURN
        listen(told, me);                        /* Cluster::keeper_until: self.listen */
#endif
        ending = (stopped || noted >= until);    /* Cluster::keeper_until: stopped.load self.numbered */
#endif                                           /* Cluster::numbered: numbered.load */
        if                                       /* Cluster::keeper_until: self.keep */
        :: !book && SOME_TO_DO -> turn()         /* Cluster::keep: has_work book.lock self.turn */
        :: !book && !SOME_TO_DO
        fi;
#ifdef KEEPER_LISTENS_AFTER_ITS_TURN
        listen(told, me);
#endif
        if
        :: ending -> break
        /* It tries again after a pause, which has a limit in time. */
        :: atomic { !ending && refused -> refused = false }
        :: !ending && !refused -> wait(told, me) /* Cluster::keeper_until: told.wait nap */
        fi
    od;
    atomic { ending = false; until = 0; refused = false; known = 0; forget(told, me) }
}

inline stop_store() {
#ifdef STOP_RINGS_FIRST
    notify_all(sent);
    ring(told);
    stopped = true;
#else
    stopped = true;                              /* Cluster::stop: stopped.store */
#ifndef STOP_RINGS_NO_APPLIER
    notify_all(sent);                            /* Cluster::stop: sent.notify_all */
#endif
#ifndef STOP_RINGS_NO_KEEPER
    ring(told);                                  /* Cluster::stop: told.ring */
#endif
#endif
}
