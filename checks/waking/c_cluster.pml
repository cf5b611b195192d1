/* How the threads of a program in C sleep and wake in a cluster: the appliers, callers, readers, keeper and `stop` of
   clients/c/ordup_cluster.c. c_bell.pml has its bells, each ring and each wait of which is one step here.

   Each access to what threads share is a step, in the order of the code, and sequentially consistent, as all accesses in the code
   are. What is local to a thread, or under a lock that it has, belongs to the step before it. Where a thread listens and then looks at
   something else, it listens in the step of the look: that is later than in the code, and loses more. A wait has no end in time, so a
   lost wake-up is a thread that never ends, an invalid end state. With GIVES_UP the time of a caller may be over whenever it sleeps.
   With COARSE, what a hold publishes is one step, and what it rings, and the looks before the keeper is rung.

   It is also the model of clients/go/cluster, whose functions have the same steps by the same names; go_bell.pml has its bells. There a
   caller may submit, and then waits for nothing, with SUBMITS; its context may also end while it is awake, with ENDS_AWAKE; and with
   CLOSES the cluster is closed after `stop`, while callers may still be there: what is numbered is then acknowledged and applied.

   CALLERS callers propose SETS sets each. KEEPERS is 1 or 0. With FINISHES callers wait at the end until no work is left. With READS
   they read then, each at a site of its choice. With AMID `stop` comes at any time. */

#ifndef CALLERS
#define CALLERS 2
#endif
#ifndef SETS
#define SETS 1
#endif
#ifndef KEEPERS
#define KEEPERS 1
#endif

#define NUMBERS (CALLERS * SETS + 2)

#include "book.pml"

/* A count that sleepers compare with what it was: it has a bit for each thread, whether it moved since the thread read it. */
typedef Bell { byte moved = 255 }

Bell sent;             /* appliers sleep on it */
Bell work;             /* the keeper sleeps on it */
Bell heads[NUMBERS];   /* a caller sleeps on that of its update until that is the head */
Bell moved[SITES];     /* readers of a site sleep on it */
Bell told;             /* the head's caller sleeps on it */

byte taken[SITES];     /* how many updates each site took from its feed, and applied, under its lock */

#if SITES == 1
#define ALL_APPLIED (taken[0] == numbered)
#else
#define ALL_APPLIED (taken[0] == numbered && taken[1] == numbered)
#endif

/* Under the lock of the book: whether the last hold was refused memory. `told` has a bit for the hold. */
bool starved;
#define HOLD 128

/* Of the last hold, for those that have no lock. */
byte acked_told;
bool has_work;
bool has_news;         /* `looked` is not how often `told` rang */

byte turners;
bool stopped;
byte callers_done, appliers_done, keepers_done;

#define APPLIER (1 << site)
#define CALLER (4 << it)
#define KEEPER 32
#define CLOSER 64

bool closing;          /* under the lock of the book: nothing is numbered any more */

inline listen(bell, me) { bell.moved = bell.moved & ~me }

inline forget(bell, me) { bell.moved = bell.moved | me }

inline ring(bell) { bell.moved = 255 }

inline ring_told() { atomic { told.moved = 255; has_news = true } }

inline wait_for(bell, me) { bell.moved & me }

/* The wait of a caller, whose time may be over. */
inline wait_in_time(rang) {
    if
    :: rang
#ifdef GIVES_UP
    :: in_time = false
#endif
    fi
}

#ifdef COARSE
#define BEGIN atomic {
#define END }
#else
#define BEGIN
#define END
#endif

/* ---- holds ---- */

/* It asks for the keeper where work is left, news are there that no hold has looked at, and no caller is there who will. */
inline hand_on(me) {
    BEGIN
    if                                           /* hand_on: has_work.load */
    :: has_work ->
        atomic { news = has_news; listen(told, me) };                /* hand_on: looked.load */
        atomic { news = news || (told.moved & me); forget(told, me) };   /* hand_on: told.listen */
        if
        :: news ->
            news = false;
            if                                   /* hand_on: turners.load */
            :: turners == 0 -> ring(work)        /* hand_on: work.ring */
            :: else
            fi
        :: else
        fi
    :: else
    fi
    END
}

/* A hold begins, in the step that takes the lock. */
inline begin_hold() {
#ifndef HOLD_LISTENS_AFTER_IT_LOOKED
    listen(told, HOLD);
#endif
    book = true; was_acked = acked; was_starved = starved; news = has_news || starved; sent_more = false; refused = false
}

/* A turn looks at each site, settles, and sends. */
inline make_turn() {
    if
    :: atomic { refusals < REFUSALS -> refusals++; refused = true; site = SITES }
    :: atomic { true -> reported[0] = taken[0];
#if SITES == 1
        settle_all(); to_next_unsent()
#endif
       }
#if SITES == 2
       ; atomic { reported[1] = taken[1]; settle_all(); to_next_unsent() }
#endif
    fi;
    do
    :: atomic { site < SITES && pushed[site] - taken[site] < CAPACITY -> pushed[site]++; sent_more = true; to_next_unsent() }
    :: atomic { site < SITES && pushed[site] - taken[site] == CAPACITY -> site++; to_next_unsent() }
    :: atomic { site < SITES && refusals < REFUSALS -> refusals++; refused = true; site = SITES }
    :: atomic { site == SITES -> site = 0; known = acked; starved = refused; break }
    od
#ifdef HOLD_LISTENS_AFTER_IT_LOOKED
    ; listen(told, HOLD)
#endif
}

/* What a hold did is told: to those that have no lock, under it, and then to those who sleep. */
inline publish() {
    BEGIN
#ifdef HOLD_SAYS_THAT_IT_LOOKED_BEFORE_WHAT_IT_FOUND
    has_news = ((told.moved & HOLD) != 0);
    acked_told = acked;
    has_work = SOME_TO_DO;
    atomic { forget(told, HOLD); book = false }
#else
    acked_told = acked;                          /* publish: logged.store acked.store */
    has_work = SOME_TO_DO;                       /* publish: has_work.store */
    atomic { has_news = ((told.moved & HOLD) != 0); forget(told, HOLD); book = false }  /* publish: looked.store */
#endif
    END
}

inline tell(me) {
    was_starved = was_starved && (!refused || known > was_acked);
    BEGIN
    if
#ifndef HOLD_RINGS_NO_APPLIER
    :: sent_more -> sent_more = false; ring(sent)            /* tell: sent.ring */
#else
    :: sent_more -> sent_more = false
#endif
    :: else
    fi;
#ifndef HOLD_RINGS_NO_HEAD
    do
    :: known > was_acked -> was_acked++; ring(heads[was_acked]);     /* tell: ring_heads(it,was->acked,is->acked) */
        if :: known == was_acked -> ring(heads[known + 1]) :: else fi    /* ring_heads: heads.ring */
    :: known <= was_acked -> break
    od;
#endif
    if
#ifndef NEXT_HOLD_RINGS_NOBODY
    :: was_starved -> ring_told()                /* tell: told.ring */
#endif
    :: else
    fi;
    was_acked = 0; known = 0; was_starved = false
    END
#ifndef HOLD_HANDS_NOTHING_ON
    ; hand_on(me)                                /* tell: hand_on */
#endif
}

/* A hold for the news, if there are any. */
inline turn(me) {
    atomic { !book -> begin_hold() };            /* turn: lock.lock told.listen */
    if                                           /* turn: looked.load */
    :: atomic { news -> news = false }; make_turn()          /* turn: ordup_book_turn */
    :: atomic { !news -> known = acked }
    fi;
    publish();                                   /* turn: publish lock.unlock */
    tell(me)                                     /* turn: tell */
}

/* The hold of a proposal. */
inline number_one() {
    if
    :: atomic { !book && !closing && (numbered >= it || stopped) -> numbered++; number = numbered; begin_hold(); news = false };
                                                 /* number: lock.lock told.listen */
        make_turn();                             /* number: ordup_book_propose */
        publish();                               /* number: publish lock.unlock */
        tell(CALLER)                             /* number: tell */
    :: atomic { !book && closing -> number = 0 }
    fi
}

/* ---- threads ---- */

proctype applier(byte site) {
    bool stopping, took, untold, news;

    do
    ::
        atomic {
#ifndef APPLIER_LISTENS_AFTER_IT_LOOKED
            listen(sent, APPLIER);               /* ordup_cluster_applier: sent.listen */
#endif
            stopping = stopped                   /* ordup_cluster_applier: stopped.load */
        };
        if                                       /* ordup_cluster_applier: lock.lock ordup_site_apply lock.unlock */
        :: atomic { taken[site] < pushed[site] -> taken[site]++; took = true; untold = true; forget(sent, APPLIER) };
#ifndef APPLIER_RINGS_NO_READER
            ring(moved[site])                    /* ordup_cluster_applier: moved.ring */
#endif
        :: atomic { taken[site] == pushed[site] -> took = false }
        fi;
        if
        :: untold ->
#ifdef APPLIER_HANDS_ON_BEFORE_IT_RINGS
            hand_on(APPLIER);
            ring_told();
#else
#ifndef APPLIER_RINGS_NOBODY
            ring_told();                         /* ordup_cluster_applier: told.ring */
#endif
#ifndef APPLIER_HANDS_NOTHING_ON
            hand_on(APPLIER);                    /* ordup_cluster_applier: hand_on */
#endif
#endif
            untold = false
        :: !untold || took                       /* it has more to apply, and tells then */
        fi;
        if
        :: took -> took = false; stopping = false
        :: !took && stopping -> break
        :: !took && !stopping ->
#ifdef APPLIER_LISTENS_AFTER_IT_LOOKED
            listen(sent, APPLIER);
#endif
            wait_for(sent, APPLIER)              /* ordup_cluster_applier: sent.wait_for */
        fi
    od;
    appliers_done++
}

#define IS_REACHED(number) (number -> acked_told >= number : !has_work)

/* Until an update is acknowledged, or for 0 until no work is left. */
inline until(number) {
    in_time = true;
    do
    ::
#ifdef ENDS_AWAKE
        if :: true :: in_time = false fi;
#endif
        atomic {
#ifndef CALLER_LOOKS_FOR_THE_HEAD_BEFORE_IT_LISTENS
            listen(heads[number], CALLER);       /* until: is_reached head.listen */
#endif
#ifndef CALLER_LISTENS_AFTER_IT_LOOKED
            listen(told, CALLER)                 /* until: told.listen */
#endif
        };
        /* It is the same news where `told` did not ring since. Where it did, its wait ends at once, as if it made a turn. */
        news = has_news;                         /* until: looked.load */
        if                                       /* until: is_reached */
        :: IS_REACHED(number) -> break           /* is_reached: acked.load has_work.load */
        :: else
        fi;
#ifdef CALLER_LISTENS_AFTER_IT_LOOKED
        listen(told, CALLER);
#endif
        if
        :: !in_time || stopped -> break          /* until: stopped.load */
        :: else
        fi;
        if
        :: number > acked_told + 1 ->            /* until: acked.load */
#ifdef CALLER_LOOKS_FOR_THE_HEAD_BEFORE_IT_LISTENS
            listen(heads[number], CALLER);
#endif
            forget(told, CALLER);
            wait_in_time(heads[number].moved & CALLER);      /* until: head.wait_for */
            forget(heads[number], CALLER)
        :: else ->
            forget(heads[number], CALLER);
            if
            :: !turns -> turns = true; turners++             /* until: turners.fetch_add */
            :: else
            fi;
            if
            :: !news -> wait_in_time(told.moved & CALLER); forget(told, CALLER)      /* until: told.wait_for */
            :: news ->
                turn(CALLER);                                /* until: turn */
                if
                :: refused ->
#ifndef REFUSED_TURN_RINGS_NOBODY
                    ring(work);                              /* until: work.ring is_reached */
#endif
                    break
                :: else
                fi
            fi
        fi
    od;
    if
    :: turns ->
        turns = false;
#ifdef CALLER_HANDS_ON_BEFORE_IT_LEAVES
        hand_on(CALLER);
        turners--
#else
        turners--;                               /* until: turners.fetch_sub */
#ifndef CALLER_LEAVES_AND_HANDS_NOTHING_ON
        hand_on(CALLER)                          /* until: hand_on */
#endif
#endif
    :: else
    fi;
    atomic { news = false; refused = false; in_time = false; forget(told, CALLER); forget(heads[number], CALLER) }
}

/* A reader, until the site `at` has applied so many updates. */
inline read_level(at, seen_before) {
    do
    ::
#ifndef READER_LISTENS_AFTER_IT_READS
        listen(moved[at], CALLER);               /* read_level: read_once moved.listen */
#endif
        stopping = stopped;                      /* read_level: stopped.load */
        if                                       /* read_level: read_once */
        :: taken[at] >= seen_before || stopping -> break
        :: else
        fi;
#ifdef READER_LISTENS_AFTER_IT_READS
        listen(moved[at], CALLER);
#endif
        wait_for(moved[at], CALLER)              /* read_level: moved.wait_for */
    od
}

/* A caller proposes, and waits until its update is acknowledged. */
proctype caller(byte it) {
    byte site, sets, number, known, was_acked, at;
    bool refused, sent_more, was_starved, turns, in_time, stopping, news;

    do
    :: sets < SETS ->
        if                                       /* ordup_cluster_propose_if: stopped.load */
        :: stopped -> break
        :: else
        fi;
        number_one();                            /* ordup_cluster_propose_if: number */
        if
        :: refused ->
#ifndef REFUSED_NUMBERING_RINGS_NOBODY
            ring(work);                          /* ordup_cluster_propose_if: work.ring */
#endif
            refused = false
#ifdef CLOSES
        :: !refused && number == 0 -> break
#endif
#ifdef SUBMITS
        :: !refused && number > 0
#endif
        :: !refused && number > 0 -> until(number)           /* ordup_cluster_propose_if: until */
        fi;
        sets++
    :: sets == SETS -> break
    od;
#ifdef FINISHES
    until(0);                                    /* ordup_cluster_finish: until */
#endif
#ifdef READS
    /* Its session has seen its update where that was acknowledged. */
    if
    :: acked_told >= number
    :: acked_told < number -> number = 0
    fi;
    if :: at = 0 :: at = SITES - 1 fi;
    read_level(at, number);
#endif
    callers_done++
}

proctype keeper() {
    byte site, known, was_acked;
    bool refused, sent_more, was_starved, stopping, news;

    do
    ::
#ifdef KEEPER_LISTENS_AFTER_IT_LOOKED_AT_STOPPED
        stopping = stopped;
        listen(work, KEEPER);
#else
        atomic {
#ifndef KEEPER_LISTENS_AFTER_ITS_TURN
            listen(work, KEEPER);                /* ordup_cluster_keeper: work.listen */
#endif
            stopping = stopped                   /* ordup_cluster_keeper: stopped.load */
        };
#endif
        if
        :: has_work -> turn(KEEPER)              /* ordup_cluster_keeper: has_work.load turn */
        :: else
        fi;
#ifdef KEEPER_LISTENS_AFTER_ITS_TURN
        listen(work, KEEPER);
#endif
        if
        :: stopping -> break
        /* It tries again after a while. */
        :: atomic { !stopping && refused -> refused = false }
        :: !stopping && !refused -> wait_for(work, KEEPER)        /* ordup_cluster_keeper: work.wait_for */
        fi
    od;
    keepers_done++
}

inline stop_all() {
#ifdef STOP_RINGS_FIRST
    ring(sent);
    ring_told();
    ring(work);
    stopped = true;
#else
    stopped = true;                              /* ordup_cluster_stop: stopped.store */
#ifndef STOP_RINGS_NO_APPLIER
    ring(sent);                                  /* ordup_cluster_stop: sent.ring */
#endif
#ifndef STOP_RINGS_NO_HEAD_CALLER
    ring_told();                                 /* ordup_cluster_stop: told.ring */
#endif
#ifndef STOP_RINGS_NO_KEEPER
    ring(work);                                  /* ordup_cluster_stop: work.ring */
#endif
#endif
    atomic {
#ifndef STOP_RINGS_NO_CALLER
        do
        :: it < NUMBERS -> ring(heads[it]); it++ /* ordup_cluster_stop: heads.ring */
        :: else -> it = 0; break
        od;
#endif
#ifndef STOP_RINGS_NO_READER
        do
        :: it < SITES -> ring(moved[it]); it++   /* ordup_cluster_stop: moved.ring */
        :: else -> it = 0; break
        od
#endif
    }
}

/* Once the other threads of the cluster have ended, it applies, tells and makes turns, until none of these does anything. */
inline close_all() {
    do
    ::
        atomic {
            do
            :: it < SITES -> applied = applied || taken[it] < pushed[it]; taken[it] = pushed[it]; ring(moved[it]); it++
            :: else -> it = 0; break             /* Cluster::finishAlone: apply_all */
            od
        };
#ifndef GO_CLOSE_TELLS_NOTHING
        ring_told();                             /* Cluster::finishAlone: told.ring */
#endif
#ifndef GO_CLOSE_MAKES_NO_TURN
        atomic { !book -> begin_hold() };        /* Cluster::finishAlone: turn */
        if
        :: atomic { news -> news = false }; make_turn()
        :: atomic { !news -> known = acked }
        fi;
        was_sent = sent_by_now;
        sent_by_now = acked + pushed[0] + pushed[SITES - 1];
        publish();
        tell(CLOSER);
#endif
#ifndef GO_CLOSE_ENDS_AFTER_ONE_PASS
        if
        :: atomic { refused -> refused = false; applied = false }    /* it is closed again */
        :: atomic { !refused && (applied || was_sent != sent_by_now) -> applied = false }
        :: !refused && !applied && was_sent == sent_by_now ->
#endif
            break
#ifndef GO_CLOSE_ENDS_AFTER_ONE_PASS
        fi
#endif
    od
}

init {
    byte it;
#ifdef CLOSES
    byte site, known, was_acked, was_sent, sent_by_now;
    bool refused, sent_more, was_starved, news, applied;
#endif

    atomic {
        do :: it < SITES -> run applier(it); it++ :: else -> break od;
        it = 0;
        do :: it < CALLERS -> run caller(it); it++ :: else -> break od;
        it = 0;
        do :: it < KEEPERS -> run keeper(); it++ :: else -> break od;
        it = 0
    };
#ifndef AMID
    callers_done == CALLERS;
#if KEEPERS
    /* A quiet store finishes, by itself. Or it is stopped before it has. */
    if
    :: true -> acked == numbered && ALL_APPLIED
#ifdef PROBE_QUIET_STORE_FINISHES
        ; assert(false)
#endif
#ifndef PROBE_QUIET_STORE_FINISHES
    :: true
#endif
    fi;
#else
    assert(acked == numbered);
#endif
#endif
    stop_all();                                  /* Cluster::Close: stop */
#ifdef CLOSES
    appliers_done == SITES && keepers_done == KEEPERS;       /* Cluster::Close: goroutines.wait gate.lock gate.unlock */
#ifndef GO_CLOSE_NUMBERS_ON
    atomic { !book -> closing = true };          /* Cluster::Close: lock.lock lock.unlock */
#endif
    close_all();                                 /* Cluster::Close: finish_alone compare */
    assert(acked == numbered && ALL_APPLIED);
#endif
    callers_done == CALLERS && appliers_done == SITES && keepers_done == KEEPERS;
#ifdef CLOSES
    assert(acked == numbered && ALL_APPLIED);
#endif
#ifdef PROBE_ALL_END
    assert(false)
#endif
#ifdef PROBE_ALL_END_WITH_UPDATES_LEFT
    assert(acked == numbered)
#endif
}
