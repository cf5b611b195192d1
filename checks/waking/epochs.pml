/* How the threads of a store that never ends sleep and wake: the visits of callers, the appliers between epochs, `keep`,
   `start_successor` by another thread, successors that are refused, and `stop`, of `ordup_epochs::Epochs`. An epoch is a store as in
   store.pml.

   CALLERS callers make VISITS visits each, and propose in each. An epoch ends after UPDATES updates; where its
   successor is refused, after as many more, and at the latest after MOST. So many successors as REFUSED_SUCCESSORS are refused.
   STARTERS is 1 or 0: a thread beside `keep` that calls `start_successor` once. With READS callers read in their visits. With
   ONE_TURN callers make one turn alone. With AMID they do, and `stop` comes at any time. */

#ifndef CALLERS
#define CALLERS 2
#endif
#ifndef VISITS
#define VISITS 1
#endif
#ifndef UPDATES
#define UPDATES 1
#endif
#ifndef MOST
#define MOST 2
#endif
#ifndef STARTERS
#define STARTERS 0
#endif
#ifndef REFUSED_SUCCESSORS
#define REFUSED_SUCCESSORS 0
#endif

#define APPLIER (1 << site)
#define CALLER (1 << it)
#define KEEP (1 << CALLERS)
#define STARTER (2 << CALLERS)
#define SLEEPING_KEEP (1 << CALLERS)
#define SLEEPING_APPLIER (2 << (CALLERS + site))
#define MAY_NUMBER true
#define NUMBERS (CALLERS * VISITS + 2)

#include "store.pml"

/* A lock that many share or one has alone. While one wants it alone nobody else begins to share it. Who wants the stage alone has the
   visits alone. So it is no step of its own to share the stage, and to leave it, for a thread that has the visits. */
typedef Lock { byte shared; bool wanted, alone }

Lock visits;
Lock stage;
bool open = true;      /* an epoch is open; else the last one has ended, and its successor could not be opened yet */
Count started;         /* an `EventCount`: callers and appliers sleep on it */
bool over;             /* `stop` was called */
byte refused_successors;
byte begun;            /* how many callers began a visit: they are alike, so they begin their first ones in their order */
byte callers_done, starters_done, appliers_done, keepers_done;

#define SHARED_FREE(lock) (!lock.wanted && !lock.alone)

inline share(lock) { atomic { SHARED_FREE(lock) -> lock.shared++ } }

inline take(lock) {
    atomic { !lock.wanted -> lock.wanted = true };
    atomic { lock.shared == 0 && !lock.alone -> lock.alone = true; lock.wanted = false }
}

#define IS_FULL (open && noted >= due)               /* Epochs::is_full: epoch.numbered due.load */

/* A visit begins, to an epoch that is not full; or after `stop`, or while none is open. It prepares only where its first look finds the
   epoch full, and then looks again. */
inline enter() {
    do
    ::
        atomic {
            SHARED_FREE(visits) && begun >= it -> visits.shared++; stage.shared++;
                                                     /* Epochs::enter: visits.read stage.read */
            if :: begun == it -> begun++ :: else fi
        };
        if                                           /* Epochs::enter: self.is_stopped */ /* Epochs::is_stopped: stopped.load */
        :: over -> break
        :: else
        fi;
        if                                           /* Epochs::enter: self.is_full */
        :: !IS_FULL -> break
        :: atomic { IS_FULL -> stage.shared--; visits.shared-- }   /* Epochs::enter: drop(stage) drop(visits) */
        fi;
#ifdef ENTER_LOOKS_BEFORE_IT_PREPARES
        prepare_wait(started, CALLER);
        wait_by_key(started, CALLER)
#else
        if
        :: keyed -> wait_by_key(started, CALLER); keyed = false    /* Epochs::enter: sleep.take key.wait */
        :: !keyed -> prepare_wait(started, CALLER); keyed = true   /* Epochs::enter: started.prepare_wait */
        fi
#endif
    od;
    atomic { if :: keyed -> drop_key(started, CALLER) :: else fi; keyed = false }
}

proctype caller(byte it) {
    byte site, made, number, known, was_acked;
    bool keyed, refused, sent_more;

    do
    :: made < VISITS ->
        enter();
        if
        :: open && !stopped ->
            number_one(CALLER);
            do
            :: known >= number || refused -> break
#if defined(AMID) || defined(ONE_TURN) || defined(CALLER_GIVES_UP)
            :: known < number && !refused -> break
#endif
#if !defined(AMID) && !defined(ONE_TURN)
            :: known < number && !refused -> pause_and_turn(CALLER)
#endif
            od;
#ifdef READS
            read_when_level(CALLER, 0, number);
#endif
            atomic { forget(told, CALLER); refused = false; number = 0; known = 0 }
        :: !open || stopped
        fi;
        atomic { stage.shared--; visits.shared--; made++ }
    :: made == VISITS -> break
    od;
    callers_done++
}

proctype applier(byte site) {
    bool keyed, stopping, ending;

    do
    ::
#ifndef APPLIER_LOOKS_AT_THE_STAGE_BEFORE_IT_PREPARES
        prepare_wait(started, SLEEPING_APPLIER);     /* Epochs::applier: started.prepare_wait */
#endif
        ending = over;                               /* Epochs::applier: self.is_stopped */
        share(stage);                                /* Epochs::applier: self.apply */ /* Epochs::apply: stage.read */
        if
        :: open -> apply_all(APPLIER)                /* Epochs::apply: epoch.applier */
        :: !open
        fi;
        stage.shared--;
        if :: ending -> break :: else fi;
#ifdef APPLIER_LOOKS_AT_THE_STAGE_BEFORE_IT_PREPARES
        prepare_wait(started, SLEEPING_APPLIER);
#endif
        wait_by_key(started, SLEEPING_APPLIER)       /* Epochs::applier: key.wait */
    od;
    drop_key(started, SLEEPING_APPLIER);
    appliers_done++
}

/* The epoch that is open settles, and is stopped. A successor is refused where the last turn left something to settle. */
inline end_epoch(me) {                               /* Epochs::end: stage.read epoch.numbered */
    due = (noted + UPDATES < MOST -> noted + UPDATES : MOST);   /* Epochs::end: self.set_due */ /* Epochs::set_due: due.store */
    do                                               /* Epochs::end: settle_all */
    :: !book && acked == numbered -> break
    :: !book && acked < numbered ->
#ifdef SETTLER_PAUSES_BEFORE_ITS_FIRST_TURN
        listen(told, me);
        wait(told, me);
        turn();
#else
        listen(told, me);
        turn();
#endif
        if
        :: known == numbered -> break
        :: atomic { known < numbered && refused_successors < REFUSED_SUCCESSORS -> refused_successors++; refused = true; break }
#ifndef SETTLER_PAUSES_BEFORE_ITS_FIRST_TURN
        :: known < numbered -> wait(told, me)
#else
        :: known < numbered
#endif
        fi
    od;
    atomic { forget(told, me); known = 0 };
    if
    :: refused
    :: else -> stop_store()                          /* Epochs::end: stop_after */ /* stop_after: epoch.stop */
    fi
}

/* What has ended is closed, and its successor is opened, or that is refused. All have left what has ended. */
inline open_successor() {
    assert(acked == numbered && noted == numbered && !decided && sent.moved == 255 && told.moved == 255);
    if
    :: atomic {
        numbered = 0; acked = 0; noted = 0; acked_told = 0; kept = 255; stopped = false; open = true;
        do
        :: site < SITES -> reported[site] = 0; pushed[site] = 0; taken[site] = 0; tells[site] = 0; site++
        :: site == SITES -> site = 0; break
        od
    }
    :: atomic { refused_successors < REFUSED_SUCCESSORS -> refused_successors++; refused = true; open = false }
    fi
}

/* A successor is started by a thread that has the visits alone. */
inline start_and_wake(me) {
    if                                               /* Epochs::start_and_wake: self.end_and_open */
    :: over                                          /* Epochs::end_and_open: self.is_stopped */
    :: atomic { !over -> stage.shared++ };
        if
        :: open -> end_epoch(me)                     /* Epochs::end_and_open: self.end */
        :: !open
        fi;
        stage.shared--;
        if
        :: refused
        :: !refused ->
#ifdef START_NOTIFIES_BEFORE_IT_OPENS
            notify_all(started);
#endif
            due = UPDATES;                           /* Epochs::end_and_open: self.set_due(0) */
            take(stage);                             /* Epochs::end_and_open: stage.write */
            open_successor();                        /* Epochs::end_and_open: .start_successor */
            stage.alone = false
        fi
    fi;
    if
#ifdef REFUSED_START_NOTIFIES_NOBODY
    :: refused
#endif
#if defined(START_NOTIFIES_NOBODY) || defined(START_NOTIFIES_BEFORE_IT_OPENS)
    :: !refused
#endif
    :: else -> notify_all(started)                   /* Epochs::start_and_wake: started.notify_all */
    fi;
    refused = false
}

inline start_successor(me) {
    take(visits);                                    /* Epochs::start_successor: visits.write */
    start_and_wake(me);                              /* Epochs::start_successor: self.start_and_wake */
    visits.alone = false
}

/* The same, unless another thread started one meanwhile. */
inline start_if_wanted(me) {
    take(visits);                                    /* Epochs::start_if_wanted: visits.write */
    if                                               /* Epochs::start_if_wanted: self.is_wanted stage.read */
    :: !open || noted >= due -> start_and_wake(me)   /* Epochs::start_if_wanted: self.start_and_wake */
    :: else
    fi;
    visits.alone = false
}

/* The archive has the epoch that ended for any time, and no lock: it is as if this thread were slow. */
proctype keep() {
    byte site, known, until, was_acked;
    bool ending, refused, wants_successor, sent_more;

    do
    ::
#ifndef KEEP_LOOKS_AT_STOP_BEFORE_IT_PREPARES
        prepare_wait(started, SLEEPING_KEEP);        /* Epochs::keep: started.prepare_wait */
#endif
        if :: over -> break :: else fi;              /* Epochs::keep: self.is_stopped */
#ifdef KEEP_LOOKS_AT_STOP_BEFORE_IT_PREPARES
        prepare_wait(started, SLEEPING_KEEP);
#endif
        share(stage);                                /* Epochs::keep: self.wants_successor */ /* Epochs::wants_successor: stage.read */
        if
        :: open -> keep_store(KEEP)                  /* Epochs::wants_successor: epoch.keeper_until due.load */
        :: !open
        fi;
#ifdef KEEP_PREPARES_AFTER_IT_KEPT
        prepare_wait(started, SLEEPING_KEEP);
#endif
        atomic { wants_successor = (!open || noted >= due); stage.shared-- };
                                                     /* Epochs::wants_successor: self.is_wanted */ /* Epochs::is_wanted: self.is_full */
        if
        :: !wants_successor -> wait_by_key(started, SLEEPING_KEEP)   /* Epochs::keep: key.wait */
        :: wants_successor ->                        /* Epochs::keep: self.try_to_start */
            wants_successor = false;
            start_if_wanted(KEEP)                    /* Epochs::try_to_start: self.start_if_wanted */
                                                     /* Epochs::keep: archive.add */
        fi
    od;
    drop_key(started, SLEEPING_KEEP);
    keepers_done++
}

proctype starter() {
    byte site, known, was_acked;
    bool refused, sent_more;

    start_successor(STARTER);
    starters_done++
}

init {
    byte it;

    atomic {
        due = UPDATES;
        do :: it < SITES -> run applier(it); it++ :: else -> break od;
        it = 0;
        do :: it < CALLERS -> run caller(it); it++ :: else -> break od;
        it = 0;
        do :: it < STARTERS -> run starter(); it++ :: else -> break od;
        it = 0;
        run keep()
    };
#ifndef AMID
    callers_done == CALLERS && starters_done == STARTERS;
    /* A quiet store finishes, and starts a successor where that is due. Or it is stopped before it has. */
    if
    :: true -> open && noted < due && acked == numbered && ALL_APPLIED
    :: true
    fi;
#endif
    share(visits);                                   /* Epochs::stop: visits.read */
    atomic { over = true; stage.shared++ };          /* Epochs::stop: stopped.store stage.read */
    if
    :: open -> stop_store()                          /* Epochs::stop: epoch.stop */
    :: !open
    fi;
#ifndef STOP_NOTIFIES_NOBODY
    notify_all(started);                             /* Epochs::stop: started.notify_all */
#endif
    atomic { stage.shared--; visits.shared-- };
    callers_done == CALLERS && starters_done == STARTERS && appliers_done == SITES && keepers_done == 1
}
