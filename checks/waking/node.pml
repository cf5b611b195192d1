/* What the processes of ordup-node decide: primaries that write a script, and processes of sites that run it and serve readers.

   The comments name functions of node/internal, and calls of each in their order: `checks/waking/steps` looks whether the code has them.

   The engine is one map. An entry is created where the one before is the last one, and the key of a site where there is none. What a
   process asks of it may be done late, and its answer may be lost. The engine ends a lease only once nobody may rely on it by an answer
   of the engine: that is what the clocks have to keep. Time is two events: a process relies no more, and what it asked is too old for
   it to rely on.

   An entry is what the script comes to with it, as a core has it: that a replay comes to the same is taken as given. A primary takes over
   at any time, which is more than its own lease allows: nothing that holds here stands on that lease. An update is a place of a log, a
   limit is a count, and what is told by HTTP is lost, late or comes twice. Left out are refusals of a store, limits that change, how entries leave the
   engine, which entries a process does not believe, wishes that differ, and whether anything happens in time.

   SITES sites have PROCESSES processes each, with the limit LIMIT. CLIENTS clients ask for REQUESTS updates each, one after the other, as
   often as they like and of whom they like. Operators wish for the end of the first WISHES epochs, and EVERY requests end one too.
   TAKES is how often a primary tries to take over, DEATHS how often one dies, TERMS how often the key of a site is created, FALLS how
   often a process of a site dies, ROOM what the log has more than it needs, and ENTRIES how many entries there are at most.

   LEAVE: the first wish takes out the last site, and RETURNS: the second one declares it again. FLEET: the sites are those of a fleet,
   and ANEW: its process is started anew without the last one, though that may serve. CARRY: an entry of its own carries clients over.
   ARCHIVES: entries of ended epochs may be gone as a process looks for them. HANDS: an operator puts a key by hand so often.
   CREATES_LATE, REVOKES_LATE: what a process asks for its key may come late. OTHER_CHANGES: clients ask for other changes under a number
   too. HASTY: they ask under the next number before they have an answer. UNLISTED: the processes are of a fleet which does not list them,
   and whose other members tell for it.

   There is no state for what nobody looks at any more. Alike are processes of a site without a key and what they asked for it: so of two
   the first one creates the next key. The first primary takes over first. */

#ifndef SITES
#define SITES 1
#endif
#ifndef PROCESSES
#define PROCESSES 2
#endif
#ifndef PRIMARIES
#define PRIMARIES 2
#endif
#ifndef CLIENTS
#define CLIENTS 1
#endif
#ifndef REQUESTS
#define REQUESTS 1
#endif
#ifndef LIMIT
#define LIMIT 0
#endif
#ifndef WISHES
#define WISHES 0
#endif
#ifndef TAKES
#define TAKES 1
#endif
#ifndef DEATHS
#define DEATHS 0
#endif
#ifndef TERMS
#define TERMS 1
#endif
#ifndef FALLS
#define FALLS 0
#endif
#ifndef HANDS
#define HANDS 0
#endif
#ifndef ENTRIES
#define ENTRIES 7
#endif
#ifndef EVERY
#define EVERY 100
#endif
#ifndef ROOM
#define ROOM 0
#endif

#define MOST (CLIENTS * REQUESTS + ROOM)
#define EPOCHS (WISHES + 2)
#define ALL (SITES * PROCESSES)

/* The names of sites in the script. Those of a fleet have one. */
#ifdef FLEET
#define NAMES 1
#define NAME(site) 0
#else
#define NAMES SITES
#define NAME(site) (site)
#endif

/* What must never be. Each stays 0: a broken one is named by the assertion that fails. */
hidden byte UPDATE_IS_LOST, REQUEST_IS_DONE_TWICE, ANSWER_CHANGES, EPOCH_ENDS_TOO_EARLY, TOLD_BEFORE_IT_IS_WRITTEN, TWO_PRIMARIES_WRITE,
            TWO_PROCESSES_RELY, READER_SEES_TOO_LITTLE, GONE_SITE_SERVES, HONEST_PLACE_IS_REFUSED;
#define NEVER(broken, holds) assert((holds) || broken)

/* What entries come to. The owners are who asked for each update of the epoch. An answer has its epoch and its place. */
typedef Core {
    byte epoch, updates, acked, asks;
    byte applied[NAMES];
    byte number[CLIENTS];
    byte answer[CLIENTS];
    byte owner[MOST];
    byte leaves, gone;
    bool wish;
#ifdef CARRY
    bool carries;
#endif
#ifdef OTHER_CHANGES
    byte changes[CLIENTS];
#endif
}

/* That of the script, and of each primary its open batch and the batch on its way. The last one is on its way from a process that died. */
Core core[2 + 2 * PRIMARIES];
#define SCRIPT 0
#define OPEN (1 + me)
#define FLYING (1 + PRIMARIES + me)
#define LATE (1 + 2 * PRIMARIES)

/* The engine. Places are counted from the first epoch on here. */
byte last;                    /* the last entry */
byte epoch_of[ENTRIES + 1], place_of[ENTRIES + 1], left_by[ENTRIES + 1];
byte first_of[EPOCHS + 1];    /* the first entry of each epoch, and the place before it */
byte before[EPOCHS + 1];
byte key[SITES];              /* who has the key of a site */
byte lease[SITES];            /* the lease of the key that is there, or was there last */
byte leases[SITES];           /* how many there were */
#define NOBODY 0
#define DEAD 255
#define BY_HAND 254
#define OWN (me + 1)

/* The primaries. */
mtype = { stands, takes, writes, sent, written };
mtype mode[PRIMARIES] = stands;
mtype flight[PRIMARIES] = stands;
byte number_of[PRIMARIES];    /* of the batch on its way, and else of the last entry that was run */
bool dirty[PRIMARIES];        /* the open batch has a step */
byte told[PRIMARIES * NAMES]; /* what a site told, and the core does not have */
byte open_answers[PRIMARIES], flying_answers[PRIMARIES];   /* the clients with an answer that is not written, and with such a request */
byte open_asks[PRIMARIES], flying_asks[PRIMARIES];
byte term_of[PRIMARIES];      /* which of all tries to take over it writes by */
byte take_overs, deaths, late_number, late_term, writer;
bool late_takes;

/* The processes of sites. */
byte run_to[ALL], shown[ALL], from[ALL];
bool over[ALL];
mtype = { no_key, created, looked, held };
mtype stage[ALL] = no_key;
bool relies[ALL], fresh[ALL], renewed[ALL], taken[ALL];
byte bad[ALL];                /* a reader has taken values that are no good: too little, or of a site that is gone */
byte mine[ALL];               /* the lease that it holds, or looks after */
byte given[ALL];              /* the lease that it gave back, while its key is there */
byte creates[ALL], revokes[ALL];   /* leases of calls that the engine has not heard of yet */
byte falls, hands;
#ifdef LOOKS_AT_THE_LEASE_FIRST
bool lived[ALL];
#endif
#ifdef SKIPS_WHAT_CAME
byte lacks[ALL];
#define LACKS lacks[me]
#else
#define LACKS 0
#endif

/* What travels, and what was said. */
byte places[SITES * (EPOCHS + 1)];   /* of each epoch the last place that a site told */
byte shown_and_told[SITES];          /* from the first epoch on */
byte asked_to[CLIENTS] = 1;          /* the number under which a client asks now */
byte scripted[CLIENTS * (REQUESTS + 1)];
#ifdef OTHER_CHANGES
byte changed[CLIENTS * (REQUESTS + 1)];
#endif
int done;
byte acknowledged;                   /* the last place that a client was told as acknowledged, where that in the script is before it */
#define ACKED (before[core[SCRIPT].epoch] + core[SCRIPT].acked)      /* both from the first epoch on */

#define ANSWER(epoch, place) ((epoch) * 8 + (place))
#define CODE(client, number) ((client) * REQUESTS + (number))

hidden byte x, y, z, best;

inline copy(to, by) {
    core[to].epoch = core[by].epoch; core[to].updates = core[by].updates; core[to].acked = core[by].acked;
    core[to].asks = core[by].asks; core[to].leaves = core[by].leaves; core[to].gone = core[by].gone; core[to].wish = core[by].wish;
#ifdef CARRY
    core[to].carries = core[by].carries;
#endif
    for (x : 0 .. NAMES - 1) { core[to].applied[x] = core[by].applied[x] }
    for (x : 0 .. CLIENTS - 1) {
        core[to].number[x] = core[by].number[x]; core[to].answer[x] = core[by].answer[x];
#ifdef OTHER_CHANGES
        core[to].changes[x] = core[by].changes[x];
#endif
    }
    for (x : 0 .. MOST - 1) { core[to].owner[x] = core[by].owner[x] }
    x = 0
}

inline drop(at) {
    core[at].epoch = 0; core[at].updates = 0; core[at].acked = 0; core[at].asks = 0; core[at].leaves = 0; core[at].gone = 0;
    core[at].wish = false;
#ifdef CARRY
    core[at].carries = false;
#endif
    for (x : 0 .. NAMES - 1) { core[at].applied[x] = 0 }
    for (x : 0 .. CLIENTS - 1) {
        core[at].number[x] = 0; core[at].answer[x] = 0;
#ifdef OTHER_CHANGES
        core[at].changes[x] = 0;
#endif
    }
    for (x : 0 .. MOST - 1) { core[at].owner[x] = 0 }
    x = 0
}

/* Whether others tell for the site, since the fleet does not list its processes. */
#ifdef UNLISTED
#define IS_FOREIGN true
#else
#define IS_FOREIGN false
#endif

/* The process of a fleet, which lists its last site or not, and tells nothing before it looked for keys of others. */
#ifdef ANEW
bool began_anew, fleet_looked;
byte before_anew[EPOCHS + 1];        /* of each epoch the last place that the process before told */
#define IS_UNLISTED(site) (began_anew && (site) == SITES - 1)
#ifdef FLEET_TELLS_BEFORE_IT_LOOKED
#define FLEET_TELLS true
#else
#define FLEET_TELLS (!began_anew || fleet_looked)    /* fleet/fleet.go Look: SiteKeys SiteKey */
#endif
#else
#define IS_UNLISTED(site) false
#define FLEET_TELLS true
#endif

/* What must hold of an entry that is written. */
inline judge(at) {
    if
    :: core[at].epoch == core[SCRIPT].epoch ->
        NEVER(UPDATE_IS_LOST, core[at].acked >= core[SCRIPT].acked && core[at].updates >= core[SCRIPT].updates);
        for (x : 0 .. MOST - 1) {
            NEVER(UPDATE_IS_LOST, x >= core[SCRIPT].updates || core[at].owner[x] == core[SCRIPT].owner[x]);
            if
            :: x >= core[SCRIPT].updates && x < core[at].updates ->
                NEVER(REQUEST_IS_DONE_TWICE, !(done & (1 << core[at].owner[x])));
                done = done | (1 << core[at].owner[x])
            :: else
            fi
        }
    :: else ->
        /* A wish or so many requests end an epoch, once all is acknowledged, and each site has told the last place or is gone. */
        NEVER(EPOCH_ENDS_TOO_EARLY, core[at].epoch == core[SCRIPT].epoch + 1);
        NEVER(EPOCH_ENDS_TOO_EARLY, core[SCRIPT].epoch == 0 || core[SCRIPT].asks >= EVERY || core[SCRIPT].epoch <= WISHES);
        NEVER(EPOCH_ENDS_TOO_EARLY, core[SCRIPT].acked == core[SCRIPT].updates);
        for (x : 0 .. SITES - 1) {
            NEVER(EPOCH_ENDS_TOO_EARLY, core[SCRIPT].gone & (1 << NAME(x)) || !(core[SCRIPT].leaves & (1 << NAME(x))));
            NEVER(EPOCH_ENDS_TOO_EARLY, core[SCRIPT].gone & (1 << NAME(x)) || IS_FOREIGN || IS_UNLISTED(x) ||
                                        shown_and_told[x] >= before[core[SCRIPT].epoch] + core[SCRIPT].updates)
        }
    fi;
    for (x : 0 .. CLIENTS - 1) {
        NEVER(ANSWER_CHANGES, core[at].number[x] > core[SCRIPT].number[x] ||
              core[at].number[x] == core[SCRIPT].number[x] && (!core[SCRIPT].answer[x] || core[SCRIPT].answer[x] == core[at].answer[x]));
        z = CODE(x, core[at].number[x]);
#ifdef OTHER_CHANGES
        changed[z] = core[at].changes[x] + 1;
#endif
        if
        :: core[at].answer[x] ->
            NEVER(ANSWER_CHANGES, !scripted[z] || scripted[z] == core[at].answer[x]);
            scripted[z] = core[at].answer[x]
        :: else
        fi
    }
    z = 0; x = 0
}

/* engine/write.go Write: Compares Txn If Then Commit Refusal */ /* engine/compare.go Compares */
#ifdef GONE_WITHOUT_A_COMPARE
#define ABSENT(at, site) true
#else
#define ABSENT(at, site) (key[site] == NOBODY || !((core[at].gone & ~core[SCRIPT].gone) & (1 << NAME(site))))
#endif
#if SITES == 1
#define ALL_ABSENT(at) ABSENT(at, 0)
#else
#define ALL_ABSENT(at) (ABSENT(at, 0) && ABSENT(at, 1))
#endif
#if defined(FLEET) && SITES == 2
#define NO_KEY_OF_THE_LAST (key[0] == NOBODY && key[1] == NOBODY)
#else
#define NO_KEY_OF_THE_LAST (key[SITES - 1] == NOBODY)
#endif
#ifdef GOES_ON_AFTER_ANOTHER
#define IS_NEXT(number) (last >= (number) - 1)
#else
#define IS_NEXT(number) (last == (number) - 1)
#endif
#if defined(GOES_ON_AFTER_ANOTHER) || defined(GOES_ON_AFTER_A_REFUSAL)
#define IS_TOO_LATE(number) false
#define IS_REPLACED false
#else
#define IS_TOO_LATE(number) (last >= (number))
/* Whatever one takes that was replaced is never written, since the engine refuses its next batch. So it takes nothing here. */
#define IS_REPLACED (last > number_of[me] || flight[me] == sent && last == number_of[me])
#endif

/* Nobody looks into a batch again that is on its way and comes too late. */
inline drop_what_is_too_late() {
    for (y : 0 .. PRIMARIES - 1) {
        if
        :: flight[y] == sent && IS_TOO_LATE(number_of[y]) ->
            drop(1 + PRIMARIES + y);
            if :: mode[y] == takes -> drop(1 + y) :: else fi
        :: else
        fi
    }
    if :: late_number && IS_TOO_LATE(late_number) -> late_number = 0; late_term = 0; late_takes = false; drop(LATE) :: else fi;
    y = 0
}

inline commit(at, term, is_take_over) {
    if
    :: is_take_over -> writer = term
    :: else -> NEVER(TWO_PRIMARIES_WRITE, writer == term)
    fi;
    judge(at);
    last++;
    if
    :: core[at].epoch > core[SCRIPT].epoch ->
        before[core[at].epoch] = before[core[SCRIPT].epoch] + core[SCRIPT].updates;
        first_of[core[at].epoch] = last
    :: else
    fi;
    epoch_of[last] = core[at].epoch; place_of[last] = before[core[at].epoch] + core[at].updates; left_by[last] = core[at].leaves;
    copy(SCRIPT, at)
}

/* An answer that is told stands in the script, where none changes. So it is the one that was told before. */
inline tell_client(client, at) {
    z = CODE(client, core[at].number[client]); best = core[at].answer[client];
    NEVER(TOLD_BEFORE_IT_IS_WRITTEN, scripted[z] == best);
    best = before[best / 8] + best % 8;
    if :: best > ACKED && best > acknowledged -> acknowledged = best :: else fi;
#ifdef PROBE_EACH_REQUEST_IS_ANSWERED
    assert(best < MOST - ROOM);
#endif
#ifdef PROBE_THE_SECOND_EPOCH_ACKNOWLEDGES
    assert(core[SCRIPT].epoch < 2 || best <= before[2]);
#endif
#ifdef PROBE_THE_SECOND_PRIMARY_ANSWERS
    assert(me == 0 || take_overs < 2 || mode[0] != writes || flight[0] != sent || number_of[0] > last);
#endif
#ifdef PROBE_A_FLEET_ANEW_ACKNOWLEDGES
    assert(!began_anew || places[1] != 1 || shown_and_told[1] || !leases[1]);
#endif
    z = 0; best = 0
}

/* A primary. */

#define IS_DUE(at) (core[at].wish || core[at].asks >= EVERY)   /* epoch/law.go isDue */
#define KNOWN(site) (told[me * NAMES + (site)] > core[OPEN].applied[site] -> told[me * NAMES + (site)] : core[OPEN].applied[site])
                                                               /* epoch/sites.go known */
#define HERE(site) (core[OPEN].leaves & (1 << (site)) || KNOWN(site) >= core[OPEN].updates)   /* epoch/sites.go isHere: known */
#define ALL_ACKED (core[OPEN].acked == core[OPEN].updates)     /* epoch/law.go unended: isDue holdsUp */
#ifdef GOES_OVER_BEFORE_ALL_HAVE_TOLD
#define UP_TO(site) true
#else
#define UP_TO(site) (core[OPEN].applied[site] >= core[OPEN].updates)
#endif
/* epoch/sites.go holdsUp */
#ifdef GOES_OVER_BEFORE_A_SITE_IS_GONE
#define HELD(site) (!UP_TO(site) && !(core[OPEN].leaves & (1 << (site))))
#else
#define HELD(site) (!UP_TO(site) || (core[OPEN].leaves & (1 << (site))) && !(core[OPEN].gone & (1 << (site))))
#endif
#if NAMES == 1
#define ALL_HERE HERE(0)
#define NONE_HELD (!HELD(0))
#define MAY_ACK (core[OPEN].applied[0] + LIMIT > core[OPEN].acked)
#define SOME_TOLD (KNOWN(0) > core[OPEN].applied[0] || (core[OPEN].gone & 1) && core[OPEN].applied[0] < core[OPEN].updates || \
    IS_FOREIGN && core[OPEN].applied[0] < core[OPEN].updates)
#else
#define ALL_HERE (HERE(0) && HERE(1))
#define NONE_HELD (!HELD(0) && !HELD(1))
#define MAY_ACK (core[OPEN].applied[0] + LIMIT > core[OPEN].acked && core[OPEN].applied[1] + LIMIT > core[OPEN].acked)
#define SOME_TOLD (KNOWN(0) > core[OPEN].applied[0] || KNOWN(1) > core[OPEN].applied[1] || \
    (core[OPEN].gone & 2) && core[OPEN].applied[1] < core[OPEN].updates)
#endif
#ifdef CARRY
#define CARRIES(at) core[at].carries
#else
#define CARRIES(at) false
#endif
#define WRITTEN_TO (flight[me] == stands -> number_of[me] : number_of[me] - 1)   /* epoch/batch.go Written */
#ifdef TAKES_REQUESTS_AGAIN
#define IS_NEW(c, n) ((n) >= core[OPEN].number[c])
#else
#define IS_NEW(c, n) ((n) > core[OPEN].number[c])
#endif
#ifdef WISHES_NAME_NO_EPOCH
#define IS_WISHED (WISHES > 0)
#else
#define IS_WISHED (core[OPEN].epoch <= WISHES)
#endif
#define GETS(process) (stage[process] == created || stage[process] == looked)
#define MAY_RELY(process) (relies[process] || fresh[process] && (renewed[process] || GETS(process)))
#ifdef REMOVES_A_KEY_AT_ONCE
#define NOBODY_RELIES true
#elif PROCESSES == 1
#define NOBODY_RELIES (!MAY_RELY(ALL - 1))
#else
#define NOBODY_RELIES (!MAY_RELY(ALL - 1) && !MAY_RELY(ALL - 2))
#endif
#ifdef ANSWERS_FROM_THE_OPEN_BATCH
#define IS_WRITTEN(c) true
#else
#define IS_WRITTEN(c) !((open_answers[me] | flying_answers[me]) & (1 << (c)))
#endif
/* That a number has passed, or had other changes, is told for good. So it is told once the request that says so is written. */
#ifdef TELLS_FOR_GOOD_WHAT_IS_NOT_WRITTEN
#define IS_ASKED_IN_THE_SCRIPT(c) true
#else
#define IS_ASKED_IN_THE_SCRIPT(c) !((open_asks[me] | flying_asks[me]) & (1 << (c)))
#endif
#ifdef OTHER_CHANGES
#define HAS_CHANGES(c, d) (core[OPEN].changes[c] == (d))
#else
#define HAS_CHANGES(c, d) true
#endif
#ifdef ANSWERS_OTHER_CHANGES
#define IS_SAME(c, d) true
#else
#define IS_SAME(c, d) HAS_CHANGES(c, d)
#endif

/* A request comes, for the first time or again. While the epoch ends it is not taken; a site may count as away while it lacks updates. */
inline ask(c, n, d) {                                /* epoch/batch.go Ask: reply take add */ /* epoch/ending.go ends: isDue isHere */
    if                                               /* epoch/batch.go reply */
    :: IS_NEW(c, n) && core[OPEN].updates < MOST && !CARRIES(OPEN) && !(IS_DUE(OPEN) && ALL_HERE) && !IS_REPLACED ->
        core[OPEN].owner[core[OPEN].updates] = CODE(c, n);
        core[OPEN].updates++; core[OPEN].asks++;
        core[OPEN].number[c] = n; core[OPEN].answer[c] = 0;
#ifdef OTHER_CHANGES
        core[OPEN].changes[c] = d;
#endif
        open_answers[me] = open_answers[me] & ~(1 << c); flying_answers[me] = flying_answers[me] & ~(1 << c);
#if defined(HASTY) || defined(OTHER_CHANGES)
        open_asks[me] = open_asks[me] | (1 << c); flying_asks[me] = flying_asks[me] & ~(1 << c);
#endif
#ifdef ANSWERS_BEFORE_IT_SETTLES
        core[OPEN].answer[c] = ANSWER(core[OPEN].epoch, core[OPEN].updates); open_answers[me] = open_answers[me] | (1 << c);
#endif
        dirty[me] = true
    :: n == core[OPEN].number[c] && IS_SAME(c, d) && core[OPEN].answer[c] && IS_WRITTEN(c) ->
        NEVER(ANSWER_CHANGES, HAS_CHANGES(c, d));
        tell_client(c, OPEN);
        if :: n == asked_to[c] && n < REQUESTS -> asked_to[c]++ :: else :: true fi
#ifdef OTHER_CHANGES
    :: n == core[OPEN].number[c] && !IS_SAME(c, d) && IS_ASKED_IN_THE_SCRIPT(c) ->
        NEVER(TOLD_BEFORE_IT_IS_WRITTEN, changed[CODE(c, n)] && changed[CODE(c, n)] != d + 1)
#endif
#ifdef HASTY
    :: n < core[OPEN].number[c] && IS_ASKED_IN_THE_SCRIPT(c) -> NEVER(TOLD_BEFORE_IT_IS_WRITTEN, core[SCRIPT].number[c] > n)
#endif
    :: else
    fi
}

/* The clients that wait are told the answers of a batch that is written, or hear nothing. */
inline tell_answers(at) {                            /* primary/calls.go tell */
    for (y : 0 .. CLIENTS - 1) {
        if
        :: core[at].answer[y] && flying_answers[me] & (1 << y) ->
            tell_client(y, at);
            if :: core[at].number[y] == asked_to[y] && asked_to[y] < REQUESTS -> asked_to[y]++ :: else :: true fi
        :: else
        fi
    }
    y = 0
}

/* What sites told goes into the batch, or later. Then what may be acknowledged is. */
inline work() {                                      /* epoch/batch.go Work: addTold settle */
    if                                               /* epoch/batch.go addTold: known add */
    :: for (y : 0 .. NAMES - 1) {
#ifdef REPORTS_WHAT_NO_SITE_TOLD
           best = core[OPEN].updates;
#else
           best = KNOWN(y);
#endif
           if :: core[OPEN].gone & (1 << y) || IS_FOREIGN -> best = core[OPEN].updates :: else fi;
           if :: best > core[OPEN].applied[y] -> core[OPEN].applied[y] = best; dirty[me] = true :: else fi
       }
    :: true
    fi;
    best = 0; y = 0;
    do                                               /* epoch/batch.go settle: headIsFree addSettle */
                                                     /* epoch/run.go noteSettle: decide */
    :: core[OPEN].acked < core[OPEN].updates && MAY_ACK ->
        core[OPEN].acked++; dirty[me] = true;
        y = (core[OPEN].owner[core[OPEN].acked - 1] - 1) / REQUESTS; z = (core[OPEN].owner[core[OPEN].acked - 1] - 1) % REQUESTS + 1;
        if                                           /* epoch/clients.go answer */
        :: core[OPEN].number[y] == z ->
            core[OPEN].answer[y] = ANSWER(core[OPEN].epoch, core[OPEN].acked); open_answers[me] = open_answers[me] | (1 << y)
        :: else
        fi
    :: else -> break
    od;
    y = 0; z = 0
}

/* The open batch is sealed where it has steps. Where it has none and the epoch is over, the next entry carries over or begins. */
inline seal() {                                      /* epoch/batch.go Seal: isOver closing seal */
                                                     /* epoch/ending.go isOver: ends unended */
    if
    :: dirty[me]
    :: !dirty[me] && !CARRIES(OPEN) && IS_DUE(OPEN) && ALL_ACKED && NONE_HELD ->
#ifdef CARRY
        core[OPEN].carries = true; dirty[me] = true  /* epoch/ending.go closing: startCarry carried run following beginning run */
    :: !dirty[me] && CARRIES(OPEN) ->
        core[OPEN].carries = false;
#endif
        core[OPEN].epoch++; core[OPEN].updates = 0; core[OPEN].acked = 0; core[OPEN].asks = 0;   /* epoch/ending.go begin */
#ifndef BEGINS_ONE_EPOCH_AFTER_ANOTHER
        core[OPEN].wish = false;
#endif
        for (y : 0 .. NAMES - 1) { core[OPEN].applied[y] = 0; told[me * NAMES + y] = 0 }
#ifdef RETURNS
        if :: core[OPEN].epoch == 3 -> core[OPEN].leaves = 0; core[OPEN].gone = 0 :: else fi;
#endif
        for (y : 0 .. MOST - 1) { core[OPEN].owner[y] = 0 }
#ifdef FORGETS_THE_CLIENTS
        for (y : 0 .. CLIENTS - 1) { core[OPEN].number[y] = 0; core[OPEN].answer[y] = 0 }
#endif
        y = 0; dirty[me] = true
    :: else
    fi;
    if
    :: dirty[me] ->
        dirty[me] = false; number_of[me]++; flight[me] = sent;
        copy(FLYING, OPEN);
        flying_answers[me] = open_answers[me]; open_answers[me] = 0;
        flying_asks[me] = open_asks[me]; open_asks[me] = 0;
#ifdef TELLS_BEFORE_IT_WRITES
        tell_answers(FLYING)
#endif
    :: else
    fi
}

inline forget() {                                    /* primary/primary.go forget: Close */
    mode[me] = stands; flight[me] = stands; number_of[me] = 0; dirty[me] = false; term_of[me] = 0;
    open_answers[me] = 0; flying_answers[me] = 0; open_asks[me] = 0; flying_asks[me] = 0;
    for (y : 0 .. NAMES - 1) { told[me * NAMES + y] = 0 }
    y = 0;
    drop(OPEN); drop(FLYING)
}

/* The first entry that has a place. */
inline to_entry_of_best() {
    z = first_of[core[OPEN].epoch];
    do :: z < last && place_of[z] < before[core[OPEN].epoch] + best -> z++ :: else -> break od
}

proctype primary(byte me) {
    byte it;

end:
    do
    /* It runs the script up to its end, and writes an entry behind it. */
    :: d_step { mode[me] == stands && take_overs < TAKES && last < ENTRIES && (take_overs > 0 || me == 0) ->
           take_overs++; term_of[me] = take_overs;   /* primary/standby.go takeOver: catchUp TakeOver firstBatch send Replay */
           copy(OPEN, SCRIPT); copy(FLYING, SCRIPT); number_of[me] = last + 1; flight[me] = sent; mode[me] = takes;
           if
           :: last == 0 -> core[OPEN].epoch = 1; core[FLYING].epoch = 1
           :: else
           fi }
    /* The engine takes the batch that is on its way, or does not. */
    :: d_step { flight[me] == sent && IS_NEXT(number_of[me]) && ALL_ABSENT(FLYING) && last < ENTRIES ->
           commit(FLYING, term_of[me], mode[me] == takes); flight[me] = written;   /* primary/write.go send: Write */
           drop_what_is_too_late() }
    :: atomic { flight[me] == written ->
           mode[me] = writes; flight[me] = stands;   /* primary/write.go land: Land tell */ /* writer/writer.go Land: Written */
#ifndef TELLS_BEFORE_IT_WRITES
           tell_answers(FLYING);
#endif
           d_step { flying_answers[me] = 0; flying_asks[me] = 0; drop(FLYING) } }
    :: d_step { flight[me] == sent && !(IS_NEXT(number_of[me]) && ALL_ABSENT(FLYING)) ->
#ifdef GOES_ON_AFTER_A_REFUSAL
           mode[me] = writes; flight[me] = stands; number_of[me] = last; drop(FLYING) }
#else
           forget() }                                /* primary/primary.go heed: RunsAgain forget */
#endif
    /* It loses its lease, and drops what is not written. */
    :: d_step { mode[me] == writes && flight[me] == stands && take_overs < TAKES ->
           forget() }                                /* primary/write.go writeAll: run isIdle set forget */
    /* It dies, and is started again. What was on its way may come later. */
    :: d_step { mode[me] != stands && deaths < DEATHS && (flight[me] != sent || late_number == 0) ->
           deaths++;
           if
           :: flight[me] == sent && !IS_TOO_LATE(number_of[me]) ->
               late_number = number_of[me]; late_term = term_of[me]; late_takes = (mode[me] == takes); copy(LATE, FLYING)
           :: else
           fi;
           forget() }
    /* A request comes. */
    :: atomic { mode[me] == writes ->                /* primary/write.go take: AskNext ask Work tellWishes */
           if :: it = 0
#if CLIENTS > 1
              :: it = 1
#endif
           fi;
           if
           :: true -> ask(it, asked_to[it], 0)       /* primary/write.go ask: Ask sort */
#ifdef OTHER_CHANGES
           :: true -> ask(it, asked_to[it], 1)
#endif
           :: asked_to[it] > 1 -> ask(it, asked_to[it] - 1, 0)
           fi;
           it = 0 }
    /* A place comes, of those that were told. One of another epoch counts for nothing. */
    :: atomic { mode[me] == writes ->                /* primary/ask.go Tell: mayTakeLocked Tell */ /* writer/digests.go Tell: check Tell */
           if :: it = 0
#if NAMES > 1
              :: it = 1
#endif
           fi;
           d_step {
#ifdef COUNTS_PLACES_OF_OTHER_EPOCHS
               best = 0;
               for (y : 1 .. EPOCHS) { if :: places[it * (EPOCHS + 1) + y] > best -> best = places[it * (EPOCHS + 1) + y] :: else fi }
               if :: best > core[OPEN].updates -> best = core[OPEN].updates :: else fi;
#else
               best = places[it * (EPOCHS + 1) + core[OPEN].epoch];
#endif
#ifdef FLEET
               for (y : 0 .. SITES - 1) {            /* fleet/fleet.go take: isBefore */
                   z = places[y * (EPOCHS + 1) + core[OPEN].epoch];
#ifdef FLEET_TELLS_THE_GREATEST
                   if :: z > best -> best = z :: else fi
#else
                   if :: z < best && !IS_UNLISTED(y) -> best = z :: else fi
#endif
               }
#ifdef ANEW
               if :: !FLEET_TELLS || best < before_anew[core[OPEN].epoch] -> best = before_anew[core[OPEN].epoch] :: else fi;
#endif
#endif
               if                                    /* epoch/sites.go Tell: of known */
               :: !(core[OPEN].leaves & (1 << it)) && best > KNOWN(it) ->
                   /* One that is beyond the updates is of an entry that this core has not run yet. */
                   to_entry_of_best();
                   NEVER(HONEST_PLACE_IS_REFUSED, best <= core[OPEN].updates || z > WRITTEN_TO);
                   if :: best <= core[OPEN].updates && !IS_REPLACED -> told[me * NAMES + it] = best :: else fi
               :: else
               fi;
               best = 0; y = 0; z = 0
           };
           it = 0 }
    /* A wish comes for an epoch. */
    :: d_step { mode[me] == writes && IS_WISHED && !core[OPEN].wish && !CARRIES(OPEN) && !IS_REPLACED ->
           core[OPEN].wish = true; dirty[me] = true; /* epoch/ending.go AskNext: complete mayWish add */
#ifdef LEAVE
           if :: core[OPEN].epoch == 1 -> core[OPEN].leaves = 1 << NAME(SITES - 1) :: else fi;
#endif
       }
#ifdef LEAVE
    /* The engine had no key of a site that leaves. */
    :: d_step { mode[me] == writes && !CARRIES(OPEN) && core[OPEN].leaves && core[OPEN].gone != core[OPEN].leaves &&
                NO_KEY_OF_THE_LAST && !IS_REPLACED ->
           core[OPEN].gone = core[OPEN].leaves;      /* primary/leaving.go look: SiteKeys clear */ /* epoch/ending.go Gone: of add */
           core[OPEN].applied[NAME(SITES - 1)] = core[OPEN].updates; dirty[me] = true }
#endif
#if HANDS
    /* A key that was put by hand, and that was seen for as long as the engine keeps a lease, is taken away. */
    :: d_step { mode[me] == writes && !CARRIES(OPEN) && core[OPEN].leaves && key[SITES - 1] == BY_HAND && NOBODY_RELIES ->
           key[SITES - 1] = NOBODY }                 /* primary/leaving.go clear: See RemoveKey */
#endif
    :: atomic { mode[me] == writes && flight[me] == stands && number_of[me] < ENTRIES && core[OPEN].epoch < EPOCHS &&
                (dirty[me] || SOME_TOLD || IS_DUE(OPEN)) && !IS_REPLACED ->
           if :: CARRIES(OPEN) :: else -> work() fi; /* primary/write.go work: take start seal */
           seal() }                                  /* primary/write.go seal: Seal send */ /* writer/writer.go Seal: Seal Add */
    od
}

/* A write of a process that died comes. */
proctype late_writes() {
end:
    do
    :: d_step { late_number && last < ENTRIES ->
           if
           :: IS_NEXT(late_number) && ALL_ABSENT(LATE) ->
               commit(LATE, late_term, late_takes)
#ifdef PROBE_A_LATE_WRITE_IS_TAKEN
               ;
               assert(late_takes)
#endif
           :: else
           fi;
           late_number = 0; late_term = 0; late_takes = false; drop(LATE);
           drop_what_is_too_late() }
    od
}

/* A process of a site. */

#define SITE (me / PROCESSES)
#define OTHER (SITE * PROCESSES + PROCESSES - 1 - me % PROCESSES)
#define PLACE (place_of[shown[me]] - LACKS)
/* What is shown has all that was told for the site, and lacks no more than the limit of what is acknowledged. */
#define IS_ENOUGH (PLACE >= shown_and_told[SITE] && PLACE + LIMIT >= ACKED && PLACE + LIMIT >= acknowledged)
#define IS_GONE (core[SCRIPT].gone & (1 << NAME(SITE)))
#ifdef SERVES_BEFORE_IT_HAS_CAUGHT_UP
#define REACHED (shown[me] > 0)
#else
#define REACHED (shown[me] > 0 && shown[me] >= from[me])
#endif
#ifdef SERVES_WITHOUT_THE_LEASE
#define LIVES (!over[me])
#else
#define LIVES relies[me]                             /* lease/lease.go Lives */ /* engine/lease.go Lives: Lives */
#endif
/* A place is told again that a process of the fleet does not know. */
#ifdef ANEW
#define IS_TOLD_AGAIN (PLACE - before[epoch_of[shown[me]]] > places[SITE * (EPOCHS + 1) + epoch_of[shown[me]]])
#else
#define IS_TOLD_AGAIN false
#endif
#ifdef TELLS_WITHOUT_THE_LEASE
#define MAY_TELL (!over[me])
#else
#define MAY_TELL LIVES
#endif
/* Values that were taken before the term count for nothing. */
#if defined(SERVES_WITHOUT_THE_LEASE) || defined(KEEPS_ITS_TERM)
#define MAY_READ true
#else
#define MAY_READ (stage[me] == held)
#endif
#ifdef SERVES_BEFORE_A_PLACE_IS_TAKEN
#define IS_TAKEN true
#else
#define IS_TAKEN taken[me]                           /* site/view.go Served */
#endif
/* Whether a key that is its own may be taken, which was created by a call whose answer was lost. */
#ifdef TAKES_UP_WHAT_IT_GAVE_BACK
#define MAY_TAKE_UP true
#else
#define MAY_TAKE_UP (given[me] != lease[SITE])
#endif
/* Whether the engine may end the lease: nobody relies on it by an answer of the engine. */
#ifdef RELIES_ON_A_LEASE_THAT_IS_OVER
#define MAY_END true
#else
#define MAY_END (lease[SITE] != mine[me] || !MAY_RELY(me))
#endif
#ifdef RENEWS_BY_NAME_ALONE
#define IS_MINE (key[SITE] == OWN)
#else
#define IS_MINE (key[SITE] == OWN && lease[SITE] == mine[me])
#endif

/* Whether a process is as at its start, so that its site has none that differs from it but by its number. */
#define IS_FRESH(process) (stage[process] == no_key && !over[process] && !from[process] && !bad[process] && !given[process] && \
                           !creates[process] && !revokes[process])

inline rely() {                                      /* lease/lease.go rely */
#ifdef RELIES_FROM_THE_ANSWER
    relies[me] = true;
#else
    relies[me] = fresh[me];
#endif
    NEVER(TWO_PROCESSES_RELY, PROCESSES == 1 || !relies[me] || !relies[OTHER]);
    fresh[me] = false
}

/* What it has run counts for nothing in another term, nor what it shows. */
inline end_term() {
    mine[me] = 0; relies[me] = false; fresh[me] = false; renewed[me] = false; stage[me] = no_key;
    run_to[me] = 0; shown[me] = 0;
#ifndef KEEPS_ITS_TERM
    taken[me] = false; bad[me] = 0;
#endif
#ifndef READS_THE_END_ONCE
    from[me] = 0
#endif
}

/* It relies no more, and then gives its lease back. The engine takes that away at once, never, or later. */
inline give_up() {                                   /* lease/lease.go GiveUp: revoke */ /* engine/lease.go revoke: Revoke */
    if
    :: IS_MINE -> key[SITE] = NOBODY
    :: true
#ifdef REVOKES_LATE
    :: revokes[me] == 0 -> revokes[me] = mine[me]
#endif
    fi;
    if :: IS_MINE -> given[me] = mine[me] :: else fi;
    end_term()
}

proctype site(byte me) {
end:
    do
    /* It runs the next entry, and shows it, up to the first one that it may serve. One that is taken out shows nothing from there on. */
    :: d_step { !over[me] && MAY_READ && run_to[me] < last ->   /* site/site.go follow: start Follow run Show show */
           do
           :: run_to[me]++;                          /* site/replica.go Replay: Take begin propose heed */
              if                                     /* site/replica.go heed */
#ifdef SERVES_AFTER_IT_WAS_TAKEN_OUT
              :: false
#else
              :: left_by[run_to[me]] & (1 << NAME(SITE)) -> over[me] = true; end_term(); break
#endif
              :: else -> shown[me] = run_to[me]
              fi;
              if :: REACHED || run_to[me] == last -> break :: else fi
           od;
#if !defined(READS_THE_END_ONCE) && !defined(READS_THE_END_FIRST)
           if :: REACHED -> from[me] = 0 :: else fi
#endif
       }
#ifdef SKIPS_WHAT_CAME
    :: d_step { !over[me] && run_to[me] > 0 && run_to[me] < last && lacks[me] == 0 ->
           run_to[me]++; lacks[me] = place_of[run_to[me]] - place_of[run_to[me] - 1] }
#endif
#ifdef ARCHIVES
    /* It finds that the entries which it lacks are archived, and begins with the last epoch. What it shows stays until it has more. */
    :: d_step { !over[me] && run_to[me] > 0 && run_to[me] + 1 < first_of[core[SCRIPT].epoch] ->
           run_to[me] = first_of[core[SCRIPT].epoch] - 1 }   /* follower/follower.go Heed: forget */
                                                     /* site/site.go start: Start Last NewReplica */
#endif
    /* It dies, and another is started. */
    :: d_step { falls < FALLS && (over[me] || stage[me] != no_key) ->
           falls++;
           if :: key[SITE] == OWN -> key[SITE] = DEAD :: else fi;
           end_term();
           over[me] = false; from[me] = 0; taken[me] = false; revokes[me] = 0; creates[me] = 0; given[me] = 0 }
    /* It looks for its key, and creates it where there is none. The answer may be lost. */
    :: atomic { !over[me] && stage[me] == no_key && last > 0 && key[SITE] == NOBODY && leases[SITE] < TERMS &&
                (me % PROCESSES == 0 || !IS_FRESH(OTHER)) ->
           leases[SITE]++;                           /* engine/lease.go find: Get Found */ /* lease/lease.go Found */
           if                                        /* engine/lease.go create: Grant Txn Commit Created */
           :: key[SITE] = OWN; lease[SITE] = leases[SITE]; mine[me] = leases[SITE]; stage[me] = created; fresh[me] = true
           :: key[SITE] = OWN; lease[SITE] = leases[SITE]
#ifdef CREATES_LATE
           :: creates[me] == 0 -> creates[me] = leases[SITE]
#endif
           fi }
#ifdef CREATES_LATE
    /* The lease may have ended by now. */
    :: atomic { creates[me] -> if :: key[SITE] == NOBODY -> key[SITE] = OWN; lease[SITE] = creates[me] :: true fi; creates[me] = 0 }
#endif
    /* The key is its own, by a call whose answer was lost. */
    :: d_step { !over[me] && stage[me] == no_key && key[SITE] == OWN && MAY_TAKE_UP ->
           stage[me] = created; fresh[me] = true; mine[me] = lease[SITE] }
#ifdef READS_THE_END_FIRST
    :: d_step { stage[me] == no_key && from[me] == 0 && last > 0 -> from[me] = last }
#endif
    /* It has the key: it reads the end of the script, and relies on the lease then. Where it cannot read that it gives the key back. */
    :: d_step { stage[me] == created ->               /* lease/lease.go Created: begin revoke */ /* engine/lease.go begin: whenHeld Begun */
#if defined(READS_THE_END_ONCE)
           if :: from[me] == 0 -> from[me] = last :: else fi;
#elif !defined(READS_THE_END_FIRST)
           from[me] = last;
#endif
           run_to[me] = first_of[core[SCRIPT].epoch] - 1; shown[me] = 0;
           taken[me] = false; stage[me] = looked }    /* site/site.go mayServe: Last Begin */ /* lease/lease.go Begun: revoke rely */
    :: d_step { stage[me] == looked ->
#ifndef KEEPS_ITS_TERM
           bad[me] = 0;
#endif
           stage[me] = held; rely() }
#ifdef REVOKES_LATE
    :: atomic { stage[me] == created -> give_up() }
#endif
    /* It asks the engine to renew the lease, which looks at the key too. The answer may be lost. */
    :: d_step { stage[me] == held && !renewed[me] && !fresh[me] && IS_MINE -> renewed[me] = true; fresh[me] = true }
                                                     /* engine/lease.go renew: LeaseKeepAlive Send Recv Get Renewed */
    :: atomic { stage[me] == held && !renewed[me] && !IS_MINE -> give_up() }   /* lease/lease.go Renewed: rely GiveUp */
    :: atomic { renewed[me] -> renewed[me] = false; if :: d_step { rely() } :: fresh[me] = false fi }
    /* It gives the key back, to end. */
#ifdef GIVES_BACK_FIRST
    :: d_step { stage[me] == held && IS_MINE -> key[SITE] = NOBODY }
#endif
    :: atomic { stage[me] == held && IS_MINE && leases[SITE] < TERMS -> give_up() }   /* engine/lease.go Run: giveUp step */ /* engine/lease.go step: do next revoke */
    :: d_step { revokes[me] ->
           if :: key[SITE] == OWN && lease[SITE] == revokes[me] -> key[SITE] = NOBODY; given[me] = 0 :: else fi;
           revokes[me] = 0 }
    /* Time. */
    :: relies[me] -> relies[me] = false
    :: d_step { fresh[me] && !relies[me] -> fresh[me] = false }
    /* The engine ends a lease on which nobody relies by its answers. */
    :: d_step { key[SITE] == OWN && MAY_END -> key[SITE] = NOBODY; given[me] = 0 }
    :: d_step { key[SITE] == DEAD -> key[SITE] = NOBODY }
#if HANDS
    :: d_step { hands < HANDS && key[SITE] != BY_HAND ->
           hands++; key[SITE] = BY_HAND; given[me] = 0; given[OTHER] = 0 }
#endif
    /* A reader: the values are taken, and then the lease is looked at. What is good is no step. */
#ifdef LOOKS_AT_THE_LEASE_FIRST
    :: LIVES && !lived[me] -> lived[me] = true
    :: d_step { lived[me] -> NEVER(READER_SEES_TOO_LITTLE, !REACHED || !IS_TAKEN || IS_ENOUGH); lived[me] = false }
#else
    :: d_step { !bad[me] && MAY_READ && REACHED && IS_TAKEN && (!IS_ENOUGH || IS_GONE) ->
           bad[me] = (IS_GONE -> 2 : 1) }            /* site/view.go Look: take lives */
    :: bad[me] && LIVES ->
        NEVER(READER_SEES_TOO_LITTLE, bad[me] != 1);
        NEVER(GONE_SITE_SERVES, bad[me] != 2)
#endif
    /* It tells the place that it shows, until one is taken in the term. */
#if defined(UNLISTED) || defined(ANEW)
    :: d_step { MAY_TELL && REACHED && !over[me] && (IS_FOREIGN || IS_UNLISTED(SITE)) ->
           over[me] = true; shown[me] = 0; end_term() }   /* site/site.go IsRefused */
#endif
#ifndef UNLISTED
    :: atomic { MAY_TELL && REACHED && !IS_UNLISTED(SITE) && (PLACE > shown_and_told[SITE] || !taken[me] || IS_TOLD_AGAIN) ->
           d_step {                                  /* site/site.go tellAll: now PlaceOf tell wasTaken */
               if
               :: PLACE > shown_and_told[SITE] || IS_TOLD_AGAIN ->
                   shown_and_told[SITE] = (PLACE > shown_and_told[SITE] -> PLACE : shown_and_told[SITE]);
                   places[SITE * (EPOCHS + 1) + epoch_of[shown[me]]] = PLACE - before[epoch_of[shown[me]]]
               :: else
               fi
           };
           if :: taken[me] = true :: true fi }
#endif
#ifdef TELLS_BEFORE_IT_SHOWS
    :: d_step { LIVES && REACHED && run_to[me] < last && place_of[run_to[me] + 1] > shown_and_told[SITE] &&
                !(left_by[run_to[me] + 1] & (1 << NAME(SITE))) ->
           shown_and_told[SITE] = place_of[run_to[me] + 1];
           places[SITE * (EPOCHS + 1) + epoch_of[run_to[me] + 1]] = place_of[run_to[me] + 1] - before[epoch_of[run_to[me] + 1]] }
#endif
    od
}

/* The process of a fleet is started anew, without its last site. It knows no place that was told before. */
#ifdef ANEW
proctype fleet() {
end:
    do
    :: d_step { !began_anew -> began_anew = true;
           for (y : 0 .. EPOCHS) {
               before_anew[y] = (places[y] < places[EPOCHS + 1 + y] -> places[y] : places[EPOCHS + 1 + y]);
               places[y] = 0; places[EPOCHS + 1 + y] = 0
           }
           y = 0 }
    :: d_step { began_anew && !fleet_looked && key[SITES - 1] == NOBODY -> fleet_looked = true }
    od
}
#endif

/* A client asks under the next number, though it has no answer. */
#ifdef HASTY
proctype hasty() {
end:
    do
    :: atomic { asked_to[0] < REQUESTS -> asked_to[0]++ }
    od
}
#endif

init {
    byte it;

    atomic {
        do :: it < PRIMARIES -> run primary(it); it++ :: else -> break od;
        it = 0;
        do :: it < ALL -> run site(it); it++ :: else -> break od;
        it = 0;
#if DEATHS
        run late_writes();
#endif
#ifdef HASTY
        run hasty();
#endif
#ifdef ANEW
        run fleet();
#endif
    }
#ifdef PROBE_A_SITE_IS_GONE
    ;
end:
    core[SCRIPT].epoch == 2 && core[SCRIPT].gone -> assert(false)
#endif
#ifdef PROBE_A_SITE_IS_BACK
    ;
end:
    core[SCRIPT].epoch == 3 && relies[ALL - 1] && taken[ALL - 1] && epoch_of[shown[ALL - 1]] == 3 && shown[ALL - 1] >= from[ALL - 1] ->
        assert(false)
#endif
#ifdef PROBE_THE_SECOND_PROCESS_SERVES
    ;
end:
    relies[1] && taken[1] && shown[1] >= from[1] && places[1] == 1 && leases[0] == 2 -> assert(false)
#endif
}
