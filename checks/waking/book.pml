/* The book of a store: what its lock guards, settlements, and what may be sent. store.pml stands on it, and c_cluster.pml.

   SITES sites, 1 or 2, with feeds of CAPACITY. For each update that is decided any of the sites are picked that have not reported
   it, and it waits for them: so all limits are tried. So many turns as REFUSALS are refused memory. */

#ifndef SITES
#define SITES 1
#endif
#ifndef CAPACITY
#define CAPACITY 1
#endif
#ifndef REFUSALS
#define REFUSALS 0
#endif

/* The book, under its lock. */
bool book;
byte numbered, acked;
bool decided;          /* the head is decided, and waits for the sites of these bits */
byte waits_for;
byte reported[SITES];
byte pushed[SITES];    /* how many updates were put into each feed */

byte refusals;

#if SITES == 1
#define SOME_UNSENT (pushed[0] < numbered)
#else
#define SOME_UNSENT (pushed[0] < numbered || pushed[1] < numbered)
#endif

#ifdef KEEPER_SETTLES_ALONE
#define SOME_TO_DO (acked < numbered)
#else
#define SOME_TO_DO (acked < numbered || SOME_UNSENT)
#endif

/* The last update that a site may be sent: the head where it waits for the site, and else the last one. */
#define LAST_TO_SEND ((waits_for & (1 << site)) -> acked + 1 : numbered)

/* Settlements while they acknowledge the head. */
inline settle_all() {
    do
    :: acked == numbered -> break
    :: acked < numbered ->
        site = 0;
        do
        :: site == SITES -> break
        :: site < SITES && !decided && reported[site] <= acked -> waits_for = waits_for | (1 << site); site++
        :: site < SITES && (!decided || reported[site] <= acked) -> site++
        :: site < SITES && decided && reported[site] > acked -> waits_for = waits_for & ~(1 << site); site++
        od;
        decided = true;
        if
        :: waits_for == 0 -> acked++; decided = false
        :: else -> break
        fi
    od;
    site = 0
}

inline to_next_unsent() {
    do
    :: site < SITES && pushed[site] >= LAST_TO_SEND -> site++
    :: else -> break
    od
}
