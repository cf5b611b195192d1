/* A bell of clients/c/ordup_cluster.c: a count, how many are counted as sleepers, and a mutex with a condition variable. Two sleepers
   wait for what two others bring about, each of which rings after it did. No wait has an end in time, so a lost wake-up is a thread that
   sleeps for ever. */

byte rung, sleepers, brought, woken;
bool lock, asleep[2];

inline take() { atomic { !lock -> lock = true } }

inline broadcast() { atomic { asleep[0] = false; asleep[1] = false } }

inline ring() {
#ifdef RING_LOOKS_FOR_SLEEPERS_FIRST
    byte some = sleepers;
    rung++;
    if :: some -> take(); broadcast(); lock = false :: else fi
#else
    rung++;                                      /* ring: rung.fetch_add */
    if                                           /* ring: sleepers.load */
#ifdef RING_BROADCASTS_WITHOUT_THE_LOCK
    :: sleepers -> broadcast()
#else
    :: sleepers -> take(); broadcast(); lock = false         /* ring: lock.lock woken.broadcast lock.unlock */
#endif
    :: else
    fi
#endif
}

/* It sleeps only while the count is what was heard. To fall asleep gives the lock back, in one step. */
inline wait_for(heard) {
#ifndef SLEEPER_COUNTS_ITSELF_AFTER_IT_COMPARED
    sleepers++;                                  /* wait_for: it.listen sleepers.fetch_add */
#endif
    take();                                      /* wait_for: lock.lock */
    do                                           /* wait_for: it.listen */
    :: rung != heard -> break
    :: rung == heard ->
#ifdef SLEEPER_COUNTS_ITSELF_AFTER_IT_COMPARED
        sleepers++;
#endif
#ifdef SLEEPER_GIVES_THE_LOCK_BACK_FIRST
        lock = false;
        asleep[me] = true;
#else
        atomic { asleep[me] = true; lock = false };          /* wait_for: woken.wait_until woken.wait */
#endif
        !asleep[me];
        take()
#ifdef SLEEPER_COUNTS_ITSELF_AFTER_IT_COMPARED
        ; sleepers--
#endif
    od;
    lock = false                                 /* wait_for: lock.unlock */
#ifndef SLEEPER_COUNTS_ITSELF_AFTER_IT_COMPARED
    ; sleepers--                                 /* wait_for: sleepers.fetch_sub */
#endif
}

proctype sleeper(byte me) {
    byte heard;
    do
    ::
#ifdef SLEEPER_LISTENS_AFTER_IT_LOOKED
        if :: brought == 2 -> break :: else fi;
        heard = rung;
#else
        heard = rung;                            /* listen: rung.load */
        if :: brought == 2 -> break :: else fi;
#endif
        wait_for(heard)
    od;
    woken++
}

proctype bringer() {
#ifdef BRINGER_RINGS_FIRST
    ring();
    brought++
#else
    brought++;
    ring()
#endif
}

init {
    atomic { run sleeper(0); run sleeper(1); run bringer(); run bringer() };
    woken == 2
#ifdef PROBE_BOTH_WAKE
    ; assert(false)
#endif
}
