/* A bell of clients/go/cluster/bell.go: a count, how many are counted as sleepers, and a channel, whose end they sleep for, under a lock. Two
   sleepers wait for what two others bring about, each of which rings after it did. A sleeper has no context that ends, so a lost wake-up is
   a goroutine that sleeps for ever. With GIVES_UP the context of the first one ends, whenever it sleeps. */

byte rung, sleepers, brought, woken, gone;
bool lock;
byte channel;          /* that of the bell, or 0 for none */
byte made;             /* how many channels were made; their numbers are from 1 */
#define CHANNELS 8
bool ended[CHANNELS];

inline take() { atomic { !lock -> lock = true } }

/* A channel that has ended may not be ended again: that is a panic. */
inline close_channel() { atomic { assert(!ended[channel]); ended[channel] = true } }

inline ring() {
#ifdef GO_RING_LOOKS_FOR_SLEEPERS_FIRST
    byte some = sleepers;
    rung++;
    if :: some -> take() :: else -> goto rang fi;
#else
    rung++;                                      /* bell::ring: rung.fetch_add */
    if                                           /* bell::ring: sleepers.load */
#ifdef GO_RING_TAKES_NO_LOCK
    :: sleepers > 0
#else
    :: sleepers > 0 -> take()                    /* bell::ring: lock.lock */
#endif
    :: else -> goto rang
    fi;
#endif
    if
    :: channel ->
        close_channel();                         /* bell::ring: woken.close */
#ifndef GO_RING_KEEPS_THE_CHANNEL
        channel = 0
#endif
    :: else
    fi;
#ifndef GO_RING_TAKES_NO_LOCK
    lock = false                                 /* bell::ring: lock.unlock */
#endif
rang:
    skip
}

/* It sleeps only where the count is what was heard as it takes the channel. */
inline wait_for(heard, may_give_up) {
#ifndef GO_SLEEPER_COUNTS_ITSELF_AFTER_IT_COMPARED
    sleepers++;                                  /* bell::waitFor: sleepers.fetch_add */
#endif
    take();                                      /* bell::waitFor: lock.lock */
    if                                           /* bell::waitFor: b.listen */
    :: rung == heard ->
#ifdef GO_SLEEPER_COUNTS_ITSELF_AFTER_IT_COMPARED
        sleepers++;
#endif
#ifdef GO_SLEEPER_TAKES_THE_CHANNEL_AFTER_THE_LOCK
        if :: channel == 0 -> made++; channel = made :: else fi;
        lock = false;
        mine = channel;
#else
        if :: channel == 0 -> made++; channel = made :: else fi;
        mine = channel;
        lock = false;                            /* bell::waitFor: lock.unlock */
#endif
        if                                       /* bell::waitFor: woken.receive ctx.receive */
        :: ended[mine]
#ifdef GIVES_UP
        :: may_give_up -> gave_up = true
#endif
        fi
#ifdef GO_SLEEPER_COUNTS_ITSELF_AFTER_IT_COMPARED
        ; sleepers--
#endif
    :: else -> lock = false                      /* bell::waitFor: lock.unlock */
    fi;
#ifndef GO_SLEEPER_COUNTS_ITSELF_AFTER_IT_COMPARED
    sleepers--                                   /* bell::waitFor: sleepers.fetch_sub */
#endif
}

proctype sleeper(byte me) {
    byte heard, mine;
    bool gave_up;
    do
    ::
#ifdef GO_SLEEPER_LISTENS_AFTER_IT_LOOKED
        if :: brought == 2 -> break :: else fi;
        heard = rung;
#else
        heard = rung;                            /* bell::listen: rung.load */
        if :: brought == 2 -> break :: else fi;
#endif
        if :: gave_up -> break :: else fi;
        wait_for(heard, me == 0)
    od;
    if :: brought == 2 -> woken++ :: else -> gone++ fi
}

proctype bringer() {
#ifdef GO_BRINGER_RINGS_FIRST
    ring();
    brought++
#else
    brought++;
    ring()
#endif
}

init {
    atomic { run sleeper(0); run sleeper(1); run bringer(); run bringer() };
    woken + gone == 2 && brought == 2;
    /* The one whose context does not end has seen what came. */
    assert(woken >= 1);
#ifndef GIVES_UP
    assert(gone == 0)
#endif
#ifdef PROBE_ALL_WAKE
    assert(woken != 2)
#endif
#ifdef PROBE_ONE_GIVES_UP
    assert(gone == 0)
#endif
}
