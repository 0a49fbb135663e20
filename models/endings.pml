/* One slot that GENS connections have one after another: the control thread opens and begins each (Control::open and begin, accepting.rt;
 * prepare, crews.rt), the slot's reader and finisher are made with the first and stay, and TOUCHERS threads of other connections touch
 * the slot TOUCHES times each, whichever connection has it then. With FEW one I/O thread reads and finishes.
 * Threads that can't be made, sockets that can't be registered, writes that fail, peers that never read or read slowly, peers that never
 * close and have their session end by a fault or without memory come at any point, within bounds. At the end the threads are
 * dismissed.
 * Ends: each process ends, and the slot can be used again; no deadlock; what was queued when its session was over its peer
 * receives, if it reads. A peer whose writes are blocked has its connection hung up only once its end was asked for.
 * Order: bytes go to their own connection, in order, once. Stale tokens, stages, words and touches do no harm: a connection is let go of
 * only once nothing is read from it any more, and each slot is closed once.
 * ENDLESS: the threads queue for ever while the slot is open, and each connection ends nevertheless. */
#ifndef GENS
#define GENS 2
#endif
#ifndef TOUCHERS
#define TOUCHERS 1
#endif
#ifndef TOUCHES
#define TOUCHES 2
#endif
#ifndef UNITS
#define UNITS 1
#endif
#ifndef BLOCKS
#define BLOCKS 0
#endif
#ifndef FAULTS
#define FAULTS 0
#endif
#ifndef FAILS
#define FAILS 0
#endif
#ifndef STAYS
#define STAYS 0          /* 1: peers may never close */
#endif
#ifndef PEERS
#define PEERS 0          /* 0: all read; 1: all are deaf; 2: all are slow; 3: they read or are deaf; 4: any of these */
#endif
#define WANTS 0
#ifdef ENDLESS
#define ON_RELEASE(s) assert(may_end[s])
#else
#define ON_RELEASE(s) assert(may_end[s]); assert(faulted[s] || received[s] >= at_end[s])
#endif
#define CHOOSE_PEER(s) \
    if \
    :: PEERS == 0 || PEERS >= 3 -> blocks[s] = BLOCKS \
    :: PEERS == 1 || PEERS >= 3 -> deaf[s] = true \
    :: PEERS == 1 || PEERS >= 3 -> deaf[s] = true; room[s] = 1 \
    :: PEERS == 2 || PEERS == 4 -> slow[s] = true \
    fi; \
    if \
    :: STAYS -> stays[s] = true \
    :: stays[s] = false \
    fi
#define MAY_FAIL(s) (STAYS || units[s] > 0)
/* A packet, or PRE_SLEEP, for which no slot is touched */
#define ANY_UNIT(s) \
    if \
    :: QUEUE(s); todo = 1 << s \
    :: core_phase[s] == AWAKE -> core_phase[s] = ASLEEP; seat_phase[s] = ASLEEP; word[s] = ASLEEP \
    fi
#include "lane.h"
#include "serving.h"

byte fails = FAILS;
bool is_done = false;
bool ended = false;

proctype Reader(byte me) {
    SERVES;
    run_reader(me)
}

proctype Finisher(byte me) {
    SERVES;
    run_finisher(me)
}

proctype Thread(byte me) {
    SERVES; bool is_turn = false; bool is_called = false;
    run_few()
}

/* A thread that serves another connection, which completes jobs of this slot's client, or submits some for this slot's worker */
proctype Toucher() {
    LOCALS;
    byte n = 0; bool is_due = false;
    do
#ifdef ENDLESS
    :: is_open[0] && put[0] == 0 ->
#else
    :: n < TOUCHES && !is_done ->
        n++;
#endif
        atomic { (book == 0) ->
            if
            :: is_open[0] -> QUEUE(0); is_due = true
            :: is_open[0] && core_phase[0] == ASLEEP -> core_phase[0] = OWED; seat_phase[0] = OWED; OWE(0); is_due = true
            :: !is_open[0] -> is_due = false
            fi };
        if
        :: is_due -> touch_word(0)
        :: is_due -> touch_for_finisher(0)           /* the time is over */
        :: else
        fi;
        if
        :: has -> deliver_claimed(0)
        :: else
        fi;
        atomic { is_due = false; fin = NOTHING }
#ifdef ENDLESS
    :: is_done -> break
#else
    :: true -> break
#endif
    od
}

/* Control::open and begin (accepting.rt), prepare and dismiss (crews.rt) */
active proctype Control() {
    byte me = 0;
    SERVES;
    byte g = 0; byte at = 0; byte made = 0;
    faults = FAULTS;
    atomic {
        do
        :: g < TOUCHERS -> run Toucher(); g++
        :: else -> break
        od };
    g = 0;
#ifdef FEW
    run Thread(0);
#endif
    do
    :: true ->
        if
        :: at == 0 && g == GENS -> break
        :: at == 0 && g < GENS ->
            atomic { (book == 0 && !is_open[0]) -> /* Event::Open; while no slot is free, connections are refused */
                g++; is_open[0] = true; gen[0] = g; may_end[0] = false; at_end[0] = 0; units[0] = UNITS;
                todo = 1; at = 1 }
        :: at == 1 ->
            connections++;
#ifndef FEW
            if
            :: made == 0 ->
                if
                :: run Finisher(0) -> made = 1
                :: fails > 0 -> at = 3
                fi
            :: else
            fi;
            if
            :: at == 1 && made == 1 ->
                if
                :: run Reader(0) -> made = 2
                :: fails > 0 -> at = 3
                fi
            :: else
            fi;
#endif
            if
            :: at == 3 -> fails--;
                atomic { (lock[0] == 0) -> assert(line[0] == NO_LINE) };   /* Lane::refuse (lane.rt): begun, and let go of at once */
                LOCK(talk[0]); holds = true; cur = 0;   /* closed without being served */
#ifndef M_UNMADE_STAYS
                fin = GONE
#endif
            :: else -> open_lane(0); at = 2
            fi
        :: at == 2 ->
            LOCK(talk[0]);
            talking[0] = READING;                  /* Talk::begin */
            if                                     /* Crews::begin */
#ifdef FEW
            :: fails > 0 -> atomic { fails--; talking[0] = TALK_ENDED; may_end[0] = true; holds = true; at = 3;
#ifndef M_UNREGISTERED_STAYS
                to = ENDED                         /* ServerState::end */
#endif
                }
#endif
            :: true ->
#ifndef M_NO_NOTIFY_OF_ARRIVAL
                waiting[0] = false;
#endif
                UNLOCK(talk[0]); at = 0
            fi
        :: at == 3 -> UNLOCK(talk[0]); holds = false; at = 0
        fi;
        at_lane()
    od;
    (connections == 0);
    is_done = true;
    dismiss();
#ifdef ENDLESS
    (_nr_pr == 2);                                 /* spin's process of the formula */
#else
    (_nr_pr == 1);                                 /* the scope, and the touchers */
#endif
    ended = true;
    assert(!is_open[0] && line[0] == NO_LINE && talking[0] == NO_TALK);
    assert(book == 0 && lock[0] == 0 && talk[0] == 0);
    assert(owners[0] == 0 && (lw[0] == LANE_LEFT || lw[0] == LANE_IDLE));
    assert(word[0] == AWAKE)
}

#ifdef ENDLESS
ltl ends { <>ended }
#endif
