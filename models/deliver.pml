/* One open connection, its finisher (run_finisher, crews.rt), the control thread that opens its lane (Lane::open), and TOUCHERS threads
 * that queue bytes for it, or bytes and a NOOP, TOUCHES times each, from before the lane is opened. Each touch makes an attempt or is left
 * to the finisher (ServerState::touch, state.rt). The lane is idle at first, or left, as the last connection leaves it. With FEW the
 * finisher is an I/O thread's part that never waits (ServerState::visit, serving.rt), and the socket may report that it takes bytes.
 * Delivery: in every quiescent state nothing waits, no NOOP is owed and nothing is left, unless the peer is deaf. No deadlock.
 * Order: in the order of the queue, each once.
 * ENDLESS: the threads go on for ever; put is a mark, no count; writes to a peer that reads are blocked BLOCKS times between two messages at
 * most. Then each infinite run has infinitely many deliveries. */
#ifndef TOUCHERS
#define TOUCHERS 2
#endif
#ifndef TOUCHES
#define TOUCHES 2
#endif
#ifndef BLOCKS
#define BLOCKS 0
#endif
#ifndef DEAF
#define DEAF 0
#endif
#define PARKED(s)   parked = 1
#define UNPARKED(s) parked = 0
#ifdef ENDLESS
#define ON_SENT(s) blocks[s] = BLOCKS; flip = 1 - flip
#endif
bit  flip = 0;
bit  parked = 0;

#ifndef ENDLESS
#define PLACES
#endif
#include "lane.h"

byte n_done = 0;

proctype Toucher() {
    LOCALS;
    byte n = 0;
#ifdef M_SWAP_LATER
    bool owes = false;
#endif
    do
#ifdef ENDLESS
    :: atomic { (book == 0 && put[0] == 0) -> put[0] = 1 };
#else
    :: n < TOUCHES ->
        n++;
#ifndef M_TOUCH_FIRST
        /* Desk::apply_with (shared.rt): one critical section */
        atomic { (book == 0) ->
            put[0]++;
            if
#ifdef M_SWAP_LATER
            :: core_phase[0] == ASLEEP -> core_phase[0] = OWED; wakes[0]++; seat_phase[0] = OWED; owes = true
#else
            :: core_phase[0] == ASLEEP -> core_phase[0] = OWED; wakes[0]++; seat_phase[0] = OWED; OWE(0)
#endif
            :: true
            fi };
#endif
#endif
        if
        :: touch_word(0)
        :: touch_for_finisher(0)                   /* the time is over */
        fi;
        if
        :: has -> deliver_claimed(0)
        :: else
        fi;
        fin = NOTHING
#ifdef M_TOUCH_FIRST
        ; atomic { (book == 0) -> put[0]++ }
#endif
#ifdef M_SWAP_LATER
        ; if
        :: owes -> OWE(0); owes = false
        :: else
        fi
#endif
#ifndef ENDLESS
    :: else -> break
#endif
    od;
    n_done++
}

proctype Finisher() {
    LOCALS;
    do
    :: true ->
        PARKED(0);
end:    atomic {
            if
            :: IS_CALLED(0) ->
#ifdef M_PARK_LOSES_TOKEN
                has_taken = true
#else
                token[0] = false; again[0] = false
#endif
#ifdef FEW
            :: lw[0] == LANE_LEFT && !token[0] && MATTERS(0) -> has_ended = true   /* the socket takes bytes again */
#endif
            fi;
            UNPARKED(0) };
#ifdef FEW
        if
        :: has_ended -> has_ended = false; deliver_left(0)
        :: else -> deliver_as(0, FINISHER)
        fi;
#else
        deliver_as(0, FINISHER);
#endif
        if
        :: has -> deliver_claimed(0)
        :: else
        fi;
#ifdef M_PARK_LOSES_TOKEN
        atomic { has_taken = false; token[0] = false };
#endif
        atomic { come_again(0); fin = NOTHING }
    od
}

init {
    LOCALS;
    byte i = 0;
    atomic {
        is_open[0] = true; gen[0] = 1; blocks[0] = BLOCKS;
        if
        :: lw[0] = LANE_IDLE
        :: lw[0] = LANE_LEFT
        fi;
        if
        :: token[0] = false
        :: token[0] = true
        fi;
        core_phase[0] = ASLEEP; seat_phase[0] = ASLEEP; word[0] = ASLEEP;
        if
        :: DEAF == 0
        :: DEAF > 0 -> deaf[0] = true; room[0] = DEAF - 1
        fi;
        run Finisher();
        do
        :: i < TOUCHERS -> run Toucher(); i++
        :: else -> break
        od;
        i = 0
    };
    open_lane(0);
    if
    :: has -> deliver_claimed(0)
    :: else
    fi;
    fin = NOTHING
}

#ifndef NO_MONITOR
active proctype Monitor() {
end: timeout ->
    assert(book == 0);
    assert(n_done == TOUCHERS);
    assert(owners[0] <= 1);
    if
    :: deaf[0] && has_left[0] ->                   /* what is left for a deaf peer is the finisher's */
        assert(lw[0] == LANE_LEFT && again[0])
    :: else ->
        assert(lock[0] == 0);
        assert(lw[0] == LANE_IDLE);
        assert(parked == 1);
        assert(drained[0] == put[0]);
        assert(word[0] != OWED);
        assert(!has_left[0]);
        assert(received[0] == put[0]);
        assert(noops[0] == takes[0] && takes[0] == wakes[0])
    fi
}
#endif

#ifdef ENDLESS
ltl delivers { ([]<>(flip == 0)) && ([]<>(flip == 1)) }
#endif
