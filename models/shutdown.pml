/* The end of the server: the control thread takes CALLS connections in N slots (Control::take_all, open, begin and run, accepting.rt;
 * prepare, crews.rt), each slot with a reader and a finisher that stay, or with FEW one I/O thread for all; some peers never close, some
 * never read, one may ask for `shutdown` or `shutdown graceful` at any point; threads can't be made or sockets registered, a closing
 * finds no memory (with a tape), the listener fails.
 * The program ends: once the book was stopped, memory ran out or the listener failed, whatever peers do; after a graceful shutdown
 * once the peers are gone; otherwise it goes on. In quiescent states of a server that goes on nothing waits for a connection that
 * lives. No deadlock. Order and stale stages as in endings.pml. */
#ifndef N
#define N 1
#endif
#ifndef CALLS
#define CALLS 2
#endif
#ifndef FAILS
#define FAILS 0
#endif
#ifndef WANTS
#define WANTS 0          /* how many closings find no memory */
#endif
#ifndef LISTEN
#define LISTEN 0         /* how often the listener fails */
#endif
#ifndef ADMIN
#define ADMIN 1          /* what an administrator says: 1 shutdown, 2 shutdown graceful, 0 nothing */
#endif
#ifndef UNITS
#define UNITS 1
#endif
#ifndef DEAF
#define DEAF 1           /* 1: peers may be deaf; 2: also after a first message; 3: also slow */
#endif
#ifndef BLOCKS
#define BLOCKS 0
#endif
#define CHOOSE_PEER(s) \
    if \
    :: blocks[s] = BLOCKS \
    :: DEAF -> deaf[s] = true \
    :: DEAF > 1 -> deaf[s] = true; room[s] = 1 \
    :: DEAF > 2 -> slow[s] = true \
    fi; \
    if \
    :: stays[s] = true \
    :: stays[s] = false \
    fi
#define ON_RELEASE(s) assert(may_end[s])
#define MAY_FAIL(s) false
/* An echo, or what the administrator says (Tables::stop and go_gracefully, commanding.rt) */
#if N > 1
#define SHUT_OTHER(s) \
    ; if \
    :: is_open[1 - s] && !shut[1 - s] -> shut[1 - s] = true; todo = 3 \
    :: else \
    fi
#else
#define SHUT_OTHER(s)
#endif
#define ANY_UNIT(s) \
    QUEUE(s); todo = 1 << s; \
    if \
    :: true \
    :: admins > 0 && ADMIN == 2 -> admins = 0; mode = (mode == RUNNING -> GRACEFUL : mode) \
    :: admins > 0 && ADMIN == 1 -> admins = 0; mode = STOPPED; shut[s] = true SHUT_OTHER(s) \
    fi; \
    receipt_mode = mode
byte admins = (ADMIN > 0 -> 1 : 0);
#include "lane.h"
#include "serving.h"

bit  control = 0;
byte fails = FAILS;
byte listen = LISTEN;
byte calls = CALLS;
bool listen_failed = false;
byte threads = 0;        /* of the scope */
bool ended = false;
bool errored = false;    /* the control thread answered an error */

proctype Reader(byte me) {
    SERVES;
    run_reader(me);
    threads--
}

proctype Finisher(byte me) {
    SERVES;
    run_finisher(me);
    threads--
}

proctype Thread(byte me) {
    SERVES; bool is_turn = false; bool is_called = false;
    run_few();
    threads--
}

/* ServerState::stop (state.rt) */
inline stop() {
    RISE(STOPPED);
#ifndef M_STOP_WITHOUT_WAKE
    wake_all()
#endif
}

/* Progress::can_end (progress.rt) */
#ifdef M_OVER_WITHOUT_ENDING
#define CAN_END (server_stage >= FAILED || connections == 0)
#else
#define CAN_END (server_stage >= FAILED || (server_stage >= GRACEFUL && connections == 0))
#endif

/* Control::run, take_all, open and begin (accepting.rt), prepare (crews.rt) */
active proctype Control() {
    byte me = 0;
    SERVES;
    byte at = 0; byte made[N];
#ifdef FEW
    atomic { run Thread(0); threads++ };
#endif
    do
    :: true ->
        if
        :: atomic { at == 0 && CAN_END -> break }
        :: atomic { at == 0 && listen > 0 -> listen--; listen_failed = true; break }
        :: at == 0 && calls > 0 ->
            calls--;
            LOCK(control);
            atomic { (book == 0) ->                /* Event::Open: the least slot that isn't open, or a refusal */
                if
                :: mode == RUNNING && !is_open[0] -> own = 0; at = 1
#if N > 1
                :: mode == RUNNING && is_open[0] && !is_open[1] -> own = 1; at = 1
#endif
                :: else
                fi;
                if
                :: at == 1 ->
                    is_open[own] = true; gen[own]++; may_end[own] = false; units[own] = UNITS;
                    todo = 1 << own; receipt_mode = mode
                :: else -> UNLOCK(control)
                fi }
        :: at == 1 ->
            UNLOCK(control);
            connections++;
#ifndef FEW
            if
            :: made[own] == 0 ->
                if
                :: atomic { run Finisher(own) -> made[own] = 1; threads++ }
                :: fails > 0 -> at = 3
                fi
            :: else
            fi;
            if
            :: at == 1 && made[own] == 1 ->
                if
                :: atomic { run Reader(own) -> made[own] = 2; threads++ }
                :: fails > 0 -> at = 3
                fi
            :: else
            fi;
#endif
            if
            :: at == 3 -> fails--;
                atomic { (lock[own] == 0) -> assert(line[own] == NO_LINE) };   /* Lane::refuse (lane.rt): begun, and let go of at once */
                LOCK(talk[own]); holds = true; fin = GONE; cur = own   /* closed without being served */
            :: else -> cur = own; open_lane(cur); at = 2
            fi
        :: at == 2 ->
            LOCK(talk[own]);
            talking[own] = READING;                /* Talk::begin */
            if                                     /* Crews::begin */
#ifdef FEW
            :: fails > 0 -> atomic { fails--; talking[own] = TALK_ENDED; may_end[own] = true; to = ENDED; holds = true; at = 3 }   /* state.end */
#endif
            :: true -> waiting[own] = false; UNLOCK(talk[own]); at = 0
            fi
        :: at == 3 -> UNLOCK(talk[own]); holds = false; at = 0
        fi;
        at_lane()
    od;
    assert(mode != RUNNING || server_stage >= FAILED || listen_failed);
    if
#ifndef M_ERROR_WITHOUT_STOP
    :: server_stage >= FAILED || listen_failed ->
        errored = true;
        stop()
#endif
    :: else
    fi;
#ifndef M_NO_WAIT_FOR_ENDS
    (!errored || connections == 0);                /* wait_for_ends (accepting.rt) */
#endif
    dismiss();
    (threads == 0);                                /* the scope */
    ended = true;
    assert(connections == 0);
    assert(line[0] == NO_LINE && talk[0] == 0 && lock[0] == 0 && book == 0 && talking[0] != READING && talking[0] != IS_OVER);
    assert(!is_open[0] || errored);
    assert(!listen_failed && !no_memory || errored)   /* its status says so */
}

/* In a quiescent state a connection that lives has got all, and a slot whose connection ended was closed. */
#define QUIET(s) ((line[s] == NO_LINE || down[s] || deaf[s] || (drained[s] == put[s] && !has_left[s] && received[s] == put[s])) \
    && (!may_end[s] || !is_open[s] || server_stage >= FAILED))

#ifndef NO_MONITOR
active proctype Monitor() {
    timeout ->
    assert(book == 0);
    assert(!(mode == STOPPED || server_stage >= FAILED || listen_failed) || ended);
    assert(mode != GRACEFUL || ended || (connections > 0 && ((line[0] != NO_LINE && stays[0])
#if N > 1
        || (line[1] != NO_LINE && stays[1])
#endif
        )));
    assert(QUIET(0));
#if N > 1
    assert(QUIET(1))
#endif
}
#endif
