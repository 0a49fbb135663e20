/* What endings.pml and shutdown.pml share: how a connection is read, ended and closed (serving.rt), by a slot's reader and finisher (Pairs
 * of crews.rt), or with -DFEW by the one I/O thread (Few). Which events the I/O thread's sockets report polling.pml has; here they
 * come whenever there is something to read.
 *
 * A process has one place where it delivers (at_lane), as each copy of it takes gcc time: what it does there says `has`, `who` and
 * `todo`, the slots that it is still to touch. */

/* Talk (talk.rt): none, or its session goes on, is over, or nothing is read any more */
#define NO_TALK    0
#define READING    1
#define IS_OVER    2
#define TALK_ENDED 3

bit  talk[N];            /* the Mutex<Talk>, */
byte talking[N];         /*   and what it guards */
bool waiting[N];         /* its reader waits at `arrived` */
byte units[N];           /* how many units the connection still sends */
bool stays[N];           /* the peer never closes */
byte connections = 0;
byte wants = WANTS;      /* how many closings find no memory */
byte mode = RUNNING;     /* of the core, under the book's lock */
bool no_memory = false;  /* ghost: a closing found none */
bool may_end[N];         /* ghost: nothing is read from this connection any more */
byte at_end[N];          /* ghost: what was queued for it when its session was over */

#define SERVES \
    LOCALS; byte cur = 0; byte own = me; byte todo = 0; byte to = SERVING; byte receipt_mode = RUNNING; \
    bool holds = false; bool closing = false; bool stops = false; byte rises = SERVING; bool fails_later = false

/* Crews::wake_all (crews.rt) */
inline wake_all() {
    token[0] = true
#if N > 1
    ; token[1] = true
#endif
}

/* Stage::rise of the server's */
#define RISE(to) server_stage = (server_stage > to -> server_stage : to)

/* ServerState::follow (state.rt) */
inline follow() {
#ifdef M_GRACEFUL_FORGETS
    receipt_mode = (receipt_mode == GRACEFUL -> RUNNING : receipt_mode);
#endif
    atomic {
        stops = (receipt_mode == STOPPED && server_stage < STOPPED);
        RISE(receipt_mode); receipt_mode = RUNNING };
    if
    :: stops -> stops = false; wake_all()
    :: else
    fi
}

/* The book's part of a closing: a NOOP that is owed is withdrawn, what waits goes with the connection. */
inline book_close(s) {
    is_open[s] = false; shut[s] = false; put[s] = 0; drained[s] = 0;
    core_phase[s] = AWAKE; seat_phase[s] = AWAKE; word[s] = AWAKE
}

/* What a process does at a lane: it delivers where it has it; closes the slot once the connection was let go of
 * (ServerState::finish and close, serving.rt); follows the mode of a receipt and touches what it touched (notify,
 * state.rt), where the time is over at will; and ends the connection, once its session is over. */
inline at_lane() {
    do
    :: has -> deliver_claimed(cur)
    :: !has && fin == GONE ->
        if
        :: !holds -> LOCK(talk[cur])
        :: else
        fi;
        atomic { (book == 0) ->                    /* Talk::close (talk.rt), and OwnDesk::apply (own_desk.rt) */
            /* so that ServerState::finish closes whatever was let go of; or nobody was to serve it (Control::refuse) */
            assert(talking[cur] == TALK_ENDED || talking[cur] == NO_TALK);
            closing = true; fin = NOTHING;
            if
            :: wants > 0 -> wants--; no_memory = true;
#ifdef M_COUNT_BEFORE_FAILED
                fails_later = true
#else
#ifndef M_MEMORY_IS_FORGOTTEN
                RISE(FAILED)
#endif
#endif
            :: true ->
#ifndef M_CLOSE_FIRST
                assert(is_open[cur]);
                book_close(cur);
#endif
                talking[cur] = NO_TALK; todo = 1 << cur; receipt_mode = mode
            fi }
    :: !has && fin != GONE && receipt_mode != RUNNING -> follow()
    :: !has && fin != GONE && receipt_mode == RUNNING && todo != 0 ->
        atomic {
            cur = (todo & (1 << own) -> own : (todo & 1 -> 0 : 1)); todo = todo & ~(1 << cur);
            touch_word(cur) }
#ifdef ROUNDS
    :: !has && fin != GONE && receipt_mode == RUNNING && todo != 0 ->
        atomic { cur = (todo & (1 << own) -> own : (todo & 1 -> 0 : 1)); todo = todo & ~(1 << cur) };
        touch_for_finisher(cur)
#endif
    :: !has && fin != GONE && receipt_mode == RUNNING && todo == 0 && to != SERVING ->
        cur = own;
#ifdef M_CLOSE_FIRST
        if
        :: to == ENDED -> atomic { (book == 0) -> book_close(cur) }
        :: else
        fi;
#endif
        end_lane(cur, to);
        to = SERVING
#ifdef M_RISE_AFTER_ATTEMPT
    :: !has && fin != GONE && receipt_mode == RUNNING && todo == 0 && to == SERVING && rises != SERVING ->
        stage[own] = rises; rises = SERVING
#endif
    :: else -> break
    od;
    if
    :: closing ->
        atomic { connections--; closing = false; fin = NOTHING };    /* ServerState::close */
#ifdef M_COUNT_BEFORE_FAILED
        if
        :: fails_later -> fails_later = false; RISE(FAILED)
        :: else
        fi;
#endif
        if
        :: !holds -> UNLOCK(talk[own])
        :: else
        fi
    :: else
    fi;
    cur = 0
}

/* A turn of a connection that is read, with its talk's lock (ServerState::turn, read and end, serving.rt), up to what it does at the lane.
 * `waits`: the read waits until there is something; else it may find nothing. */
#ifdef ENDLESS
#define QUEUE(s) put[s] = 1
#else
#define QUEUE(s) put[s]++
#endif
inline turn(s, waits) {
    fin = NOTHING;
    if
    :: atomic { talking[s] == READING && server_stage >= STOPPED -> to = ENDING; at_end[s] = (shut[s] -> at_end[s] : put[s]) }
    :: atomic { talking[s] == READING && server_stage < STOPPED } ->
        if
        :: atomic { (units[s] > 0 && !down[s] && book == 0) ->
            units[s]--;
            if
            :: shut[s] -> to = ENDING
            :: else -> ANY_UNIT(s)
            fi }
        :: atomic { (MAY_FAIL(s) && !down[s] && book == 0) ->
            if                                     /* a fault: its text, and the slot is shut; or out of memory */
            :: !shut[s] -> QUEUE(s); shut[s] = true; todo = 1 << s; receipt_mode = mode
            :: true
            fi;
            to = ENDING; at_end[s] = put[s] }
        :: atomic { !stays[s] || down[s] -> to = ENDED; at_end[s] = (shut[s] -> at_end[s] : put[s]) }
        :: atomic { !(waits) -> skip }
        fi
    :: atomic { talking[s] == IS_OVER && (down[s] || !stays[s]) -> to = ENDED }   /* discard */
    :: atomic { talking[s] == IS_OVER && !(waits) -> skip }
    fi;
    if
    :: to != SERVING ->
        atomic {
            talking[s] = (to == ENDED -> TALK_ENDED : IS_OVER);
            may_end[s] = (to == ENDED -> true : may_end[s]) }
    :: else
    fi
}
/* Whether there is something to read, or its peer may send something. A call of its thread may come before that. Where others call it for
 * ever (ENDLESS), it comes in the end; and the control thread gets the talk's lock, which has no order. */
#ifdef ENDLESS
#define ALWAYS_READS true
#define HAS_BEGUN(s) (talking[s] != NO_TALK || server_stage == SERVER_ENDED)
#else
#define ALWAYS_READS false
#define HAS_BEGUN(s) true
#endif
#define IS_READABLE(s) ((talking[s] == READING && (units[s] > 0 || MAY_FAIL(s) || !stays[s] || down[s])) \
    || (talking[s] == IS_OVER && (down[s] || !stays[s])))

/* run_reader (crews.rt) */
inline run_reader(s) {
    holds = true;
    LOCK(talk[s]);
    do
    :: talking[s] == READING || talking[s] == IS_OVER -> turn(s, true); at_lane()
    :: !(talking[s] == READING || talking[s] == IS_OVER) ->
        if
        :: server_stage == SERVER_ENDED -> break
        :: server_stage != SERVER_ENDED ->
            atomic { waiting[s] = true; UNLOCK(talk[s]) };     /* Condvar::wait */
            atomic { (!waiting[s] && talk[s] == 0) -> talk[s] = 1 }
        fi
    od;
    UNLOCK(talk[s])
}

/* run_finisher (crews.rt) */
inline run_finisher(s) {
    do
    :: atomic { IS_CALLED(s) -> token[s] = false; again[s] = false };
        if
        :: server_stage == SERVER_ENDED -> break
        :: else
        fi;
        cur = s;
        deliver_as(s, FINISHER);
        at_lane();
        come_again(s)
    od
}

/* run_few, serve_round (crews.rt) and ServerState::visit (serving.rt), of one thread for all slots; `own` is the slot that it serves: first
 * its lane, then a turn. */
inline run_few() {
    do
    :: true ->
        if
        :: is_turn ->
            LOCK(talk[own]);
            holds = true;
            if
            :: talking[own] == READING || talking[own] == IS_OVER -> turn(own, IS_READABLE(own) && (ALWAYS_READS || !is_called))
            :: else -> fin = NOTHING
            fi
        :: !is_turn ->
            if
            :: atomic { IS_CALLED(0) && HAS_BEGUN(0) -> token[0] = false; again[0] = false; own = 0; is_called = true }
            :: atomic { IS_READABLE(0) && !token[0] -> own = 0; is_called = false }
#if N > 1
            :: atomic { IS_CALLED(1) && HAS_BEGUN(1) -> token[1] = false; again[1] = false; own = 1; is_called = true }
            :: atomic { IS_READABLE(1) && !token[1] -> own = 1; is_called = false }
#endif
            fi;
            if
            :: server_stage == SERVER_ENDED -> break
            :: else
            fi;
            cur = own;
            if
            :: is_called -> deliver_as(own, FINISHER)
            :: else -> deliver_left(own)
            fi
        fi;
        at_lane();
        if
        :: is_turn -> atomic { holds = false; is_turn = false; UNLOCK(talk[own]) }
        :: !is_turn -> atomic { come_again(own); is_turn = true }
        fi
    od
}

/* dismiss (crews.rt) */
inline dismiss() {
#ifdef M_DISMISS_WAKES_FIRST
    wake_all();
    RISE(SERVER_ENDED);
#else
    RISE(SERVER_ENDED);
    wake_all();
#endif
#ifndef FEW
#ifndef M_DISMISS_WITHOUT_LOCK
    LOCK(talk[0]);
#endif
    waiting[0] = false;
#ifndef M_DISMISS_WITHOUT_LOCK
    UNLOCK(talk[0]);
#endif
#if N > 1
    LOCK(talk[1]); waiting[1] = false; UNLOCK(talk[1])
#endif
#endif
}
