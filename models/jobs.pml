/* A worker (slot 0) that sleeps between jobs, and a client (slot 1) that submits JOBS foreground jobs; each with its reader
 * and its finisher, or with FEW with one I/O thread (Applier::step and unload, applier.rt; ServerState::read and notify; Booked::hold, resolve_noop and
 * follow, book.rt; sync_word, words.rt; lane.rt). A turn ends after a unit of its choice, or with the last
 * one. Then others are notified.
 * The worker's peer is that of libgearman: GRAB_JOB until NO_JOB, then PRE_SLEEP, then nothing until a NOOP; IMPATIENT times
 * it may also ask by itself, and DROWSY times it answers a NOOP by another PRE_SLEEP. It goes by the order of its stream; a NOOP that
 * comes while it is awake is passed over. With SECONDS the clock goes on so often, the control thread and the worker's reader hand in
 * the time (Host::update and tick, host.rt), and a tick may end a running job.
 * NOOPs: in every quiescent state each job was done and its end sent, the worker sleeps, and nothing waits or is left; each NOOP owed
 * is sent once or withdrawn once. No deadlock, with the locks of turns, the control desk and the book. Order.
 * Ticks: each second is handed in once, in order, and a job is handed out only once the second that its worker's thread read was. */
#define N 2
#ifndef JOBS
#define JOBS 2
#endif
#ifndef DROWSY
#define DROWSY 0
#endif
#ifndef IMPATIENT
#define IMPATIENT 0
#endif
#ifndef BLOCKS0
#define BLOCKS0 0         /* blocked writes to the worker, */
#endif
#ifndef BLOCKS1
#define BLOCKS1 0         /*   and to the client */
#endif
byte parked = 0;         /* finishers that wait to be woken */

#define NOTE_NOOP(s) if :: s == 0 -> noop_at[noops[0]] = received[0] :: else fi
#include "lane.h"

#ifndef SECONDS
#define SECONDS 0
#endif
#define GRAB      1
#define PRE_SLEEP 2
#define COMPLETE  3
#define SUBMIT    4

#define NO_JOB     0
#define JOB_ASSIGN 1
#define ERROR      2

bit  turn_lock = 0;
bit  long_turn_lock = 0;
/* The control desk's lock, the second that is kept beside it, the book's, and the clock */
bit  control = 0;
byte second = 0;
byte book_second = 0;
byte clock = 0;
byte given_up = 0;       /* jobs that a tick ended while they ran */
byte waiting = 0;
byte running = 0;
byte message[16];        /* what the messages to the worker are */
byte noop_at[8];
byte submitted = 0;
bool asleep_peer = false;

#ifdef M_NO_LOOK
#define LOOK(found, s) found = OWED
#else
#define LOOK(found, s) found = word[s]
#endif

/* sync_word (words.rt) */
inline sync_word(s) {
    if
    :: seat_phase[s] == AWAKE && core_phase[s] == ASLEEP -> word[s] = ASLEEP; seat_phase[s] = ASLEEP
    :: seat_phase[s] == AWAKE && core_phase[s] == OWED ->
        word[s] = ASLEEP; seat_phase[s] = ASLEEP;
        OWE(s); seat_phase[s] = OWED; wakes[s]++
    :: seat_phase[s] == ASLEEP && core_phase[s] == OWED -> OWE(s); seat_phase[s] = OWED; wakes[s]++
    :: seat_phase[s] == ASLEEP && core_phase[s] == AWAKE -> word[s] = AWAKE; seat_phase[s] = AWAKE
    :: else
    fi
}

byte touched_by_core = 0;

/* Booked::resolve_noop (book.rt), for an event of slot s, once `found` has what the look found */
inline resolve_noop(s, takes_back) {
    if
    :: seat_phase[s] == OWED && (found != OWED || takes_back) ->
        if
        :: found == OWED && word[s] == OWED -> word[s] = AWAKE; withdrawals[s]++
#ifdef M_WITHDRAW_BLINDLY
        :: found == OWED && word[s] != OWED -> withdrawals[s]++
#endif
        :: else
        fi;
        seat_phase[s] = AWAKE; core_phase[s] = AWAKE; touched_by_core = touched_by_core | (1 << s)
    :: else
    fi
}

/* The core takes the unit (gm_core), as far as delivery goes. COMPLETE is each report that ends a job, with --as-gearmand an exception too */
inline core_apply(s, unit) {
        if
        :: unit == GRAB ->
            assert(book_second >= read_second);    /* ticks: handed in before the grab */
            message[put[0]] = (waiting > 0 -> JOB_ASSIGN : NO_JOB);
            if
            :: waiting > 0 -> waiting--; running++
            :: else
            fi;
            put[0]++;
            touched_by_core = touched_by_core | 1;
            if
            :: core_phase[0] == ASLEEP -> core_phase[0] = AWAKE
            :: else
            fi
        :: unit == PRE_SLEEP ->
            if
            :: core_phase[0] == AWAKE ->
#ifdef M_SLEEP_BESIDE_WORK
                core_phase[0] = ASLEEP;
#else
                core_phase[0] = (waiting > 0 -> OWED : ASLEEP);
#endif
                touched_by_core = touched_by_core | 1
            :: else
            fi
        :: unit == COMPLETE ->
            if
            :: running > 0 -> running--; put[1]++; touched_by_core = touched_by_core | 2
            :: else -> message[put[0]] = ERROR; put[0]++; touched_by_core = touched_by_core | 1
            fi
        :: unit == SUBMIT ->
            waiting++; submitted++; put[1]++;
            touched_by_core = touched_by_core | 2;
            if
            :: core_phase[0] == ASLEEP -> core_phase[0] = OWED; touched_by_core = touched_by_core | 1
            :: else
            fi
        fi
}

/* Booked::hold and follow (book.rt) */
inline hold(s, unit) {
    resolve_noop(s, (unit == GRAB));
    core_apply(s, unit);
    if
    :: touched_by_core & 1 -> sync_word(0)
    :: else
    fi;
    if
    :: touched_by_core & 2 -> sync_word(1)
    :: else
    fi;
#ifdef M_ONLY_LAST_UNIT
    touched = touched_by_core;
#else
#ifdef M_ONLY_OWN_SLOT
    touched = touched | (touched_by_core & (1 << s));
#else
    touched = touched | touched_by_core;
#endif
#endif
    touched_by_core = 0;
    found = 0
}

/* Applier::apply_unit and apply (applier.rt): one critical section, which adds what it touched to the effects. With --as-gearmand
 * apply_unit first says the unit otherwise (apply_meant), which meets no other thread: a grab of type 39 is a GRAB here, and so is handed
 * in after the second that its thread read. A look that may be followed by a withdrawal is a transition of its own. No pen can tell the
 * other steps at words apart: AWAKE and ASLEEP are the same to it. */
inline apply(s, unit) {
    if
    :: atomic { (book == 0 && seat_phase[s] == OWED && unit == GRAB) -> book = 1; LOOK(found, s) };
        atomic { hold(s, unit); UNLOCK(book) }
    :: atomic { (book == 0 && !(seat_phase[s] == OWED && unit == GRAB)) -> LOOK(found, s); hold(s, unit) }
    fi
}

/* What is to be done at lanes: the slots of `todo` are touched (ServerState::notify and touch, state.rt), one's own first. The
 * others may be left to their finishers for the time, from the second slot on. */
inline at_lane() {
    do
    :: has -> deliver_claimed(cur)
    :: !has && todo != 0 ->
        atomic { cur = (todo & (1 << own) -> own : (todo & 1 -> 0 : 1)); todo = todo & ~(1 << cur); touch_word(cur); is_later = true }
#ifdef ROUNDS
    :: !has && todo != 0 && is_later ->
        atomic { cur = (todo & 1 -> 0 : 1); todo = 0 };
        touch_for_finisher(cur)
#endif
    :: else -> break
    od;
    is_later = false
}

/* Batch::admit (batch.rt): each unit after the free ones waits for the lock of turns, in a long turn
 * behind that of long ones. */
inline admit() {
#ifdef LONG
    if
    :: alone
    :: !alone
    :: !alone -> LOCK(turn_lock); alone = true
    :: !alone -> LOCK(long_turn_lock); queued = true; LOCK(turn_lock); alone = true
    fi
#else
    skip
#endif
}

/* Host::update and tick (host.rt). A tick may end a job that runs: its client is sent WORK_FAIL. What a tick touched is added to
 * the effects. */
inline update_time() {
    read_second = clock;
#if SECONDS > 0
#ifndef M_TIME_AFTER_THE_GRAB
    if
    :: second < read_second ->
        LOCK(control);
        if
#ifdef M_SECOND_NOT_READ_AGAIN
        :: true ->
#else
        :: read_second <= second
        :: else ->
#endif
#ifdef M_SECOND_BEFORE_THE_TICK
            second = read_second;
#endif
            atomic { (book == 0) ->
                assert(read_second > book_second);     /* ticks: each second once, in order */
                book_second = read_second;
                if
                :: running > 0 -> running--; given_up++; put[1]++; touched = touched | 2
                :: true
                fi };
#ifndef M_SECOND_BEFORE_THE_TICK
            second = read_second
#endif
        fi;
        UNLOCK(control)
    :: else
    fi
#endif
#endif
}

/* Applier::unload (applier.rt) and ServerState::read (serving.rt), as a turn ends: the locks are released, and others notified. */
inline end_turn() {
    if
    :: alone -> UNLOCK(turn_lock); alone = false
    :: else
    fi;
    if
    :: queued -> UNLOCK(long_turn_lock); queued = false
    :: else
    fi;
    todo = touched; touched = 0
}

/* The next item of the worker's stream is a NOOP, or a message. */
#define NOOP_NEXT    (noops_read < noops[0] && noop_at[noops_read] <= read)
#define MESSAGE_NEXT (!NOOP_NEXT && read < received[0])

/* What a reader does next: it waits for what its peer sends, lets a unit in, or hands it in. */
#define NEXT  0
#define ADMIT 1
#define APPLY 2

#define READS(slot) \
    LOCALS; byte own = slot; byte cur = 0; byte todo = 0; byte touched = 0; byte unit = 0; byte read_second = 0; byte step = 0; \
    bool alone = false; bool queued = false; bool is_later = false

/* With FEW a slot's thread is its finisher too, between its turns. */
#ifdef FEW
#define FINISHES(s) \
        :: atomic { step == NEXT && IS_CALLED(s) -> token[s] = false; again[s] = false }; \
            cur = s; deliver_as(s, FINISHER)
#else
#define FINISHES(s)
#endif

/* Applier::step (applier.rt) of the worker, with its peer */
proctype WorkerReader() {
    READS(0);
    byte read = 0; byte noops_read = 0; byte tries = 0; byte dozes = 0; byte job = 0;
    unit = GRAB; step = ADMIT;
    do
    :: true ->
end_next: if
        FINISHES(0)
        :: step == ADMIT ->
            admit(); step = APPLY;
            if
            :: unit == GRAB -> update_time()
            :: else
            fi
        :: step == APPLY ->
            apply(0, unit);
            if
            :: unit == COMPLETE -> unit = GRAB; step = ADMIT   /* in this turn, or the next */
            :: unit == COMPLETE -> unit = GRAB; step = ADMIT; end_turn()
            :: else -> step = NEXT; end_turn()
            fi
        :: atomic { step == NEXT && unit == GRAB && NOOP_NEXT -> noops_read++ }
        :: atomic { step == NEXT && unit == GRAB && MESSAGE_NEXT ->
                job = message[read]; read++;
                if
                :: job == JOB_ASSIGN -> unit = COMPLETE; step = ADMIT
                :: job == ERROR                    /* its job was given up by then */
                :: job == NO_JOB -> unit = PRE_SLEEP; step = ADMIT
                fi }
        :: atomic { step == NEXT && unit == PRE_SLEEP && NOOP_NEXT -> noops_read++; step = ADMIT;
                if
                :: unit = GRAB
                :: dozes < DROWSY -> dozes++
                fi }
        :: atomic { step == NEXT && unit == PRE_SLEEP && tries < IMPATIENT -> tries++; unit = GRAB; step = ADMIT }
        fi;
        asleep_peer = (step == NEXT && unit == PRE_SLEEP);
        at_lane();
        atomic { come_again(0); fin = NOTHING }
    od
}

/* Applier::step (applier.rt) of the client */
proctype ClientReader() {
    READS(1);
    byte n = 0;
    unit = SUBMIT;
    do
    :: true ->
end_next: if
        FINISHES(1)
        :: step == NEXT && n < JOBS -> n++; step = ADMIT
        :: step == ADMIT -> admit(); step = APPLY
        :: step == APPLY ->
            apply(1, SUBMIT); step = NEXT;
            if
            :: n < JOBS -> n++; step = ADMIT
            :: end_turn()
            fi
        fi;
        at_lane();
        atomic { come_again(1); fin = NOTHING }
    od
}

#if SECONDS > 0
/* Control::take_all (accepting.rt): it hands in the time. The clock goes on. */
proctype Control() {
    READS(0);
    do
    :: true ->
end_control: if
        :: clock < SECONDS -> clock++
        :: second < clock -> update_time(); todo = touched; touched = 0   /* ServerState::update_time (state.rt) */
        fi;
        at_lane();
        fin = NOTHING
    od
}
#endif

/* run_finisher (crews.rt) */
proctype Finisher(byte me) {
    LOCALS;
    do
    :: true ->
        parked++;
end_finisher: atomic { IS_CALLED(me) -> token[me] = false; again[me] = false; parked-- };
        deliver_as(me, FINISHER);
        if
        :: has -> deliver_claimed(me)
        :: else
        fi;
        atomic { come_again(me); fin = NOTHING }
    od
}

init {
    atomic {
        byte i = 0;
        do
        :: i < N ->
            is_open[i] = true; gen[i] = 1; line[i] = OPEN; line_gen[i] = 1;
            blocks[i] = (i == 0 -> BLOCKS0 : BLOCKS1);
            i++
        :: else -> break
        od;
        run WorkerReader(); run ClientReader();
#ifndef FEW
        run Finisher(0); run Finisher(1);
#endif
#if SECONDS > 0
        run Control()
#endif
    }
}

#ifndef NO_MONITOR
active proctype Monitor() {
end: timeout ->
    assert(book == 0 && turn_lock == 0 && long_turn_lock == 0 && control == 0);
    assert(book_second == SECONDS);
    assert(lock[0] == 0 && lock[1] == 0 && lw[0] == LANE_IDLE && lw[1] == LANE_IDLE);
#ifndef FEW
    assert(parked == 2);
#endif
    assert(submitted == JOBS);
    assert(drained[0] == put[0] && drained[1] == put[1]);
    assert(!has_left[0] && !has_left[1]);
    assert(word[0] != OWED);
    assert(received[0] == put[0] && received[1] == put[1]);
    assert(wakes[0] == takes[0] + withdrawals[0]);
    assert(noops[0] == takes[0]);
    assert(waiting == 0 && running == 0);
    assert(asleep_peer);
    assert(received[1] == 2 * JOBS)
}
#endif
