/* THREADS threads that read from workers, which each grab GRABS times, the control thread, and a clock that goes on SECONDS times. Each of
 * them hands in the time before a grab, and the control thread before each connection that it takes (Host::update and tick,
 * host.rt; Applier::apply_unit and prepare, applier.rt; Control::take_all and admit, accepting.rt). With LONG a thread may hold the locks
 * of turns over its unit. Others are notified of a tick as the turn ends, with these locks released. What a tick queues is a count, and a slot's touch notes it (deliver.pml has what comes of a touch).
 * Ticks: each second is handed in once, in order; a grab comes only once the second that its thread read was; the last
 * second is; each slot that a tick touched is touched. No deadlock. */
#ifndef THREADS
#define THREADS 2
#endif
#ifndef GRABS
#define GRABS 2
#endif
#ifndef SECONDS
#define SECONDS 3
#endif
#ifndef OPENS
#define OPENS 1
#endif
#define LOCK(m)   atomic { (m == 0) -> m = 1 }
#define UNLOCK(m) m = 0

bit  book = 0;
bit  control = 0;        /* Host::desk */
bit  turn_lock = 0;
bit  long_turn_lock = 0;
byte second = 0;         /* Host::second */
byte book_second = 0;    /* the core's */
byte clock = 0;
byte queued = 0;         /* by ticks, for a slot that listens */
byte touched = 0;        /* what its last touch came behind */
byte opens = 0;

/* Host::update and tick (host.rt): is_first if this thread handed the second in. */
inline update_time() {
    now = clock;
    if
    :: second < now ->
        LOCK(control);
        if
#ifdef M_SECOND_NOT_READ_AGAIN
        :: true ->
#else
        :: now <= second -> is_first = false
        :: else ->
#endif
            is_first = true;
#ifdef M_SECOND_BEFORE_THE_TICK
            second = now;
#endif
            /* OwnDesk::apply (own_desk.rt): one critical section */
            atomic { (book == 0) ->
                assert(now > book_second);         /* each second once, in order */
                book_second = now;
                queued++ };
#ifndef M_SECOND_BEFORE_THE_TICK
#ifndef M_SECOND_NEVER_STORED
            second = now
#else
            skip
#endif
#endif
        fi;
        UNLOCK(control)
    :: else
    fi
}

/* ServerState::notify (state.rt) */
inline notify() {
#ifdef M_TICK_NOTIFIES_NOBODY
    is_first = false;
#endif
    if
    :: is_first -> touched = queued; is_first = false
    :: else
    fi
}

proctype Thread() {
    byte now = 0; bool is_first = false; byte n = 0; bool alone = false; bool long_lock = false;
    do
    :: n < GRABS ->
        n++;
#ifdef LONG
        if
        :: true
        :: LOCK(turn_lock); alone = true
        :: LOCK(long_turn_lock); long_lock = true; LOCK(turn_lock); alone = true
        fi;
#endif
#ifdef M_TIME_AFTER_THE_GRAB
        now = clock;
#else
        update_time();
#endif
        atomic { (book == 0) -> assert(book_second >= now) };   /* the grab */
        if
        :: alone -> UNLOCK(turn_lock); alone = false
        :: else
        fi;
        if
        :: long_lock -> UNLOCK(long_turn_lock); long_lock = false
        :: else
        fi;
        notify()
    :: else -> break
    od
}

active proctype Control() {
    byte now = 0; bool is_first = false;
    do
    :: clock < SECONDS -> clock++                  /* the clock goes on */
    :: second < clock -> update_time(); notify()   /* ServerState::update_time (state.rt) */
    :: opens < OPENS ->
        opens++;
        update_time();
        notify();
        LOCK(control);                             /* ServerState::open (state.rt) */
        atomic { (book == 0) -> skip };
        UNLOCK(control)
    :: clock == SECONDS && second == clock && opens == OPENS -> break
    od
}

init {
    byte i = 0;
    atomic {
        do
        :: i < THREADS -> run Thread(); i++
        :: else -> break
        od }
}

active proctype Monitor() {
    timeout ->
    assert(book_second == SECONDS && second == SECONDS);
    assert(touched == queued);
    assert(book == 0 && control == 0 && turn_lock == 0 && long_turn_lock == 0)
}
