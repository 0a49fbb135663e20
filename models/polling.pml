/* How an I/O thread reads the connections of SLOTS slots (run_few and serve_round, crews.rt; Poller and Hub, gm_poll; ServerState::visit,
 * turn and read, serving.rt; Talk::take_left, Session::fill, Applier::step and unload, gm_session): by edges, which the system reports once, marks
 * that others make, what it put back, and the endings that it looks at again. Each slot has GENS connections one after another. A
 * connection's peer sends up to SENDS units at any time, and may then send no more or stay; a unit may be a fault, and the end of a
 * connection may have to wait for its peer. WAKES times others wake a slot's finisher.
 * A lane is only: its stage, how many attempts its end still takes, and that one was asked for. A read takes up to ROOM units into the
 * feeder, and a turn MOST_UNITS, or fewer: its time is over at will.
 * Reading: in every quiescent state each unit that came was taken, each attempt that was asked for was made, and each connection whose peer is
 * gone, or whose session is over, was closed. All that a peer sent before its end is taken. No deadlock.
 * PAIRS: the reader of one slot, which waits in its read (run_reader, crews.rt). FLOOD: the peer of slot 0 sends for ever, and nevertheless
 * what the other one sends is taken. */
#ifndef SLOTS
#define SLOTS 1
#endif
#ifndef GENS
#define GENS 2
#endif
#ifndef SENDS
#define SENDS 3
#endif
#ifndef WAKES
#define WAKES 1
#endif
#ifndef FAULTS
#define FAULTS 1
#endif
#ifndef ROOM
#define ROOM 2
#endif
#ifndef MOST_UNITS
#define MOST_UNITS 3
#endif
#define LOCK(m)   atomic { (m == 0) -> m = 1 }
#define UNLOCK(m) m = 0

/* Talk (talk.rt) */
#define NO_TALK    0
#define READING    1
#define IS_OVER    2
#define TALK_ENDED 3

/* What is asked of a connection (lane.rt) */
#define SERVING 0
#define ENDING  1
#define ENDED   2

/* Left (heard.rt), or ENDS: nothing is read any more */
#define NOTHING 0
#define LITTLE  1
#define MORE    2
#define ENDS    3

/* -- the sockets, and what the system has to report */
byte in[SLOTS];          /* units that came and weren't read */
bool fin[SLOTS];         /* the peer sends no more */
bool down[SLOTS];        /* shut down by hang_up */
bool registered[SLOTS];
bool edge[SLOTS];

/* -- the connection: its slot in the book, its lane, the Mutex<Talk> and what it guards */
bool is_open[SLOTS];
byte stage[SLOTS];
byte due[SLOTS];         /* how many attempts its end still takes */
bit  talk[SLOTS];
byte talking[SLOTS];
byte feeder[SLOTS];
bool has_units[SLOTS];

/* -- Mailbox (hub.rt): its marks, and its waker */
bool mark[SLOTS];
bool waker = false;

/* -- Poller (poller.rt): its places */
chan ready = [SLOTS] of { byte };
chan behind = [SLOTS] of { byte };
bool is_ready[SLOTS];
bool is_woken[SLOTS];
bool is_odd[SLOTS];
bool is_again[SLOTS];

byte faults = FAULTS;
byte wakes = WAKES;
/* ghosts */
byte sent[SLOTS];
byte taken[SLOTS];
bool asked[SLOTS];       /* an attempt was asked for and not made yet */
byte gens[SLOTS];

#ifdef FLOOD
#define IS_FLOOD(s) (s == 0)
#else
#define IS_FLOOD(s) false
#endif
#define REPORT(s) edge[s] = registered[s]

/* Hub::wake (hub.rt) */
inline wake(s) {
    asked[s] = true;
#ifdef M_WAKE_FIRST
    waker = true;
    mark[s] = true
#else
    atomic { was_marked = mark[s]; mark[s] = true };
    if
    :: !was_marked -> waker = true
    :: else
    fi;
    was_marked = false
#endif
}

/* Poller::call (poller.rt) */
inline call(s) {
    is_woken[s] = true;
    if
    :: !is_ready[s] -> is_ready[s] = true; ready ! s
    :: else
    fi
}

/* take_event (poller.rt). That no more is sent is reported as it is now. */
inline take_event(s) {
    if
    :: edge[s] ->
        edge[s] = false;
        is_odd[s] = is_odd[s] || fin[s] || down[s];
        if
        :: !is_ready[s] -> is_ready[s] = true; ready ! s
        :: else
        fi
    :: else
    fi
}

/* Poller::take_marks and Hub::take_marks, for one slot */
inline take_mark(s) {
#ifdef M_MARKS_ARE_LOST
    was_marked = mark[s];
    mark[s] = false;
    if
    :: was_marked -> call(s)
    :: else
    fi;
    was_marked = false
#else
    atomic {
        if
        :: mark[s] -> mark[s] = false; call(s)
        :: else
        fi }
#endif
}

inline look_again_at(s) {
    if
    :: is_again[s] -> is_again[s] = false;
#ifndef M_AGAIN_UNCALLED
        call(s)
#endif
    :: else
    fi
}

#if SLOTS > 1
#define ANY(flag) (flag[0] || flag[1])
#define EACH(what) what(0); what(1)
#else
#define ANY(flag) flag[0]
#define EACH(what) what(0)
#endif

/* Poller::wait (poller.rt): until there is something to report or to serve, or it is time to look again. */
inline wait() {
    atomic {
#ifdef M_READY_WAITS
        (ANY(edge) || waker || ANY(is_again)) ->
#else
        (nempty(ready) || nempty(behind) || ANY(edge) || waker || ANY(is_again)) ->
#endif
        waker = false;
        EACH(take_event) };
    EACH(take_mark);
    atomic {
        if                                         /* Poller::look_again */
        :: ANY(is_again) -> EACH(look_again_at)    /* it is time */
        :: !ANY(is_again) || (nempty(ready) || nempty(behind)) && !IS_FLOOD(0)
        fi }
}

/* Talk::close (talk.rt), under its lock: the socket is closed, and so it is reported no more. */
inline close(s) {
    atomic {
        assert(is_open[s]);
        registered[s] = false; edge[s] = false; in[s] = 0; fin[s] = false; down[s] = false; sent[s] = 0; taken[s] = 0;
        feeder[s] = 0; has_units[s] = false; talking[s] = NO_TALK; asked[s] = false; due[s] = 0;
        is_open[s] = false }
}

/* Lane::end (lane.rt): what can't be done at once is left to the finisher. Then is_gone if the connection was let go of. */
inline end_lane(s, to, most) {
    is_gone = false;
    if
    :: stage[s] < to ->
        stage[s] = to;
        if
#ifndef PAIRS
        :: due[s] = most; wake(s)
#endif
        :: to == ENDED -> is_gone = true
        fi
    :: else
    fi
}

/* ServerState::finish (serving.rt), with what an attempt does (lane.rt) */
inline finish(s) {
    atomic {
        asked[s] = false; is_pending = false; is_gone = false;
        if
        :: stage[s] != SERVING && due[s] > 0 -> due[s]--; is_pending = true
        :: stage[s] == ENDING && due[s] == 0 && !down[s] && is_open[s] -> down[s] = true; REPORT(s)
        :: stage[s] == ENDED && due[s] == 0 && talking[s] == TALK_ENDED -> is_gone = true
        :: else
        fi }
}

/* ServerState::turn, read and end, and discard (serving.rt), with Talk::step and take_left (talk.rt) and Session::fill (session.rt): a read
 * that waits or not; then Applier::unload (applier.rt) */
inline turn(s, waits) {
    has_read = !has_units[s]; is_cut = false; n = 0;
    if
    :: talking[s] == IS_OVER ->
        atomic {
            if
            :: in[s] > 0 -> in[s] = 0; then = LITTLE
            :: in[s] == 0 && (fin[s] || down[s]) -> then = ENDS
            :: in[s] == 0 && !fin[s] && !down[s] && !waits -> then = NOTHING
            fi }
    :: talking[s] == READING && !has_read -> then = NOTHING
    :: talking[s] == READING && has_read ->
        atomic {
            if
            :: in[s] > 0 && !down[s] ->
                n = (in[s] < ROOM -> in[s] : ROOM);
                in[s] = in[s] - n; feeder[s] = feeder[s] + n;
                left = (n == ROOM -> MORE : LITTLE); then = NOTHING
            :: (in[s] == 0 && fin[s]) || down[s] -> then = ENDS
            :: in[s] == 0 && !fin[s] && !down[s] && !waits -> left = NOTHING; then = NOTHING
            fi;
#ifdef FLOOD
            in[0] = ROOM;
#endif
            n = 0 }
    fi;
    if
    :: talking[s] == READING && then != ENDS ->
        atomic {
            do
            :: feeder[s] > 0 && !is_cut && talking[s] == READING ->
                n++; feeder[s]--;
                if
                :: true ->
                    taken[s] = (IS_FLOOD(s) -> 0 : taken[s] + 1);
                    if
                    :: n == MOST_UNITS -> is_cut = true
                    :: n < MOST_UNITS -> is_cut = true
                    :: n < MOST_UNITS
                    fi
                :: faults > 0 -> faults--; talking[s] = IS_OVER
                fi
            :: else -> break
            od;
            n = 0;
#ifndef M_UNITS_FORGOTTEN
            has_units[s] = is_cut;
#endif
            if
            :: talking[s] == IS_OVER -> has_units[s] = false
#ifdef M_CUT_IS_FORGOTTEN
            :: talking[s] == READING && is_cut -> then = NOTHING
#else
            :: talking[s] == READING && is_cut -> then = MORE
#endif
#ifdef M_EDGE_DURING_TURNS
            :: talking[s] == READING && !is_cut && !has_read -> then = NOTHING
#else
            :: talking[s] == READING && !is_cut && !has_read -> then = MORE
#endif
            :: talking[s] == READING && !is_cut && has_read -> then = left
#ifdef M_FULL_READ_IS_LAST
            ; then = (then == MORE -> NOTHING : then)
#endif
            fi;
            is_cut = false };
        if
        :: talking[s] == IS_OVER ->                /* Err(Shut) */
            end_lane(s, ENDING, 1);
            then = MORE                            /* discard: its next turn */
        :: else
        fi
    :: else
    fi;
    if
    :: then == ENDS ->
        atomic {
            assert(talking[s] == IS_OVER || down[s] || (taken[s] == sent[s] && feeder[s] == 0));   /* all that it sent is taken */
            talking[s] = TALK_ENDED };
        end_lane(s, ENDED, 2);
        if
        :: is_gone -> is_gone = false; close(s)
        :: else
        fi
    :: else
    fi
}

/* ServerState::visit, serve_round (crews.rt), Poller::next and put_back */
inline visit(s) {
    if
    :: nempty(ready) -> ready ? s
    :: empty(ready) -> behind ? s
    fi;
    atomic { woken = is_woken[s]; is_ready[s] = false; is_woken[s] = false; odd = is_odd[s]; is_pending = false; is_now = false };
    if
    :: woken ->
        finish(s);
        if
        :: is_gone -> LOCK(talk[s]); close(s); UNLOCK(talk[s]); is_gone = false
        :: else
        fi
    :: else                                        /* Lane::deliver_left: sooner than is asked for */
    fi;
    LOCK(talk[s]);
    if
    :: talking[s] == READING || talking[s] == IS_OVER ->
#ifdef M_STALE_EDGE_WAITS
        turn(s, true);
#else
        turn(s, false);
#endif
        if
        :: then == MORE -> is_now = true
#ifndef M_ODD_IS_FORGOTTEN
        :: then == LITTLE -> is_now = odd
#endif
        :: else
        fi
    :: else
    fi;
    UNLOCK(talk[s]);
    atomic {
#ifdef M_ODD_ONCE
        is_odd[s] = false;
#else
        is_odd[s] = is_odd[s] && is_now;
#endif
        if
        :: is_now -> round = 0                     /* serve_round ends */
        :: else
        fi;
        if
        :: is_now && !is_ready[s] -> is_ready[s] = true;
#ifdef M_IN_FRONT
            ready !! s                             /* sorted: slot 0 first */
#else
            behind ! s
#endif
        :: else
        fi;
        if
#ifndef M_NOT_AGAIN
        :: is_pending -> is_again[s] = true
#endif
        :: else
        fi;
        woken = false; odd = false; is_pending = false; is_now = false; then = NOTHING; left = NOTHING; has_read = false }
}

/* run_few (crews.rt) */
proctype Thread() {
    byte s = 0; byte n = 0; byte then = 0; byte left = 0; byte round = 0;
    bool was_marked = false; bool has_read = false; bool is_cut = false; bool is_gone = false; bool is_pending = false;
    bool woken = false; bool odd = false; bool is_now = false;
    do
    :: true ->
        wait();
        round = len(ready) + len(behind);
        do
        :: round > 0 -> round--; visit(s)
        :: else -> break
        od;
        s = 0
    od
}

/* run_reader (crews.rt) */
proctype Reader() {
    byte n = 0; byte then = 0; byte left = 0;
    bool was_marked = false; bool has_read = false; bool is_cut = false; bool is_gone = false;
    do
    :: true ->
atomic { (talk[0] == 0 && talking[0] == READING) -> talk[0] = 1 };
        do
        :: turn(0, true);
            if
            :: then == ENDS -> break
            :: else
            fi
        od;
        UNLOCK(talk[0])
    od
}

/* Its connections' peers */
proctype Peer(byte s) {
    bool stays = false;
    do
    :: atomic { is_open[s] && !fin[s] && sent[s] < SENDS -> sent[s]++; in[s]++; REPORT(s) }
    :: atomic { is_open[s] && !fin[s] -> fin[s] = true; REPORT(s) }
#ifndef FLOOD
    :: atomic { is_open[s] && !fin[s] && sent[s] == SENDS -> stays = true };
        atomic { (!is_open[s]) -> stays = false }
#endif
    :: atomic { (gens[s] == GENS && !is_open[s]) -> break }
    od
}

/* Others that ask the slots' finishers for attempts */
proctype Waker() {
    bool was_marked = false;
    do
    :: wakes > 0 -> wakes--;
        if
        :: wake(0)
#if SLOTS > 1
        :: wake(1)
#endif
        fi
    :: else -> break
    od
}

/* Control::open and begin (accepting.rt), Crews::begin (crews.rt) and Hub::register (hub.rt): a socket that takes bytes is reported at
 * once. */
proctype Control(byte s) {
    do
    :: gens[s] < GENS ->
        atomic { !is_open[s] ->
            gens[s]++; is_open[s] = true; stage[s] = SERVING; due[s] = 0; down[s] = false; fin[s] = false };
#ifdef M_REGISTER_FIRST
        atomic { registered[s] = true; edge[s] = true };
#endif
        LOCK(talk[s]);
        talking[s] = READING;
#ifndef M_REGISTER_FIRST
        atomic { registered[s] = true; edge[s] = true };
#endif
        UNLOCK(talk[s])
    :: else -> break
    od
}

init {
    atomic {
#ifdef PAIRS
        run Reader();
#else
        run Thread();
#endif
#ifdef FLOOD
        in[0] = ROOM;
#else
        run Peer(0);
#endif
        run Control(0);
#if SLOTS > 1
        run Peer(1); run Control(1);
#endif
        run Waker()
    }
}

#define AT_REST(s) (!is_open[s] || (talking[s] == READING && !fin[s] && !down[s] && in[s] == 0 && feeder[s] == 0 && taken[s] == sent[s]))

#ifndef FLOOD
active proctype Monitor() {
timeout ->
    assert(AT_REST(0));
#ifndef PAIRS
    assert(talk[0] == 0);
#endif
    assert(!asked[0] || !is_open[0]);
#if SLOTS > 1
    assert(AT_REST(1) && talk[1] == 0);
    assert(!asked[1] || !is_open[1]);
#endif
    assert(wakes == 0)
}
#else
ltl served { <>(gens[1] == GENS && !is_open[1]) }
#endif
