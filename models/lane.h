/* What the models share: a slot's lane (lane.rt, sender.rt, message.rt, outbound.rt, life.rt of gm_delivery) over its word (gm_lane_word), its pen
 * (gm_shared, gm_word) and the book. A comment before each inline names the function that it mirrors, and its file.
 *
 * Modes. By default a slot's finisher waits in a write (Pairs of crews.rt). With -DFEW it is the I/O thread that also reads, and never
 * waits for a peer (Few, --io-threads).
 *
 * Units. A message is some bytes: `put` counts those that were queued for a slot since it was opened, `drained` those
 * that a pen took out, `received` those that the socket took. What waits is the interval (drained, put], a message of the code the
 * interval (l_next, l_to] and then a NOOP if l_noop. So order, loss and doubling are one assertion at the socket.
 *
 * Grain. A transition is one step on what is shared without a lock (a lane's word, a sleep word, a token, a stage) or one critical
 * section of the book, with what the process does under a lane's lock, writes included, and with the taking of a
 * lock before and its release after. What a lock guards the code reaches through the Mutex's guard only, so no other thread
 * sees it in between.
 *
 * A mutant is one -DM_..: models/run says which line of the code it turns. */

#ifndef N
#define N 1
#endif
#ifndef MOST_ATTEMPTS
#define MOST_ATTEMPTS 2      /* lane.rt: 16 */
#endif
/* The time of an end, in calls of `Life::look`: timing.rt has 2 s and 30 s. A slow peer blocks for less than the first. */
#define ENDING_TIME 2
#define MOST_ENDING_TIME 4

/* What a model may add: ghosts, and its choice of a peer. */
#ifndef NOTE_NOOP
#define NOTE_NOOP(s) skip
#endif
#ifndef ON_RELEASE
#define ON_RELEASE(s) skip
#endif
#ifndef ON_SENT
#define ON_SENT(s) skip
#endif
#ifndef CHOOSE_PEER
#define CHOOSE_PEER(s) skip
#endif
#ifndef PARKED
#define PARKED(s) skip
#define UNPARKED(s) skip
#endif

/* How far a delivery is: all is sent, some is left, the sending broke off, and it is still to send */
#define DONE 0
#define BLOCKED 1
#define OVER 2
#define SEND 3

/* Finish (finish.rt) */
#define NOTHING 0        /* none */
#define PENDING 1
#define GONE    2

/* Deliverer (finish.rt) */
#define OTHER    0
#define READER   1
#define FINISHER 2

/* a lane's word (word.rt of gm_lane_word) */
#define LANE_IDLE 0
#define LANE_BUSY 1
#define LANE_CLAIMED 2
#define LANE_LEFT 3

/* sender.connection: none, or its OutboundState (life.rt) */
#define NO_LINE  0
#define OPEN     1
#define FINISHED 2
#define CUT      3

/* What is asked of a connection (stage.rt): nothing, MUST_END, INPUT_ENDED */
#define SERVING 0
#define ENDING  1
#define ENDED   2

/* ServerStage (stage.rt); the first three are those of Mode (gm_notes) too */
#define RUNNING      0
#define GRACEFUL     1
#define STOPPED      2
#define FAILED       3
#define SERVER_ENDED 4

/* a sleep word, and Phase (gm_word) */
#define AWAKE  0
#define ASLEEP 1
#define OWED   2

#define NONE 255

#define LOCK(m)   atomic { (m == 0) -> m = 1 }
#define UNLOCK(m) m = 0

/* -- the book: Mutex<Guarded>. `core_phase` is the core's, `seat_phase` what the book's seat knows of the word. */
bit  book = 0;
bool is_open[N];
bool shut[N];
byte gen[N];
byte put[N];
byte drained[N];
byte core_phase[N];
byte seat_phase[N];

/* -- the words, which no lock guards */
byte word[N];            /* sleep words */
byte lw[N];              /* lane words */
byte stage[N];
byte server_stage = RUNNING;

/* -- Lane. The Mutex<Sender>, and what it guards */
bit  lock[N];
byte line[N];            /* sender.connection, */
byte line_gen[N];        /*   of this opening; */
byte until[N];           /*   how many calls of its Life's look are left to `until`, */
byte last[N];            /*   and to `last`; */
bool end_over[N];        /*   and its is_over */
bool has_left[N];        /* sender.left is Some */
byte l_gen[N];
byte l_next[N];
byte l_to[N];
bool l_noop[N];

/* -- the finisher's parker, or its mark and waker: it was woken; and it comes again in a while */
bool token[N];
bool again[N];

/* -- sockets, by the slot whose lane has the connection */
bool down[N];            /* shut down by hang_up: reads end, writes fail */
bool deaf[N];            /* the peer never reads: */
byte room[N];            /*   so many messages go through, and then none */
bool slow[N];            /* the peer reads, and blocks before each message */
bool was_blocked[N];        /*   as it was before the next */
byte blocks[N];           /* how often a write to a peer that reads may be blocked, where that is bounded */
byte faults;             /* how many writes may fail */
byte received[N];
byte noops[N];           /* NOOPs that the socket took */

/* -- ghosts */
byte takes[N];           /* NOOPs that the pen took */
byte withdrawals[N];     /* that the book withdrew */
byte wakes[N];           /* that were owed */
/* with PLACES: the place in the queue at which a NOOP became owed */
#ifdef PLACES
byte owed_at[N];         /* put, as the NOOP was owed, until it is taken; */
byte l_owed_at[N];       /*   and of the one that was taken last, until it is sent */
#define OWE(s) word[s] = OWED; owed_at[s] = put[s]
#define TAKEN(s) l_owed_at[s] = owed_at[s]; owed_at[s] = 0
#define SENT_NOOP(s) assert(l_next[s] >= l_owed_at[s]); l_owed_at[s] = 0   /* order: behind the bytes that were queued before it was owed */
#else
#define OWE(s) word[s] = OWED
#define TAKEN(s) skip
#define SENT_NOOP(s) skip
#endif
bool faulted[N];         /* the connection was hung up for a fault, or because it had its time */
byte owners[N];          /* how many have the lane */

#ifdef UNBOUNDED
#define MAY_BLOCK(s) (!deaf[s] && !slow[s])
#define COUNT_BLOCK(s)  skip
#else
#define MAY_BLOCK(s) (!deaf[s] && !slow[s] && blocks[s] > 0)
#define COUNT_BLOCK(s)  blocks[s]--
#endif

/* Stage::asked (stage.rt) */
#define IS_ENDING(s) (stage[s] != SERVING || server_stage >= STOPPED)
#ifdef M_TIME_BEFORE_THE_END
#define ENDS(s) true
#else
#define ENDS(s) IS_ENDING(s)
#endif

/* Where the peer takes no more and the connection isn't to end, a finisher's attempt changes nothing: it comes again once that changed. */
#define MATTERS(s) (!(line[s] == OPEN && deaf[s] && room[s] == 0) || ENDS(s) || end_over[s])
/* The finisher comes: it was woken; or to a connection that isn't done with, in a while, when no thread has the lane any more. */
#define IS_CALLED(s) (token[s] || (again[s] && owners[s] == 0 && MATTERS(s)))

/* What the inlines work with, in each process that uses them */
#define LOCALS \
    byte who = OTHER; byte res = 0; byte fin = 0; byte found = 0; byte attempts = 0; \
    bool had_left = false; bool is_shut = false; bool took = false; bool has_ended = false; bool is_ending = false; bool has = false; bool has_taken = false

/* Nothing is left of the present message (Outbound::send, outbound.rt; Sender::deliver and let_go, sender.rt) */
inline forget(s) {
    has_left[s] = false; l_gen[s] = 0; l_next[s] = 0; l_to[s] = 0; l_noop[s] = false
}

/* The sending broke off (Outbound::send and next, outbound.rt; Sender::refill, sender.rt), under the lane's lock */
inline cut(s) {
    line[s] = CUT; faulted[s] = true
}

/* What Sender::deliver (sender.rt) and Outbound::next (outbound.rt) do to hang up, under the lane's lock */
inline hang_up(s) {
#ifndef M_KEEP_LEFT
    forget(s);
#endif
    if
    :: line[s] == OPEN -> cut(s)
    :: else
    fi;
#ifndef M_TIME_OVER_WITHOUT_HANG_UP
    down[s] = true
#endif
}

/* Life::look (life.rt), under the lane's lock. A peer that reads takes all in time; each call for another peer's end takes one unit of the
 * time, and so does each once all was sent. */
inline look(s) {
    if
    :: deaf[s] || slow[s] || line[s] == FINISHED ->
        until[s] = (until[s] > 0 -> until[s] - 1 : 0);
        until[s] = (has_taken || until[s] > ENDING_TIME -> ENDING_TIME : until[s]);
#ifndef M_NO_MOST_TIME
        last[s] = (last[s] > 0 -> last[s] - 1 : 0);
        last[s] = (server_stage >= STOPPED && last[s] > ENDING_TIME -> ENDING_TIME : last[s]);
#endif
        end_over[s] = (until[s] == 0 || last[s] == 0)
    :: else
    fi
}

/* One write of Message::send (message.rt), with write_once (writing.rt) and Outbound::write_by (outbound.rt), under the lane's lock.
 * Afterwards res is SEND if more is left to write, DONE, BLOCKED or OVER. */
inline write_one(s) {
    assert(line[s] == OPEN);
    assert(l_gen[s] == line_gen[s]);               /* order: bytes of a connection go to no other */
    if
    :: end_over[s] -> res = BLOCKED
    :: else ->
        if
        :: down[s] -> res = OVER
        :: !down[s] && (deaf[s] -> room[s] > 0 : (slow[s] -> was_blocked[s] : true)) ->
            if
            :: deaf[s] -> room[s]--
            :: else -> was_blocked[s] = false
            fi;
#ifdef M_NOOP_FIRST
            if
            :: l_noop[s] ->
#else
            if
            :: l_next[s] == l_to[s] ->
                assert(l_noop[s]);
#endif
                l_noop[s] = false;
                assert(l_next[s] == l_to[s]);      /* order: behind the bytes drained with it */
                SENT_NOOP(s);
                NOTE_NOOP(s);
                noops[s]++
            :: else ->
#ifndef ENDLESS
                assert(received[s] == l_next[s]);  /* order: as queued, each once */
                received[s]++;
#endif
#ifdef M_SENT_AGAIN
                if
                :: l_next[s]++
                :: res = BLOCKED                      /* a part was taken */
                fi
#else
                l_next[s]++
#endif
            fi;
            ON_SENT(s);
            has_taken = true;
            if
            :: l_next[s] == l_to[s] && !l_noop[s] -> forget(s); res = DONE
            :: else
            fi
        :: !down[s] && deaf[s] && room[s] == 0 -> res = BLOCKED
        :: !down[s] && slow[s] && !was_blocked[s] -> was_blocked[s] = true; res = BLOCKED
        :: !down[s] && MAY_BLOCK(s) -> COUNT_BLOCK(s); res = BLOCKED
        :: !down[s] && faults > 0 -> faults--; res = OVER
        fi;
        if
        :: ENDS(s) -> look(s)
        :: else
        fi;
        has_taken = false
    fi
}

/* Pen::take (shared.rt) and PenSeat::take (pen.rt of gm_word): one compare-exchange, and no lock */
inline take(s) {
    took = (word[s] == OWED);
    if
#ifdef M_TAKE_LEAVES_THE_WORD
    :: took -> takes[s]++
#else
    :: took -> word[s] = AWAKE; takes[s]++; TAKEN(s)
#endif
    :: else
    fi
}

/* Pen::drain (shared.rt) and Booked::drain_into (book.rt), one critical section: res is SEND where there is a message to send. */
inline drain(s) {
    (book == 0);
    if
    :: faults > 0 -> faults--; cut(s); res = OVER   /* with a tape: out of memory for the entry */
    :: true ->
        assert(is_open[s] && gen[s] == line_gen[s]);   /* a lane that has a connection has an open slot */
        is_shut = shut[s];
        if
        :: took || drained[s] < put[s] ->
            l_gen[s] = gen[s]; l_next[s] = drained[s]; l_to[s] = put[s];
#ifndef M_NOOP_FORGOTTEN
            l_noop[s] = took;
#endif
            has_left[s] = true;
            res = SEND
        :: else -> res = DONE
        fi;
#ifdef M_NOOP_FORGOTTEN
        if
        :: l_next[s] == l_to[s] -> forget(s); res = DONE
        :: else
        fi;
#endif
#ifdef ENDLESS
        put[s] = 0; drained[s] = 0
#else
#ifndef M_DRAIN_LEAVES_BYTES
        drained[s] = put[s]
#endif
#endif
    fi;
    took = false
}

/* Deed::LetGo in Lane::attempt (lane.rt), and Sender::let_go (sender.rt), under the lane's lock */
inline let_go(s) {
    if
#ifndef M_OTHER_LETS_GO
    :: who == OTHER -> fin = PENDING
#endif
    :: else ->
#ifdef M_LETS_GO_OF_NONE
        fin = GONE;
#else
        fin = (line[s] != NO_LINE -> GONE : NOTHING);
#endif
        if
        :: line[s] != NO_LINE ->
            ON_RELEASE(s);
            line[s] = NO_LINE;
#ifndef M_KEEP_LEFT
            forget(s);
#endif
            /* ghosts, which end with the connection */
            received[s] = 0; noops[s] = 0; takes[s] = 0; faulted[s] = false;
            deaf[s] = false; room[s] = 0; slow[s] = false; was_blocked[s] = false; blocks[s] = 0
        :: else
        fi
    fi
}

/* The end of Sender::deliver (sender.rt) with Outbound::next (outbound.rt), and what Lane::attempt (lane.rt) does then; under the
 * lane's lock, which is released. Where bytes are left, a finisher that may wait comes again at once, as its write has waited; here each
 * comes again where that may change something. */
inline end_delivery(s) {
    if
    :: line[s] == FINISHED -> look(s)
    :: else
    fi;
    assert(line[s] == OPEN && has_left[s] && end_over[s] -> IS_ENDING(s) && (deaf[s] || slow[s]) : true);   /* the peer had its time */
    if
    :: line[s] == NO_LINE ->
#ifdef M_LETS_GO_OF_NONE
        let_go(s)
#else
        fin = NOTHING
#endif
#ifdef M_NEVER_GIVE_UP
    :: line[s] == OPEN && has_left[s] -> fin = PENDING
#else
#ifdef M_NO_HAND_OVER_WHEN_BLOCKED
    :: line[s] == OPEN && has_left[s] && !end_over[s] -> fin = NOTHING
#else
    :: line[s] == OPEN && has_left[s] && !end_over[s] -> fin = PENDING       /* Deed::Send */
#endif
#endif
    :: else ->
        if
        :: has_ended -> faulted[s] = (faulted[s] || has_left[s]); let_go(s)       /* Deed::LetGo */
        :: !has_ended && line[s] == OPEN && !has_left[s] -> fin = NOTHING         /* Deed::Serve */
#ifdef M_LINGERS_FOR_EVER
        :: !has_ended && line[s] == FINISHED -> fin = PENDING
#else
        :: !has_ended && line[s] == FINISHED && !end_over[s] -> fin = PENDING     /* Deed::Linger */
#endif
        :: else -> hang_up(s); fin = NOTHING
        fi
    fi;
    has_ended = false; is_ending = false;
    UNLOCK(lock[s]);
    res = 0; is_shut = false; had_left = false
}

/* Claim::attempt (claim.rt) and Lane::attempt (lane.rt), with Sender::deliver, refill and finish (sender.rt) and Outbound::send (outbound.rt):
 * what was left, the take, the drain, and one write after another until all is sent, or one is blocked or fails. A jump from one atomic
 * block into another goes on without a step of others. */
inline attempt(s) {
#ifndef M_ATTEMPT_AFTER_DELIVERY
    atomic { assert(lw[s] == LANE_CLAIMED); lw[s] = LANE_BUSY };   /* swap */
#endif
#ifdef M_FLAG_BEFORE_LOCK
    atomic { has_ended = (stage[s] == ENDED); is_ending = IS_ENDING(s) };
#endif
    atomic { (lock[s] == 0) -> lock[s] = 1;
#ifndef M_FLAG_BEFORE_LOCK
        has_ended = (stage[s] == ENDED); is_ending = IS_ENDING(s);
#endif
        if
        :: line[s] != OPEN -> goto ends
        :: line[s] == OPEN && has_left[s] -> had_left = true; goto sends
        :: line[s] == OPEN && !has_left[s]
        fi;
#ifdef M_TAKE_AFTER_DRAIN
take_noop: skip };
    atomic { drain(s) };
    atomic {
        if
        :: res != OVER -> take(s)
        :: else
        fi;
        if
        :: took && res == DONE -> l_gen[s] = line_gen[s]; l_next[s] = drained[s]; l_to[s] = drained[s]; l_noop[s] = true; has_left[s] = true; res = SEND
        :: took && res == SEND -> l_noop[s] = true
        :: else
        fi;
        took = false;
#else
take_noop: take(s) };
    atomic { drain(s);
#endif
        if
        :: res == SEND
        :: else -> goto sent
        fi;
sends:  res = SEND;
        do
        :: res == SEND -> write_one(s)
        :: else -> break
        od;
        if
        :: res == OVER -> forget(s); cut(s)
#ifdef M_LEFT_IS_DROPPED
        :: res == BLOCKED && had_left -> forget(s)
#endif
        :: res == DONE && had_left ->
            had_left = false;
#ifndef M_LEFT_ENDS_DELIVERY
            goto take_noop
#endif
        :: else
        fi;
sent:   skip;
#ifdef M_FLAG_AFTER_DELIVERY
        skip };
    atomic { has_ended = (stage[s] == ENDED);      /* others may come between */
#endif
        if
#ifdef M_ENDING_IGNORED
        :: res == DONE && is_shut -> line[s] = FINISHED
#else
        :: res == DONE && (is_shut || (is_ending && !has_ended)) -> line[s] = FINISHED
#endif
        :: else
        fi;
ends:   end_delivery(s) }
#ifdef M_ATTEMPT_AFTER_DELIVERY
    ; lw[s] = LANE_BUSY
#endif
}

/* Lane::deliver_claimed (lane.rt), with Claim::hand_over, Attempt::hand_over and finish, and then Leftover::new and settle (finish.rt): the
 * finisher is woken once the lane is left to it. fin says what came of it. */
inline deliver_claimed(s) {
    attempts = 0;
    do
    :: true ->
        attempt(s);
        if
        :: fin != NOTHING ->
            atomic { assert(lw[s] == LANE_BUSY || lw[s] == LANE_CLAIMED); owners[s]--; lw[s] = LANE_LEFT };
#ifndef M_NO_WAKE_AT_HAND_OVER
            if
            :: fin == PENDING && who < FINISHER -> token[s] = true
            :: else
            fi;
#endif
            break
        :: else ->
            /* compare-exchange */
            atomic { found = lw[s];
                if
#ifdef M_FINISH_BLINDLY
                :: true -> lw[s] = LANE_IDLE; owners[s]--; found = LANE_BUSY
#else
                :: found == LANE_BUSY -> lw[s] = LANE_IDLE; owners[s]--
                :: else
#endif
                fi };
            if
            :: found == LANE_BUSY -> break
            :: else -> attempts++
            fi;
            if
            :: attempts == MOST_ATTEMPTS ->
#ifdef M_GIVES_UP
                atomic { lw[s] = LANE_IDLE; owners[s]-- };
#else
                atomic { lw[s] = LANE_LEFT; owners[s]-- };
                token[s] = true;
#endif
                break
            :: else
            fi
        fi
    od;
    attempts = 0; found = 0; has = false
}

/* LaneWord::touch (word.rt): `has` if the caller has the lane now. Its load, if it finds LANE_CLAIMED or more, is as the fetch_max at
 * that moment would be; so there is one step. */
inline touch_word(s) {
    atomic {
        has = (lw[s] == LANE_IDLE);
        if
#ifdef M_BUSY_IS_ENOUGH
        :: lw[s] == LANE_IDLE -> lw[s] = LANE_CLAIMED
#else
        :: lw[s] < LANE_CLAIMED -> lw[s] = LANE_CLAIMED
#endif
        :: else
        fi;
        if
        :: has -> owners[s]++; assert(owners[s] == 1)
        :: else
        fi;
        who = OTHER; fin = NOTHING }
}

/* Lane::touch_for_finisher (lane.rt) */
inline touch_for_finisher(s) {
    touch_word(s);
    if
    :: has ->
        atomic { has = false; lw[s] = LANE_LEFT; owners[s]-- };
#ifndef M_LEFT_UNWOKEN
        token[s] = true
#endif
    :: else
    fi
}

/* LaneWord::take_over (word.rt): swap; `has` if the caller has the lane now */
inline take_over(s) {
    found = lw[s];
    lw[s] = LANE_CLAIMED;
#ifdef M_LEFT_NOT_TAKEN_OVER
    has = (found == LANE_IDLE);
#else
    has = (found == LANE_IDLE || found == LANE_LEFT);
#endif
    if
    :: has -> owners[s]++; assert(owners[s] == 1)
    :: else
    fi;
    found = 0
}

/* Lane::deliver (lane.rt), up to deliver_claimed, which follows where it has the lane */
inline deliver_as(s, deliverer) {
    atomic { take_over(s); who = deliverer; fin = (has -> NOTHING : PENDING) };
    if
    :: !has && who < FINISHER -> token[s] = true     /* Leftover::settle */
    :: else
    fi
}

/* Lane::deliver_left (lane.rt) and LaneWord::take_over_left (word.rt), up to deliver_claimed. Between its two steps another thread may take
 * the lane over. */
inline deliver_left(s) {
    fin = NOTHING;
    if
    :: lw[s] == LANE_LEFT -> atomic { take_over(s); who = FINISHER }
    :: else
    fi
}

/* Lane::end and Stage::rise, up to deliver_claimed: this is asked, unless it was */
inline end_lane(s, to) {
    fin = NOTHING;
#ifdef M_RISE_AFTER_ATTEMPT
    deliver_as(s, READER);
    rises = to
#else
    atomic { has_taken = (stage[s] < to); stage[s] = (has_taken -> to : stage[s]) };
    if
    :: has_taken -> has_taken = false; deliver_as(s, READER)
    :: else
    fi
#endif
}

/* Lane::open and Sender::begin, up to deliver_claimed. The connection's opening is the next one, as `drain` asserts, so the line
 * is open. The model chooses the peer. */
inline open_lane(s) {
#ifndef M_RESTART_AFTER_BEGIN
#ifndef M_KEEP_ENDING
    stage[s] = SERVING;                            /* Stage::restart */
#endif
#endif
    atomic { (lock[s] == 0) ->
        assert(line[s] == NO_LINE);
        line[s] = OPEN; line_gen[s] = gen[s];
#ifndef M_KEEP_THE_TIME
        until[s] = ENDING_TIME + 1; last[s] = MOST_ENDING_TIME + 1; end_over[s] = false;
#endif
        down[s] = false;
        CHOOSE_PEER(s) };
#ifdef M_RESTART_AFTER_BEGIN
    stage[s] = SERVING;
#endif
#ifndef M_BEGIN_WITHOUT_ATTEMPT
    atomic { take_over(s); who = OTHER; fin = NOTHING }
#endif
}

/* Whether the finisher comes again in a while: park_timeout in run_finisher (crews.rt), is_again in ServerState::visit (serving.rt). What is
 * to be looked at again stays so until it is. */
inline come_again(s) {
#ifndef M_NOT_AGAIN
    again[s] = again[s] || (fin == PENDING)
#else
    skip
#endif
}
