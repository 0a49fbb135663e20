"""What the cost of each kind of request and ending may depend on, with a script that tries it. tests/costs counts the instructions, and
docs/counts writes the table of ARCHITECTURE.md.

A script has a set-up of some size, and a tail, which is what is counted. Tails whose cost depends on nothing run beside a crowd: as many
jobs, functions, listeners, deadlines, abilities, connections and old entries of a queue as the size says. Others have a set-up of their
own.
"""
import typing

from packets import *  # pylint: disable=wildcard-import,unused-wildcard-import

NOTHING = "nothing"
TIMES = 64  # how often a tail beside a crowd has its request
# No table of a server grows within a tail at these sizes, nor at four times these. The second is a little below a power of two: so there is
# no room for many jobs that are listed twice.
CROWD_SIZE, OWN_SIZE = 180, 252
COSTS = []
# A crowd's slots.
CLIENT, WORKER, IDLER, OTHER, LISTENER, SUBMITTER, SPARE = range(7)


class Script:
    """Lines for gm_play, which know the slots and jobs that they make."""

    def __init__(self, size, options=()):
        self.size, self.options = size, list(options)
        self.lines, self.free, self.slots, self.jobs = [], set(), 0, 0

    def open(self):
        """The slot of a new connection: the first that is free."""
        self.lines.append("open a")
        slot = min(self.free, default=self.slots)
        self.slots = max(self.slots, slot + 1)
        self.free.discard(slot)
        return slot

    def close(self, slot):
        """The connection's end."""
        self.lines.append(f"close {slot}")
        self.free.add(slot)

    def tick(self, now):
        """The clock's second."""
        self.lines.append(f"tick {now}")

    def send(self, slot, *units):
        """Pieces of so many units that no connection has much room. Behind each, gm_play asks each connection for its bytes."""
        self.lines += [f"bytes {slot} {b''.join(units[at : at + TIMES]).hex()}" for at in range(0, len(units), TIMES)]

    def submit(self, slot, kind, function, count):
        """New jobs, and their handles."""
        numbers = range(self.jobs + 1, self.jobs + count + 1)
        self.jobs += count
        self.send(slot, *(packet(kind, function, b"id%d" % number, b"data") for number in numbers))
        return [b"H:gmd:%d" % number for number in numbers]

    def join(self, slot, function, count, is_new=False):
        """One job's submissions."""
        self.jobs += is_new
        self.send(slot, *count * [packet(SUBMIT_JOB, function, b"one", b"data")])

    def grab(self, slot, count):
        """Jobs of a worker, as many."""
        self.send(slot, *count * [packet(GRAB_JOB)])


class Cost(typing.NamedTuple):
    """A line of the table. The tail goes on with the set-up's script, and answers how many packets of each type, and lines (None), have to
    come of it. What gm_play does behind each line of the tail is counted too if that doesn't depend on the size."""
    request: str
    depends: str
    setup: typing.Callable
    tail: typing.Callable
    counts_lines: bool

    @property
    def size(self):
        """The smaller of the two sizes at which it is tried."""
        return CROWD_SIZE if self.depends == NOTHING else OWN_SIZE


def cost(request, depends, setup, counts_lines=False):
    """Adds a line, of a function that is its tail."""
    def add(tail):
        COSTS.append(Cost(request, depends, setup, tail, counts_lines))
        return tail
    return add


def named(name, numbers):
    """Names with these numbers behind them."""
    return (b"%s%d" % (name, number) for number in numbers)


### Beside a crowd

def crowd(size, sleepers=True):
    """As many of everything: of functions, of abilities, of jobs that run with a time limit and a listener, of jobs that were discarded from a
    queue, of jobs that wait in it, and of listeners of one job; and an eighth as many connections. A worker has TIMES jobs."""
    script = Script(size, ["--slots", "100"])
    for _ in range(SPARE + 1):
        script.open()
    script.send(OTHER, packet(CAN_DO_TIMEOUT, b"limited", b"1000"), *(packet(CAN_DO, name) for name in named(b"other", range(size))))
    script.submit(LISTENER, SUBMIT_JOB, b"limited", size)
    script.grab(OTHER, size)
    script.submit(SPARE, SUBMIT_JOB, b"full", size)
    script.close(SPARE)
    script.submit(SUBMITTER, SUBMIT_JOB_BG, b"full", size)
    script.join(LISTENER, b"joined", size, is_new=True)
    script.submit(CLIENT, SUBMIT_JOB, b"work", TIMES)
    script.send(WORKER, packet(CAN_DO, b"work"), packet(CAN_DO, b"full"))
    script.grab(WORKER, TIMES)
    script.send(IDLER, packet(CAN_DO, b"nothing"))
    for _ in range(size // 8 if sleepers else 0):
        script.send(script.open(), packet(CAN_DO, b"idle"), packet(PRE_SLEEP))
    return script


def running(script):
    """The jobs that the crowd's worker has."""
    return named(b"H:gmd:", range(script.jobs - TIMES + 1, script.jobs + 1))


def alike(request, slot, *units, answer=None, answers=1):
    """A line of requests that are repeated, with so many such answers."""
    def tail(script):
        script.send(slot, *TIMES * units)
        return {answer: TIMES * answers} if answers else {}
    cost(request, NOTHING, crowd)(tail)


def report(request, kind, *arguments):
    """A line of reports on jobs with one listener."""
    def tail(script):
        script.send(WORKER, *(packet(kind, handle, *arguments) for handle in running(script)))
        return {kind: TIMES}
    cost(request, NOTHING, crowd)(tail)


def submission(kind):
    """A line of submissions of new jobs."""
    def tail(script):
        script.submit(CLIENT, kind, b"full", TIMES)
        return {JOB_CREATED: TIMES}
    cost(f"{REQUESTS[kind][0]} of a new job", NOTHING, crowd)(tail)


alike("ECHO_REQ", CLIENT, packet(ECHO_REQ, b"sixteen bytes .."), answer=ECHO_RES)
for _kind in (SUBMIT_JOB, SUBMIT_JOB_HIGH, SUBMIT_JOB_LOW, SUBMIT_JOB_BG, SUBMIT_JOB_HIGH_BG, SUBMIT_JOB_LOW_BG):
    submission(_kind)
alike("SUBMIT_JOB that joins a job", CLIENT, packet(SUBMIT_JOB, b"joined", b"one", b"data"), answer=JOB_CREATED)
alike("GRAB_JOB that gets a job", WORKER, packet(GRAB_JOB), answer=JOB_ASSIGN)
alike("GRAB_JOB_UNIQ that gets a job", WORKER, packet(GRAB_JOB_UNIQ), answer=JOB_ASSIGN_UNIQ)
alike("GRAB_JOB that gets none, of one function", IDLER, packet(GRAB_JOB), answer=NO_JOB)
alike("PRE_SLEEP without work, of one function", IDLER, packet(PRE_SLEEP), answers=0)
report("WORK_STATUS for one listener", WORK_STATUS, b"1", b"2")
report("WORK_DATA for one listener", WORK_DATA, b"data")
report("WORK_WARNING for one listener", WORK_WARNING, b"data")
report("WORK_COMPLETE for one listener", WORK_COMPLETE, b"data")
report("WORK_FAIL for one listener", WORK_FAIL)
alike("WORK_COMPLETE of a job that the worker doesn't have", WORKER, packet(WORK_COMPLETE, b"H:gmd:1", b""), answer=ERROR)
alike("SET_CLIENT_ID, ALL_YOURS", CLIENT, packet(SET_CLIENT_ID, b"client"), packet(ALL_YOURS), answers=0)
alike("OPTION_REQ", CLIENT, packet(OPTION_REQ, b"exceptions"), answer=OPTION_RES)
alike("a packet that isn't served, or has invalid arguments", CLIENT, packet(39), packet(CAN_DO_TIMEOUT, b"f", b"x"), answer=ERROR,
      answers=2)
alike("`version`, `maxqueue`, `shutdown graceful`, a line that isn't understood", CLIENT, b"version\n", b"maxqueue full 100000\n",
      b"shutdown graceful\n", b"what\n", answers=4)


@cost("GET_STATUS of a running job, of a waiting one and of none", NOTHING, crowd)
def status(script):
    asked = [packet(GET_STATUS, handle) for handle in named(b"H:gmd:", (1, 2 * script.size + 1, 9_999_999))]
    script.send(CLIENT, *TIMES * asked)
    return {STATUS_RES: 3 * TIMES}


@cost("WORK_EXCEPTION for one listener", NOTHING, crowd)
def exceptions(script):
    script.send(CLIENT, packet(OPTION_REQ, b"exceptions"))
    script.send(WORKER, *(packet(WORK_EXCEPTION, handle, b"data") for handle in running(script)))
    return {OPTION_RES: 1, WORK_EXCEPTION: TIMES}


@cost("WORK_COMPLETE of a worker with many running jobs", NOTHING, crowd)
def ends_one_of_many(script):
    script.send(OTHER, *(packet(WORK_COMPLETE, handle, b"data") for handle in named(b"H:gmd:", range(10, 10 + TIMES))))
    return {WORK_COMPLETE: TIMES}


@cost("SUBMIT_JOB at the function's `maxqueue`", NOTHING, crowd)
def queue_is_full(script):
    script.send(CLIENT, b"maxqueue full 1\n", *(packet(SUBMIT_JOB, b"full", name, b"") for name in named(b"new", range(TIMES))))
    return {None: 1, ERROR: TIMES}


@cost("SUBMIT_JOB that wakes a worker, the NOOP, GRAB_JOB and WORK_COMPLETE", NOTHING, crowd)
def one_wake(script):
    for _ in range(TIMES):
        script.send(IDLER, packet(PRE_SLEEP))
        [handle] = script.submit(CLIENT, SUBMIT_JOB, b"nothing", 1)
        script.send(IDLER, packet(GRAB_JOB), packet(WORK_COMPLETE, handle, b""))
    return {JOB_CREATED: TIMES, NOOP: TIMES, JOB_ASSIGN: TIMES, WORK_COMPLETE: TIMES}


@cost("CAN_DO, CAN_DO_TIMEOUT, CANT_DO of a worker with one function", NOTHING, crowd)
def abilities(script):
    for name in named(b"other", range(TIMES)):
        script.send(IDLER, packet(CAN_DO, name), packet(CANT_DO, name), packet(CAN_DO_TIMEOUT, name, b"9"), packet(CANT_DO, name))
    return {}


@cost("CAN_DO of a worker with many functions", NOTHING, crowd)
def one_more_ability(script):
    script.send(OTHER, *(packet(CAN_DO, name) for name in named(b"another", range(TIMES))))
    return {}


def submitters(size):
    """Clients each of which submitted so many jobs in the background."""
    script = Script(size)
    for _ in range(TIMES // 4):
        script.submit(script.open(), SUBMIT_JOB_BG, b"f", size)
    return script


@cost("the closing of a client whose jobs are in the background", NOTHING, submitters, counts_lines=True)
def leaves_background_jobs(script):
    for slot in range(TIMES // 4):
        script.close(slot)
    return {}


@cost("an opening, and the closing of a connection without jobs", NOTHING, lambda size: crowd(size, sleepers=False), counts_lines=True)
def comes_and_goes(script):
    for _ in range(TIMES):
        script.close(script.open())
    return {}


@cost("an opening, and the closing of a worker with one job, which waits again", NOTHING, crowd)
def leaves_a_job(script):
    script.submit(CLIENT, SUBMIT_JOB, b"single", 1)
    for _ in range(TIMES):
        slot = script.open()
        script.send(slot, packet(CAN_DO, b"single"), packet(GRAB_JOB))
        script.close(slot)
    return {JOB_CREATED: 1, JOB_ASSIGN: TIMES}


@cost("an opening, and the closing of a client that waits for one job", NOTHING, crowd)
def waits_no_more(script):
    for _ in range(TIMES):
        slot = script.open()
        script.submit(slot, SUBMIT_JOB, b"single", 1)
        script.close(slot)
    return {JOB_CREATED: TIMES}


@cost("a fault, and the closing", NOTHING, crowd)
def faults(script):
    for _ in range(TIMES):
        slot = script.open()
        script.send(slot, b"\0BAD" + bytes(8))
        script.close(slot)
    return {ERROR: TIMES}


@cost("a tick that reaches no deadline", NOTHING, lambda size: crowd(size, sleepers=False), counts_lines=True)
def ticks(script):
    for now in range(1, TIMES + 1):
        script.tick(now)
    return {}


### With a set-up of their own

def one_connection(size):
    """A connection, in slot 0."""
    script = Script(size)
    script.open()
    return script


def able(size):
    """A worker with as many functions."""
    script = one_connection(size)
    script.send(0, *(packet(CAN_DO, name) for name in named(b"f", range(size))))
    return script


def connected(size):
    """An eighth as many sleeping workers of `f`, and a client."""
    script = Script(size, ["--slots", "128"])
    for _ in range(size // 8):
        script.send(script.open(), packet(CAN_DO, b"f"), packet(PRE_SLEEP))
    script.open()
    return script


def listened(size, clients=1):
    """A job of a worker (0), to which each client (1 and up) listens as often as the size says."""
    script = one_connection(size)
    script.send(0, packet(CAN_DO, b"f"))
    for number in range(clients):
        slot = script.open()
        script.send(slot, packet(OPTION_REQ, b"exceptions"))
        script.join(slot, b"f", size, is_new=number == 0)
    script.grab(0, 1)
    return script


def taken(size, limit=None, options=()):
    """Jobs of a client (0), all of which a worker (1) has."""
    script = Script(size, options)
    script.submit(script.open(), SUBMIT_JOB, b"f", size)
    takes(script, limit)
    return script


def takes(script, limit=None, count=None):
    """Another worker takes so many jobs, or all."""
    slot = script.open()
    script.send(slot, packet(CAN_DO_TIMEOUT, b"f", b"%d" % limit) if limit else packet(CAN_DO, b"f"))
    script.grab(slot, count or script.size)


def taken_twice(size):
    """Jobs of which a quarter is due twice: their first worker went, within the second in which another took all."""
    script = one_connection(size)
    script.submit(0, SUBMIT_JOB, b"f", size)
    takes(script, 1, size // 4)
    script.close(1)
    takes(script, 1)
    return script


def lost(size):
    """Jobs whose last worker went."""
    script = taken(size, options=["--job-retries", "1"])
    script.close(1)
    return script


def shared(size):
    """As many waiting jobs, for each of which two clients (0 and 1) wait."""
    script = one_connection(size)
    script.submit(0, SUBMIT_JOB, b"f", size)
    script.jobs = 0
    script.submit(script.open(), SUBMIT_JOB, b"f", size)
    return script


def discarded(size):
    """A queue whose first jobs were discarded, and a worker (0)."""
    script = one_connection(size)
    script.send(0, packet(CAN_DO, b"f"))
    slot = script.open()
    script.submit(slot, SUBMIT_JOB, b"f", size)
    script.close(slot)
    script.submit(0, SUBMIT_JOB_BG, b"f", 1)
    return script


def sends(request, depends, setup, slot, *units, answers):
    """A line of requests whose answers depend on the size."""
    def tail(script):
        script.send(slot, *units)
        return answers(script.size)
    cost(request, depends, setup)(tail)


def closes(request, depends, setup, slot):
    """A line of a closing, which nobody is told."""
    def tail(script):
        script.close(slot)
        return {}
    cost(request, depends, setup)(tail)


@cost("ECHO_REQ, SUBMIT_JOB_BG", "its bytes", one_connection)
def long_packets(script):
    script.send(0, packet(ECHO_REQ, 100 * script.size * b"x"), packet(SUBMIT_JOB_BG, b"f", b"", 100 * script.size * b"x"))
    return {ECHO_RES: 1, JOB_CREATED: 1}


@cost("a packet that comes byte by byte", "its bytes", one_connection)
def byte_by_byte(script):
    for number in packet(ECHO_REQ, script.size * b"x"):
        script.send(0, bytes([number]))
    return {ECHO_RES: 1}


sends("`status`", "functions", able, 0, b"status\n", answers=lambda size: {None: size + 1})
sends("`workers`", "functions of the workers", able, 0, b"workers\n", answers=lambda size: {None: 2})
sends("`workers`", "connections", connected, 0, b"workers\n", answers=lambda size: {None: size // 8 + 2})
sends("`shutdown`", "connections", connected, 0, b"shutdown\n", answers=lambda size: {None: 1})
sends("PRE_SLEEP", "the worker's functions", able, 0, packet(PRE_SLEEP), answers=lambda size: {})
sends("GRAB_JOB", "the worker's functions", able, 0, packet(GRAB_JOB), answers=lambda size: {NO_JOB: 1})
sends("GRAB_JOB", "jobs of the queue that were discarded since the last grab", discarded, 0, packet(GRAB_JOB), packet(GRAB_JOB),
      answers=lambda size: {JOB_ASSIGN: 1, NO_JOB: 1})
sends("CANT_DO", "the worker's functions", able, 0, packet(CANT_DO, b"f0"), answers=lambda size: {})
sends("RESET_ABILITIES", "the worker's functions", able, 0, packet(RESET_ABILITIES), answers=lambda size: {})
sends("SUBMIT_JOB", "workers that it wakes", connected, 0, packet(SUBMIT_JOB, b"f", b"u", b""),
      answers=lambda size: {JOB_CREATED: 1, NOOP: size // 8})
for _kind, _more in ((WORK_STATUS, (b"1", b"2")), (WORK_DATA, (b"",)), (WORK_WARNING, (b"",)), (WORK_EXCEPTION, (b"",)),
                     (WORK_COMPLETE, (b"",)), (WORK_FAIL, ())):
    sends(REQUESTS[_kind][0], "submissions of the job, by all its clients", listened, 0, packet(_kind, b"H:gmd:1", *_more),
          answers=lambda size, kind=_kind: {kind: size})
closes("the closing of a client", "jobs that only it waits for", shared, 0)
closes("the closing of a client", "its submissions of a job for which others wait", lambda size: listened(size, 2), 2)
closes("the closing of a worker", "its functions", able, 0)
closes("the closing of a worker", "its jobs", taken, 1)
closes("the closing of a worker", "its jobs with a time limit", lambda size: taken(size, 1), 1)


def tick(request, depends, setup):
    """A line of a tick that ends all jobs."""
    def tail(script):
        script.tick(5)
        return {WORK_FAIL: script.size}
    cost(request, depends, setup, counts_lines=True)(tail)


tick("a tick", "jobs that reach their time limits", lambda size: taken(size, 1))
tick("a tick", "jobs that reach their time limits, some of them of two workers", taken_twice)
tick("a tick", "jobs whose last worker was lost", lost)
