"""The same requests at gmd with --as-gearmand and at gearmand: after each step both have answered the same at each connection. Three
clients and three workers are played with fixed seeds. A step that leads to a known difference isn't made: RULES names each by its trial."""
import collections
import contextlib
import random

from loopback import (CAN_DO, CAN_DO_TIMEOUT, CANT_DO, ECHO_REQ, ECHO_RES, ERROR, GET_STATUS, GRAB_JOB, GRAB_JOB_ALL, GRAB_JOB_UNIQ,
                      JOB_ASSIGN, JOB_ASSIGN_UNIQ, JOB_CREATED, NOOP, OPTION_REQ, PRE_SLEEP, RESET_ABILITIES, SUBMIT_JOB, SUBMIT_JOB_BG,
                      SUBMIT_JOB_HIGH, SUBMIT_JOB_HIGH_BG, SUBMIT_JOB_LOW, SUBMIT_JOB_LOW_BG, WORK_COMPLETE, WORK_DATA, WORK_EXCEPTION,
                      WORK_FAIL, WORK_STATUS, WORK_WARNING, Client)
from peering import SERVERS, of_function
from peers_differ import (abandoned_job_is_counted, adds_twice, jobs_of_lost_worker, leaves, numbers_of_status, sleeps_again,
                          takes_back_what_it_runs)
from peers_wire import one_priority_of_two_functions
from trials import Wrong

SEEDS, STEPS = range(14, 28), 60  # With these seeds each rule keeps out a step.
GRABS, ENDS = (GRAB_JOB, GRAB_JOB_UNIQ, GRAB_JOB_ALL), (WORK_COMPLETE, WORK_FAIL, WORK_EXCEPTION)
IN_BACKGROUND = (SUBMIT_JOB_BG, SUBMIT_JOB_HIGH_BG, SUBMIT_JOB_LOW_BG)
SUBMISSIONS = (SUBMIT_JOB, SUBMIT_JOB_HIGH, SUBMIT_JOB_LOW, *IN_BACKGROUND)
LEAVE = None  # In place of a type: the connection is closed, and another takes its place.
NOBODYS = b"H:nobody:1"


class Peer:
    """A connection to each server. A worker's functions are known, and whether it sleeps."""

    def __init__(self, ports):
        self.ports = ports
        self.begin()

    def begin(self):
        self.ends = {kind: Client(port) for kind, port in self.ports.items()}
        self.functions, self.sleeps = set(), False


class Job:
    """A live job, as far as the rules need it."""

    def __init__(self, function):
        self.function, self.clients, self.worker, self.has_numbers = function, [], None, False


class Play:
    """A sequence of steps. A job's number is that of its handle, in the order in which both servers made them."""

    def __init__(self, seed, ports):
        self.dice, self.ports = random.Random(seed), ports
        self.functions = [b"f%d" % seed, b"g%d" % seed]
        self.clients, self.workers = ([Peer(ports) for _ in range(3)] for _ in range(2))
        self.handles = {kind: [] for kind in SERVERS}
        self.jobs = {}

    def step(self):
        """A peer, a type, and the request's arguments, among which a job is its number."""
        roll = self.dice
        job = roll.choice([*self.jobs, NOBODYS])
        if roll.random() < 0.4:
            submission = roll.choice(self.functions), roll.choice([b"", b"a", b"b"]), b"a\0%d" % roll.randrange(99)
            return roll.choice(self.clients), *roll.choice([*((kind, *submission) for kind in SUBMISSIONS), (GET_STATUS, job),
                                                            (OPTION_REQ, b"exceptions"), (LEAVE,)])
        peer = roll.choice(self.workers)
        own = [number for number, one in self.jobs.items() if one.worker is peer]
        if roll.random() < (0.6 if own else 0.1):
            job = roll.choice(own or [job])
            return peer, *roll.choice([(WORK_DATA, job, b"part"), (WORK_WARNING, job, b""), *[(WORK_STATUS, job, b"1", b"2")] * 3,
                                       (WORK_COMPLETE, job, b"a\0b"), (WORK_FAIL, job), (WORK_EXCEPTION, job, b"boom")])
        first, second = self.functions
        function = first if (roll.random() < 0.9) == (peer is self.workers[0]) else second
        return peer, *roll.choice([(CAN_DO, function), (CAN_DO_TIMEOUT, function, b"0"), (CANT_DO, function), (RESET_ABILITIES,),
                                   (PRE_SLEEP,), *[(LEAVE,)] * 2, *((grab,) for grab in GRABS * 2)])

    def make(self, peer, request, *arguments):
        """Makes a step at both servers, and returns what its peer is answered."""
        for kind, end in peer.ends.items():
            if request is LEAVE:
                leaves(self.ports[kind], end)
            else:
                end.request(request, *(self.handles[kind][word] if isinstance(word, int) else word for word in arguments))
        if request is LEAVE:
            peer.begin()
        peers = [peer, *(other for other in self.clients + self.workers if other is not peer)]
        came = self.come(peers[:1], peers, peers)
        gmds, gearmands = ([self.told(kind, came[kind, one]) for one in peers] for kind in SERVERS)
        if gmds != gearmands:
            raise Wrong(f"at gmd {gmds}, at gearmand {gearmands}")
        return gmds[0][0]

    def come(self, *rounds):
        """What comes in some rounds of ECHO_REQ to peers. A NOOP may be behind the answer to the first one after its reason."""
        found = collections.defaultdict(list)
        for peers in rounds:
            ends = [(kind, peer) for peer in peers for kind in SERVERS]
            for kind, peer in ends:
                peer.ends[kind].request(ECHO_REQ, b"")
            for kind, peer in ends:
                while (answer := peer.ends[kind].answer())[0] != ECHO_RES:
                    found[kind, peer].append(answer)
        return found

    def told(self, kind, answers):
        """Answers without NOOPs, and how many of these there are."""
        return [self.named(kind, *answer) for answer in answers if answer[0] != NOOP], sum(answer[0] == NOOP for answer in answers)

    def named(self, kind, answer, *arguments):
        """An answer with a job's number for its handle. An error has its code, in small letters, and a failure its handle alone."""
        if answer == ERROR:
            return answer, arguments[0].lower()
        handles = self.handles[kind]
        if answer == JOB_CREATED and arguments[0] not in handles:
            handles.append(arguments[0])
        job = handles.index(arguments[0]) if arguments[0] in handles else arguments[0]
        return (answer, job) if answer == WORK_FAIL else (answer, job, *arguments[1:])

    def follow(self, peer, request, arguments, answers):
        """What is known after a step."""
        refused = answers and answers[0][0] == ERROR
        number = answers[0][1] if answers and not refused else arguments[0] if arguments else None
        if request in SUBMISSIONS and not refused:
            self.jobs.setdefault(number, Job(arguments[0])).clients += [] if request in IN_BACKGROUND else [peer]
        elif request in GRABS:
            peer.sleeps = False
            if answers[0][0] in (JOB_ASSIGN, JOB_ASSIGN_UNIQ):
                self.jobs[number].worker = peer
        elif request in ENDS and not refused:
            del self.jobs[number]
        elif request == WORK_STATUS and not refused:
            self.jobs[number].has_numbers = True
        elif request in (CAN_DO, CAN_DO_TIMEOUT):
            peer.functions.add(arguments[0])
        elif request == CANT_DO:
            peer.functions.discard(arguments[0])
        elif request == RESET_ABILITIES:
            peer.functions.clear()
        elif request == PRE_SLEEP:
            peer.sleeps = True
        elif request is LEAVE:
            for job in self.of(peer):
                job.worker = None

    def of(self, worker):
        return [job for job in self.jobs.values() if job.worker is worker]

    def queues(self):
        """What `status` says, the same at both."""
        gmds, gearmands = ([of_function(self.clients[0].ends[kind], name.decode()) for name in self.functions] for kind in SERVERS)
        if gmds != gearmands:
            raise Wrong(f"status at gmd {gmds}, at gearmand {gearmands}")


# A known difference, by the trial that shows it, and which steps lead to it.
RULES = (
    (one_priority_of_two_functions, lambda play, peer, request, *_: request in GRABS
     and len({job.function for job in play.jobs.values() if job.worker is None} & peer.functions) > 1),
    (abandoned_job_is_counted, lambda play, peer, request, *_: request is LEAVE and any(peer in job.clients for job in play.jobs.values())),
    (takes_back_what_it_runs, lambda play, peer, request, *names: request in (CANT_DO, RESET_ABILITIES)
     and any(job.function in (names or [job.function]) for job in play.of(peer))),
    (jobs_of_lost_worker, lambda play, peer, request, *_: request is LEAVE and len(play.of(peer)) > 1),
    (numbers_of_status, lambda play, peer, request, *_: request is LEAVE and any(job.has_numbers for job in play.of(peer))),
    (adds_twice, lambda play, peer, request, *names: request in (CAN_DO, CAN_DO_TIMEOUT) and names[0] in peer.functions),
    (sleeps_again, lambda _, peer, request, *__: peer.sleeps and request not in (*GRABS, LEAVE)),
)


def same_requests():
    """All seeds. Each rule has to have kept out a step."""
    kept_out = collections.Counter()
    with contextlib.ExitStack() as stack:
        ports = {kind: stack.enter_context(server()) for kind, server in SERVERS.items()}
        for seed in SEEDS:
            play, made = Play(seed, ports), []
            while len(made) < STEPS:
                step = play.step()
                if rule := next((trial for trial, leads in RULES if leads(play, *step)), None):
                    kept_out[rule.__name__] += 1
                    continue
                peer, request, *arguments = step
                made.append(((play.clients + play.workers).index(peer), request, *arguments))
                try:
                    play.follow(peer, request, arguments, play.make(*step))
                    if len(made) == STEPS:
                        play.queues()
                except (Wrong, OSError, EOFError) as error:
                    raise Wrong(f"seed {seed}, steps {made}: {error!r}") from error
    if idle := {trial.__name__ for trial, _ in RULES} - set(kept_out):
        raise Wrong(f"no step meets the rules {idle}")
    return f"{len(SEEDS) * STEPS} steps, and {sum(kept_out.values())} that lead to known differences weren't made"
