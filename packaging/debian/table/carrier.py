"""The thread that talks to the servers: it submits rows as foreground jobs, and hears what becomes of them."""
import collections
import itertools
import selectors
import socket
import struct
import time

from bell import Bell, say
from rows import done, failed, lost, returned, text_of

SUBMIT = {"high": 21, "normal": 7, "low": 33}
JOB_CREATED, WORK_COMPLETE, WORK_FAIL, ECHO_REQ, ECHO_RES, ERROR = 8, 13, 14, 16, 17, 19
WORK_EXCEPTION, OPTION_REQ, OPTION_RES, WORK_DATA, WORK_WARNING = 25, 26, 27, 28, 29
# Data from here on are sent from where they are, and not copied.
LONG = 1 << 16
# Bytes that are read and written at once.
PIECE, MOST_BUFFERS = 1 << 18, 64
# Seconds: for a connection to be made and answered; and between tries of a server that is away.
CONNECTING, RETRY_FIRST, RETRY_MOST = 5, 0.2, 5
# Errors of a server that are no fault of the row; and those after which no other attempt would be taken.
NOT_NOW, FOR_EVER = (b"queue_full", b"no_numbers"), (b"packet_too_large", b"bad_function", b"bad_arguments", b"argument_too_large")


class Gone(Exception):
    """A server is away, and why."""


def packet(kind, data):
    return struct.pack(">4sII", b"\0REQ", kind, len(data)) + data


def head_of(row):
    """What comes before the data in a row's packet."""
    return row.function + b"\0" + row.unique + b"\0"


class Link:
    """A server, and the connection to it."""

    def __init__(self, address, carrier):
        self.address, self.carrier = address, carrier
        self.name = f"[{address[0]}]:{address[1]}" if ":" in address[0] else f"{address[0]}:{address[1]}"
        self.socket, self.is_up = None, False
        self.reason, self.pause, self.next_try = None, RETRY_FIRST, 0.0
        self.forget()

    def forget(self):
        """Is as before a connection."""
        self.out, self.came = collections.deque(), bytearray()
        # Bytes that were given to this connection, and those of them that weren't sent.
        self.queued = self.unsent = 0
        # What the server has to answer, in this order: rows, and None for an option or an echo. Its jobs' rows by their handles, each as
        # often as it was submitted.
        self.unanswered, self.jobs = collections.deque(), {}
        self.of_function = collections.Counter()
        # When it last took or sent bytes, and when the first was asked of what it hasn't answered.
        self.moved = self.asked = 0.0
        self.mask, self.is_refused = 0, False

    ### The connection

    def connect(self):
        """Begins a connection. It is up once an answer comes: a server that has no free slot closes it without one."""
        now = time.monotonic()
        self.next_try = now + self.pause
        self.pause = min(self.pause * 2, RETRY_MOST)
        self.forget()
        self.moved = now
        try:
            family, kind, protocol, _, address = socket.getaddrinfo(*self.address, type=socket.SOCK_STREAM)[0]
            self.socket = socket.socket(family, kind, protocol)
            self.socket.setblocking(False)
            self.socket.setsockopt(socket.IPPROTO_TCP, socket.TCP_NODELAY, 1)
            self.socket.setsockopt(socket.SOL_SOCKET, socket.SO_KEEPALIVE, 1)
            self.socket.connect_ex(address)
        except OSError as error:
            self.lose(error.strerror or str(error))
            return
        self.mask = selectors.EVENT_READ | selectors.EVENT_WRITE
        self.carrier.selector.register(self.socket, self.mask, self)
        self.ask(None, packet(OPTION_REQ, b"exceptions"))

    def lose(self, reason, is_cut=False):
        """The server is away. Its rows come back at once. If it was cut, one of them may be the reason: that whose bytes were being sent,
        for which this counts as an attempt, or the first that it hadn't answered, for which it counts as a loss."""
        if self.socket:
            if self.socket.fileno() in self.carrier.selector.get_map():
                self.carrier.selector.unregister(self.socket)
            self.socket.close()
        self.socket = None
        if not self.reason:
            say(f"{self.name}: {reason}; it is tried again")
        self.reason = self.reason or reason
        unanswered = [row for row in self.unanswered if row]
        rows = unanswered + [row for rows in self.jobs.values() for row in rows]
        being_sent = [row for row in unanswered if row.begin < self.queued - self.unsent < row.end]
        suspect = (being_sent or unanswered or [None])[0] if is_cut and not self.is_refused else None
        error = f"{self.name}: {reason}"
        self.is_up = False
        self.carrier.unsent -= self.unsent
        self.forget()
        for row in rows:
            if row.is_ended:
                continue
            if row is not suspect:
                self.carrier.end(returned(row, error))
            elif being_sent:
                self.carrier.end(failed(row, error, self.carrier.options.delays))
            else:
                self.carrier.end(lost(row, error))

    def ask(self, row, *pieces):
        """Queues a packet that the server answers: a row's, or another."""
        if not self.unanswered:
            self.asked = time.monotonic()
        self.unanswered.append(row)
        size = sum(map(len, pieces))
        if row:
            row.begin, row.end = self.queued, self.queued + size
        self.out.extend(map(memoryview, pieces))
        self.queued += size
        self.unsent += size
        self.carrier.unsent += size

    def write(self):
        """Sends as much as the system takes."""
        while self.out:
            count = self.socket.sendmsg(itertools.islice(self.out, MOST_BUFFERS))
            self.unsent -= count
            self.carrier.unsent -= count
            while self.out and count >= len(self.out[0]):
                count -= len(self.out.popleft())
            if self.out:
                self.out[0] = self.out[0][count:]
                # The system's room was full, so the server took some.
                self.moved = time.monotonic()

    def read(self):
        """Takes packets that came."""
        piece = self.socket.recv(PIECE)
        if not piece:
            raise Gone("it closed the connection")
        self.moved = time.monotonic()
        self.came += piece
        begin = 0
        while len(self.came) >= begin + 12:
            magic, kind, size = struct.unpack_from(">4sII", self.came, begin)
            if magic != b"\0RES":
                raise Gone("it is no Gearman server")
            if len(self.came) < begin + 12 + size:
                break
            self.hear(kind, bytes(memoryview(self.came)[begin + 12 : begin + 12 + size]))
            begin += 12 + size
        del self.came[:begin]

    def serve(self, mask):
        """Goes on with the connection."""
        try:
            if mask & selectors.EVENT_READ:
                self.read()
            if self.socket and mask & selectors.EVENT_WRITE:
                self.write()
        except BlockingIOError:
            pass
        except Gone as error:
            self.lose(str(error), is_cut=True)
        except OSError as error:
            self.lose(error.strerror or str(error), is_cut=True)
        self.watch()

    def watch(self):
        """Has the selector say when more can be read, and sent if there is more."""
        mask = selectors.EVENT_READ | (selectors.EVENT_WRITE if self.out else 0)
        if self.socket and mask != self.mask:
            self.mask = mask
            self.carrier.selector.modify(self.socket, mask, self)

    def tick(self, now):
        """Tries a server that is away, and asks one that is silent. One that answers nothing and takes nothing is gone."""
        deaf = self.carrier.options.deaf
        if not self.socket:
            if now >= self.next_try and not self.carrier.is_stopping:
                self.connect()
        elif not self.is_up:
            if now > self.moved + CONNECTING:
                self.lose("it doesn't answer")
        elif self.unanswered and now > max(self.moved, self.asked) + deaf:
            self.lose(f"it has answered nothing for {deaf:g} seconds")
        elif not self.unanswered and now > self.moved + deaf / 3:
            self.ask(None, packet(ECHO_REQ, b"gmd-table"))
            self.watch()

    ### Jobs

    def submit(self, row):
        """Sends a row as a job."""
        row.server = self.name
        self.of_function[row.function] += 1
        head = head_of(row)
        size = len(head) + len(row.data)
        if len(row.data) < LONG:
            self.ask(row, packet(SUBMIT[row.priority], head + row.data))
        else:
            self.ask(row, struct.pack(">4sII", b"\0REQ", SUBMIT[row.priority], size) + head, row.data)
        row.data = None

    def hear(self, kind, data):
        """Takes a packet."""
        if kind in (OPTION_RES, ECHO_RES, JOB_CREATED, ERROR):
            if not self.unanswered:
                raise Gone(f"it answers what wasn't asked, by type {kind}")
            self.answered(self.unanswered.popleft(), kind, data)
        elif kind in (WORK_COMPLETE, WORK_FAIL, WORK_DATA, WORK_WARNING, WORK_EXCEPTION):
            handle, _, data = data.partition(b"\0")
            rows = self.jobs.get(handle)
            if not rows:
                raise Gone("it tells of a job that isn't this client's")
            self.reported(rows, handle, kind, data)

    def answered(self, row, kind, data):
        """Takes the answer to a row, or to an option or an echo."""
        if kind not in ((JOB_CREATED, ERROR) if row else (OPTION_RES, ECHO_RES, ERROR)):
            raise Gone(f"it answers by type {kind}")
        if not self.is_up:
            self.is_up, self.pause = True, RETRY_FIRST
            if self.reason:
                say(f"{self.name}: it answers")
            self.reason = None
            self.carrier.keeper.bell.ring()
        if kind == JOB_CREATED:
            row.handle = data
            self.jobs.setdefault(data, collections.deque()).append(row)
        elif row:
            self.leave(row)
            code, _, text = data.partition(b"\0")
            error = f"{self.name}: {text_of(code)}: {text_of(text)}"
            self.is_refused = code.lower() == b"packet_too_large"
            if code.lower().endswith(NOT_NOW):
                self.carrier.end(returned(row, error, delay=1.0))
            else:
                self.carrier.end(failed(row, error, self.carrier.options.delays, code.lower().endswith(FOR_EVER)))

    def leave(self, row):
        """A row isn't at this server any more."""
        self.of_function[row.function] -= 1
        if not self.of_function[row.function]:
            del self.of_function[row.function]

    def reported(self, rows, handle, kind, data):
        """What a worker says of a job. If rows joined as one job, each packet comes as often as there are rows."""
        if kind in (WORK_DATA, WORK_WARNING):
            # Each of the rows gets the next one of the same packets, in turn.
            row = rows[0]
            rows.rotate(-1)
            self.carrier.add(row, kind, data)
            return
        row = rows[0]
        if kind == WORK_EXCEPTION:
            # gmd ends a job only by a WORK_COMPLETE or WORK_FAIL, which may still come, or never.
            rows.rotate(-1)
        else:
            rows.popleft()
            if not rows:
                del self.jobs[handle]
            self.leave(row)
        if row.is_ended:
            return
        self.carrier.conclude(row, kind, data)


class Carrier:
    """All servers. Rows go to that with the fewest rows of their function on the way, and in turn where these are equal."""

    def __init__(self, options, keeper):
        self.options, self.keeper = options, keeper
        keeper.carrier = self
        self.bell, self.selector = Bell(), selectors.DefaultSelector()
        self.unsent = 0
        self.links = [Link(address, self) for address in options.servers]
        self.turn = 0
        self.is_stopping = False

    def is_ready(self):
        """Whether a server is there. The keeper calls it."""
        return any(link.is_up for link in self.links)

    def end(self, outcome):
        """Hands what became of a row to the keeper."""
        outcome.row.is_ended = True
        outcome.row.pieces = []
        self.keeper.end(outcome)

    def add(self, row, kind, data):
        """A worker's data, which come before its result, or its warning."""
        if row.is_ended:
            return
        if kind == WORK_WARNING:
            row.warning = data
        else:
            row.pieces.append(data)
            row.length += len(data)
            if row.length > self.options.max_data:
                self.end(failed(row, f"its result has over {self.options.max_data} bytes", self.options.delays, is_final=True))

    def conclude(self, row, kind, data):
        """A job's result, or its failure."""
        if kind == WORK_COMPLETE:
            result = b"".join([*row.pieces, data]) if row.pieces else data
            if len(result) > self.options.max_data:
                self.end(failed(row, f"its result has over {self.options.max_data} bytes", self.options.delays, is_final=True))
            else:
                self.end(done(row, result))
        else:
            text = text_of(data) or text_of(row.warning) or "the worker says no more"
            self.end(failed(row, f"{'an exception' if kind == WORK_EXCEPTION else 'the job failed'}: {text}", self.options.delays))

    def submit(self):
        """Hands out the rows that the keeper took."""
        while self.keeper.claimed:
            row = self.keeper.claimed.popleft()
            links = [link for link in self.links[self.turn :] + self.links[: self.turn] if link.is_up]
            if row.data is None or len(head_of(row)) + len(row.data) > self.options.max_data:
                self.end(failed(row, f"its packet has over {self.options.max_data} bytes", self.options.delays, is_final=True))
            elif not row.function or b"\0" in row.function + row.unique:
                self.end(failed(row, "no job has such a function or unique id", self.options.delays, is_final=True))
            elif not links:
                self.end(returned(row, "no server is there"))
            else:
                link = min(links, key=lambda link: link.of_function[row.function])
                link.submit(row)
                self.turn = (self.links.index(link) + 1) % len(self.links)
        for link in self.links:
            if link.is_up and link.out:
                link.serve(selectors.EVENT_WRITE)

    def round(self):
        """Waits for what comes, and goes on with it."""
        for key, mask in self.selector.select(0.2):
            if key.data:
                key.data.serve(mask)
        self.bell.answer()
        now = time.monotonic()
        for link in self.links:
            link.tick(now)
        self.submit()
        if self.keeper.lacks_space and self.unsent < self.options.memory // 2:
            self.keeper.bell.ring()

    def run(self, is_asked_to_stop):
        """Works until it is asked to stop. Then rows on the way get the time of --grace, and what is left then comes back."""
        self.selector.register(self.bell, selectors.EVENT_READ)
        while not self.keeper.has_stopped and not is_asked_to_stop():
            self.round()
        self.keeper.stop()
        end = time.monotonic() + self.options.grace
        while not self.keeper.has_stopped and time.monotonic() < end:
            self.round()
        self.is_stopping = True
        for link in self.links:
            if link.socket:
                link.reason = "gmd-table ends"
                link.lose("gmd-table ends")
        end = time.monotonic() + self.options.grace
        while not self.keeper.has_stopped and time.monotonic() < end:
            self.round()
