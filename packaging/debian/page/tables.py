"""Asks a gmd-table for its numbers, which `gmd-table run --metrics` serves, and remembers its last answer."""
import collections
import math
import re

from gmd_metrics import MAX_LINE, Away, Server, cut_line, printable, reason_of, shown
from watch import Poller

STATES = ("waiting", "running", "done", "failed")
# What the page has of a gmd-table, by the names of its numbers.
VALUES = ("claims_total", "done_total", "failed_total", "attempts_failed_total", "returned_total", "on_the_way", "database_up",
          "oldest_due_seconds")
# The functions of all tables together. A name has 512 bytes, of which each is shown by four signs at most.
MAX_FUNCTIONS, MAX_SHOWN_NAME = 16_384, 2048
# gmd-table takes no more servers, and has fewer buckets.
MAX_SERVERS = MAX_BUCKETS = 64
# Numbers of this length have no surprises, such as NaN, infinity, or a thousand digits.
SAMPLE = re.compile(rb"gearman_table_(\w+)(?:\{(.*)\})? ([0-9]{1,15}(?:\.[0-9]{1,9})?)", re.S)
LABEL = re.compile(rb'(\w+)="((?:[^"\\]|\\.)*)"', re.S)
BOUND = re.compile(rb"[0-9]{1,9}(?:\.[0-9]{1,6})?")
# What a gmd-table answered: values by name, the rows of each function by state, whether each server answers it, how many rows were done
# within so many seconds, how many lines weren't read, and why it didn't answer.
Table = collections.namedtuple("Table", "values functions servers buckets left failure")


class Reader:
    """What the lines of an answer say."""

    def __init__(self, max_functions):
        self.max_functions, self.left = max_functions, 0
        self.values, self.functions, self.servers, self.buckets = {}, {}, {}, {}

    def take(self, line):
        """Takes a line. Those of other names are nothing that the page has."""
        if not line.startswith(b"gearman_table_"):
            return
        found = SAMPLE.fullmatch(line) if len(line) < MAX_LINE else None
        if not found:
            self.left += 1
            return
        name, value = found[1].decode(), float(found[3]) if b"." in found[3] else int(found[3])
        labels = {label: re.sub(rb"\\(.)", unescaped, text, flags=re.S) for label, text in LABEL.findall(found[2] or b"")}
        if name == "rows":
            self.take_rows(shown(labels.get(b"function", b"")), shown(labels.get(b"state", b"")), int(value))
        elif name == "server_up" and len(self.servers) < MAX_SERVERS:
            self.servers[shown(labels.get(b"server", b""))] = value != 0
        elif name == "seconds_bucket" and len(self.buckets) < MAX_BUCKETS:
            bound = labels.get(b"le", b"")
            self.buckets[float(bound) if BOUND.fullmatch(bound) else math.inf] = value
        elif name in VALUES:
            self.values[name] = value

    def take_rows(self, function, state, count):
        """Adds rows of a function. Names that are shown as equal are added up."""
        is_known = function in self.functions
        if state not in STATES or len(function) > MAX_SHOWN_NAME or not is_known and len(self.functions) >= self.max_functions:
            self.left += 1
            return
        self.functions.setdefault(function, dict.fromkeys(STATES, 0))[state] += count


def unescaped(found):
    """The sign that a backslash and a letter stand for in a label."""
    return b"\n" if found[1] == b"n" else found[1]


def begin_of_body(server):
    """Asks for the numbers. The bytes of them that have come with the head of the answer, and how many there are in all."""
    server.socket.sendall(b"GET /metrics HTTP/1.0\r\n\r\n")
    # Another server may wait for more behind its first words.
    while b"\r\n\r\n" not in server.came and len(server.came) < MAX_LINE and server.came.startswith(b"HTTP/"[:len(server.came)]):
        server.read()
    head, _, begun = bytes(server.came).partition(b"\r\n\r\n")
    line, _, headers = head.partition(b"\r\n")
    size = re.search(rb"^content-length: *([0-9]{1,12})\r?$", headers, re.I | re.M)
    if not re.match(rb"HTTP/1\.[01] 200\b", line) or not size:
        raise Away(f"this is no gmd-table: it says {line[:60].decode(errors='backslashreplace')!r}")
    return begun, int(size[1])


def lines_of(server, begun, size):
    """The lines of a body of this size that begins so. They are handed on as they arrive, so that a long body takes no memory."""
    line, piece, left = b"", begun, size
    while True:
        left -= len(piece)
        *ended, last = piece.split(b"\n")
        for end in ended:
            yield cut_line(line + end)[0]
            line = b""
        line = cut_line(line + last)[0]
        if left <= 0:
            return
        piece = server.piece()


def ask_table(target, seconds, max_functions):
    """What a gmd-table answers."""
    reader = Reader(max_functions)
    try:
        server = Server((target.host, target.port), seconds)
        with server.socket:
            for line in lines_of(server, *begin_of_body(server)):
                reader.take(line)
        if "done_total" not in reader.values:
            raise Away("this is no gmd-table: it doesn't say how many rows were done")
        return Table(reader.values, reader.functions, reader.servers, reader.buckets, reader.left, None)
    except (ConnectionResetError, BrokenPipeError):
        return no_answer("it closes the connection before its answer is whole")
    except (OSError, Away, UnicodeError) as error:
        return no_answer(printable(reason_of(error, seconds)))


def no_answer(failure):
    """What is known of a gmd-table that doesn't answer."""
    return Table({}, {}, {}, {}, 0, failure)


def done_within(buckets, part):
    """Within how many seconds this part of the rows was done: the bound of the bucket that has the last of them. None if no row was done."""
    total = max(buckets.values(), default=0)
    return min(bound for bound, count in buckets.items() if count >= part * total) if total else None


class TableWatch(Poller):
    """A gmd-table that is asked."""

    def ask(self):
        """Asks it once."""
        return ask_table(self.target, self.options.seconds, MAX_FUNCTIONS // len(self.options.tables))

    def failed(self, failure):
        """What is known of it if asking failed."""
        return no_answer(failure)

    def take(self, answer, now):
        """Remembers an answer. If a total fell, another process answers."""
        before = self.answer
        self.see_begin(answer, before is not None and not answer.failure and any(
            before.values.get(name, 0) > answer.values.get(name, 0) for name in ("claims_total", "done_total")))
        self.answer, self.polled_at = answer, now

    def trouble(self):
        """What is wrong with it, or nothing."""
        answer = self.answer
        if answer is None or answer.failure:
            return answer.failure if answer else ""
        if answer.values.get("database_up") == 0:
            return "Its database doesn't answer."
        return "None of its servers answers." if answer.servers and not any(answer.servers.values()) else ""
