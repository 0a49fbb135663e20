"""Rows on the way, and what became of them."""
import dataclasses
import random

PRIORITIES = ("high", "normal", "low")
# A text of a worker or a server is cut here.
MAX_ERROR = 1000
# The exponent of the last delay between attempts: behind it, all have the greatest delay.
MAX_DOUBLINGS = 32
# A row that was lost this often is given time, in case that it takes down each server or gmd-table: a second, which doubles up to a bound.
MANY_LOSSES, MAX_LOSS_DOUBLINGS = 5, 6


@dataclasses.dataclass(eq=False)
class Row:
    """A row that this gmd-table took."""
    id: int
    claims: int
    function: bytes
    unique: bytes  # the job's
    priority: str
    attempts: int
    losses: int
    max_attempts: int
    data: bytes  # None once it was sent, and where there are too many bytes
    size: int
    due: object  # its time, by which rows of a function and priority are in order
    claimed: float = 0.0  # by the clock of this process
    renewed: float = 0.0
    server: str = ""
    handle: bytes = b""
    warning: bytes = b""
    pieces: list = dataclasses.field(default_factory=list)  # what the worker sent before its result
    length: int = 0  # of the pieces
    begin: int = 0  # where its packet is in what is sent to its server
    end: int = 0
    is_ended: bool = False
    is_ours: bool = True  # until another one has the lease


    @property
    def claim(self):
        """What no other claim of any row has."""
        return self.id, self.claims


@dataclasses.dataclass(eq=False)
class Outcome:
    """What became of a row on the way, as it is written: its state, how many attempts failed or were lost, and when it is due again."""
    row: Row
    state: str
    counted: int = 0
    lost: int = 0
    result: bytes = None
    error: str = None
    delay: float = None

    def size(self):
        """About how many bytes the database gets."""
        return len(self.result or b"") + 200


def unique_of(unique, identity, id_):
    """A job's unique id: the row's own, or one that no row of another table has."""
    return unique if unique not in (b"", b"-") else b"table-%s-%d" % (identity.encode(), id_)


def text_of(data):
    """Bytes of a worker or a server as text that a database takes."""
    return data[:MAX_ERROR].decode(errors="backslashreplace").replace("\0", "\\0")


def done(row, result):
    return Outcome(row, "done", result=result)


def failed(row, error, delays, is_final=False):
    """An attempt failed. The next one comes after a time that doubles, up to a bound, of which chance takes up to half: rows that failed
    together don't come together again."""
    if is_final or row.attempts + 1 >= row.max_attempts:
        return Outcome(row, "failed", counted=1, error=error)
    first, most = delays
    delay = min(first * 2.0 ** min(row.attempts, MAX_DOUBLINGS), most)
    return Outcome(row, "waiting", counted=1, error=error, delay=delay * random.uniform(0.5, 1))


def lost(row, error):
    """The row comes back, and may be why its server went. This is no failed attempt, because most servers go for another reason."""
    delay = 2.0 ** min(row.losses - MANY_LOSSES, MAX_LOSS_DOUBLINGS) if row.losses >= MANY_LOSSES else None
    return Outcome(row, "waiting", lost=1, error=error, delay=delay)


def returned(row, error, delay=None):
    """The row comes back as it was, which counts as no attempt."""
    return Outcome(row, "waiting", error=error, delay=delay)
