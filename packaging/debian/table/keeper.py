"""The thread that talks to the database: it takes rows that are due, renews their leases, and writes what became of them."""
import collections
import itertools
import select
import threading
import time

from bell import Bell, say
from rows import PRIORITIES, failed
from schema import SchemaError

# Rows on the way in all. Behind half of it, a function has one more only if it has none, so that functions whose rows stay on the way,
# because no worker can do them, keep no others from theirs.
MAX_ON_THE_WAY = 100_000
# Rows and bytes that are written at once.
MAX_WRITTEN, MAX_WRITTEN_BYTES = 1000, 16 << 20
# Seconds: between looks for ended leases; from a row's begin to the first renewal of its lease, which writes its server and handle too; and
# between tries of a database that is away.
FREE_EACH, FIRST_RENEWAL, RETRY_FIRST, RETRY_MOST = 1, 1, 0.1, 2
# Seconds: that few rows wait for others that are taken with them; after which a question without an answer has the database count as away;
# and as which a longer look for functions counts, because a database that was silent for a while isn't slow.
GATHERING, SILENCE, MAX_COST = 0.01, 5, 0.5


class Keeper(threading.Thread):
    """It owns the rows on the way. The carrier gets them by `claimed`, and gives back what became of them by `end`."""

    def __init__(self, store, options, numbers):
        super().__init__(name="keeper", daemon=True)
        self.store, self.options, self.numbers = store, options, numbers
        self.bell, self.carrier = Bell(), None
        self.on_the_way = {}  # by id
        self.of_function, self.bytes_of = collections.Counter(), collections.Counter()
        self.claimed, self.ended = collections.deque(), collections.deque()
        self.unwritten, self.held = collections.deque(), 0  # and about how many bytes these are
        self.pairs, self.pairs_read, self.pairs_cost = [], 0.0, 0.0
        self.has_new, self.gathers, self.lacks_space, self.last_claim = True, False, False, 0.0
        self.freed, self.failure, self.fault = 0.0, None, None
        self.asked = None  # when the question was put that has no answer yet
        self.has_opened = self.has_stopped = False
        self.is_stopping = False

    ### What the carrier calls

    def end(self, outcome):
        """Takes what became of a row."""
        self.ended.append(outcome)
        self.bell.ring()

    def stop(self):
        """Takes no more rows, and ends once all that are on the way were written."""
        self.is_stopping = True
        self.bell.ring()

    ### What the numbers call

    def is_answered(self):
        """Whether the database is there: it took the last question, and hasn't left it without an answer for long."""
        asked = self.asked
        return self.failure is None and (asked is None or time.monotonic() < asked + SILENCE)

    ### The thread

    def ask(self, question, *values):
        """The answer of the store."""
        self.asked = time.monotonic()
        try:
            return question(*values)
        finally:
            self.asked = None

    def run(self):
        """Works until it is asked to stop and all rows on the way were written. A database that is away is tried again, and so is one whose
        table was there and isn't any more."""
        pause = RETRY_FIRST
        try:
            while not (self.is_stopping and not self.on_the_way):
                try:
                    self.open()
                    self.work()
                    pause = RETRY_FIRST
                except (SchemaError, *self.store.errors) as error:
                    if isinstance(error, SchemaError) and not self.has_opened:
                        self.fault = str(error)
                        return
                    self.lose(error)
                    select.select([self.bell], [], [], pause)
                    time.sleep(pause / 4)
                    pause = min(pause * 2, RETRY_MOST)
        finally:
            self.store.close()
            self.has_stopped = True
            self.carrier.bell.ring()

    def open(self):
        """Connects where there is no connection. Others get time to renew their leases too, before they count as gone."""
        if self.store.connection:
            return
        self.ask(self.store.open)
        self.has_new = self.has_opened = True
        self.freed = time.monotonic() + self.options.lease / 2

    def lose(self, error):
        """The database is away, or refuses."""
        reason = (str(error).strip() or repr(error)).partition("\n")[0]
        if self.failure != reason:
            self.failure = reason
            say(f"the database: {reason}; it is tried again, and {len(self.on_the_way)} rows are on the way")
        self.store.close()

    def work(self):
        """One round."""
        self.bell.answer()
        has_more = self.write()
        self.renew()
        self.free()
        has_more = self.claim() or has_more
        if self.failure:
            say("the database answers")
            self.failure = None
        if not has_more and not self.ended:
            self.has_new |= self.store.wait(self.bell, GATHERING if self.gathers else self.options.poll)

    def write(self):
        """Writes what became of rows, one batch a round, so that leases are renewed and rows are taken in between. A row that another
        transaction has locked stays for a later round. Whether more can be written at once."""
        while self.ended:
            self.unwritten.append(self.ended.popleft())
            self.held += self.unwritten[-1].size()
        batch, size = [], 0
        for outcome in itertools.islice(self.unwritten, MAX_WRITTEN):
            batch.append(outcome)
            size += outcome.size()
            if size >= MAX_WRITTEN_BYTES:
                break
        if not batch:
            return False
        try:
            locked = self.settle(batch, *self.ask(self.store.write, batch))
        except self.store.errors as error:
            if not self.store.is_of_row(error):
                raise
            locked = sum(self.write_one() for _ in batch)
        return locked < len(batch) and bool(self.unwritten)

    def write_one(self):
        """Writes one outcome, where the database refuses one of several. A row whose outcome is refused fails. If that is refused too, its
        lease ends some day. How many were locked."""
        outcome = self.unwritten[0]
        try:
            return self.settle([outcome], *self.ask(self.store.write, [outcome]))
        except self.store.errors as error:
            if not self.store.is_of_row(error):
                raise
            reason = str(error).partition("\n")[0]
        say(f"row {outcome.row.id}: the database doesn't take what became of it: {reason}")
        try:
            failure = failed(outcome.row, f"the database doesn't take its result: {reason}", self.options.delays)
            written = self.ask(self.store.write, [failure])
        except self.store.errors as error:
            if not self.store.is_of_row(error):
                raise
            written = {}, set()
        return self.settle([outcome], *written)

    def settle(self, batch, written, locked):
        """Forgets the first rows of those that are to be written, because they were, or are another's by now. Those that were locked are
        the last from now on. How many these are."""
        for outcome in batch:
            self.unwritten.popleft()
            if outcome.row.claim in locked:
                self.unwritten.append(outcome)
            else:
                self.held -= outcome.size()
                self.forget(outcome.row)
                self.numbers.ended(outcome, written.get(outcome.row.claim))
        return len(locked)

    def forget(self, row):
        """A row isn't on the way any more."""
        # Another claim of the same row may have taken its place, where a lease ended.
        if self.on_the_way.get(row.id) is row:
            del self.on_the_way[row.id]
        self.of_function[row.function] -= 1
        self.bytes_of[row.function] -= row.size
        if not self.of_function[row.function]:
            del self.of_function[row.function], self.bytes_of[row.function]

    def renew(self):
        """Renews the leases that are a third over, and that of each row once when it has run for a second. One whose row another
        transaction has locked is tried again in the next round."""
        now, third = time.monotonic(), self.options.lease / 3
        rows = [row for row in self.on_the_way.values()
                if row.is_ours and now - row.renewed >= (third if row.renewed > row.claimed else min(FIRST_RENEWAL, third))]
        for begin in range(0, len(rows), MAX_WRITTEN):
            some = rows[begin : begin + MAX_WRITTEN]
            renewed, locked = self.ask(self.store.renew, some)
            for row in some:
                if row.claim not in locked:
                    row.renewed = now
                    row.is_ours = row.claim in renewed

    def free(self):
        """Has rows wait again whose leases ended: those of a gmd-table that went."""
        now = time.monotonic()
        if now >= self.freed + FREE_EACH:
            self.freed = now
            if count := self.ask(self.store.free):
                self.has_new = True
                self.numbers.freed += count

    def read_pairs(self):
        """Reads which functions and priorities have rows that wait, where that may have changed; where it takes long, less often."""
        now = time.monotonic()
        if now >= self.pairs_read + (10 * self.pairs_cost if self.has_new else max(self.options.poll, 10 * self.pairs_cost)):
            self.has_new = False
            found = self.ask(self.store.pairs)
            self.pairs_read = time.monotonic()
            self.pairs_cost = min(self.pairs_read - now, MAX_COST)
            # The functions take turns in being the first.
            begin = int(now * 1000) % len(found) if found else 0
            self.pairs = found[begin:] + found[:begin]

    def room(self, function):
        """How many more rows of a function may be on the way. Where these are few, they wait a moment for others, to be taken at once.
        Their data are in the servers' memory, so they have a bound too."""
        if self.bytes_of.get(function, 0) >= self.options.memory:
            return 0
        most = self.options.most if len(self.on_the_way) < MAX_ON_THE_WAY // 2 else 1
        room = most - self.of_function.get(function, 0)
        if 0 < room < most // 8 and time.monotonic() < self.last_claim + GATHERING:
            self.gathers = True
            return 0
        return max(room, 0)

    def claim(self):
        """Takes rows that are due, those of high priority first. Whether there may be more."""
        self.gathers = self.lacks_space = has_more = False
        if self.is_stopping or not self.carrier.is_ready():
            return False
        self.read_pairs()
        for priority in PRIORITIES:
            functions = [function for function, level in self.pairs if level == priority]
            rooms = {function: room for function in functions if (room := self.room(self.key(function)))}
            space = self.options.memory - self.carrier.unsent - self.held
            if not rooms or len(self.on_the_way) >= MAX_ON_THE_WAY:
                continue
            if space <= 0:
                self.lacks_space = True
                return False
            found = self.ask(self.store.claim, priority, rooms, space)
            self.last_claim = time.monotonic()
            self.take(found)
            taken = collections.Counter(row.function for row in found)
            # Where fewer came than there was room for, no more are due, unless their bytes were too many.
            over = {function for function, room in rooms.items() if taken[self.key(function)] < room}
            if sum(row.size for row in found) < space / 2:
                self.pairs = [pair for pair in self.pairs if pair[1] != priority or pair[0] not in over]
            has_more |= len(over) < len(rooms)
        return has_more and any(self.room(self.key(function)) for function, _ in self.pairs)

    @staticmethod
    def key(function):
        return function if isinstance(function, bytes) else function.encode()

    def take(self, rows):
        """Hands rows to the carrier, in the order in which they are due."""
        now = time.monotonic()
        for row in sorted(rows, key=lambda row: (row.due, row.id)):
            row.claimed = row.renewed = now
            self.on_the_way[row.id] = row
            self.of_function[row.function] += 1
            self.bytes_of[row.function] += row.size
            self.claimed.append(row)
        if rows:
            self.numbers.claimed += len(rows)
            self.carrier.bell.ring()
