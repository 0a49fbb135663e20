"""The table in a file of SQLite, for one machine. Each time in it is by that machine's clock, in UTC."""
import contextlib
import os
import pathlib
import secrets
import select
import sqlite3
import time

from rows import MANY_LOSSES, MAX_LOSS_DOUBLINGS, Row, unique_of
from schema import COLUMNS, NEXT_CLAIM, SIZES, SQLITE_NOW, WrongHome, check_version

# Seconds, between which it looks whether another connection changed the file; and for which it waits for another one that writes.
LOOK, BUSY = 0.05, 10
DUE = "coalesce(retry_at, run_at)"
# How many variables a statement may have in any SQLite.
MAX_VARIABLES = 500


def later(seconds="?"):
    """The time in so many seconds, as text."""
    return f"strftime('%Y-%m-%d %H:%M:%f', 'now', {seconds} || ' seconds')"


SIZE = "CASE typeof(data) WHEN 'blob' THEN length(data) ELSE length(CAST(data AS BLOB)) END"
NEXT_PAIR = """
SELECT function, priority FROM gearman_jobs WHERE state = 'waiting' AND (function, priority) > (CAST(? AS TEXT), CAST(? AS TEXT))
ORDER BY function, priority LIMIT 1"""
FIND = f"""
SELECT id, {SIZE} FROM gearman_jobs WHERE state = 'waiting' AND function = CAST(? AS TEXT) AND priority = ? AND {DUE} <= {SQLITE_NOW}
ORDER BY {DUE}, id LIMIT ?"""
TAKE = f"""
UPDATE gearman_jobs SET state = 'running', claims = {NEXT_CLAIM}, holder = ?, claimed_at = {SQLITE_NOW}, lease = {later()} WHERE id = ?
RETURNING id, claims, function, unique_id, priority, CAST(attempts AS INTEGER), CAST(losses AS INTEGER), max_attempts,
    CASE WHEN {SIZE} <= ? THEN CAST(data AS BLOB) END, {SIZE}, {DUE}"""
WRITE = f"""
UPDATE gearman_jobs SET state = :state, attempts = attempts + :counted, losses = losses + :lost, result = :result,
    error = CASE WHEN :state = 'done' THEN NULL ELSE coalesce(:error, error) END,
    retry_at = CASE WHEN :delay IS NULL THEN retry_at ELSE {later(":delay")} END,
    ended_at = CASE WHEN :state <> 'waiting' THEN {SQLITE_NOW} END, holder = NULL, lease = NULL, server = NULL, handle = NULL
WHERE id = :id AND claims = :claims AND state = 'running'
RETURNING id, claims, coalesce((julianday('now') - julianday(max(run_at, created_at))) * 86400, 0)"""
RENEW = f"""
UPDATE gearman_jobs SET lease = {later()}, server = ?, handle = ? WHERE id = ? AND claims = ? AND state = 'running' RETURNING id"""
FREE = f"""
UPDATE gearman_jobs SET state = 'waiting', losses = losses + 1, holder = NULL, lease = NULL, server = NULL, handle = NULL,
    error = 'the lease ended: its gmd-table went',
    retry_at = CASE WHEN losses >= {MANY_LOSSES} THEN {later(f"(1 << min(losses - {MANY_LOSSES}, {MAX_LOSS_DOUBLINGS}))")} ELSE retry_at END
WHERE id IN (SELECT id FROM gearman_jobs WHERE state = 'running' AND lease < {SQLITE_NOW} ORDER BY lease LIMIT 1000)"""


def text(value):
    return value.decode(errors="backslashreplace") if isinstance(value, bytes) else value


class SQLite:
    """The table, over one connection, which one thread has."""
    errors = (sqlite3.Error,)

    def __init__(self, path, options=None):
        self.path, self.options = path, options
        self.connection = None
        self.identity = None
        self.version = None  # of the file, which changes when another connection writes it
        self.was_locked = False  # when ended leases were looked for last

    def open(self):
        """Opens the file, which has to be there."""
        if self.connection:
            return
        # No file is made where there is none.
        self.connection = sqlite3.connect(f"file:{self.quoted()}?mode=rw", uri=True, timeout=BUSY, isolation_level=None)
        # Text may be no UTF-8.
        self.connection.text_factory = bytes
        try:
            self.check_schema()
            if self.options:
                self.check_home()
        except BaseException:
            self.close()
            raise

    def quoted(self):
        return "".join(f"%{ord(letter):02x}" if letter in "%?#" else letter for letter in self.path)

    def close(self):
        """Leaves the file. The next `open` opens it again."""
        if self.connection:
            self.connection.close()
        self.connection = None

    def ask(self, statement, values=()):
        """The rows of a statement's answer, or how many it changed."""
        cursor = self.connection.execute(statement, values)
        return cursor.fetchall() if cursor.description else cursor.rowcount

    @contextlib.contextmanager
    def writing(self):
        """A transaction that has the file to itself from its first statement on."""
        self.connection.execute("BEGIN IMMEDIATE")
        try:
            yield
            self.connection.execute("COMMIT")
        except BaseException:
            with contextlib.suppress(sqlite3.Error):
                self.connection.execute("ROLLBACK")
            raise

    def check_schema(self):
        """Whether the table is one that this program can use."""
        [[count]] = self.ask("SELECT count(*) FROM sqlite_master WHERE name IN ('gearman_jobs', 'gearman_jobs_version')")
        check_version(self.ask("SELECT max(version) FROM gearman_jobs_version")[0][0] if count == 2 else None, "sqlite")

    def home(self):
        """Where the file is: two files have two paths, or are on two machines."""
        machine = pathlib.Path("/etc/machine-id")
        return f"{machine.read_text(encoding='ascii').strip() if machine.exists() else ''}:{os.path.realpath(self.path)}"

    def check_home(self):
        """Whether the file is where the table got its identity, which the first gmd-table makes: a copy made before has none yet."""
        if not self.ask("SELECT 1 FROM gearman_jobs_identity"):
            self.identify(None)
        [[identity, home]] = self.ask("SELECT identity, home FROM gearman_jobs_identity")
        self.identity = identity.decode()
        if home.decode() != self.home():
            raise WrongHome

    def is_of_row(self, error):
        """Whether a row may be at fault, and not the database."""
        return isinstance(error, (sqlite3.DataError, sqlite3.IntegrityError, sqlite3.ProgrammingError))

    ### What `run` does

    def pairs(self):
        """The functions and priorities of rows that wait."""
        found = []
        while last := self.ask(NEXT_PAIR, found[-1] if found else (b"", b"")):
            found += last
        return [(function, priority.decode()) for function, priority in found]

    def claim(self, priority, rooms, max_bytes):
        """Takes rows of this priority that are due: of each function at most this many, with at most this many bytes in all, or one."""
        taken, max_data = [], self.options.max_data
        with self.writing():
            found = [row for function, room in rooms.items() for row in self.ask(FIND, (function, priority, room))]
            for id_, size in found:
                max_bytes -= size if size <= max_data else 0
                if max_bytes < 0 and taken:
                    break
                taken += self.ask(TAKE, (self.options.holder, str(self.options.lease), id_, max_data))
        return [Row(id_, claims, function, unique_of(unique or b"", self.identity, id_), level.decode(), attempts, losses, most, data,
                    size, due)
                for id_, claims, function, unique, level, attempts, losses, most, data, size, due in taken]

    def write(self, outcomes):
        """Writes what became of rows. The claims that this gmd-table still had, with their seconds since they were due, and those that are
        locked, which are none: a lock is on the whole file."""
        with self.writing():
            return {(id_, claims): seconds for out in outcomes for id_, claims, seconds in self.ask(
                WRITE, {**vars(out), "id": out.row.id, "claims": out.row.claims})}, set()

    def renew(self, rows):
        """Renews leases. The claims that this gmd-table still had, and those that are locked, which are none."""
        with self.writing():
            return {row.claim for row in rows if self.ask(RENEW, (
                str(self.options.lease), row.server, row.handle.decode(errors="backslashreplace"), row.id, row.claims))}, set()

    def free(self):
        """Has rows wait again whose leases ended. It doesn't wait for the file's lock: who has these rows may wait for it too, to renew their
        leases. Where it was locked, they have until the next look."""
        if not self.ask(f"SELECT 1 FROM gearman_jobs WHERE state = 'running' AND lease < {SQLITE_NOW} LIMIT 1"):
            return 0
        self.ask("PRAGMA busy_timeout = 0")
        try:
            with self.writing():
                was_locked, self.was_locked = self.was_locked, False
                return 0 if was_locked else self.ask(FREE)
        except sqlite3.OperationalError as error:
            if "locked" not in str(error):
                raise
            self.was_locked = True
            return 0
        finally:
            self.ask(f"PRAGMA busy_timeout = {BUSY * 1000}")

    def wait(self, bell, seconds):
        """Waits until the bell rings or another connection wrote the file. Whether one did."""
        end = time.monotonic() + seconds
        while True:
            [[version]] = self.ask("PRAGMA data_version")
            has_new, self.version = version != self.version, version
            left = end - time.monotonic()
            if has_new or left <= 0 or select.select([bell], [], [], min(LOOK, left))[0]:
                return has_new

    ### What the other commands do

    def counts(self):
        """How many rows there are of each function and state."""
        return [(text(function), text(state), count) for function, state, count in self.ask(
            "SELECT function, state, count(*) FROM gearman_jobs GROUP BY function, state ORDER BY function, state")]

    def oldest(self):
        """For how many seconds the oldest row has been due that waits."""
        [[seconds]] = self.ask(f"""SELECT (julianday('now') - julianday(min({DUE}))) * 86400 FROM gearman_jobs
            WHERE state = 'waiting' AND {DUE} <= {SQLITE_NOW}""")
        return seconds or 0.0

    def rows(self, state, function, most):
        """The last rows, by their columns' names: perhaps only those of a state or a function."""
        found = self.ask(f"""SELECT {", ".join(COLUMNS)}, {SIZE}, length(result) FROM gearman_jobs
            WHERE (:state IS NULL OR state = :state) AND (:function IS NULL OR function = :function)
            ORDER BY id DESC LIMIT :most""", {"state": state, "function": function, "most": most})
        return [dict(zip(COLUMNS + SIZES, map(text, row))) for row in found]

    def answers(self, statement, ids):
        """The ids that a statement answers of these."""
        found = set()
        with self.writing():
            for begin in range(0, len(ids), MAX_VARIABLES):
                some = ids[begin : begin + MAX_VARIABLES]
                found |= {id_ for [id_] in self.ask(statement.replace("IDS", ", ".join("?" * len(some))), some)}
        return found

    def retry(self, ids, is_now):
        """Has failed rows, and those that wait for another attempt, be due now, though those whose time is to come only if this says so.
        The ids of those."""
        return self.answers(f"""
            UPDATE gearman_jobs SET state = 'waiting', attempts = 0, losses = 0, ended_at = NULL,
            retry_at = CASE WHEN run_at > {SQLITE_NOW} THEN {SQLITE_NOW} END
            WHERE id IN (IDS) AND state IN ('failed', 'waiting') AND ({int(is_now)} OR run_at <= {SQLITE_NOW}) RETURNING id""", ids)

    def early(self, ids):
        """The ids of the rows, of these, that `retry` leaves because their time is to come."""
        return self.answers(
            f"SELECT id FROM gearman_jobs WHERE id IN (IDS) AND state IN ('failed', 'waiting') AND run_at > {SQLITE_NOW}", ids)

    def cancel(self, ids):
        """Has rows fail that wait or run. The ids of those."""
        return self.answers(f"""
            UPDATE gearman_jobs SET state = 'failed', error = 'cancelled', ended_at = {SQLITE_NOW}, holder = NULL, lease = NULL,
            server = NULL, handle = NULL WHERE id IN (IDS) AND state IN ('waiting', 'running') RETURNING id""", ids)

    def identify(self, identity):
        """Has the table this identity, or keep its own if this is None, where it is now."""
        with self.writing():
            kept = self.ask("SELECT identity FROM gearman_jobs_identity")
            identity = identity or (kept[0][0].decode() if kept else secrets.token_hex(6))
            self.ask("DELETE FROM gearman_jobs_identity")
            self.ask("INSERT INTO gearman_jobs_identity VALUES (?, ?)", (identity, self.home()))
        return identity

    def last_of_next(self, last, count):
        """The last id of so many rows after this one, or None."""
        return self.ask("SELECT max(id) FROM (SELECT id FROM gearman_jobs WHERE id > ? ORDER BY id LIMIT ?)", (last, count))[0][0]

    def purge(self, before, last, days, states):
        """Deletes rows of these states, after an id and up to another, that ended so many days ago. How many."""
        return self.ask(f"""DELETE FROM gearman_jobs WHERE id > ? AND id <= ? AND state IN ({", ".join("?" * len(states))})
            AND ended_at < {later()}""", [before, last, *states, f"-{days * 86_400}"])
