"""The table in PostgreSQL. Each time in it is by the database's clock."""
import select

import psycopg2
import psycopg2.extras

from rows import MANY_LOSSES, MAX_LOSS_DOUBLINGS, Row, unique_of
from schema import COLUMNS, HOME, NEXT_CLAIM, SIZES, SchemaError, WrongHome, check_version

# Each statement goes by an index, also before the first statistics of a table exist.
SETTINGS = "; ".join(f"SET {name} = off" for name in ("enable_seqscan", "enable_bitmapscan", "enable_hashjoin", "enable_mergejoin",
                                                      "enable_sort", "jit"))
# An application may have inserted any number. One that has no greater one must not stop a statement, and with it all other rows.
MOST = (1 << 31) - 2
# A row is due when it says, and not before it is there.
SINCE = "greatest(job.run_at, job.created_at)"
# The different functions and priorities of rows that wait: for each, one look into the index.
PAIRS = """
WITH RECURSIVE pairs AS (
    (SELECT function, priority FROM gearman_jobs WHERE state = 'waiting' ORDER BY function, priority LIMIT 1)
    UNION ALL
    SELECT next.function, next.priority FROM pairs, LATERAL (
        SELECT function, priority FROM gearman_jobs WHERE state = 'waiting' AND (function, priority) > (pairs.function, pairs.priority)
        ORDER BY function, priority LIMIT 1) AS next)
SELECT function, priority FROM pairs"""
CLAIM = f"""
WITH picked AS MATERIALIZED (
    SELECT found.id, row_number() OVER (ORDER BY wanted.place, found.due, found.id) AS place,
        CASE WHEN found.size <= %(max_data)s THEN found.size ELSE 0 END AS size
    FROM unnest(%(functions)s::text[], %(rooms)s::integer[]) WITH ORDINALITY AS wanted (function, room, place), LATERAL (
        SELECT id, coalesce(retry_at, run_at) AS due, octet_length(data) AS size FROM gearman_jobs
        WHERE state = 'waiting' AND function = wanted.function AND priority = %(priority)s AND coalesce(retry_at, run_at) <= now()
        ORDER BY coalesce(retry_at, run_at), id LIMIT wanted.room FOR UPDATE SKIP LOCKED) AS found
), fitting AS (
    SELECT id FROM (SELECT id, place, sum(size) OVER (ORDER BY place) AS bytes FROM picked) AS sums
    WHERE bytes <= %(max_bytes)s OR place = 1
)
UPDATE gearman_jobs AS job SET state = 'running', claims = {NEXT_CLAIM}, holder = %(holder)s, claimed_at = now(),
    lease = now() + %(lease)s * interval '1 second'
FROM fitting WHERE job.id = fitting.id
RETURNING job.id, claims, function, unique_id, priority, attempts, losses, max_attempts,
    CASE WHEN octet_length(data) <= %(max_data)s THEN data END, octet_length(data),
    extract(epoch FROM coalesce(retry_at, run_at))::float8"""
# The rows of `new` that still are this gmd-table's, and that no other transaction has locked: a lock of the application on one row holds up
# no other row. The case compares columns of both sides. So rows are found by their ids alone: statistics may say that hardly any row is
# running, and then all rows would be read, and compared with all values.
OURS = "found.id = new.id AND CASE WHEN found.claims = new.claims THEN found.state = 'running' ELSE false END"
FREE_ROWS = f"LATERAL (SELECT id FROM gearman_jobs AS found WHERE {OURS} FOR NO KEY UPDATE SKIP LOCKED) AS free_row"
STILL_OURS = f"""
SELECT found.id, found.claims FROM gearman_jobs AS found, unnest(%s::bigint[], %s::bigint[]) AS new (id, claims) WHERE {OURS}"""
WRITE = f"""
UPDATE gearman_jobs AS job SET state = new.state, attempts = least(job.attempts, {MOST}) + new.counted,
    losses = least(job.losses, {MOST}) + new.lost, result = new.result,
    error = CASE WHEN new.state = 'done' THEN NULL ELSE coalesce(new.error, job.error) END,
    retry_at = CASE WHEN new.delay IS NULL THEN job.retry_at ELSE now() + new.delay * interval '1 second' END,
    ended_at = CASE WHEN new.state <> 'waiting' THEN now() END, holder = NULL, lease = NULL, server = NULL, handle = NULL
FROM (VALUES %s) AS new (id, claims, state, counted, lost, result, error, delay), {FREE_ROWS}
WHERE job.id = free_row.id
RETURNING job.id, job.claims, CASE WHEN isfinite({SINCE}) THEN extract(epoch FROM now() - {SINCE})::float8 ELSE 0 END"""
RENEW = f"""
UPDATE gearman_jobs AS job SET lease = now() + %(lease)s * interval '1 second', server = new.server, handle = new.handle
FROM unnest(%(ids)s::bigint[], %(claims)s::bigint[], %(servers)s::text[], %(handles)s::text[]) AS new (id, claims, server, handle),
    {FREE_ROWS}
WHERE job.id = free_row.id
RETURNING job.id, job.claims"""
FREE = f"""
UPDATE gearman_jobs SET state = 'waiting', losses = least(losses, {MOST}) + 1, holder = NULL, lease = NULL, server = NULL, handle = NULL,
    error = 'the lease ended: its gmd-table went',
    retry_at = CASE WHEN losses >= {MANY_LOSSES}
        THEN now() + power(2, least(losses - {MANY_LOSSES}, {MAX_LOSS_DOUBLINGS})) * interval '1 second' ELSE retry_at END
WHERE id IN (SELECT id FROM gearman_jobs WHERE state = 'running' AND lease < now() ORDER BY lease LIMIT 1000 FOR UPDATE SKIP LOCKED)"""
COUNTS = "SELECT function, state, count(*) FROM gearman_jobs GROUP BY function, state ORDER BY function, state"
OLDEST = """
SELECT extract(epoch FROM now() - min(coalesce(retry_at, run_at)))::float8 FROM gearman_jobs
WHERE state = 'waiting' AND coalesce(retry_at, run_at) <= now() AND isfinite(coalesce(retry_at, run_at))"""
# Classes of errors that are of the database and not of a row: no connection, a transaction that may not write, or was rolled back, a
# missing table or right, no resources, a lock, a server that stops.
OF_DATABASE = ("08", "25", "40", "42", "53", "55", "57", "58")


class PostgreSQL:
    """The table, over one connection."""
    errors = (psycopg2.Error,)

    def __init__(self, database, options=None):
        is_name = "=" not in database and "/" not in database
        self.address, self.options = {"dbname": database} if is_name else {"dsn": database}, options
        self.connection = None
        self.identity = None

    def open(self):
        """Connects, and listens for new rows if it is to run."""
        if self.connection:
            return
        connection = psycopg2.connect(**self.address, connect_timeout=10, application_name="gmd-table", keepalives_idle=30,
                                      keepalives_interval=10, keepalives_count=3, tcp_user_timeout=60_000)
        connection.autocommit = True
        connection.set_client_encoding("UTF8")
        self.connection = connection
        try:
            self.check_schema()
            if self.options:
                self.check_home()
                self.ask(SETTINGS)
                self.ask("LISTEN gearman_jobs")
        except BaseException:
            self.close()
            raise

    def close(self):
        """Leaves the database. The next `open` connects again."""
        if self.connection:
            self.connection.close()
        self.connection = None

    def ask(self, statement, values=None):
        """The rows of a statement's answer, or how many it changed."""
        with self.connection.cursor() as cursor:
            cursor.execute(statement, values)
            return cursor.fetchall() if cursor.description else cursor.rowcount

    def check_schema(self):
        """Whether the table is one that this program can use."""
        if self.connection.get_parameter_status("server_encoding") == "SQL_ASCII":
            raise SchemaError("the database's encoding is SQL_ASCII, and has to be one that says which characters there are, as UTF8")
        [[is_there]] = self.ask("SELECT to_regclass('gearman_jobs_version') IS NOT NULL AND to_regclass('gearman_jobs') IS NOT NULL")
        check_version(self.ask("SELECT max(version) FROM gearman_jobs_version")[0][0] if is_there else None, "postgresql")

    def check_home(self):
        """Whether the table is where it got its identity."""
        [[self.identity, is_home]] = self.ask(f"SELECT identity, home IS NOT DISTINCT FROM {HOME} FROM gearman_jobs_version")
        if not is_home:
            raise WrongHome

    def is_of_row(self, error):
        """Whether a row may be at fault, and not the database."""
        return not self.connection.closed and error.pgcode is not None and not error.pgcode.startswith(OF_DATABASE)

    ### What `run` does

    def pairs(self):
        """The functions and priorities of rows that wait."""
        return self.ask(PAIRS)

    def claim(self, priority, rooms, max_bytes):
        """Takes rows of this priority that are due: of each function at most this many, with at most this many bytes in all, or one."""
        found = self.ask(CLAIM, {"functions": list(rooms), "rooms": list(rooms.values()), "priority": priority, "max_bytes": max_bytes,
                                 "max_data": self.options.max_data, "holder": self.options.holder, "lease": self.options.lease})
        return [Row(id_, claims, function.encode(), unique_of((unique or "").encode(), self.identity, id_), level, attempts, losses, most,
                    None if data is None else bytes(data), size, due)
                for id_, claims, function, unique, level, attempts, losses, most, data, size, due in found]

    def write(self, outcomes):
        """Writes what became of rows, in the order of their ids. The claims that this gmd-table still had, with their seconds since they
        were due, and those that another transaction has locked."""
        values = sorted(((*out.row.claim, out.state, out.counted, out.lost, out.result, out.error, out.delay) for out in outcomes),
                        key=lambda value: value[:2])
        with self.connection.cursor() as cursor:
            written = {(id_, claims): seconds for id_, claims, seconds in psycopg2.extras.execute_values(
                cursor, WRITE, values, "(%s::bigint, %s::bigint, %s, %s::integer, %s::integer, %s::bytea, %s::text, %s::float8)",
                page_size=len(values), fetch=True)}
        return written, self.still_ours([out.row for out in outcomes if out.row.claim not in written])

    def renew(self, rows):
        """Renews leases. The claims that this gmd-table still had, and those that another transaction has locked."""
        rows.sort(key=lambda row: row.id)
        renewed = set(self.ask(RENEW, {
            "ids": [row.id for row in rows], "claims": [row.claims for row in rows], "lease": self.options.lease,
            "servers": [row.server for row in rows], "handles": [row.handle.decode(errors="backslashreplace") for row in rows]}))
        return renewed, self.still_ours([row for row in rows if row.claim not in renewed])

    def still_ours(self, rows):
        """The claims of these that this gmd-table has."""
        return set(self.ask(STILL_OURS, [[row.id for row in rows], [row.claims for row in rows]])) if rows else set()

    def free(self):
        """Has rows wait again whose leases ended."""
        return self.ask(FREE)

    def wait(self, bell, seconds):
        """Waits until the bell rings or rows were inserted. Whether rows were."""
        if not self.connection.notifies:
            select.select([self.connection, bell], [], [], seconds)
        self.connection.poll()
        has_new = bool(self.connection.notifies)
        self.connection.notifies.clear()
        return has_new

    ### What the other commands do

    def counts(self):
        """How many rows there are of each function and state."""
        return self.ask(COUNTS)

    def oldest(self):
        """For how many seconds the oldest row has been due that waits."""
        return self.ask(OLDEST)[0][0] or 0.0

    def rows(self, state, function, most):
        """The last rows, by their columns' names: perhaps only those of a state or a function."""
        names = ", ".join(f"{name}::text" if name.endswith("_at") or name == "lease" else name for name in COLUMNS)
        found = self.ask(f"""SELECT {names}, octet_length(data), octet_length(result) FROM gearman_jobs
            WHERE (%(state)s IS NULL OR state = %(state)s) AND (%(function)s IS NULL OR function = %(function)s)
            ORDER BY id DESC LIMIT %(most)s""", {"state": state, "function": function, "most": most})
        return [dict(zip(COLUMNS + SIZES, row)) for row in found]

    def retry(self, ids, is_now):
        """Has failed rows, and those that wait for another attempt, be due now, though those whose time is to come only if this says so.
        The ids of those."""
        return {id_ for [id_] in self.ask("""
            UPDATE gearman_jobs SET state = 'waiting', attempts = 0, losses = 0, ended_at = NULL,
            retry_at = CASE WHEN run_at > now() THEN now() END
            WHERE id = ANY(%s) AND state IN ('failed', 'waiting') AND (%s OR run_at <= now()) RETURNING id""", [ids, is_now])}

    def early(self, ids):
        """The ids of the rows, of these, that `retry` leaves because their time is to come."""
        return {id_ for [id_] in self.ask(
            "SELECT id FROM gearman_jobs WHERE id = ANY(%s) AND state IN ('failed', 'waiting') AND run_at > now()", [ids])}

    def cancel(self, ids):
        """Has rows fail that wait or run. The ids of those."""
        return {id_ for [id_] in self.ask("""
            UPDATE gearman_jobs SET state = 'failed', error = 'cancelled', ended_at = now(), holder = NULL, lease = NULL, server = NULL,
            handle = NULL WHERE id = ANY(%s) AND state IN ('waiting', 'running') RETURNING id""", [ids])}

    def identify(self, identity):
        """Has the table this identity, or keep its own if this is None, where it is now."""
        self.ask(f"UPDATE gearman_jobs_version SET identity = coalesce(%s, identity), home = {HOME}", [identity])
        return self.ask("SELECT identity FROM gearman_jobs_version")[0][0]

    def last_of_next(self, last, count):
        """The last id of so many rows after this one, or None."""
        return self.ask("SELECT max(id) FROM (SELECT id FROM gearman_jobs WHERE id > %s ORDER BY id LIMIT %s) AS next", [last, count])[0][0]

    def purge(self, before, last, days, states):
        """Deletes rows of these states, after an id and up to another, that ended so many days ago. How many."""
        return self.ask("""DELETE FROM gearman_jobs WHERE id > %s AND id <= %s AND state = ANY(%s)
            AND ended_at < now() - %s * interval '1 day'""", [before, last, states, days])
