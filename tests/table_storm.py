"""A storm at gmd-table: an application, two gmd-tables, two servers and ten workers, of which each is killed now and then."""
import collections
import contextlib
import random
import signal
import threading
import time

from loopback import PATIENCE
from serving import GMD
from table_parts import Crew, Gmd, Table, count, within
from trials import Wrong, same

FUNCTIONS = ["mail", "image", "report"]
# Seconds: of a lease, after which a server counts as gone, and for which one is stopped.
LEASE, DEAF, PAUSE = 5, 2, 10
WORKERS, MOST = 10, 60
# Events at most behind the application's last row, so that a storm has an end.
MOST_EVENTS = 20


class Storm:
    """An application, two gmd-tables, two servers and a crew of workers."""

    def __init__(self, database, seed, rows):
        self.database, self.dice, self.rows = database, random.Random(seed), rows
        self.committed, self.unsure, self.rolled_back = set(), set(), set()  # unique ids
        self.failure = None
        self.bound, self.events, self.deck = 0, [], []

    def batch(self, number, dice):
        """The rows of a transaction."""
        for index in range(dice.randrange(1, 80)):
            unique = f"{number}-{index}"
            later = self.database.later(dice.choice([0, 0, 0, 0, 0, 0, 0, 0, 1, 4]))
            # No job fails, so one attempt has to be enough.
            yield unique, ("INSERT INTO gearman_jobs (function, data, unique_id, priority, max_attempts, run_at) "
                           f"VALUES (?, ?, ?, ?, ?, {later})",
                           (dice.choice(FUNCTIONS), b"%d" % dice.randrange(60), unique, dice.choice(["high", "normal", "low"]),
                            [5, 1][index % 2]))

    def insert(self):
        """The application: each transaction is committed, or rolls back, or nobody knows, because the database went."""
        dice = random.Random(self.dice.random())
        number = 0
        while len(self.committed) < self.rows:
            number += 1
            batch = list(self.batch(number, dice))
            into = self.unsure
            try:
                with self.database.transaction() as ask:
                    for _, statement in batch:
                        ask(*statement)
                    if dice.randrange(8) == 0:
                        into = self.rolled_back
                        raise ZeroDivisionError
                into = self.committed
            except ZeroDivisionError:
                pass
            except Exception:  # pylint: disable=broad-except
                time.sleep(0.2)
            into.update(unique for unique, _ in batch)
            time.sleep(0.01)

    def inserts(self):
        """The application's thread."""
        try:
            self.insert()
        except Exception as error:  # pylint: disable=broad-except
            self.failure = error

    def on_the_way(self):
        """How many rows are on the way. Where the database doesn't say, it is as many as may be."""
        try:
            return count(self.database, "state = 'running'")
        except Exception:  # pylint: disable=broad-except
            return 2 * MOST * len(FUNCTIONS)

    def strike(self, servers, tables, crew):
        """One event. Rows on the way may be done twice after most of them."""
        if not self.deck:
            of_database = ["restart", "crash"] if self.database.kind == "postgresql" else []
            self.deck = ["server", "table", "table", "worker", "worker", *of_database]
            self.dice.shuffle(self.deck)
        kind = self.deck.pop()
        self.events.append((time.monotonic(), kind))
        if kind in ("server", "table", "worker"):
            self.bound += self.on_the_way()
        if kind == "server":
            server = self.dice.choice(servers)
            server.kill()
            time.sleep(self.dice.random())
            server.begin()
        elif kind == "table":
            table = self.dice.choice(tables)
            table.kill()
            table.begin()
        elif kind == "worker":
            crew.kill(self.dice.randrange(WORKERS))
        else:
            self.database.restart("fast" if kind == "restart" else "immediate")

    def pause(self, server):
        """A server is stopped for longer than it takes to be found out, and others go on."""
        self.events.append((time.monotonic(), "pause"))
        self.bound += self.on_the_way()
        server.process.send_signal(signal.SIGSTOP)
        time.sleep(PAUSE)
        self.bound += self.on_the_way()
        server.process.send_signal(signal.SIGCONT)

    def run(self):
        """The whole storm. A remark on it."""
        options = ("--lease", str(LEASE), "--deaf", str(DEAF), "--most", str(MOST), "--retry", "0.5,5")
        with contextlib.ExitStack() as stack:
            servers = [stack.enter_context(Gmd(GMD)) for _ in range(2)]
            ports = [server.port for server in servers]
            tables = [stack.enter_context(Table(self.database, ports, *options)) for _ in range(2)]
            crew = stack.enter_context(Crew(WORKERS, FUNCTIONS, ports))
            application = threading.Thread(target=self.inserts, daemon=True)
            application.start()
            number = 0
            while application.is_alive() or self.is_busy() and number < MOST_EVENTS:
                time.sleep(self.dice.uniform(0.5, 2))
                number += 1
                if number == 5:
                    self.pause(servers[0])
                else:
                    self.strike(servers, tables, crew)
            within("all rows ended", lambda: not self.is_busy(), 2 * PATIENCE)
            if self.failure:
                raise self.failure
            same("tracebacks", "Traceback" in "".join(table.said() for table in tables), False)
            return self.judge_rows(collections.Counter(unique.decode() for unique in crew.done()))

    def is_busy(self):
        return count(self.database, "state IN ('waiting', 'running')") > 0

    def judge_rows(self, times):
        """Compares the table, the application's account, and how often the workers did what."""
        rows = self.database.ask("SELECT unique_id, state, result, error FROM gearman_jobs")
        there = {row[0] for row in rows}
        same("rows that failed once", self.database.ask("SELECT unique_id, state, error FROM gearman_jobs WHERE attempts > 0 LIMIT 5"), [])
        same("rows that aren't done", [row for row in rows if row[1] != "done"][:5], [])
        same("wrong results", [row for row in rows if row[2] != b"did " + row[0].encode()][:5], [])
        same("committed rows that are lost", sorted(self.committed - there)[:5], [])
        same("rows that weren't committed", sorted(there - self.committed - self.unsure)[:5], [])
        same("rows that nobody did", sorted(there - set(times))[:5], [])
        same("jobs without a row", sorted(set(times) - there)[:5], [])
        twice = sum(times.values()) - len(times)
        if twice > self.bound:
            raise Wrong(f"{twice} were done again, and {self.bound} were on the way at the kills")
        events = collections.Counter(kind for _, kind in self.events)
        return (f"{len(rows):,} rows, {', '.join(f'{kind} {number}' for kind, number in sorted(events.items()))}, "
                f"done again {twice}, on the way at the kills {self.bound}")


def storm(database, seed, rows):
    """One storm, in which about so many rows are committed."""
    database.empty()
    begun = time.monotonic()
    remark = Storm(database, seed, rows).run()
    return f"SEED={seed}, {time.monotonic() - begun:.0f} s, {remark}"
