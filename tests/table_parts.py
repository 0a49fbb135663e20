"""Databases, gmd-tables and workers: what tests/table runs."""
import contextlib
import copy
import os
import pathlib
import pwd
import shutil
import signal
import socket
import sqlite3
import subprocess
import sys
import tempfile
import threading
import time

try:
    import psycopg2
except ImportError:
    psycopg2 = None

from loopback import (CAN_DO, ECHO_REQ, ECHO_RES, GRAB_JOB_UNIQ, JOB_ASSIGN_UNIQ, MEBIBYTE, NO_JOB, NOOP, OPTION_REQ, OPTION_RES, PATIENCE,
                      PRE_SLEEP, WORK_COMPLETE, Client, kind_of, own_port, packet, within)
from trials import ROOM_PATH, ROOT, Wrong

PROGRAM = ROOT / "packaging/debian/gmd-table"
# PostgreSQL doesn't run as root.
OTHER_USER = "nobody"


def postgres():
    """The folder of PostgreSQL's programs, or None."""
    found = sorted(pathlib.Path("/usr/lib/postgresql").glob("*/bin/postgres"), key=lambda path: float(path.parts[-3]))
    return found[-1].parent if found else None


class PostgreSQL:
    """A server of its own, on a socket in its folder."""
    kind = "postgresql"
    # What makes a table one of version 1.
    version_1 = ("ALTER TABLE gearman_jobs_version DROP COLUMN identity, DROP COLUMN home", "UPDATE gearman_jobs_version SET version = 1")

    def __init__(self):
        self.folder = pathlib.Path(tempfile.mkdtemp(prefix="gmd-table-"))
        self.programs = postgres()
        self.user = OTHER_USER if os.getuid() == 0 else pwd.getpwuid(os.getuid()).pw_name
        if os.getuid() == 0:
            other = pwd.getpwnam(OTHER_USER)
            os.chown(self.folder, other.pw_uid, other.pw_gid)
        self.address = f"host={self.folder} dbname=postgres user=app"
        self.call("initdb", "-D", "data", "-U", "app", "-A", "trust", "-E", "UTF8", "--locale=C.UTF-8", "--no-sync")
        with open(self.folder / "data/postgresql.conf", "a", encoding="ascii") as settings:
            settings.write(f"listen_addresses = ''\nunix_socket_directories = '{self.folder}'\nmax_connections = 60\n"
                           "shared_buffers = 64MB\nlog_min_messages = fatal\n")
        self.start()

    def call(self, program, *arguments):
        """Runs one of PostgreSQL's programs, as its user."""
        done = subprocess.run([self.programs / program, *arguments], cwd=self.folder, user=self.user if os.getuid() == 0 else None,
                              stdin=subprocess.DEVNULL, capture_output=True, text=True, timeout=PATIENCE, check=False)
        if done.returncode:
            raise Wrong(f"{program}: {done.stdout} {done.stderr}")

    def start(self):
        self.call("pg_ctl", "-D", "data", "-w", "-l", "log", "start")

    def stop(self):
        self.call("pg_ctl", "-D", "data", "-w", "-m", "fast", "stop")

    def restart(self, mode):
        self.call("pg_ctl", "-D", "data", "-w", "-m", mode, "-l", "log", "restart")

    @contextlib.contextmanager
    def silenced(self):
        """All its processes are stopped, and answer nothing."""
        server = (self.folder / "data/postmaster.pid").read_text(encoding="ascii").split()[0]
        os.kill(int(server), signal.SIGSTOP)
        # No child comes or goes while the server, which would have to make or await it, is stopped.
        children = [int(child) for child in pathlib.Path(f"/proc/{server}/task/{server}/children").read_text(encoding="ascii").split()]
        try:
            for child in children:
                os.kill(child, signal.SIGSTOP)
            yield
        finally:
            for process in (*children, int(server)):
                os.kill(process, signal.SIGCONT)

    def close(self):
        with contextlib.suppress(Wrong):
            self.call("pg_ctl", "-D", "data", "-m", "immediate", "-w", "stop")
        shutil.rmtree(self.folder, ignore_errors=True)

    def connect(self):
        """A connection of the application. Each statement is a transaction unless it begins one."""
        connection = psycopg2.connect(self.address)
        connection.autocommit = True
        return connection

    def ask(self, statement, values=()):
        """The rows of an answer. Its variables are `?`, as in SQLite."""
        with contextlib.closing(self.connect()) as connection, connection.cursor() as cursor:
            cursor.execute(statement.replace("%", "%%").replace("?", "%s"), values)
            return [tuple(bytes(value) if isinstance(value, memoryview) else value for value in row)
                    for row in cursor.fetchall()] if cursor.description else []

    @contextlib.contextmanager
    def transaction(self):
        """A function that runs a statement, again and again in one transaction."""
        with contextlib.closing(psycopg2.connect(self.address)) as connection, connection, connection.cursor() as cursor:
            yield lambda statement, values=(): cursor.execute(statement.replace("%", "%%").replace("?", "%s"), values)

    def empty(self):
        """The table as it is at first."""
        self.ask("DROP TABLE IF EXISTS gearman_jobs, gearman_jobs_version")
        self.apply()

    def apply(self):
        """Applies the schema."""
        self.script(schema(self.kind))

    def script(self, statements):
        """Runs several statements."""
        self.ask(statements)

    def copied(self, name, template="postgres"):
        """A new database, which is a copy of this one."""
        self.ask(f"CREATE DATABASE {name} TEMPLATE {template}")
        return at(self, self.address.replace("dbname=postgres", f"dbname={name}"))

    def neighbours(self):
        """Empty tables of another database and of another schema."""
        self.ask("CREATE SCHEMA blog")
        found = [self.copied("shop", "template1"), at(self, f"{self.address} options='-c search_path=blog'")]
        for other in found:
            other.apply()
        return found

    def later(self, seconds):
        """The time in so many seconds, as SQL."""
        return f"now() + {seconds} * interval '1 second'"

    def seconds(self, first, last):
        """The seconds from one time to another, as SQL."""
        return f"extract(epoch FROM {last} - {first})::float8"


class SQLite:
    """A file."""
    kind = "sqlite"
    version_1 = ("DROP TABLE gearman_jobs_identity", "UPDATE gearman_jobs_version SET version = 1")

    def __init__(self):
        self.address = str(ROOM_PATH / "table.db")

    def close(self):
        pass

    def connect(self):
        return sqlite3.connect(self.address, timeout=PATIENCE, isolation_level=None)

    def ask(self, statement, values=()):
        with contextlib.closing(self.connect()) as connection:
            return connection.execute(statement, values).fetchall()

    @contextlib.contextmanager
    def transaction(self):
        with contextlib.closing(self.connect()) as connection:
            connection.execute("BEGIN IMMEDIATE")
            yield lambda statement, values=(): connection.execute(statement, values)
            connection.execute("COMMIT")

    def empty(self):
        for ending in ("", "-wal", "-shm"):
            pathlib.Path(self.address + ending).unlink(missing_ok=True)
        self.apply()

    def apply(self):
        self.script(schema(self.kind))

    def script(self, statements):
        with contextlib.closing(self.connect()) as connection:
            connection.executescript(statements)

    def copied(self, name):
        self.ask("PRAGMA wal_checkpoint(TRUNCATE)")
        return at(self, shutil.copyfile(self.address, str(ROOM_PATH / f"{name}.db")))

    def neighbours(self):
        """A copy of an empty table that no gmd-table has used."""
        return [self.copied("shop")]

    def later(self, seconds):
        return f"strftime('%Y-%m-%d %H:%M:%f', 'now', '{seconds} seconds')"

    def seconds(self, first, last):
        return f"(julianday({last}) - julianday({first})) * 86400"


def at(database, address):
    """A table that is reached so."""
    other = copy.copy(database)
    other.address = address
    return other


def run(*arguments, status=0):
    """What a command of gmd-table prints, which ends with this status."""
    done = subprocess.run([PROGRAM, *map(str, arguments)], capture_output=True, text=True, timeout=PATIENCE, check=False)
    if done.returncode != status:
        raise Wrong(f"{arguments}: status {done.returncode}, {done.stdout} {done.stderr}")
    return done.stdout if status == 0 else done.stdout + done.stderr


def schema(kind):
    return run("schema", f"--{kind}")


INSERT = "INSERT INTO gearman_jobs (function, data, priority) VALUES (?, ?, ?)"


def insert(database, *rows):
    """Rows of a function, with data and perhaps a priority."""
    with database.transaction() as ask:
        for function, data, *priority in rows:
            ask(INSERT, (function, data, *(priority or ["normal"])))


def count(database, where="true"):
    """How many rows there are, for which this holds."""
    return database.ask(f"SELECT count(*) FROM gearman_jobs WHERE {where}")[0][0]


def become(database, state, rows, seconds=PATIENCE):
    """Waits until so many rows are in this state."""
    within(f"{rows} rows are {state}", lambda: count(database, f"state = '{state}'") >= rows, seconds)


class Gmd:
    """A server that is killed and started again at its port."""

    def __init__(self, program):
        self.program = program
        with contextlib.ExitStack() as stack:
            self.port = stack.enter_context(own_port())
            self.begin()
            self.held = stack.pop_all()

    def begin(self):
        """Starts it, and waits until it listens."""
        self.process = subprocess.Popen([self.program, "--listen", "127.0.0.1", "--port", str(self.port)], stdin=subprocess.DEVNULL,
                                        stdout=subprocess.PIPE, stderr=subprocess.DEVNULL)
        self.process.stdout.readline()

    def kill(self):
        self.process.kill()
        self.process.wait()
        self.process.stdout.close()

    def __enter__(self):
        return self

    def __exit__(self, *_):
        self.kill()
        self.held.close()


class Fake(threading.Thread):
    """What answers as a server: options and echoes, and each other packet by a function of its first MiB. If that returns None, the
    connection is closed."""
    REPEATED = {OPTION_REQ: OPTION_RES, ECHO_REQ: ECHO_RES}

    def __init__(self, answer):
        super().__init__(daemon=True)
        self.answer, self.listener = answer, socket.create_server(("127.0.0.1", 0))
        # The system takes only a little of what isn't read.
        self.listener.setsockopt(socket.SOL_SOCKET, socket.SO_RCVBUF, 1 << 16)
        self.port = self.listener.getsockname()[1]
        self.start()

    def run(self):
        """Serves connections one after another."""
        while True:
            try:
                connection, _ = self.listener.accept()
            except OSError:
                return
            with connection, contextlib.suppress(OSError):
                self.serve(connection)

    def serve(self, connection):
        """One connection."""
        came = b""
        while piece := connection.recv(1 << 16):
            came += piece
            while len(came) >= 12:
                size = 12 + int.from_bytes(came[8:12], "big")
                if len(came) < min(size, MEBIBYTE):
                    break
                again = self.REPEATED.get(kind_of(came))
                answer = packet(again, came[12:size], magic=b"\0RES") if again else self.answer(came[:size])
                if answer is None:
                    return
                connection.sendall(answer)
                came = came[size:]

    def __enter__(self):
        return self

    def __exit__(self, *_):
        # It wakes the thread that accepts.
        self.listener.shutdown(socket.SHUT_RDWR)
        self.listener.close()
        self.join(PATIENCE)


class Table:
    """A gmd-table that runs."""

    def __init__(self, database, ports, *options, address=None, env=None):
        self.arguments = [PROGRAM, "run", *options, address or database.address, *(f"127.0.0.1:{port}" for port in ports)]
        self.env = env
        self.error = tempfile.TemporaryFile(dir=ROOM_PATH)
        self.begin()

    def begin(self):
        self.process = subprocess.Popen(self.arguments, stdin=subprocess.DEVNULL, stdout=subprocess.PIPE, stderr=self.error, env=self.env)

    def first_line(self):
        return self.process.stdout.readline().decode()

    def kill(self):
        self.process.kill()
        self.process.wait()
        self.process.stdout.close()

    def stop(self, seconds=PATIENCE):
        """Asks it to end. Its status."""
        self.process.send_signal(signal.SIGTERM)
        return self.process.wait(seconds)

    def said(self):
        return os.pread(self.error.fileno(), os.fstat(self.error.fileno()).st_size, 0).decode(errors="replace")

    def __enter__(self):
        return self

    def __exit__(self, *_):
        self.process.send_signal(signal.SIGCONT)
        self.kill()
        self.error.close()


class Worker:
    """A worker in this process: one connection, and what it was given."""

    def __init__(self, port, *functions):
        self.client = Client(port)
        self.given = []
        for function in functions:
            self.client.request(CAN_DO, function)

    def grab(self, seconds=PATIENCE):
        """The next job: handle, function, unique id, data. None if none comes in this time."""
        end = time.monotonic() + seconds
        while True:
            self.client.request(GRAB_JOB_UNIQ)
            while (found := self.client.whole())[0] == NOOP:
                pass
            kind, data = found
            if kind == JOB_ASSIGN_UNIQ:
                self.given.append(data.split(b"\0", 3))
                return self.given[-1]
            if kind != NO_JOB:
                raise Wrong(f"a grab gets type {kind}")
            self.client.request(PRE_SLEEP)
            self.client.socket.settimeout(max(end - time.monotonic(), 0.001))
            try:
                self.client.whole()
            except TimeoutError:
                return None
            finally:
                self.client.socket.settimeout(PATIENCE)

    def report(self, kind, handle, *data):
        self.client.request(kind, handle, *data)

    def do(self, count, seconds=PATIENCE):
        """Does so many jobs. The result is the data, reversed."""
        for _ in range(count):
            job = self.grab(seconds)
            if job is None:
                raise Wrong(f"{len(self.given)} jobs came, and no other")
            self.report(WORK_COMPLETE, job[0], job[3][::-1])

    def close(self):
        self.client.close()

    def __enter__(self):
        return self

    def __exit__(self, *_):
        self.close()


### A worker as a process of its own: table_parts.py FUNCTIONS LOG PORT..

def serve(port, functions, log):
    """Does jobs of one server, again and again, also when that is away. Each job's data are how many milliseconds it takes; a line in the
    log says that it was done, before the server gets the result."""
    client = Client(port)
    client.socket.settimeout(None)
    client.send(b"".join(packet(CAN_DO, function) for function in functions))
    while True:
        client.request(GRAB_JOB_UNIQ)
        while (found := client.whole())[0] == NOOP:
            pass
        if found[0] == NO_JOB:
            client.request(PRE_SLEEP)
            client.whole()
            continue
        handle, _, unique, data = found[1].split(b"\0", 3)
        time.sleep(int(data) / 1000)
        os.write(log, unique + b"\n")
        client.request(WORK_COMPLETE, handle, b"did " + unique)


def serve_for_ever(*arguments):
    """As `serve`, and again where the server is away."""
    while True:
        with contextlib.suppress(OSError, EOFError, ValueError):
            serve(*arguments)
        time.sleep(0.1)


class Crew:
    """Workers as processes, each of which serves all servers."""

    def __init__(self, count, functions, ports):
        self.log = ROOM_PATH / "done.log"
        self.log.write_bytes(b"")
        self.arguments = [sys.executable, __file__, ",".join(functions), self.log, *map(str, ports)]
        self.processes = [self.worker() for _ in range(count)]

    def worker(self):
        return subprocess.Popen(self.arguments, stdin=subprocess.DEVNULL)

    def kill(self, index):
        """Kills a worker, and starts another in its place."""
        self.processes[index].kill()
        self.processes[index].wait()
        self.processes[index] = self.worker()

    def done(self):
        """The unique ids of all jobs that were done, as often as they were."""
        return self.log.read_bytes().split()

    def __enter__(self):
        return self

    def __exit__(self, *_):
        for process in self.processes:
            process.kill()
            process.wait()


def main():
    """A worker: a thread for each server."""
    functions, path, *ports = sys.argv[1:]
    log = os.open(path, os.O_WRONLY | os.O_APPEND)
    threads = [threading.Thread(target=serve_for_ever, args=(int(port), functions.encode().split(b","), log), daemon=True)
               for port in ports]
    for thread in threads:
        thread.start()
    for thread in threads:
        thread.join()


if __name__ == "__main__":
    main()
