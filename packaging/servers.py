"""Servers, connections to them, and checks: what test-scripts, test-page and demo/differs share."""
import contextlib
import pathlib
import re
import shutil
import socket
import subprocess
import tempfile
import threading
import time

PATIENCE = 60  # seconds, after which something doesn't come any more
CAN_DO, SUBMIT_JOB, JOB_CREATED, GRAB_JOB, NO_JOB, JOB_ASSIGN, WORK_COMPLETE, WORK_FAIL, SUBMIT_JOB_BG, ERROR, ALL_YOURS = (
    1, 7, 8, 9, 10, 11, 13, 14, 18, 19, 24)
WORK_EXCEPTION, OPTION_REQ, WORK_DATA, WORK_WARNING, SUBMIT_JOB_EPOCH, SUBMIT_REDUCE_JOB, GRAB_JOB_ALL = 25, 26, 28, 29, 36, 37, 39
MEBIBYTE = 1 << 20
counts = {"passed": 0, "failed": 0}
ROOM = tempfile.TemporaryDirectory(prefix="gmd-trial-")
ROOM_PATH = pathlib.Path(ROOM.name)


class Wrong(Exception):
    """What a check found wrong."""


def check(name, call, *arguments):
    try:
        call(*arguments)
    except Exception as error:  # pylint: disable=broad-except
        counts["failed"] += 1
        print(f"FAILED {name}\n    {error if isinstance(error, Wrong) else repr(error)}", flush=True)
    else:
        counts["passed"] += 1
        print(f"ok {name}", flush=True)


def finish():
    """Prints the last line. The status that the program is to end with."""
    print(f"{counts['passed']} passed, {counts['failed']} failed")
    return counts["failed"] > 0


def same(what, got, wanted):
    if got != wanted:
        raise Wrong(f"{what}: {str(got)[:400]}, and not {str(wanted)[:400]}")


def within(what, call, seconds=PATIENCE):
    """Waits until this is so."""
    end = time.monotonic() + seconds
    while not call():
        if time.monotonic() > end:
            raise Wrong(f"{what}: not within {seconds} seconds")
        time.sleep(0.02)


def most_memory(process):
    """How many kB of memory a process had at most."""
    return int(re.search(r"VmHWM:\s+(\d+) kB", pathlib.Path(f"/proc/{process.pid}/status").read_text())[1])


@contextlib.contextmanager
def own_port():
    """A port for servers, which nobody else gets meanwhile: a socket that doesn't listen has it too. The system lets both have it, as
    both say SO_REUSEADDR."""
    with socket.socket() as holder:
        holder.setsockopt(socket.SOL_SOCKET, socket.SO_REUSEADDR, 1)
        holder.bind(("127.0.0.1", 0))
        yield holder.getsockname()[1]


class Server:
    """A server at a port, that of this command."""

    def __init__(self, command, *options, port=None, env=None):
        with contextlib.ExitStack() as stack:
            self.port = port or stack.enter_context(own_port())
            self.log = ROOM_PATH / f"log{self.port}"
            with self.log.open("wb") as log:
                self.process = stack.enter_context(subprocess.Popen(
                    [*command, "--listen", "127.0.0.1", "--port", str(self.port), *options], stdout=log, stderr=log,
                    stdin=subprocess.DEVNULL, env=env))
            stack.callback(self.process.kill)
            within("the server listens", self.is_listening)
            self.held = stack.pop_all()

    def is_listening(self):
        """Whether it said so, or, as gearmand says nothing, a connection can be made."""
        if re.search("^gmd: listening(, as gearmand)?\n", self.said(), re.M):
            return True
        if self.process.poll() is not None:
            raise Wrong(f"the server ended with status {self.process.returncode}: {self.said()}")
        if self.process.args[0].endswith("gearmand"):
            with socket.socket() as probe:
                return probe.connect_ex(("127.0.0.1", self.port)) == 0
        return False

    def said(self):
        return self.log.read_text(errors="replace")

    def __enter__(self):
        return self

    def __exit__(self, *_):
        self.held.close()


class Client:
    """A connection to a server."""

    def __init__(self, port):
        self.socket = socket.create_connection(("127.0.0.1", port), PATIENCE)

    def __enter__(self):
        return self

    def __exit__(self, *_):
        self.socket.close()

    def send(self, kind, *arguments):
        data = b"\0".join(arguments)
        self.socket.sendall(b"\0REQ" + kind.to_bytes(4, "big") + len(data).to_bytes(4, "big") + data)

    def read(self, size):
        data = bytearray()
        while len(data) < size:
            piece = self.socket.recv(size - len(data))
            if not piece:
                raise EOFError
            data += piece
        return bytes(data)

    def receive(self, seconds=PATIENCE):
        """A packet's kind and data, or (None, b"") where none comes within this time."""
        self.socket.settimeout(seconds)
        try:
            head = self.read(12)
        except TimeoutError:
            return None, b""
        self.socket.settimeout(PATIENCE)
        return int.from_bytes(head[4:8], "big"), self.read(int.from_bytes(head[8:], "big"))

    def answer(self, kind, *arguments, seconds=PATIENCE):
        self.send(kind, *arguments)
        return self.receive(seconds)

    def line(self, line):
        """The answer to a line, up to its dot or as one line."""
        self.socket.sendall(line + b"\n")
        came = b""
        while not came.endswith(b"\n.\n" if line in (b"status", b"workers") else b"\n") and came != b".\n":
            came += self.read(1)
        return came.decode(errors="replace")

    def job(self, function, unique=b"", data=b"", kind=SUBMIT_JOB):
        """The handle of a new job."""
        created, handle = self.answer(kind, function, unique, data)
        same("a job", created, JOB_CREATED)
        return handle

    def end_of_job(self, seconds=PATIENCE):
        """What becomes of a job: its packets' kinds and what they bring behind the handle, up to its end or as long as this."""
        packets = []
        while not packets or packets[-1][0] not in (WORK_COMPLETE, WORK_FAIL, None):
            kind, data = self.receive(seconds)
            packets.append((kind, data.partition(b"\0")[2]))
        return packets

    def done(self, function, data):
        """What becomes of a new job."""
        self.job(function, data=data)
        return self.end_of_job()

    def of_function(self, name):
        """What `status` says of a function: jobs, running jobs and workers."""
        found = re.search(rf"^{re.escape(name)}\t(\d+)\t(\d+)\t(\d+)$", self.line(b"status"), re.M)
        return tuple(map(int, found.groups())) if found else None


@contextlib.contextmanager
def pretends(answer):
    """The port of a server that does this with each connection."""
    def serve():
        with contextlib.suppress(OSError):
            while True:
                connection, _ = listener.accept()
                threading.Thread(target=talk, args=(connection,), daemon=True).start()

    def talk(connection):
        with connection, contextlib.suppress(OSError):
            answer(connection)

    with socket.create_server(("127.0.0.1", 0)) as listener:
        threading.Thread(target=serve, daemon=True).start()
        yield listener.getsockname()[1]
        listener.shutdown(socket.SHUT_RDWR)


def lists(status, workers=b".\n", version=b"OK 1.1.20\n"):
    """A server with these answers."""
    def answer(connection):
        while line := connection.recv(100):
            connection.sendall({b"version\n": version, b"status\n": status, b"workers\n": workers}[line])
    return answer


SAMPLE = re.compile(r'(\w+)\{server="[^"]*"(?:,(?:function|version)="((?:[^"\\]|\\.)*)")?\} (\S+)')


def samples(text):
    """What the text says, by name and function."""
    found = {}
    for line in text.splitlines():
        if not line.startswith("#"):
            name, function, value = SAMPLE.fullmatch(line).groups()
            key = (name, function) if function is not None else name
            same(f"{key} is there once", key in found, False)
            found[key] = value
    if promtool := shutil.which("promtool"):
        # It also has opinions on names, which are a line each.
        done = subprocess.run([promtool, "check", "metrics"], input=text, capture_output=True, text=True, check=False)
        same("promtool", "error while linting" in done.stderr + done.stdout, False)
    return found
