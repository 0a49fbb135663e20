"""A gmd that runs, and connections to it over loopback."""
import contextlib
import os
import re
import socket
import subprocess
import tempfile
import time

from packets import *  # pylint: disable=wildcard-import,unused-wildcard-import
from trials import ROOM_PATH, Wrong

PATIENCE = 60  # seconds, after which something doesn't come any more
IDLE = 0.2  # seconds of processor time: a server that uses less in all this time does nothing
LISTENING, LISTENING_AS_GEARMAND = b"gmd: listening\n", b"gmd: listening, as gearmand\n"
MEBIBYTE = 1_048_576
# Lets connections to different servers share a port, which is taken for a minute after an end (ip(7)). Python names it from 3.12 on.
IP_BIND_ADDRESS_NO_PORT = 24


def within(what, call, seconds=PATIENCE):
    """Waits until this is so, and returns it."""
    end = time.monotonic() + seconds
    while not (found := call()):
        if time.monotonic() > end:
            raise Wrong(f"{what}: not within {seconds} seconds")
        time.sleep(0.02)
    return found


@contextlib.contextmanager
def own_port():
    """A port for a server, which nobody else gets meanwhile, neither before it listens nor after its end: a socket that doesn't listen
    has it too. The system lets both have it, as both say SO_REUSEADDR, and gives it to no other connection or probe."""
    with socket.socket() as holder:
        holder.setsockopt(socket.SOL_SOCKET, socket.SO_REUSEADDR, 1)
        holder.bind(("127.0.0.1", 0))
        yield holder.getsockname()[1]


# Options that each server is given besides: tests/serve and others try the same with `EXTRA="--io-threads 2"`.
EXTRA = os.environ.get("EXTRA", "").split()
# How many threads serve all connections; with 0 each has two of its own.
IO_THREADS = int(EXTRA[EXTRA.index("--io-threads") + 1]) if "--io-threads" in EXTRA else 0


class Server:
    """A server in the background, which listens or has ended."""

    def __init__(self, program, *options, under=(), env=None, told=(), extra=tuple(EXTRA)):
        with contextlib.ExitStack() as stack:
            self.port = stack.enter_context(own_port())
            self.error = stack.enter_context(tempfile.TemporaryFile(dir=ROOM_PATH))
            self.begun = time.monotonic()
            line = [*under, program, "--listen", "127.0.0.1", "--port", str(self.port), *options, *extra]
            self.process = stack.enter_context(subprocess.Popen(line, env=env, stdin=subprocess.DEVNULL, stdout=subprocess.PIPE,
                                                                stderr=self.error, pass_fds=told))
            stack.callback(self.process.kill)
            self.said = self.process.stdout.readline()
            self.heard = time.monotonic()
            if not self.is_listening():
                self.process.wait(PATIENCE)
            self.held = stack.pop_all()

    def __enter__(self):
        return self

    def __exit__(self, *_):
        self.held.close()

    def is_listening(self):
        return self.said == (LISTENING_AS_GEARMAND if "--as-gearmand" in self.process.args else LISTENING)

    def errors(self):
        # A seek would move where the server writes.
        return os.pread(self.error.fileno(), os.fstat(self.error.fileno()).st_size, 0).decode(errors="replace")

    def has_ended(self, status, line=""):
        """Whether it ended with this status, and said this on standard error. On a busy machine its end may take long, but it goes on."""
        used = 0
        while True:
            try:
                return self.process.wait(PATIENCE) == status and line in self.errors()
            except subprocess.TimeoutExpired:
                before, used = used, self.used()
                if used - before < IDLE:
                    raise Wrong("the server doesn't end") from None

    def says(self, text, count=1):
        """Whether this comes on standard error so often, which a thread of its own writes."""
        begun = time.monotonic()
        while self.errors().count(text) < count:
            if time.monotonic() > begun + PATIENCE:
                return False
            time.sleep(0.01)
        return True

    def threads(self):
        """How many threads it has."""
        with open(f"/proc/{self.process.pid}/status", encoding="ascii") as status:
            return int(re.search("^Threads:\t([0-9]+)$", status.read(), re.M)[1])

    def used(self):
        """How many seconds of processor time it used."""
        with open(f"/proc/{self.process.pid}/stat", encoding="ascii") as stat:
            fields = stat.read().rpartition(")")[2].split()
        return (int(fields[11]) + int(fields[12])) / os.sysconf("SC_CLK_TCK")

    def ended(self, status, line=""):
        """It ends so."""
        if not self.has_ended(status, line):
            raise Wrong(f"status {self.process.returncode} and {self.errors()!r}, and not {status} and {line!r}")


class Client:
    """A connection to the server."""

    def __init__(self, port, source="127.0.0.1", room=None, segment=None):
        """With room, the system keeps at most this many unread bytes, or a little more. With segment, it takes segments of at most this
        many bytes; where they are short, the server's system keeps less of what it is to send."""
        self.socket = socket.socket()
        self.socket.settimeout(PATIENCE)
        if room:
            self.socket.setsockopt(socket.SOL_SOCKET, socket.SO_RCVBUF, room)
        if segment:
            self.socket.setsockopt(socket.IPPROTO_TCP, socket.TCP_MAXSEG, segment)
        self.socket.setsockopt(socket.IPPROTO_TCP, socket.TCP_NODELAY, 1)
        self.socket.setsockopt(socket.IPPROTO_IP, IP_BIND_ADDRESS_NO_PORT, 1)
        try:
            self.socket.bind((source, 0))
            self.socket.connect(("127.0.0.1", port))
        except BaseException:
            self.socket.close()
            raise

    def send(self, data):
        self.socket.sendall(data)

    def request(self, kind, *arguments):
        self.send(packet(kind, *arguments))

    def read(self, count):
        data = bytearray()
        while len(data) < count:
            piece = self.socket.recv(count - len(data))
            if not piece:
                raise EOFError
            data += piece
        return bytes(data)

    def whole(self):
        """The type and the data of a packet that came."""
        head = self.read(12)
        return kind_of(head), self.read(int.from_bytes(head[8:], "big"))

    def answer(self):
        """The type and the arguments of a packet that came."""
        kind, data = self.whole()
        return kind, *data.split(b"\0")

    def lines(self, command):
        """The answer of one line, or the lines up to a dot."""
        self.send(command + b"\n")
        data = b""
        while not (data.endswith(b".\n") or data.startswith(b"OK") and data.endswith(b"\n")):
            data += self.read(1)
        return data.decode().split("\n")[:-1]

    def echoes(self, data=b"hi"):
        self.request(ECHO_REQ, data)
        return self.answer() == (ECHO_RES, data)

    def is_served(self, timeout=PATIENCE):
        """Whether it is answered, and not closed or left waiting."""
        self.socket.settimeout(timeout)
        with contextlib.suppress(OSError, EOFError):
            return self.echoes()
        return False

    def ask(self, data, size):
        """Sends this, and reads an answer of this size; less comes where the connection is closed."""
        said = b""
        with contextlib.suppress(ConnectionError, TimeoutError):
            self.send(data)
            while len(said) < size and (more := self.socket.recv(size - len(said))):
                said += more
        return said

    def close(self):
        self.socket.close()
