"""A gmd that lacks something: memory, descriptors, threads, a standard stream, or a call of the system that succeeds."""
import os
import pathlib
import random
import re
import resource
import shutil
import time

import loopback
from loopback import MEBIBYTE, Client
from trials import ROOM_PATH, Wrong, program

# Where any user can run it.
os.chmod(ROOM_PATH, 0o755)
GMD = shutil.copy(program("gmd", "gmd"), ROOM_PATH / "gmd")
os.chmod(GMD, 0o755)
PATH = {"PATH": os.environ["PATH"]}
BUSY = 0.05  # the part of a processor that an idle server may use
SHORT = 0.3  # seconds, after which a client that isn't served is left waiting
NOISE = random.Random(1).randbytes(MEBIBYTE)
NO_MEMORY, NO_OUTPUT = "gmd: out of memory\n", "gmd: can't write to standard output\n"
NO_THREAD = "gmd: the system has no thread for it\n"


class Server(loopback.Server):
    """A server that lacks something."""

    def __init__(self, *options, under=(), env=None, told=()):
        super().__init__(GMD, *options, under=under, env={**PATH, **(env or {})}, told=told)

    def wakings(self):
        """How often those of its threads that are there waited and were woken."""
        count = 0
        for path in pathlib.Path(f"/proc/{self.process.pid}/task").glob("*/status"):
            count += int(re.search("^voluntary_ctxt_switches:\t([0-9]+)$", path.read_text(encoding="ascii"), re.M)[1])
        return count

    def descriptors(self):
        """How many descriptors it has."""
        return len(os.listdir(f"/proc/{self.process.pid}/fd"))

    def is_idle(self):
        """It is there, and uses next to no processor time in one of five seconds. In others the machine may fetch its memory again."""
        parts = []
        while not parts or parts[-1] >= BUSY:
            if len(parts) == 5:
                raise Wrong(f"{min(parts):.0%} of a processor while nothing happens")
            before, begun = self.used(), time.monotonic()
            time.sleep(1)
            parts.append((self.used() - before) / (time.monotonic() - begun))
            if self.process.poll() is not None:
                raise Wrong(f"it ended with status {self.process.returncode}, and said {self.errors()!r}")

    def stops(self, client):
        """A client's shutdown is answered, and it ends well."""
        if (said := client.ask(b"shutdown\n", 3)) != b"OK\n":
            raise Wrong(f"shutdown is answered {said!r}; {self.errors()!r}")
        client.close()
        self.ended(0)

    def memory(self):
        """How many bytes of memory it uses."""
        with open(f"/proc/{self.process.pid}/statm", encoding="ascii") as statm:
            return int(statm.read().split()[1]) * resource.getpagesize()


def cannot_start(server, *reasons):
    """It doesn't say that it listens, but what it lacks: memory, or one of these."""
    server.ended(3)
    if not any(reason in server.errors() for reason in (NO_MEMORY, *reasons)):
        raise Wrong(f"it says {server.errors()!r}")


def ends(server, clients=2):
    """It ends by the shutdown of one of this many clients: well, or without the memory for its end."""
    for _ in range(clients):
        try:
            if Client(server.port).ask(b"shutdown\n", 3) == b"OK\n":
                break
        except (ConnectionRefusedError, ConnectionResetError):
            break
        time.sleep(0.05)
    if not server.has_ended(3, NO_MEMORY):
        server.ended(0)
