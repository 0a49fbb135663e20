"""The servers that tests/peers tries, gmd with the package's settings and Debian's gearmand, and what its trials share."""
import contextlib
import os
import re
import shutil
import socket
import subprocess
import time

from loopback import (CAN_DO, GRAB_JOB_ALL, JOB_ASSIGN_UNIQ, JOB_CREATED, PATIENCE, SUBMIT_JOB, WORK_FAIL, Client, own_port, within)
from serving import GMD, serving
from trials import ROOM_PATH, ROOT, same

GEARMAND = shutil.which("gearmand", path=f"{os.environ['PATH']}:/usr/sbin")
HERE = ROOT / "tests"
# The options that gmd has from its installation on: --as-gearmand is among them.
PARAMS = re.search(r'(?m)^PARAMS="(.*)"$', (ROOT / "packaging/debian/gmd.default").read_text())[1].split()
C, PHP, PERL = (ROOM_PATH / "peers",), ("php", HERE / "peers.php"), ("perl", HERE / "peers.pl")


def can_connect(port):
    with socket.socket() as probe:
        return probe.connect_ex(("127.0.0.1", port)) == 0


def gmd():
    """The port of a gmd that serves what was written for gearmand. It ends well."""
    return serving(*PARAMS)


@contextlib.contextmanager
def gearmand():
    """The port of a gearmand, which says nothing when it listens."""
    with own_port() as port, subprocess.Popen([GEARMAND, "--listen", "127.0.0.1", "--port", str(port), "--log-file", "/dev/null"],
                                              stdin=subprocess.DEVNULL, stdout=subprocess.DEVNULL, stderr=subprocess.DEVNULL) as process:
        try:
            within("gearmand listens", lambda: can_connect(port) or process.poll() is not None)
            yield port
        finally:
            process.kill()


SERVERS = {"gmd": gmd, "gearmand": gearmand}


### Connections

def submitted(client, function=b"f", unique=b"", data=b"", kind=SUBMIT_JOB):
    """The handle of a job that a client submits."""
    client.request(kind, function, unique, data)
    created, handle = client.answer()
    same("a job", created, JOB_CREATED)
    return handle


def able(port, *functions):
    """A worker that can do these functions."""
    worker = Client(port)
    for function in functions:
        worker.request(CAN_DO, function)
    return worker


def given(worker, kind=GRAB_JOB_ALL):
    """What a grab is answered."""
    worker.request(kind)
    return worker.answer()


def running(port, worker, **named):
    """A client, and the handle of its job, which the worker runs."""
    client = Client(port)
    handle = submitted(client, **named)
    same("the worker's job", given(worker)[:2], (JOB_ASSIGN_UNIQ, handle))
    return client, handle


def heard(client):
    """What a client is sent. gearmand has a NUL behind the handle of a WORK_FAIL."""
    kind, *arguments = client.answer()
    return (kind, arguments[0]) if kind == WORK_FAIL else (kind, *arguments)


def refused(peer):
    """The type and the code of an ERROR. gearmand's codes are in capitals."""
    kind, *arguments = peer.answer()
    return kind, arguments[0].lower() if arguments else b""


def of_function(client, name="f"):
    """What `status` says of a function: jobs, running jobs and workers."""
    for line in client.lines(b"status"):
        if line.startswith(f"{name}\t"):
            return tuple(map(int, line.split("\t")[1:]))
    return 0, 0, 0


### Programs

class Program:
    """A worker in the background, and the lines that it prints."""

    def __init__(self, *command):
        self.log = ROOM_PATH / f"said{time.monotonic_ns()}"
        with self.log.open("wb") as log:
            self.process = subprocess.Popen([str(word) for word in command], stdin=subprocess.DEVNULL, stdout=log,
                                            stderr=subprocess.DEVNULL)

    def __enter__(self):
        return self

    def __exit__(self, *_):
        self.process.kill()
        self.process.wait()

    def lines(self):
        return self.log.read_text(errors="replace").splitlines()

    def has_ended(self):
        return self.process.poll() is not None


@contextlib.contextmanager
def worker(port, command, *words):
    """A worker of the function f, which has said so."""
    with Program(*command, port, *words) as process:
        asker = Client(port)
        within("the worker", lambda: of_function(asker)[2] == 1)
        asker.close()
        yield process


def said(command, *words, text=None):
    """What a client prints, and its errors."""
    done = subprocess.run([str(word) for word in (*command, *words)], input=text, stdin=None if text is not None else subprocess.DEVNULL,
                          stdout=subprocess.PIPE, stderr=subprocess.STDOUT, text=True, timeout=PATIENCE, check=False)
    return done.stdout
