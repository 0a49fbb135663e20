"""A server that is shut down when a trial is done with it, and what its clients and workers do."""
import contextlib
import os
import struct
import time

from loopback import CAN_DO, GRAB_JOB, JOB_CREATED, PATIENCE, SUBMIT_JOB, SUBMIT_JOB_BG, Client, Server, packet
from trials import ROOM_PATH, Wrong, library, program, same

GMD = program("gmd", "gmd")


@contextlib.contextmanager
def serving(*options, connections=None):
    """A server's port. When the test is done with it, it is shut down, ends with status 0, and says that it served so many connections, if
    their number is given."""
    with Server(GMD, *options) as server:
        if not server.is_listening():
            raise Wrong(server.errors())
        yield server.port
        last = Client(server.port)
        same("shutdown", last.lines(b"shutdown"), ["OK"])
        last.close()
        server.ended(0, "gmd: ended, connections served: " + ("" if connections is None else f"{connections + 1}\n"))


@contextlib.contextmanager
def with_clock():
    """A server whose clock stands still, and what puts it forward to so many milliseconds from its start."""
    with open(ROOM_PATH / "clock", "w+b") as clock:
        put = lambda milliseconds: os.pwrite(clock.fileno(), struct.pack("q", 1_000_000_000 + milliseconds), 0)
        put(0)
        env = {"LD_PRELOAD": str(library()), "FAIL": "clock", "FAIL_TOLD": str(clock.fileno())}
        with Server(GMD, env=env, told=[clock.fileno()]) as server:
            yield server, put


def drip(client, most, is_over):
    """Takes 16 KiB each 4 ms, until it is over. Whether it was over before this many bytes had come."""
    taken = 0
    while taken < most and not is_over.is_set():
        try:
            piece = client.socket.recv(16_384)
        except ConnectionResetError:
            piece = b""
        if not piece:
            return True
        taken += len(piece)
        time.sleep(0.004)
    return taken < most


def grabbed(worker):
    worker.request(GRAB_JOB)
    return worker.answer()[1]


def client_and_worker(port, **named):
    """A client whose job, the first, runs at the worker."""
    client, worker = Client(port, **named), Client(port)
    client.request(SUBMIT_JOB, b"f", b"", b"")
    same("a job", client.answer(), (JOB_CREATED, b"H:gmd:1"))
    worker.request(CAN_DO, b"f")
    same("the worker's job", grabbed(worker), b"H:gmd:1")
    return client, worker


def listener_and_worker(port):
    """A client that listens 20,000 times to a job, and the worker that has it."""
    client, worker = Client(port, room=4096), Client(port)
    client.send(packet(SUBMIT_JOB, b"f", b"id", b"") * 20_000 + packet(SUBMIT_JOB_BG, b"last", b"", b""))
    same("whether all is taken", any("last\t1\t0\t0" in worker.lines(b"status") for _ in range(100_000)), True)
    worker.request(CAN_DO, b"f")
    same("the worker's job", grabbed(worker), b"H:gmd:1")
    return client, worker


def comes_between(what, begun, least, most):
    """Not so many seconds passed since then, nor more than so many."""
    passed = time.monotonic() - begun
    if not least <= passed <= most:
        raise Wrong(f"{what} comes after {passed:.2f} s, and not after {least} to {most}")


def comes_in(client, seconds):
    """The next byte if it comes in so many seconds: none where the connection is closed."""
    client.socket.settimeout(max(seconds, 0.001))
    try:
        return client.socket.recv(1)
    except TimeoutError:
        return None
    except ConnectionError:
        return b""
    finally:
        client.socket.settimeout(PATIENCE)
