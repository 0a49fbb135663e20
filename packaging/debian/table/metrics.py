"""What a gmd-table counts, and what the database has, as text for Prometheus over HTTP."""
import collections
import socket
import socketserver
import threading
import time

from bell import say

# Seconds from due to done, up to which rows are counted.
BOUNDS = (0.01, 0.025, 0.05, 0.1, 0.25, 0.5, 1, 2.5, 5, 10, 30, 60, 300, 1800, 3600, 86_400)
# Seconds: for a request to come and its answer to be taken; between two questions to the database, at least; and that an answer waits for
# the database's.
TIMEOUT, FRESH, MOMENT = 5, 5, 0.5
MAX_CLIENTS, MAX_HEAD = 8, 4096


class Numbers:
    """What this gmd-table did since its start. The keeper alone changes it."""

    def __init__(self):
        self.claimed = self.freed = self.done = self.failed = self.attempts_failed = self.returned = self.late = 0
        self.seconds, self.buckets = 0.0, collections.Counter()

    def ended(self, outcome, seconds):
        """Counts an outcome. The seconds since the row was due are None if another gmd-table had taken the row, or it was cancelled."""
        if seconds is None:
            self.late += 1
            return
        self.done += outcome.state == "done"
        self.failed += outcome.state == "failed"
        self.attempts_failed += outcome.counted
        self.returned += outcome.state == "waiting" and not outcome.counted
        if outcome.state == "done":
            self.seconds += max(seconds, 0.0)
            self.buckets[next((bound for bound in BOUNDS if seconds <= bound), None)] += 1


def escaped(text):
    return text.replace("\\", r"\\").replace('"', r"\"").replace("\n", r"\n")


def head_of(name, kind, text):
    return [f"# HELP {name} {text}", f"# TYPE {name} {kind}"]


def of_process(numbers, carrier, keeper):
    """The lines of what this process knows."""
    for name, kind, value, text in (
            ("claims_total", "counter", numbers.claimed, "Rows that were taken and handed to a server."),
            ("done_total", "counter", numbers.done, "Rows that were done."),
            ("failed_total", "counter", numbers.failed, "Rows that failed for good."),
            ("attempts_failed_total", "counter", numbers.attempts_failed, "Attempts that failed."),
            ("returned_total", "counter", numbers.returned, "Rows that came back because a server went or refused them for now."),
            ("freed_total", "counter", numbers.freed, "Rows that wait again because their lease had ended."),
            ("late_total", "counter", numbers.late, "Results that were dropped, because another had taken the row or it was cancelled."),
            ("on_the_way", "gauge", len(keeper.on_the_way), "Rows that this gmd-table has."),
            ("database_up", "gauge", int(keeper.is_answered()), "Whether the database answers, and is not silent for five seconds.")):
        yield from [*head_of(f"gearman_table_{name}", kind, text), f"gearman_table_{name} {value}"]
    yield from head_of("gearman_table_server_up", "gauge", "Whether a server answers.")
    for link in carrier.links:
        yield f'gearman_table_server_up{{server="{escaped(link.name)}"}} {int(link.is_up)}'
    yield from head_of("gearman_table_seconds", "histogram", "Seconds from when a row was due to when it was done.")
    total = 0
    for bound in BOUNDS:
        total += numbers.buckets[bound]
        yield f'gearman_table_seconds_bucket{{le="{bound:g}"}} {total}'
    total += numbers.buckets[None]
    yield from [f'gearman_table_seconds_bucket{{le="+Inf"}} {total}', f"gearman_table_seconds_sum {numbers.seconds:.6f}",
                f"gearman_table_seconds_count {total}"]


def of_database(store):
    """The lines of what the database knows."""
    yield from head_of("gearman_table_rows", "gauge", "Rows by function and state.")
    for function, state, count in store.counts():
        yield f'gearman_table_rows{{function="{escaped(function)}",state="{state}"}} {count}'
    yield from [*head_of("gearman_table_oldest_due_seconds", "gauge", "For how long the oldest row has been due that waits."),
                f"gearman_table_oldest_due_seconds {store.oldest():.3f}"]


class Exporter:
    """The text, with answers of the database that are kept for a while: counting many rows takes time."""

    def __init__(self, store, numbers, carrier, keeper):
        self.store, self.numbers, self.carrier, self.keeper = store, numbers, carrier, keeper
        self.lock, self.asking, self.kept, self.fresh_until = threading.Lock(), threading.Thread(), [], 0.0

    def rows(self):
        """What the database knows: what it says in a moment, or said last. Nothing where it is away, or has said nothing yet."""
        with self.lock:
            if not self.asking.is_alive() and time.monotonic() >= self.fresh_until:
                self.asking = threading.Thread(target=self.ask, name="rows", daemon=True)
                self.asking.start()
        self.asking.join(MOMENT)
        return self.kept if self.keeper.is_answered() else []

    def ask(self):
        """Asks the database, in a thread of its own: it may never answer."""
        try:
            self.store.open()
            begun = time.monotonic()
            self.kept = list(of_database(self.store))
            pause = max(FRESH, 10 * (time.monotonic() - begun))
        except Exception as error:  # pylint: disable=broad-except
            say(f"the numbers of rows: {str(error).strip()}")
            self.kept, pause = [], FRESH
        # A connection belongs to the thread that made it.
        self.store.close()
        self.fresh_until = time.monotonic() + pause

    def text(self):
        return "\n".join([*of_process(self.numbers, self.carrier, self.keeper), *self.rows()]) + "\n"


class Handler(socketserver.BaseRequestHandler):
    """Answers the one request of a connection."""

    def handle(self):
        """Reads a request's head, and answers."""
        deadline, came = time.monotonic() + TIMEOUT, b""
        while b"\r\n\r\n" not in came and len(came) < MAX_HEAD:
            self.request.settimeout(max(deadline - time.monotonic(), 0.001))
            piece = self.request.recv(MAX_HEAD)
            if not piece:
                return
            came += piece
        status, body = "404 Not Found", "There is /metrics.\n"
        if came.startswith((b"GET /metrics ", b"GET /metrics?")):
            status, body = "200 OK", self.server.exporter.text()
        data = body.encode(errors="backslashreplace")
        self.request.settimeout(TIMEOUT)
        lines = [f"HTTP/1.1 {status}", "Content-Type: text/plain; version=0.0.4; charset=utf-8", f"Content-Length: {len(data)}",
                 "Connection: close", "Cache-Control: no-store", "X-Content-Type-Options: nosniff", "", ""]
        self.request.sendall("\r\n".join(lines).encode() + data)


class Listener(socketserver.ThreadingTCPServer):
    """Takes connections, each to a thread of its own, and not too many."""
    daemon_threads = allow_reuse_address = True

    def __init__(self, address, exporter):
        self.exporter, self.free = exporter, threading.BoundedSemaphore(MAX_CLIENTS)
        self.address_family, *_, address = socket.getaddrinfo(*address, type=socket.SOCK_STREAM)[0]
        super().__init__(address, Handler)

    def process_request(self, request, client_address):
        if self.free.acquire(blocking=False):  # pylint: disable=consider-using-with
            super().process_request(request, client_address)
        else:
            self.shutdown_request(request)

    def process_request_thread(self, request, client_address):
        try:
            super().process_request_thread(request, client_address)
        finally:
            self.free.release()

    def handle_error(self, request, client_address):
        """A client that is slow or goes is no fault."""


def serve_numbers(address, exporter):
    """Serves the numbers, in a thread of its own. The port."""
    listener = Listener(address, exporter)
    threading.Thread(target=listener.serve_forever, name="numbers", daemon=True).start()
    return listener.server_address[1]
