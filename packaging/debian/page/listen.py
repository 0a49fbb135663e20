"""Serves the page over HTTP. Bounds are on the size and time of a request, on the time of its answer, and on the number of clients at once.
No state of a client is kept."""
import gzip
import ipaddress
import re
import socket
import socketserver
import sys
import threading
import time

from gmd_metrics import Target, warn
from page import Page, label_of
from tables import TableWatch
from watch import Watch

MAX_CLIENTS = 32
MAX_HEAD = 8192
# Seconds for a request to come, and for its answer to be taken.
HEAD_TIMEOUT, WRITE_TIMEOUT = 5, 20
STATUSES = {200: "OK", 400: "Bad Request", 403: "Forbidden", 404: "Not Found", 405: "Method Not Allowed",
            431: "Request Header Fields Too Large", 500: "Internal Server Error", 503: "Service Unavailable"}
PLAIN = "text/plain; charset=utf-8"
TYPES = {"/": "text/html; charset=utf-8", "/metrics": "text/plain; version=0.0.4; charset=utf-8", "/json": "application/json"}


class HttpError(Exception):
    """A request that is answered by this status and reason."""


def read_head(connection):
    """The head of a request. All of it has to come in time, however slowly its pieces come."""
    deadline, came = time.monotonic() + HEAD_TIMEOUT, b""
    while b"\r\n\r\n" not in came:
        if len(came) >= MAX_HEAD:
            raise HttpError(431, "The request is too long.")
        connection.settimeout(max(deadline - time.monotonic(), 0.001))
        piece = connection.recv(MAX_HEAD - len(came))
        if not piece:
            raise ConnectionResetError
        came += piece
    return came.partition(b"\r\n\r\n")[0].decode("latin-1")


def parse_head(head):
    """The method, the path, the query and the headers of a request."""
    line, *others = head.split("\r\n")
    request = re.fullmatch(r"([A-Z]+) (/\S*) HTTP/1\.[01]", line)
    headers = {}
    for other in others:
        name, colon, value = other.partition(":")
        name = name.lower()
        if not colon or name == "host" and name in headers:
            raise HttpError(400, "This is no request.")
        headers[name] = value.strip()
    if not request:
        raise HttpError(400, "This is no request.")
    if request[1] not in ("GET", "HEAD"):
        raise HttpError(405, "There are only GET and HEAD.")
    path, _, query = request[2].partition("?")
    return request[1], path, query, headers


def is_address(host):
    """Whether a request's host is localhost or an address. Any other name may belong to a stranger who has it resolve to this machine, so
    that pages of that name could read this one in a browser here."""
    name = re.sub(r":\d*$", "", host)
    try:
        return name.lower() == "localhost" or bool(ipaddress.ip_address(name.removeprefix("[").removesuffix("]")))
    except ValueError:
        return False


def message(status, body, *headers, has_body=True):
    lines = [f"HTTP/1.1 {status} {STATUSES[status]}", f"Content-Length: {len(body)}", "Connection: close", "Cache-Control: no-store",
             "X-Content-Type-Options: nosniff", "Referrer-Policy: no-referrer", "Cross-Origin-Resource-Policy: same-origin", *headers]
    return "\r\n".join([*lines, "", ""]).encode() + (body if has_body else b"")


def refusal(status, reason):
    allowed = ["Allow: GET, HEAD"] if status == 405 else []
    return message(status, f"{reason}\n".encode(), f"Content-Type: {PLAIN}", *allowed)


class Handler(socketserver.BaseRequestHandler):
    """Answers the one request of a connection."""

    def handle(self):
        try:
            answer = self.answer(*parse_head(read_head(self.request)))
        except HttpError as error:
            answer = refusal(*error.args)
        except Exception as error:
            if not isinstance(error, OSError):
                self.request.sendall(refusal(500, "gmd-metrics failed."))
            raise
        self.request.settimeout(WRITE_TIMEOUT)
        self.request.sendall(answer)

    def answer(self, method, path, query, headers):
        if self.server.checks_host and "host" in headers and not is_address(headers["host"]):
            raise HttpError(403, "Ask for localhost or for an address.")
        page = self.server.page
        if path == "/healthz":
            if failure := page.failure():
                raise HttpError(503, failure)
            return message(200, b"ok\n", f"Content-Type: {PLAIN}", has_body=method == "GET")
        try:
            body = page.body(path, query)
        except ValueError as error:
            raise HttpError(400, "This is no request.") from error
        if body is None:
            raise HttpError(404, "There are /, /metrics, /json and /healthz.")
        extra = [f"Content-Type: {TYPES[path]}", "Vary: Accept-Encoding"]
        extra += [f"Content-Security-Policy: {page.policy}"] if path == "/" else []
        if "gzip" in re.split(r"[\s,]+", headers.get("accept-encoding", "")):
            body = gzip.compress(body, 1)
            extra.append("Content-Encoding: gzip")
        return message(200, body, *extra, has_body=method == "GET")


class Listener(socketserver.ThreadingTCPServer):
    """Takes connections, each to a thread of its own."""
    daemon_threads = allow_reuse_address = True
    request_queue_size = MAX_CLIENTS

    def __init__(self, host, port, page):
        self.page, self.free = page, threading.BoundedSemaphore(MAX_CLIENTS)
        self.address_family, *_, address = socket.getaddrinfo(host, port, type=socket.SOCK_STREAM)[0]
        super().__init__(address, Handler)
        self.checks_host = ipaddress.ip_address(self.server_address[0].partition("%")[0]).is_loopback

    def process_request(self, request, client_address):
        if not self.free.acquire(blocking=False):  # pylint: disable=consider-using-with
            request.settimeout(0.001)
            request.sendall(refusal(503, "Too many ask at once."))
            self.shutdown_request(request)
            return
        try:
            super().process_request(request, client_address)
        except BaseException:
            self.free.release()
            raise

    def process_request_thread(self, request, client_address):
        try:
            super().process_request_thread(request, client_address)
        finally:
            self.free.release()

    def handle_error(self, request, client_address):
        # A slow client, or one that disconnects, is not worth a traceback.
        if not isinstance(sys.exc_info()[1], OSError):
            super().handle_error(request, client_address)


def serve_page(options):
    """Serves the page until it is stopped. The status of the program."""
    watches = [Watch(target, options) for target in options.targets]
    tables = [TableWatch(target, options) for target in options.tables]
    host, port, _ = options.serve
    try:
        listener = Listener(host, port, Page(options, watches, tables))
    except OSError as error:
        warn(f"can't serve at {label_of(options.serve)}: {error.strerror or error}")
        return 1
    with listener:
        at = label_of(Target(host, listener.server_address[1], None))
        print(f"gmd-metrics: serves http://{at}/", flush=True)
        if not listener.checks_host:
            warn(f"{at} isn't of this machine only: everybody with access to it sees all names, ids and addresses")
        for poller in (*watches, *tables):
            poller.begin()
        try:
            listener.serve_forever(poll_interval=60)
        except KeyboardInterrupt:
            return 130
    return 0
