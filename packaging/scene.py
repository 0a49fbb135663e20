"""Servers with work to look at, and the page of gmd-metrics: what test-page and picture-page share."""
import contextlib
import os
import pathlib
import re
import socket
import subprocess
import threading
import time

import servers
from servers import (CAN_DO, GRAB_JOB, GRAB_JOB_ALL, JOB_ASSIGN, JOB_CREATED, PATIENCE, ROOM_PATH, SUBMIT_JOB_BG, WORK_COMPLETE, Client,
                     Wrong, within)

SET_CLIENT_ID, CANT_DO = 22, 2


class Notifications:
    """What a server notifies systemd of, for a `systemctl` of ours that says it again."""

    def __init__(self, unit):
        self.path = ROOM_PATH / f"notify-{unit}"
        self.unit = unit
        self.socket = socket.socket(socket.AF_UNIX, socket.SOCK_DGRAM)
        self.socket.bind(str(self.path))
        threading.Thread(target=self.take, daemon=True).start()

    def take(self):
        with contextlib.suppress(OSError):
            while True:
                text = self.socket.recv(500).decode()
                if text.startswith("STATUS="):
                    new = ROOM_PATH / f"status-{self.unit}.new"
                    new.write_text(f"StatusText={text[7:]}\nNRestarts=0\n")
                    new.rename(ROOM_PATH / f"status-{self.unit}")


def environment():
    """Where gmd-metrics finds our systemctl."""
    folder = ROOM_PATH / "bin"
    folder.mkdir(exist_ok=True)
    script = folder / "systemctl"
    script.write_text(f'#!/bin/sh\nfor unit; do :; done\ncat "{ROOM_PATH}/status-$unit"\n')
    script.chmod(0o755)
    return {**os.environ, "PATH": f"{folder}:{os.environ['PATH']}"}


def server(program, unit, *options, port=None):
    """gmd, as the service of this name."""
    notifications = Notifications(unit)
    return servers.Server([program], "--name", unit, *options, port=port, env={**os.environ, "NOTIFY_SOCKET": str(notifications.path)})


class Page:
    """gmd-metrics as it serves its page."""

    def __init__(self, script, *arguments, env=None):
        self.process = subprocess.Popen([script, *arguments], stdout=subprocess.PIPE, stderr=subprocess.PIPE, text=True, env=env)
        line = self.process.stdout.readline()
        found = re.fullmatch(r"gmd-metrics: serves (http://(.*):(\d+)/)\n", line)
        if not found:
            self.process.kill()
            raise Wrong(f"gmd-metrics says {line!r}, {self.process.communicate()[1]!r}")
        self.address, self.host, self.port = found[1], found[2].strip("[]"), int(found[3])

    def __enter__(self):
        return self

    def __exit__(self, *_):
        self.process.kill()
        self.process.communicate()

    def exchange(self, request, seconds=PATIENCE):
        """What comes of these bytes, up to the connection's end."""
        with socket.create_connection((self.host, self.port), seconds) as connection:
            with contextlib.suppress(ConnectionError):
                connection.sendall(request)
            came = b""
            with contextlib.suppress(ConnectionError):
                while piece := connection.recv(1 << 16):
                    came += piece
            return came

    def get(self, path="/", method="GET", host="localhost", more=""):
        """Status, head and body."""
        came = self.exchange(f"{method} {path} HTTP/1.1\r\nHost: {host}\r\n{more}\r\n".encode("latin-1"))
        head, _, body = came.partition(b"\r\n\r\n")
        found = re.match(rb"HTTP/1\.1 (\d+) ", head)
        if not found:
            raise Wrong(f"{path}: {came[:200]!r}")
        return int(found[1]), head.decode(), body

    def text(self, path="/"):
        return self.get(path)[2].decode()


class Worker(Client):
    """A worker with an id, from an address of this machine."""

    def __init__(self, port, name, *functions, source="127.0.0.1"):
        self.socket = socket.create_connection(("127.0.0.1", port), PATIENCE, (source, 0))
        self.port, self.functions = port, functions
        if name:
            self.send(SET_CLIENT_ID, name)
        for function in functions:
            self.send(CAN_DO, function)
        # What was sent is done once this is answered.
        self.line(b"version")

    def take(self):
        """Grabs a job and returns its handle, or None."""
        kind, data = self.answer(GRAB_JOB)
        return data.split(b"\0")[0] if kind == JOB_ASSIGN else None

    def leave(self, function):
        """Takes a job, and can't do the function any more."""
        within("a job", self.take)
        self.send(CANT_DO, function)
        self.line(b"version")

    def grab_in_vain(self, until):
        """Grabs as libgearman's workers do without an option, which gmd refuses."""
        with contextlib.suppress(OSError, EOFError):
            while not until.is_set():
                self.answer(GRAB_JOB_ALL)
                until.wait(0.3)

    def work(self, seconds, until):
        """Does jobs that take so long."""
        with contextlib.suppress(OSError, EOFError):
            while not until.is_set():
                handle = self.take()
                if handle:
                    until.wait(seconds())
                    self.send(WORK_COMPLETE, handle, b"")
                else:
                    until.wait(0.3)


def submit(client, function, count=1):
    """Background jobs."""
    for _ in range(count):
        client.send(SUBMIT_JOB_BG, function, b"", b"")
        if client.receive()[0] != JOB_CREATED:
            raise Wrong(f"no job of {function!r}")


def wait_for(page, text, seconds=PATIENCE):
    """Waits until the page, made anew, has this text."""
    within(f"{text!r} on the page", lambda: text in page.text(), seconds)
