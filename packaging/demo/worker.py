#!/usr/bin/env python3
"""A worker that needs no library, for gmd and gearmand: worker.py [-h HOST] [-p PORT]. It reverses texts, and connects again for ever."""
import getopt, socket, struct, sys, time  # pylint: disable=multiple-imports

CAN_DO, PRE_SLEEP, NOOP, GRAB_JOB, NO_JOB, JOB_ASSIGN, WORK_COMPLETE, WORK_FAIL = 1, 4, 6, 9, 10, 11, 13, 14
FUNCTIONS = {b"reverse": lambda body: body.decode()[::-1].encode()}

def send(server, kind, *arguments):
    data = b"\0".join(arguments)
    server.sendall(struct.pack(">4sII", b"\0REQ", kind, len(data)) + data)

def done(handle, function, body):
    try:
        return WORK_COMPLETE, handle, FUNCTIONS[function](body)
    except Exception:  # pylint: disable=broad-except
        return WORK_FAIL, handle  # whatever went wrong, the worker lives, and the client is told

def serve(server, stream):
    for request in [*((CAN_DO, function) for function in FUNCTIONS), (GRAB_JOB,)]:
        send(server, *request)
    while header := stream.read(12):
        kind, size = struct.unpack(">4xII", header)
        data = stream.read(size)
        if kind == JOB_ASSIGN:
            send(server, *done(*data.split(b"\0", 2)))
        if kind in (JOB_ASSIGN, NOOP, NO_JOB):
            send(server, PRE_SLEEP if kind == NO_JOB else GRAB_JOB)

at = {"-h": "127.0.0.1", "-p": "4730", **dict(getopt.getopt(sys.argv[1:], "h:p:")[0])}
while True:
    try:
        with socket.create_connection((at["-h"], int(at["-p"]))) as connection:
            connection.setsockopt(socket.SOL_SOCKET, socket.SO_KEEPALIVE, 1)  # so that it notices a server that vanished
            serve(connection, connection.makefile("rb"))
    except (OSError, struct.error) as error:
        print(f"the server is away: {error}", file=sys.stderr)
    time.sleep(1)
