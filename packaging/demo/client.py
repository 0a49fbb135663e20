#!/usr/bin/env python3
"""A client that needs no library: client.py [-h HOST] [-p PORT] FUNCTION TEXT. It submits one job, waits, and prints the result.

The status is 0, or 1 if the job failed or the server refused it.
"""
import getopt
import socket
import struct
import sys

SUBMIT_JOB, JOB_CREATED, WORK_COMPLETE, WORK_FAIL, ERROR, WORK_DATA, WORK_WARNING = 7, 8, 13, 14, 19, 28, 29


def packets(stream):
    """The server's packets: type and data."""
    while header := stream.read(12):
        magic, kind, size = struct.unpack(">4sII", header)
        if magic != b"\0RES":
            sys.exit("this is no Gearman server")
        yield kind, stream.read(size)


def main():
    options, arguments = getopt.getopt(sys.argv[1:], "h:p:")
    options = {"-h": "127.0.0.1", "-p": "4730", **dict(options)}
    if len(arguments) != 2:
        sys.exit(__doc__)
    function, text = map(str.encode, arguments)
    data = b"\0".join((function, b"", text))  # the second is the unique id: none
    with socket.create_connection((options["-h"], int(options["-p"]))) as server:
        server.sendall(struct.pack(">4sII", b"\0REQ", SUBMIT_JOB, len(data)) + data)
        for kind, data in packets(server.makefile("rb")):
            handle, _, result = data.partition(b"\0")
            if kind in (WORK_COMPLETE, WORK_DATA):
                sys.stdout.buffer.write(result)
                sys.stdout.flush()
            if kind == WORK_COMPLETE:
                if not result.endswith(b"\n"):
                    print()
                return 0
            if kind == WORK_WARNING:
                print(f"warning: {result.decode(errors='replace')}", file=sys.stderr)
            if kind in (WORK_FAIL, ERROR):
                print("the job failed" if kind == WORK_FAIL else f"refused: {data.decode(errors='replace')}", file=sys.stderr)
                return 1
    print("the server closed the connection", file=sys.stderr)
    return 1


sys.exit(main())
