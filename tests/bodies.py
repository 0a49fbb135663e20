"""Makes the bodies of a script's packets long. What is printed for it is made long in the same way: a body stands for another
wherever it comes. An empty one stays empty, as is that of a result without its separator."""
import bisect
import itertools
import os
import re

import packets
from packets import kind_of, unit_end

# Programs that were built without proofs take long over long bodies: for them BODIES has fewer sizes.
SIZES = [int(size) for size in os.environ.get("BODIES", "65535 65536 65537 1048576").split()]
LONGEST = 16_777_216  # bytes of a script
# How many arguments a packet has before its body, which may be of any length.
REQUESTS, ANSWERS = ({kind: len(arguments) - 1 for kind, (_, arguments) in table.items() if arguments.endswith("b")}
                     for table in (packets.REQUESTS, packets.RESPONSES))
FILLER = bytes(range(256))


def lengthened(body, size):
    """A body of this size, which differs from that of another body."""
    pattern = body + FILLER
    return (body + pattern * (size // len(pattern) + 1))[:size]


def changes(stream, kinds, size):
    """What is to be changed in a stream: from, to, and the bytes that come there. A body's bytes are kept and followed by others."""
    begin = 0
    while (end := unit_end(stream, begin)) is not None:
        head, arguments = stream[begin : begin + 12], stream[begin + 12 : end].split(b"\0", kinds.get(kind_of(stream[begin:]), 0))
        if not head[0] and kind_of(head) in kinds and len(arguments) == kinds[kind_of(head)] + 1 and arguments[-1]:
            more = lengthened(arguments[-1], size)[len(arguments[-1]) :]
            yield begin + 8, begin + 12, (end - begin - 12 + len(more)).to_bytes(4, "big")
            yield end, end, more
        begin = end


def with_long_bodies(text, kinds, size):
    """The lines of a script, or those that are printed, with bodies of this size. A packet may be cut over several lines: what is
    added comes in the line of its last byte."""
    lines = text.split("\n")
    places = {}  # of each slot: its lines with bytes
    for at, line in enumerate(lines):
        if found := re.fullmatch(r"((?:bytes )?([0-9]+) )((?:[0-9a-fA-F]{2})+)", line):
            places.setdefault(found[2], []).append((at, found[1], bytearray.fromhex(found[3])))
    for pieces in places.values():
        ends = list(itertools.accumulate(len(piece) for _, _, piece in pieces))
        begins = [0, *ends]
        stream = b"".join(piece for _, _, piece in pieces)
        for begin, end, new in reversed(list(changes(stream, kinds, size))):
            if begin < end:
                for at, byte in enumerate(new, begin):
                    piece = bisect.bisect_right(ends, at)
                    pieces[piece][2][at - begins[piece]] = byte
            else:
                piece = bisect.bisect_left(ends, end)
                pieces[piece][2][end - begins[piece] : end - begins[piece]] = new
        for at, start, piece in pieces:
            lines[at] = start + piece.hex()
    return "\n".join(lines)


def has_bodies(script):
    return len(with_long_bodies(script, REQUESTS, 1000)) > len(script)
