"""Scripts for gm_play, made at random."""
from packets import (AS_GEARMAND, CAN_DO, CAN_DO_TIMEOUT, GET_STATUS, GRAB_JOB, GRAB_JOB_ALL, GRAB_JOB_UNIQ, PRE_SLEEP, REQUESTS,
                     SUBMIT_JOB, SUBMIT_JOB_BG, WORK_COMPLETE, WORK_EXCEPTION, packet)

# What jobs live on is there more than once.
OFTEN = {PRE_SLEEP: 3, GRAB_JOB: 3} | dict.fromkeys(
    (CAN_DO, SUBMIT_JOB, WORK_COMPLETE, GET_STATUS, SUBMIT_JOB_BG, CAN_DO_TIMEOUT, GRAB_JOB_UNIQ, GRAB_JOB_ALL, WORK_EXCEPTION), 2)
SENT = {**REQUESTS, **AS_GEARMAND}
KINDS = [kind for kind in SENT for _ in range(OFTEN.get(kind, 1))]
# Few words of each kind, so that they meet. `limits` has those of time.
WORDS = {
    "f": [b"f", b"g", b"h", b"i"],
    "u": [b"-", b"", b"a", b"b"],
    "b": [b"", b"x", b"yz"],
    "i": [b"", b"x", b"yz"],
    "h": [b"H:gmd:%d" % n for n in (1, 2, 3, 5, 8, 13, 21, 0)] + [b"H:gmd"],
    "n": [b"1", b"2", b"0"],
    "o": [b"exceptions", b"Exceptions", b"eXCEPTIONS\0", b"x"],
    "limits": [b"1", b"2", b"0", b"-1", b"1500", b"2001"],
}
LINES = [b"status", b"workers", b"version", b"maxqueue f 2", b"maxqueue f", b"x"]


def random_piece(dice, words):
    """Mostly a packet. A result comes without its separator now and then."""
    if dice.randrange(16) == 0:
        return dice.choice(LINES) + b"\n"
    kind = dice.choice(KINDS)
    _, letters = SENT[kind]
    arguments = [dice.choice(words["limits" if kind == CAN_DO_TIMEOUT and letter == "n" else letter]) for letter in letters]
    if kind == WORK_COMPLETE and dice.randrange(4) == 0:
        arguments.pop()
    return packet(kind, *arguments)


def with_ticks(dice):
    """A script in which time goes on, for a server with six slots."""
    lines = ["open a", "open b", "open c", "open d"]
    for moment in range(100):
        lines.append(f"tick {moment}")
        for _ in range(10):
            event = dice.randrange(32)
            if event < 2:
                lines.append("open a")
            elif event == 2:
                lines.append(f"close {dice.randrange(3)}")
            else:
                lines.append(f"bytes {dice.randrange(7)} {random_piece(dice, WORDS).hex()}")
    return "\n".join(lines) + "\n"


def without_ticks(dice, most, length):
    """A script of this length in which no time limit is reached and slot 0 stays open: at first there is half of the connections
    that may be, now and then a body is long, and a connection that breaks the protocol is closed."""
    bodies = [b"", b"x", b"yz"] * 20 + [bytes([65 + n]) * size for n, size in enumerate((65_535, 65_536, 70_000))]
    words = {**WORDS, "b": bodies, "i": bodies, "n": [b"0", b"4294967295"],
             "limits": [b"0", b"-1", b"4294967295"]}
    lines = ["open 127.0.0.1"] * max(2, most // 2)
    for _ in range(length):
        event = dice.randrange(32)
        if event < 2:
            lines.append("open 127.0.0.1")
        elif event == 2:
            lines.append(f"close {dice.randrange(1, most)}")
        elif event == 3 and (slot := dice.randrange(1, most)) % 4 == 0:
            lines += [f"bytes {slot} 00524553", f"close {slot}"]
        else:
            lines.append(f"bytes {dice.randrange(most)} {random_piece(dice, words).hex()}")
    return "\n".join(lines) + "\n"
