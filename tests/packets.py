"""Packets and units of the Gearman protocol: its types, and how a stream is cut."""

# The name of each type that a server serves or sends, and its arguments, a letter for each: function, unique id, handle, number, name of a
# client, option, code and text of an error, body. A body comes last, and may hold NUL.
REQUESTS = {
    1: ("CAN_DO", "f"), 2: ("CANT_DO", "f"), 3: ("RESET_ABILITIES", ""), 4: ("PRE_SLEEP", ""), 7: ("SUBMIT_JOB", "fub"),
    9: ("GRAB_JOB", ""), 12: ("WORK_STATUS", "hnn"), 13: ("WORK_COMPLETE", "hb"), 14: ("WORK_FAIL", "h"), 15: ("GET_STATUS", "h"),
    16: ("ECHO_REQ", "b"), 18: ("SUBMIT_JOB_BG", "fub"), 21: ("SUBMIT_JOB_HIGH", "fub"), 22: ("SET_CLIENT_ID", "i"),
    23: ("CAN_DO_TIMEOUT", "fn"), 24: ("ALL_YOURS", ""), 25: ("WORK_EXCEPTION", "hb"), 26: ("OPTION_REQ", "o"),
    28: ("WORK_DATA", "hb"), 29: ("WORK_WARNING", "hb"), 30: ("GRAB_JOB_UNIQ", ""), 32: ("SUBMIT_JOB_HIGH_BG", "fub"),
    33: ("SUBMIT_JOB_LOW", "fub"), 34: ("SUBMIT_JOB_LOW_BG", "fub"),
}
# What is served besides with `--as-gearmand`.
AS_GEARMAND = {39: ("GRAB_JOB_ALL", "")}

RESPONSES = {
    6: ("NOOP", ""), 8: ("JOB_CREATED", "h"), 10: ("NO_JOB", ""), 11: ("JOB_ASSIGN", "hfb"), 12: ("WORK_STATUS", "hnn"),
    13: ("WORK_COMPLETE", "hb"), 14: ("WORK_FAIL", "h"), 17: ("ECHO_RES", "b"), 19: ("ERROR", "ct"), 20: ("STATUS_RES", "hnnnn"),
    25: ("WORK_EXCEPTION", "hb"), 27: ("OPTION_RES", "o"), 28: ("WORK_DATA", "hb"), 29: ("WORK_WARNING", "hb"),
    31: ("JOB_ASSIGN_UNIQ", "hfub"),
}
# Each type's number by its name: CAN_DO and so on.
globals().update({name: kind for table in (REQUESTS, AS_GEARMAND, RESPONSES) for kind, (name, _) in table.items()})


def packet(kind, *arguments, magic=b"\0REQ"):
    data = b"\0".join(arguments)
    return magic + kind.to_bytes(4, "big") + len(data).to_bytes(4, "big") + data


def kind_of(unit):
    """A packet's type, or None of a line."""
    return None if unit[0] else int.from_bytes(unit[4:8], "big")


def unit_end(stream, begin=0):
    """Where the unit ends that begins here in a stream, or None where bytes of it are missing."""
    if begin == len(stream):
        return None
    if stream[begin]:
        return stream.find(b"\n", begin) + 1 or None
    end = begin + 12 + int.from_bytes(stream[begin + 8 : begin + 12], "big")
    return end if begin + 12 <= len(stream) and end <= len(stream) else None


def units_of(stream):
    """The whole units of a stream, and the bytes behind them."""
    units, begin = [], 0
    while end := unit_end(stream, begin):
        units.append(bytes(stream[begin:end]))
        begin = end
    return units, bytes(stream[begin:])
