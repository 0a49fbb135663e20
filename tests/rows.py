"""Reads the rows of tests/rows/: scripts for gm_play, and what they print.

A file is a topic. Its first line is its title. A row begins with a line `## NAME: WHAT IT SHOWS`, then come the options that it is played
with, if any, as `options: ..`. A line `> ..` is a line of the script, and a line `< ..` is one that is printed for it. Characters
that can't be seen are written as `\\r`, `\\t` or `\\xNN`. The digits are those of the protocol's packets.
"""
import pathlib
import re
import typing

FOLDER = pathlib.Path(__file__).resolve().parent / "rows"
TOPICS = ["packets", "streams", "submissions", "runs", "workers", "turns", "retries", "as_gearmand", "lines"]


class Row(typing.NamedTuple):
    name: str
    shows: str
    options: list
    script: str
    printed: str


def unescaped(text):
    return re.sub(r"\\(r|t|x..)", lambda m: {"r": "\r", "t": "\t"}.get(m[1]) or chr(int(m[1][1:], 16)), text)


def row_of(part):
    lines = part.rstrip("\n").split("\n")
    name, shows = lines[0].split(": ", 1)
    options, script, printed = [], "", ""
    for line in lines[1:]:
        if line.startswith("options: "):
            options = line[9:].split()
        elif line.startswith("> ") or line == ">":
            script += unescaped(line[2:]) + "\n"
        elif line.startswith("< "):
            printed += line[2:] + "\n"
        elif line:
            raise ValueError(f"row {name}: the line {line!r} isn't understood")
    return Row(name, shows, options, script, printed)


def topic(name):
    """The title of a topic, and its rows."""
    title, *parts = re.split(r"^## ", (FOLDER / f"{name}.txt").read_text(), flags=re.M)
    return title.strip(), [row_of(part) for part in parts]


def topics():
    for name in TOPICS:
        yield (name, *topic(name))
