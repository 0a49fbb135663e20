"""Which crates need which, by crates.txt."""
import pathlib
import re

ROOT = pathlib.Path(__file__).resolve().parent.parent


def below(*crates):
    """These crates, and all crates of this repository that they need."""
    needs = {name: words.split() for name, words in re.findall(r"(?m)^(\w+):(.*)$", (ROOT / "crates.txt").read_text())}
    found, new = set(), set(crates)
    while new:
        found |= new
        new = {name for crate in new for name in needs[crate] if name in needs} - found
    return found
