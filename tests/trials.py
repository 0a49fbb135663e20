"""What the parts of ../test share: their checks, the rows, and runs of a program in which a call fails (failing.c)."""
import contextlib
import os
import pathlib
import re
import signal
import subprocess
import sys
import tempfile

from rows import topics

ROOT = pathlib.Path(__file__).resolve().parent.parent
KIT = pathlib.Path(subprocess.run(["rt", "doc"], capture_output=True, text=True, check=True).stdout.strip()).parent
ROOM = tempfile.TemporaryDirectory(prefix="gmd-test-")
ROOM_PATH = pathlib.Path(ROOM.name)
counts = {"passed": 0, "failed": 0, "skipped": 0}
# With UNPROVED set the program was built without proofs, and has checks that these trials don't allow for.
SLOW = "a program that was built without proofs is too slow for it"
NO_LIMIT = "a program that was built without proofs maps 16 TB, which a limit of address space refuses"
UNSERVED = {
    "script_lengths: newlines alone": SLOW,
    "long_packet": SLOW,
    "starts_not: address space": NO_LIMIT,
    "served_beside_announcers": NO_LIMIT,
    "shutdown_beside_slow": SLOW,
    "shutdown_beside_long_end": SLOW,
} if "UNPROVED" in os.environ else {}


class Wrong(Exception):
    """What a check found wrong."""


class Hung(BaseException):
    """The part's time is over."""


def hang(_signal, _frame):
    signal.signal(signal.SIGTERM, signal.SIG_IGN)
    raise Hung


signal.signal(signal.SIGTERM, hang)


def check(name, call, *args, **named):
    """A check passes where its function returns; what that returns is a remark on it. Its name is that of a trial, and perhaps
    ': ' and what is tried."""
    if name in UNSERVED:
        skip(name, UNSERVED[name])
        return
    try:
        remark = call(*args, **named)
    except Wrong as wrong:
        counts["failed"] += 1
        print(f"FAILED {name}\n    {wrong}", flush=True)
    except (Exception, Hung) as error:
        counts["failed"] += 1
        print(f"FAILED {name}\n    {'it hung' if isinstance(error, Hung) else repr(error)}", flush=True)
        if isinstance(error, Hung):
            finish()
    else:
        counts["passed"] += 1
        print(f"ok {name}" + (f": {remark}" if remark else ""), flush=True)


def same(what, got, wanted):
    """Part of a check."""
    if got != wanted:
        raise Wrong(f"{what}: {str(got)[:300]}, and not {str(wanted)[:300]}")


def skip(what, why):
    """Says what isn't checked here, and why."""
    counts["skipped"] += 1
    print(f"skip {what}: {why}", flush=True)


def finish():
    print(", ".join(f"{count} {what}" for what, count in counts.items()), flush=True)
    sys.exit(1 if counts["failed"] else 0)


def program(crate, name, argument=1):
    """The program that `rt ci` or `rt run` built in this crate, or the one that this argument names."""
    path = pathlib.Path(sys.argv[argument]) if sys.argv[argument:] else ROOT / "crates" / crate / "out" / name
    if not os.access(path, os.X_OK):
        check(name, same, "programs", f"there is no {path}", "README.md says how to build it")
        finish()
    return path.resolve()


def unit_tunables():
    """How the package's service has the C library keep memory: a variable of the environment."""
    [value] = re.findall(r"(?m)^Environment=GLIBC_TUNABLES=(\S+)$", (ROOT / "packaging/debian/gmd.service").read_text())
    return {"GLIBC_TUNABLES": value}


def library():
    """failing.c as a library, which the toolchain's own compiler makes."""
    made = ROOM_PATH / "failing.so"
    subprocess.run([KIT / "toolchain/bin/clang", "-O2", "-fPIC", "-shared", "-nostdlib", "-fuse-ld=lld", "-o", made,
                    ROOT / "tests/failing.c"], check=True)
    return made


def rows():
    """The rows of gm_play: name, arguments, script, printed."""
    for _topic, _title, found in topics():
        for row in found:
            yield row.name, row.options, row.script, row.printed


class Runner:
    """Runs a program again and again, with its standard input, output and error in files."""

    def __init__(self, path):
        self.path = str(path)
        self.library = str(library())
        self.input, self.output, self.error, self.told = (
            os.open(ROOM_PATH / name, os.O_RDWR | os.O_CREAT) for name in ("input", "output", "error", "told"))
        os.set_inheritable(self.told, True)
        self.runs = 0

    def give(self, script):
        """What the program reads from now on."""
        os.ftruncate(self.input, 0)
        os.pwrite(self.input, script.encode(), 0)

    def run(self, words=(), fail=""):
        """The status, what was written to standard output and error, and whether a call failed."""
        for fd in (self.output, self.error, self.told):
            os.ftruncate(fd, 0)
        for fd in (self.input, self.output, self.error, self.told):
            os.lseek(fd, 0, os.SEEK_SET)
        env = {"LD_PRELOAD": self.library, "FAIL": fail, "FAIL_TOLD": str(self.told)} if fail else {}
        streams = [(os.POSIX_SPAWN_DUP2, fd, at) for at, fd in enumerate((self.input, self.output, self.error))]
        child = os.posix_spawn(self.path, [self.path, *words], env, file_actions=streams)
        try:
            status = os.waitstatus_to_exitcode(os.waitpid(child, 0)[1])
        except Hung:
            with contextlib.suppress(ProcessLookupError):
                os.kill(child, signal.SIGKILL)
            raise
        self.runs += 1
        said = [os.pread(fd, os.fstat(fd).st_size, 0).decode(errors="replace") for fd in (self.output, self.error)]
        return status, *said, os.fstat(self.told).st_size > 0

    def each(self, words, kind):
        """Runs in which the first call of this kind fails, then the second, until a run has no such call."""
        for number in range(1, 100_000):
            ran = self.run(words, f"{kind}:{number}")
            yield f"{kind} {number}", ran
            if not ran[3]:
                return
            yield f"{kind} {number} and all after it", self.run(words, f"{kind}:{number}..")
