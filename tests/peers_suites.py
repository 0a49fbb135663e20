"""The tests of two libraries that were written for gearmand, at gmd with --as-gearmand and at gearmand: those of PHP's extension, with
PHP's own runner, and those of Perl's Gearman::Client. SOURCES names a folder with the archives that `apt-get source --download-only`
brings."""
import contextlib
import glob
import os
import pathlib
import shutil
import signal
import subprocess
import tarfile

from peering import GEARMAND, GMD, PARAMS, PATIENCE, SERVERS
from trials import ROOM_PATH, Wrong, check, same, skip

SOURCES = os.environ.get("SOURCES", "")
TRIES = 3  # some of these tests measure times, and may fail on a busy machine
LONG = 5 * PATIENCE
# The tests of Perl's library that are left out, and why.
LEFT_OUT = {
    "09-connect.t": "it waits for addresses that nobody has",
    "14-sleep.t": "its time limit of 3 is in seconds, as of old servers, and its workers die of the answer to a late result",
    "18-ssl.t": "it needs certificates",
}
# The tests of PHP's extension, by the ends of their names, that pass at gearmand and not at gmd, and why.
DIFFER = {
    "client_018.phpt": "it asks for a job's status by its unique id, which gmd doesn't serve",
    "worker_014.phpt": "it wants handles with the machine's name, and gmd's have gmd's name",
    "worker_016.phpt": "it wants handles with the machine's name, and gmd's have gmd's name",
}
COMMANDS = {"gmd": " ".join([str(GMD), *PARAMS]), "gearmand": f"{GEARMAND} --log-file=/dev/null"}
KINDS = [kind for kind in SERVERS if kind == "gmd" or GEARMAND]


def unpacked(package):
    """The folder of a package's source, or None where it isn't here."""
    archives = glob.glob(f"{glob.escape(SOURCES)}/{package}_*.orig.tar.*") if SOURCES else []
    if not archives:
        return None
    room = ROOM_PATH / package
    with tarfile.open(archives[0]) as archive:
        archive.extractall(room)  # of Debian's archive
    return next(path for path in room.iterdir() if path.is_dir())


def said_by(command, **named):
    """What a command prints, and its status. What it started ends with it."""
    with subprocess.Popen(command, stdin=subprocess.DEVNULL, stdout=subprocess.PIPE, stderr=subprocess.STDOUT, start_new_session=True,
                          text=True, errors="replace", **named) as process:
        try:
            return process.communicate(timeout=LONG)[0], process.returncode
        finally:
            with contextlib.suppress(ProcessLookupError):
                os.killpg(process.pid, signal.SIGKILL)


def again(passes):
    """Tries this a few times, until it is so."""
    return any(passes() for _ in range(TRIES))


### Perl

def perl_suite(folder, name, kind):
    """A file of tests, which starts its servers by itself: it is given a command that begins with this one."""
    command = ROOM_PATH / f"starts-{kind}"
    command.write_text(f'#!/bin/sh\nexec {COMMANDS[kind]} "$@" > /dev/null\n')
    command.chmod(0o755)
    env = {**os.environ, "GEARMAND_PATH": str(command), "AUTHOR_TESTING": "1"}
    said = []

    def passes():
        text, status = said_by(["perl", "-I.", f"t/{name}"], cwd=folder, env=env)
        said.append(text)
        return status == 0 and "\nok 1" in f"\n{text}"

    if not again(passes):
        raise Wrong(said[-1][-300:])


def run_perl():
    needed = ["-MTest::TCP", "-MFile::Which", "-MProc::Guard", "-MTest::Exception", "-MTest::Timer", "-MGearman::Client"]
    folder = unpacked("libgearman-client-perl")
    if folder is None:
        skip("the tests of Perl's library", "their source isn't here")
    elif subprocess.run(["perl", *needed, "-e", "1"], stderr=subprocess.DEVNULL, check=False).returncode:
        skip("the tests of Perl's library", "a module that they use is missing")
    else:
        names = sorted(path.name for path in (folder / "t").glob("*.t"))
        check("perl_left_out", same, "which are there", sorted(set(names) & set(LEFT_OUT)), sorted(LEFT_OUT))
        for kind in KINDS:
            for name in names:
                if name not in LEFT_OUT:
                    check(f"perl_suite: {name} at {kind}", perl_suite, folder, name, kind)


### PHP

def at_port(folder, port):
    """A copy of the tests for a server at this port, in place of the usual one."""
    copy = ROOM_PATH / f"phpt{port}"
    shutil.copytree(folder / "tests", copy)
    for path in copy.rglob("*"):
        if path.suffix in (".inc", ".phpt", ".php"):
            path.write_bytes(path.read_bytes().replace(b"4730", b"%d" % port))
    return copy


def results(runner, tests):
    """What PHP's runner says of each of these tests: PASSED, FAILED, SKIPPED and so on."""
    told = ROOM_PATH / "results"
    told.unlink(missing_ok=True)
    env = {**os.environ, "NO_INTERACTION": "1", "TEST_PHP_EXECUTABLE": shutil.which("php")}
    said_by(["php", runner, "-q", "-W", told, *tests], env=env)
    pairs = (line.split("\t") for line in told.read_text(errors="replace").splitlines())
    return {pathlib.Path(path).name: status for status, path in pairs}


def php_statuses(runner, folder, kind):
    """The statuses of all tests at a server of their own. What fails is tried again."""
    with SERVERS[kind]() as port:
        copy = at_port(folder, port)
        found = results(runner, sorted(copy.rglob("*.phpt")))
        for _ in range(TRIES - 1):
            failed = [name for name, status in found.items() if status != "PASSED" and status != "SKIPPED"]
            if failed:
                found |= results(runner, [next(copy.rglob(name)) for name in failed])
        return found


def run_php():
    folder = unpacked("php-gearman")
    runners = glob.glob("/usr/lib/php/*/build/run-tests.php")
    if folder is None:
        skip("the tests of PHP's extension", "their source isn't here")
    elif not runners or not shutil.which("php"):
        skip("the tests of PHP's extension", "there is no runner of PHP's tests")
    elif not GEARMAND:
        skip("the tests of PHP's extension", "there is no gearmand beside which they are to be run")
    else:
        of = {kind: php_statuses(runners[0], next(folder.rglob("tests")).parent, kind) for kind in KINDS}
        for name, status in of["gearmand"].items():
            # What doesn't pass at gearmand says nothing of gmd.
            if status == "PASSED" and not name.endswith(tuple(DIFFER)):
                check(f"php_suite: {name}", same, "at gmd", of["gmd"].get(name), status)
            else:
                print(f"   php_suite: {name} is {status} at gearmand, and {of['gmd'].get(name)} at gmd", flush=True)


def run():
    run_php()
    run_perl()
