"""Trials of tests/peers with programs that were written for gearmand: workers and clients of C, PHP and Perl with their libraries' own
options (peers.c, peers.php, peers.pl), and the tools of gearman. Each is tried at gmd with --as-gearmand and at gearmand, whose name it
gets: where the two differ, it says how."""
import shutil
import subprocess

from loopback import (SUBMIT_JOB_BG, SUBMIT_JOB_HIGH_BG, SUBMIT_JOB_LOW_BG, WORK_COMPLETE, WORK_FAIL, Client)
from peering import C, HERE, PERL, PHP, Program, heard, of_function, said, submitted, within, worker
from trials import same

DONE = "0 dab\n0 doog\n"  # what C's client prints of two jobs that are done
TIMED_OUT = "47"  # GEARMAN_TIMEOUT


def serves(port, command, *words):
    """A worker with its library's own options does the jobs of C's client."""
    with worker(port, command, *words) as process:
        same("what C's client prints", said(C, port, "do"), DONE)
        same("what the worker prints", process.lines(), ["f bad", "f good"])


def c_worker(port, _kind):
    serves(port, C, "reverse")


def c_clone(port, _kind):
    """A clone of a worker, which asks as the library does by itself."""
    serves(port, C, "clone")


def c_second_version(port, _kind):
    """A function of the library's second version, whose result is in its data."""
    serves(port, C, "second")


def c_partition(port, _kind):
    """A function that could cut jobs up, and gets one that isn't to be."""
    serves(port, C, "partition")


def php_worker(port, _kind):
    serves(port, PHP, "reverse")


def perl_worker(port, _kind):
    with worker(port, PERL, "reverse"):
        client = Client(port)
        handle = submitted(client, data=b"good")
        same("its end", heard(client), (WORK_COMPLETE, handle, b"doog"))


def c_no_job(port, _kind):
    same("whether it says that there is none", said(C, port, "no-job"), "1\n")


def c_echoes(port, _kind):
    same("a client's", said(C, port, "echo"), "0\n")
    same("a worker's", said(C, port, "worker-echo"), "0\n")


def php_pings(port, _kind):
    same("a client's and a worker's", said(PHP, port, "ping"), "[true,true]\n")


### Workers of several functions

def several(port, command, names):
    """Jobs of three functions wait, and the worker takes them in this order."""
    client = Client(port)
    for name in b"f", b"g", b"h":
        submitted(client, name, data=b"one", kind=SUBMIT_JOB_BG)
    with worker(port, command, "several") as process:
        within("all are done", lambda: len(process.lines()) == 3)
        same("their order", "".join(line[0] for line in process.lines()), names)


def c_several(port, kind):
    """The library announces the function first that was added last. So does gmd then begin, and gearmand where the program did."""
    several(port, C, "hgf" if kind == "gmd" else "fgh")


def php_several(port, kind):
    several(port, PHP, "hgf" if kind == "gmd" else "fgh")


def high_of_several(port, command):
    """The high job is the first wherever its function stands, and so is the low one the last. gearmand goes by functions: there the jobs
    are of one."""
    client = Client(port)
    for name, data, kind in ((b"f", b"low", SUBMIT_JOB_LOW_BG), (b"f", b"normal", SUBMIT_JOB_BG), (b"f", b"high", SUBMIT_JOB_HIGH_BG)):
        submitted(client, name, data=data, kind=kind)
    with worker(port, command, "several") as process:
        within("all are done", lambda: len(process.lines()) == 3)
        same("their order", process.lines(), ["f high", "f normal", "f low"])


def c_priorities(port, _kind):
    high_of_several(port, C)


def php_priorities(port, _kind):
    high_of_several(port, PHP)


def priorities_of_functions(port, command, kind):
    """At gmd the high job of each function goes before the normal jobs of both."""
    client = Client(port)
    for name in b"f", b"g":
        for data, of_kind in ((b"normal", SUBMIT_JOB_BG), (b"high", SUBMIT_JOB_HIGH_BG)):
            submitted(client, name, data=data, kind=of_kind)
    with worker(port, command, "several") as process:
        within("all are done", lambda: len(process.lines()) == 4)
        by_function = ["f high", "f normal", "g high", "g normal"]
        same("their order", process.lines(), ["g high", "f high", "g normal", "f normal"] if kind == "gmd" else by_function)


def c_priorities_of_functions(port, kind):
    priorities_of_functions(port, C, kind)


def php_priorities_of_functions(port, kind):
    priorities_of_functions(port, PHP, kind)


def leaves_one(port, command):
    """A worker that takes a function back gets the jobs of the others."""
    client = Client(port)
    for name in b"f", b"g", b"h":
        submitted(client, name, data=b"one", kind=SUBMIT_JOB_BG)
    with Program(*command, port, "leaves") as process:
        within("two are done", lambda: len(process.lines()) == 2)
        same("which", sorted(process.lines()), ["g one", "h one"])
        same("the third", of_function(client), (1, 0, 0))


def c_leaves_one(port, _kind):
    leaves_one(port, C)


def php_leaves_one(port, _kind):
    leaves_one(port, PHP)


def ids(port, command, what, name):
    with worker(port, command, what):
        client = Client(port)
        within("the worker's id", lambda: any(f" {name} : f" in line for line in client.lines(b"workers")))


def c_id(port, _kind):
    ids(port, C, "identified", "c@peers")


def php_id(port, _kind):
    ids(port, PHP, "reverse", "php@reverse")


def perl_id(port, _kind):
    ids(port, PERL, "reverse", "perl@reverse")


### Exceptions

def to_callers(port, kind, what, text, printed):
    """A worker sends an exception with the first job of each client, and goes on with the second. A client that asked for exceptions gets
    it, and any other one a failure. C's and Perl's clients don't take that of gearmand, which has a NUL behind its handle: C's waits until
    its time is over, and Perl's dies."""
    is_gmd = kind == "gmd"
    command, *words = what
    with worker(port, command, *words) as process:
        for option in "exceptions", "Exceptions", "EXCEPTIONS":
            same(option, said(C, port, f"asked-{option}"), f"1\nexception {text}\n{printed}")
        if is_gmd:
            same("a caller", said(C, port, "do")[:3], "24 ")
            same("a task", said(C, port, "tasks"), f"fail\n{printed}")
        else:
            same("a caller", said(C, port, "do", "1000").split(" ")[0], TIMED_OUT)
        within("the jobs are over", lambda: process.lines()[-1] == "f good")
        same("whether it goes on", not process.has_ended(), True)


def c_sends_exception(port, kind):
    """And then fails the job, which is over."""
    to_callers(port, kind, (C, "sends"), "boom", "complete doog\n")


def c_raises(port, kind):
    to_callers(port, kind, (C, "raises"), "boom", "data doog\ncomplete \n")


def php_sends_exception(port, kind):
    to_callers(port, kind, (PHP, "sends"), "boom", "complete doog\n")


def php_throws(port, kind):
    """The extension has a text of its own for it."""
    to_callers(port, kind, (PHP, "throws"), "Unable to add worker function", "complete doog\n")


def php_uncaught(port, _kind):
    """work() throws what its function threw. A worker that doesn't catch that ends, at both servers, and its job is over."""
    with worker(port, PHP, "uncaught") as process:
        client = Client(port)
        handle = submitted(client, data=b"bad")
        same("what its client gets", heard(client), (WORK_FAIL, handle))
        within("the worker has ended", process.has_ended)
        within("the queue is empty", lambda: of_function(client) == (0, 0, 0))


def php_callers(port, _kind):
    """PHP's client asks for exceptions by itself."""
    with worker(port, PHP, "sends"):
        same("a caller", said(PHP, port, "do"), '["",23]\n["doog",0]\n')
        same("tasks", said(PHP, port, "tasks"), "exception boom\ncomplete doog\n")
        same("tasks with a handler", said(PHP, port, "tasks-exceptions"), "true\nexception boom\ncomplete doog\n")


def perl_callers(port, kind):
    with worker(port, PHP, "sends"):
        same("one that asks for them", said(PERL, port, "calls-exceptions"), "exception boom none\ndoog\n")
        same("another", said(PERL, port, "calls"), "fail none\ndoog\n" if kind == "gmd" else "died\ndoog\n")


def perl_dies(port, _kind):
    """Perl's worker fails the job behind its exception, and dies of the answer: the job is over. It does so at both servers, and its client
    has the exception."""
    with worker(port, PERL, "dies") as process:
        client = Client(port)
        handle = submitted(client, data=b"bad")
        same("what its client gets", heard(client), (WORK_FAIL, handle))
        within("the worker has ended", process.has_ended)
        same("of what", [line for line in process.lines() if "job_not_found" in line] != [], True)
        within("the queue is empty", lambda: of_function(client)[0] == 0)


def other_options_of_c(port, _kind):
    """An option that there isn't: the library says so."""
    with worker(port, C, "reverse"):
        same("what it says", said(C, port, "asked-x"), "0\ncomplete dab\ncomplete doog\n")


### Results and limits

def perl_empty_result(port, kind):
    """Perl's worker sends an empty result without its separator. gearmand takes what comes next for it, and closes the connection. So the
    worker has the job again and again, and its client waits."""
    with worker(port, PERL, "reverse") as process:
        client = Client(port)
        handle = submitted(client, data=b"empty")
        if kind == "gmd":
            same("its end", heard(client), (WORK_COMPLETE, handle, b""))
            handle = submitted(client, data=b"good")
            same("the next one's", heard(client), (WORK_COMPLETE, handle, b"doog"))
        else:
            within("the worker has it again", lambda: process.lines().count("f empty") > 2)


def c_over_its_limit(port, kind):
    """A job takes longer than its limit of a second. gmd fails it, and the worker goes on with the next one. gearmand hands it on again and
    again, here to the same worker."""
    with worker(port, C, "slow", "1000") as process:
        client = Client(port)
        handle = submitted(client, data=b"bad")
        if kind == "gmd":
            same("its end", heard(client), (WORK_FAIL, handle))
            handle = submitted(client, data=b"good")
            same("the next one's", heard(client), (WORK_COMPLETE, handle, b"doog"))
        else:
            within("the worker has it again", lambda: process.lines().count("f bad") == 2)


### Tools

def tool(port, *words, text=None):
    return said(("gearman", "-h", "127.0.0.1", "-p", port), *words, text=text)


def tool_worker(port, _kind):
    """gearman -w, without any more options."""
    with worker(port, ("gearman", "-h", "127.0.0.1", "-w", "-f", "f", "-p"), "--", "wc", "-c"):
        client = Client(port)
        handle = submitted(client, data=b"12345")
        same("its end", heard(client), (WORK_COMPLETE, handle, b"5\n"))
        same("beside gearman", tool(port, "-f", "f", "123"), "3\n")


def tool_worker_of_several(port, _kind):
    """gearman -w with two functions, and a worker that ends after three jobs."""
    with worker(port, ("gearman", "-h", "127.0.0.1", "-w", "-f", "f", "-f", "g", "-c", "3", "-p"), "--", "cat") as process:
        for name, data in (("f", "one"), ("g", "two"), ("f", "three")):
            same(data, tool(port, "-f", name, data), data)
        within("it has ended", process.has_ended)


def tool_client(port, _kind):
    """Lines as jobs, priorities and the background."""
    with worker(port, C, "reverse") as process:
        same("lines", tool(port, "-f", "f", "-N", text="abc\ndef\n"), "cbafed")
        same("high", tool(port, "-I", "-f", "f", "high"), "hgih")
        same("low", tool(port, "-L", "-f", "f", "low"), "wol")
        same("its name before", tool(port, "-P", "-f", "f", "named"), "f: deman")
        tool(port, "-b", "-f", "f", "background")
        within("that in the background is done", lambda: process.lines()[-1] == "f background")


def tool_admin(port, _kind):
    """gearadmin's lists and version."""
    def admin(option):
        return said(("gearadmin", "-h", "127.0.0.1", "-p", port), option)

    with worker(port, C, "identified"):
        submitted(Client(port), b"waits", kind=SUBMIT_JOB_BG)
        same("status", sorted(admin("--status").splitlines()), [".", "f\t0\t0\t1", "waits\t1\t0\t0"])
        same("workers", [line.split(" ", 1)[1] for line in admin("--workers").splitlines() if line.endswith(": f")],
             ["127.0.0.1 c@peers : f"])
        same("version", [f"OK {admin('--server-version')}".strip()], Client(port).lines(b"version"))


### What there is

def is_there(command, *words):
    """Whether there is such a command, and it ends well with these words."""
    if not shutil.which(command):
        return False
    return subprocess.run([command, *words], stdin=subprocess.DEVNULL, capture_output=True, check=False).returncode == 0


def has_c():
    """Whether C's program is there, which is built."""
    return is_there("cc", "-Wall", "-Wextra", "-Werror", "-O1", "-o", str(C[0]), str(HERE / "peers.c"), "-lgearman")


IN_C = (c_worker, c_clone, c_second_version, c_partition, c_no_job, c_echoes, c_several, c_priorities, c_priorities_of_functions,
        c_leaves_one, c_id, c_sends_exception, c_raises, other_options_of_c, c_over_its_limit)
IN_PHP = (php_pings, php_several, php_priorities, php_priorities_of_functions, php_leaves_one, php_id, php_uncaught,
          php_callers)
IN_PHP_AND_C = (php_worker, php_sends_exception, php_throws)
IN_PERL = (perl_worker, perl_id, perl_dies, perl_empty_result)
IN_PERL_AND_PHP = (perl_callers,)
TOOLS = (tool_worker, tool_worker_of_several)
TOOLS_AND_C = (tool_client, tool_admin)


def trials():
    """Of each trial: its function, and what is missing for it."""
    missing = {
        "libgearman for C, or a compiler": not has_c(),
        "PHP with its extension gearman": not is_there("php", "-r", "exit(extension_loaded('gearman') ? 0 : 1);"),
        "Gearman::Client of Perl": not is_there("perl", "-MGearman::Client", "-e", "1"),
        "gearman and gearadmin": not (shutil.which("gearman") and shutil.which("gearadmin")),
    }
    c, php, perl, tools = missing
    for needs, found in (((c,), IN_C), ((php,), IN_PHP), ((php, c), IN_PHP_AND_C), ((perl,), IN_PERL), ((perl, php), IN_PERL_AND_PHP),
                         ((tools,), TOOLS), ((tools, c), TOOLS_AND_C)):
        for trial in found:
            yield trial, next((need for need in needs if missing[need]), "")
