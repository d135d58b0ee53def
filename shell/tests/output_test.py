#!/usr/bin/env python3
"""output_test.py COMMAND FAULTS FOLDER: tests of what `run`, `trace` and `make` write, and when: signals, checkpoints, places
that cannot be written, names that lead to descriptors, file systems that fail, terminals. FAULTS is faults.c as a shared
object; what is written goes to FOLDER. Prints each failure and a count; fails if there is one."""
import contextlib
import errno
import fcntl
import os
import pty
import re
import resource
import select
import shutil
import signal
import struct
import subprocess
import sys
import termios
import time

sys.dont_write_bytecode = True
from tools import COMMAND, expect, read, report, write  # noqa: E402

FAULTS, FOLDER = (os.path.abspath(name) for name in sys.argv[2:4])
FILES = os.path.join(os.path.dirname(os.path.abspath(__file__)), "../../tests/cases/files")
PATIENCE = 60  # seconds that anything may take on a busy machine
SLICE = 65535
FOREVER = "4294967295"  # units: minutes
ENDS = (signal.SIGHUP, signal.SIGINT, signal.SIGTERM)
GUEST = """time = 1us
psw.address = loop
gr2 = 1
host tables at frame 1
map guest 0 to frame 3
at guest X'200'
loop AR 1,2
 STPT X'300'
 BC 15,loop
"""


def prepare(ignored=()):
    """In the new process: signals as a shell's foreground job has them, and no core files."""
    resource.setrlimit(resource.RLIMIT_CORE, (0, 0))
    signal.pthread_sigmask(signal.SIG_SETMASK, ())
    for number in ENDS:
        signal.signal(number, signal.SIG_IGN if number in ignored else signal.SIG_DFL)


def start(*arguments, faults=None, ignored=(), **options):
    """The command, running."""
    environment = dict(os.environ)
    if faults:
        environment.update({f"FAULT_{name}": str(fault) for name, fault in faults.items()}, LD_PRELOAD=FAULTS)
    streams = {"stdin": subprocess.DEVNULL, "stdout": subprocess.PIPE, "stderr": subprocess.PIPE, **options}
    return subprocess.Popen([COMMAND, *arguments], env=environment, preexec_fn=lambda: prepare(ignored), **streams)


def finish(p):
    """Exit status, standard output and standard error."""
    try:
        out, err = p.communicate(timeout=PATIENCE)
    except subprocess.TimeoutExpired:
        p.kill()
        out, err = p.communicate()
        expect(False, f"did not end by itself: {p.args[1:]}")
    return p.returncode, out or b"", (err or b"").decode()


def call(*arguments, **options):
    return finish(start(*arguments, **options))


def says(arguments, status, out, message, **options):
    """The exit status and standard output are these; standard error has this message in it, or is empty if that is None."""
    ended, printed, err = call(*arguments, **options)
    good = ended == status and printed == out and (err == "" if message is None else message in err)
    expect(good, f"{arguments} {options}: {ended}, {printed[:80]}, {err}; and not {status}, {out[:80]}, {message}")


def poll(holds, what):
    """Waits until something holds."""
    deadline = time.monotonic() + PATIENCE
    while not holds():
        if time.monotonic() > deadline:
            expect(False, f"never came: {what}")
            return
        time.sleep(0.005)


def is_caught(p, number):
    """Whether the process has a handler for the signal."""
    with open(f"/proc/{p.pid}/status", encoding="ascii") as f:
        caught = re.search(r"^SigCgt:\s*(\w+)", f.read(), re.MULTILINE)
    return int(caught.group(1), 16) >> (number - 1) & 1


def running(*arguments, **options):
    """The command, its run begun."""
    p = start(*arguments, **options)
    poll(lambda: p.poll() is not None or is_caught(p, signal.SIGTERM), f"{arguments} catches signals")
    return p


def units_of(data):
    """The units that the case file of GUEST has behind it, by its clock."""
    return struct.unpack(">Q", data[9:17])[0] // 4096


def after(units, case="guest.case"):
    """The case file that a run of so many units leaves."""
    status, data, err = call("run", case, "--budget", str(units), "--after", "-", "--quiet")
    expect(status == 0 and err == f"B 0 {units}\n", f"run of {units} units: {status}, {err}")
    return data


def in_dev(*names):
    """These names in /dev, unless a faulty command could replace what is there: links to /proc/self/fd stand for them then."""
    return () if os.access("/dev", os.W_OK) else names


def nothing_left(*names):
    """The folder has these files and no others, so no temporary file."""
    kept = sorted(["guest.case", "guest.txt", *names])
    expect(sorted(os.listdir()) == kept, f"the folder has {sorted(os.listdir())}, and not {kept}")


@contextlib.contextmanager
def folder():
    """An empty folder with the guest in it, as the current one."""
    shutil.rmtree(FOLDER, ignore_errors=True)
    os.makedirs(FOLDER)
    os.chdir(FOLDER)
    write("guest.txt", GUEST.encode())
    says(["make", "guest.txt", "-o", "guest.case"], 0, b"", None)
    yield
    os.chdir("/")


# Signals

def counted(units):
    return f"{units} unit" + ("" if units == 1 else "s")


def interrupted(ended, number, out, err, what):
    """The run ended by this signal, said so and left its case file; returns its units."""
    lines = out.decode().splitlines()
    units = int(lines[-1].split()[2]) if lines else 0
    expect(ended == 128 + number and lines[-1:] == [f"B 0 {units}"], f"{what}: {ended}, {lines[-1:]}")
    name = signal.Signals(number).name
    expect(err == f"drevokas: guest.case: interrupted by {name} after {counted(units)}\n", f"{what}: {err}")
    expect(read("out.case") == after(units), f"{what}: not the case file after {units} units")
    return units


def test_interrupted():
    for sub in "run", "trace":
        for number in ENDS:
            with folder():
                with open("lines", "wb") as lines:
                    p = running(sub, "guest.case", "--budget", FOREVER, "--after", "out.case", "--quiet", stdout=lines)
                p.send_signal(number)
                ended, _, err = finish(p)
                units = interrupted(ended, number, read("lines"), err, f"{sub}, {number.name}")
                expect(units > 0 and (sub == "trace" or units % SLICE == 0), f"{sub}: ended after {units} units")
                nothing_left("out.case", "lines")


def test_interrupted_first():
    """A signal that comes before the first unit: the slice, or the unit, is done, and no more."""
    for sub, units in ("run", SLICE), ("trace", 1):
        with folder():
            ended, out, err = call(sub, "guest.case", "--budget", FOREVER, "--after", "out.case", faults={"sigaction": -15})
            expect(interrupted(ended, 15, out, err, sub) == units, f"{sub}: not {units} units")
    with folder():
        says(["run", "guest.case", "--budget", FOREVER], 130, f"B 0 {SLICE}\n".encode(), "interrupted by SIGINT",
             faults={"sigaction": -2})
        says(["run", "guest.case", "--budget", FOREVER, "--after", "-"], 143, after(SLICE),
             f"B 0 {SLICE}\ndrevokas: guest.case: interrupted by SIGTERM", faults={"sigaction": -15})


def test_own_end():
    """A run that is about to end anyway keeps its own end."""
    with folder():
        run = ["run", "guest.case", "--budget", "7", "--after", "out.case", "--quiet"]
        says(run, 0, b"B 0 7\n", None, faults={"sigaction": -2})
        expect(read("out.case") == after(7), "own end: not the case file after 7 units")
        case = os.path.join(FILES, "host_17_load.in")
        ended, out, err = call("run", case, faults={"sigaction": -15})
        expect(ended == 0 and out.startswith(b"H 17 ") and "interrupted" not in err, f"own end: {ended}, {out}, {err}")


def test_second_signal():
    with folder():
        p = running("run", "guest.case", "--budget", FOREVER, "--after", "out.case", faults={"fsync": -15, "rename": -2})
        p.send_signal(signal.SIGINT)
        ended, out, err = finish(p)
        interrupted(ended, signal.SIGINT, out, err, "signals while the file is written")
        p = running("run", "guest.case", "--budget", FOREVER, "--after", "out.case")
        for number in (signal.SIGTERM, *ENDS * 3):
            p.send_signal(number)
        ended, out, err = finish(p)
        expect(ended in (128 + number for number in ENDS), f"many signals: {ended}")
        interrupted(ended, ended - 128, out, err, "many signals")
        nothing_left("out.case")


def test_ignored():
    """A signal that was ignored at the start stays so."""
    for number in ENDS:
        other = signal.SIGTERM if number != signal.SIGTERM else signal.SIGINT
        with folder():
            p = start("run", "guest.case", "--budget", FOREVER, "--after", "out.case", ignored=[number])
            poll(lambda: p.poll() is not None or is_caught(p, other), "a handler")
            p.send_signal(number)
            p.send_signal(other)
            ended, out, err = finish(p)
            interrupted(ended, other, out, err, f"{number.name} ignored")


def test_reader_gone():
    """Ctrl-C ends the reader of the line too: the case file is written all the same. Otherwise it did not advance."""
    for sub in "run", "trace":
        with folder():
            ours, theirs = os.pipe()
            p = running(sub, "guest.case", "--budget", FOREVER, "--after", "out.case", stdout=theirs)
            os.close(theirs)
            p.send_signal(signal.SIGINT)
            if sub == "trace":
                poll(lambda: p.poll() is not None or len(select.select([ours], [], [], 0)[0]) > 0, "lines")
            os.close(ours)
            ended, _, err = finish(p)
            units = re.search(r"interrupted by SIGINT after (\d+) units?$", err, re.MULTILINE)
            expect(ended == 130 and units is not None, f"{sub}, reader gone: {ended}, {err}")
            expect(read("out.case") == after(int(units.group(1))), f"{sub}, reader gone: not the case file")
        with folder():
            before = read("guest.case")
            ours, theirs = os.pipe()
            os.close(ours)
            says([sub, "guest.case", "--budget", "5", "--after", "guest.case"], -signal.SIGPIPE, b"", None, stdout=theirs)
            os.close(theirs)
            expect(read("guest.case") == before, f"{sub}, a reader that is gone: the case file advanced")


# Checkpoints

def test_checkpoint_usage():
    with folder():
        run = ["run", "guest.case", "--budget", FOREVER]
        says([*run, "--checkpoint", "5"], 2, b"", "--checkpoint: needs --after OUT")
        for number in "0", "", "x", "-1", "4294967296":
            says([*run, "--after", "out.case", f"--checkpoint={number}"], 2, b"", "must be a decimal number from 1 to 429")
        os.symlink("/proc/self/fd/1", "so")
        os.mkfifo("pipe")
        reader = os.open("pipe", os.O_RDONLY | os.O_NONBLOCK)
        for name in "-", "so", "pipe", "/dev/fd/2", *in_dev("/dev/stdout", "/dev/null"):
            says([*run, "--after", name, "--checkpoint", "5"], 2, b"", "--checkpoint: needs an ordinary file after --after")
        os.close(reader)
        nothing_left("so", "pipe")
        run = ["run", "guest.case", "--budget", "9", "--after", "out.case", "--quiet"]
        says([*run, "--checkpoint", FOREVER], 0, b"B 0 9\n", None)
        expect(read("out.case") == after(9), "--checkpoint beyond the budget")


def test_killed():
    """A run that is killed leaves its last checkpoint, which is at a multiple of the units."""
    for sub, every in ("run", 70001), ("run", 1000), ("trace", 7):
        with folder():
            run = [sub, "guest.case", "--budget", FOREVER, "--after", "out.case", "--checkpoint", str(every)]
            with open("lines", "wb") as lines:
                p = running(*run, stdout=lines)
            poll(lambda: p.poll() is not None or (os.path.exists("out.case") and units_of(read("out.case")) > every),
                 "a second checkpoint")
            p.kill()
            ended, _, _ = finish(p)
            data = read("out.case")
            units = units_of(data)
            expect(ended == -9 and units > every and units % every == 0, f"{sub} killed: {ended}, {units} units")
            expect(data == after(units), f"{sub} killed: not the case file after {units} units")
            expect(sub == "run" or read("lines").count(b"\n") >= units, "trace killed: lines of the checkpoint are missing")


def test_checkpoint_fails():
    """The Nth rename fails: the checkpoint before it stays."""
    full = os.strerror(errno.ENOSPC)
    for sub, every in ("run", 70000), ("run", 3), ("trace", 3):
        with folder():
            run = [sub, "guest.case", "--budget", str(5 * every), "--checkpoint", str(every), "--after", "out.case", "--quiet"]
            for rename, kept, message in [(3, 2, f"the checkpoint after {3 * every} units cannot be written: {full}"),
                                          (5, 4, f"cannot be written: {full}")]:
                ended, out, err = call(*run, faults={"rename": f"{rename}:{errno.ENOSPC}"})
                last = out.endswith(f"B 0 {5 * every}\n".encode())
                expect(ended == 2 and last == (rename == 5), f"{run}: {ended}, {out[-80:]}")
                stands = f"is as it stood after {kept * every} units, at its last checkpoint"
                expect(err == f"drevokas: out.case: {message}\ndrevokas: out.case: {stands}\n", f"{run}: {err}")
                expect(read("out.case") == after(kept * every), f"{run}: not checkpoint {kept}")
            ended, out, err = call(*run, faults={"rename": f"6:{errno.ENOSPC}"})
            expect(ended == 0 and err == "" and read("out.case") == after(5 * every), f"{run}: a sixth time: {ended}, {err}")
            nothing_left("out.case")


def test_interrupted_between():
    with folder():
        says(["run", "guest.case", "--budget", FOREVER, "--after", "out.case", "--checkpoint", "1000"], 130, b"B 0 1000\n",
             "interrupted by SIGINT after 1000 units", faults={"sigaction": -2})
        expect(read("out.case") == after(1000), "interrupted at a checkpoint")


# Places

def refuses(name, message, *, sub="run", **options):
    """A long run is refused at once, and nothing is printed or changed."""
    before = {n: read(n) if os.path.isfile(n) else None for n in os.listdir()}
    arguments = ["-o", name] if sub == "make" else ["--budget", FOREVER, "--after", name]
    says([sub, "guest.txt" if sub == "make" else "guest.case", *arguments], 2, b"", message, **options)
    expect({n: read(n) if os.path.isfile(n) else None for n in os.listdir()} == before, f"{name} refused: the folder changed")


def test_places():
    for sub in "run", "trace", "make":
        with folder():
            os.mkdir("inner")
            os.symlink("two", "one")
            os.symlink("one", "two")
            os.symlink("none/out.case", "astray")
            with open("/dev/null", "rb") as wrong_way:
                for name in "/dev/fd/1", *in_dev("/dev/stdout"):
                    refuses(name, f"{name}: cannot be written: Bad file descriptor", sub=sub, stdout=wrong_way)
                refuses("/dev/fd/0", "/dev/fd/0: cannot be written: Bad file descriptor", sub=sub, stdin=wrong_way)
            for name, message in [("none/out.case", "No such file"), ("inner", "Is a directory"), ("inner/", "Is a directory"),
                                  ("guest.case/out", "Not a directory"), ("none/", "No such file"), ("", "No such file"),
                                  ("x" * 256, "File name too long"), ("one", "Too many levels"), ("astray", "No such file"),
                                  ("/dev/fd/77", "Bad file descriptor")]:
                refuses(name, f"{name}: cannot be written: {message}", sub=sub)
            refuses("inner/out.case", "Permission denied", sub=sub, faults={"faccessat": errno.EACCES})
            refuses("out.case", "Read-only file system", sub=sub, faults={"faccessat": errno.EROFS})
            if os.geteuid() != 0:
                os.chmod("inner", 0o555)
                refuses("inner/out.case", "Permission denied", sub=sub)
                os.chmod(shutil.copy("guest.case", "kept.case"), 0o444)
                refuses("kept.case", "Permission denied", sub=sub)
                os.chmod("inner", 0o755)


def test_not_over_a_text():
    for sub in "run", "trace", "make":
        with folder():
            write("other.txt", b"time = 1us\n")
            write("bytes", bytes(33000))
            write("cut.case", read("guest.case")[:-1])
            os.symlink("other.txt", "link")
            for name in "other.txt", "bytes", "cut.case", "link":
                refuses(name, f"{name}: cannot be written: it is there and is no case file", sub=sub)
            message = "guest.txt is the text, and would be lost" if sub == "make" else "it is there and is no case file"
            refuses("guest.txt", message, sub=sub)
            write("empty", b"")
            for name in "empty", "guest.case":
                if sub == "make":
                    says([sub, "guest.txt", "-o", name], 0, b"", None)
                    expect(read(name) == read("guest.case"), f"make over {name}")
                else:
                    whole = after(3)
                    ended, _, err = call(sub, "guest.case", "--budget", "3", "--after", name, "--quiet")
                    expect(ended == 0 and err == "" and read(name) == whole, f"{sub} over {name}: {ended}, {err}")


def test_own_output():
    """OUT is the file that the line goes to."""
    with folder():
        with open("log", "wb") as log:
            refuses("log", "log: cannot be written: standard output goes there", stdout=log)
        expect(read("log") == b"", f"the line's own file: {read('log')}")


def test_line_first():
    """The line cannot be written: the case file did not advance."""
    for sub in "run", "trace":
        with folder(), open("/dev/full", "wb") as full:
            before = read("guest.case")
            says([sub, "guest.case", "--budget", "5", "--after", "guest.case"], 2, b"",
                 "standard output cannot be written: No space", stdout=full)
            expect(read("guest.case") == before, f"{sub} > /dev/full: the case file advanced")
            says([sub, "guest.case", "--budget", "5", "--after", "-"], 2, b"",
                 "standard output: cannot be written: No space", stdout=full)
            nothing_left()


# Names

def in_place(name, stdout, what):
    """The case file goes to standard output as it is, and what run prints to standard error."""
    links = {n: os.readlink(n) for n in os.listdir() if os.path.islink(n)}
    ended, out, err = call("run", "guest.case", "--budget", "5", "--after", name, "--quiet", stdout=stdout)
    expect(ended == 0 and err == "B 0 5\n", f"{what}, {name}: {ended}, {err}")
    ended, more, err = call("make", "guest.txt", "-o", name, stdout=stdout)
    expect(ended == 0 and err == "", f"{what}, make -o {name}: {ended}, {err}")
    expect({n: os.readlink(n) for n in os.listdir() if os.path.islink(n)} == links, f"{what}, {name}: a link is replaced")
    return out + more


def test_descriptors():
    with folder():
        os.symlink("/proc/self/fd/1", "so")
        os.symlink("so", "chain")
        os.symlink("/dev/fd", "fds")
        whole = after(5) + read("guest.case")
        for name in "-", "/dev/fd/1", "/proc/thread-self/fd/1", "so", "chain", "fds/1", *in_dev("/dev/stdout"):
            expect(in_place(name, subprocess.PIPE, "a pipe") == whole, f"{name} into a pipe")
            write("log", b"a line of the log\n")
            with open("log", "ab") as log:
                in_place(name, log, ">> log")
            expect(read("log") == b"a line of the log\n" + whole, f"{name} >> log: {len(read('log'))} bytes")
            with open("log", "r+b") as log:
                log.seek(7)
                in_place(name, log, "in the middle")
            expect(read("log") == b"a line " + whole + whole[-11:], f"{name} in the middle: {len(read('log'))} bytes")
        with open("log", "w+b") as log:
            says(["run", "guest.case", "--budget", "5", "--after", f"/dev/fd/{log.fileno()}", "--quiet"], 0, b"B 0 5\n", None,
                 pass_fds=[log.fileno()])
        expect(read("log") == after(5), "another descriptor")
        nothing_left("so", "chain", "fds", "log")


def test_devices():
    """What is no ordinary file is written as it is."""
    with folder():
        run = ["run", "guest.case", "--budget", "5", "--quiet", "--after"]
        for name in in_dev("/dev/null"):
            says([*run, name], 0, b"B 0 5\n", None)
        for name in in_dev("/dev/full"):
            says([*run, name], 2, b"B 0 5\n", f"{name}: cannot be written: No space")
        os.mkfifo("pipe")
        os.symlink("pipe", "link")
        p = start(*run, "link")
        q = start("run", "pipe", "--budget", "4", "--after", "out.case", "--quiet")
        expect(finish(p) == (0, b"B 0 5\n", "") and finish(q) == (0, b"B 0 4\n", ""), "a pipe")
        expect(read("out.case") == after(9), "a pipe: not the case file after both")
        nothing_left("link", "pipe", "out.case")


def test_links():
    """A link without a file stands for its target."""
    with folder():
        os.mkdir("inner")
        os.symlink("inner/first", "link")
        os.symlink("../target", "inner/first")
        os.symlink("-", "dash")
        for name, target in ("link", "target"), ("dash", "./-"):
            says(["run", "guest.case", "--budget", "5", "--after", name, "--quiet"], 0, b"B 0 5\n", None)
            expect(os.path.islink(name) and os.path.islink("inner/first"), f"{name}: a link is replaced")
            expect(read(target) == after(5), f"{name}: not at its target")
        says(["make", "guest.txt", "-o", "link"], 0, b"", None)
        expect(os.path.islink("link") and read("target") == read("guest.case"), "a link to a file that is there")
        nothing_left("inner", "link", "dash", "-", "target")
        expect(os.listdir("inner") == ["first"], f"left behind: {os.listdir('inner')}")


def test_long_names():
    with folder():
        for length in range(248, 256):
            name = "n" * length
            says(["run", "guest.case", "--budget", "5", "--after", name, "--quiet"], 0, b"B 0 5\n", None)
            says(["make", "guest.txt", "-o", name], 0, b"", None)
            expect(read(name) == read("guest.case"), f"a name of {length} characters")
            os.remove(name)
        nothing_left()


# File systems

def test_missing_calls():
    """What a file system does not have is no error; what fails is one."""
    missing = (errno.EINVAL, errno.ENOSYS, errno.ENOTSUP, errno.EROFS)
    with folder():
        run = ["run", "guest.case", "--budget", "5", "--after", "out.case", "--quiet"]
        for function, numbers in ("fsync", missing), ("fchmod", (*missing, errno.EPERM)):
            for number in numbers:
                says(run, 0, b"B 0 5\n", None, faults={function: number})
                expect(read("out.case") == after(5), f"{function} fails with {errno.errorcode[number]}: no case file")
                os.remove("out.case")
        write("out.case", after(1))
        for function, number in [("fsync", errno.EIO), ("fsync", errno.EPERM), ("fchmod", errno.EIO), ("rename", errno.ENOSPC),
                                 ("rename", errno.EBUSY)]:
            says(run, 2, b"B 0 5\n", f"out.case: cannot be written: {os.strerror(number)}\n", faults={function: number})
            expect(read("out.case") == after(1), f"{function} fails: the case file changed")
            nothing_left("out.case")


def test_signals_while_writing():
    """No signal leaves a temporary file: each waits until the case file is in place, and then ends the command, but for those
    that a run notes."""
    waiting = (signal.SIGUSR1, signal.SIGUSR2, signal.SIGALRM, signal.SIGXCPU, signal.SIGPIPE, signal.SIGQUIT, signal.SIGVTALRM,
               signal.SIGPROF, signal.SIGIO, signal.SIGRTMIN, signal.SIGABRT)
    run = ["run", "guest.case", "--budget", "5", "--after", "out.case", "--quiet"]
    for number in (*waiting, *ENDS):
        with folder():
            says(run, 0 if number in ENDS else -number, b"B 0 5\n", None, faults={"fsync": -number})
            expect(read("out.case") == after(5), f"{number}: no case file")
            says(["make", "guest.txt", "-o", "out.case"], -number, b"", None, faults={"fchmod": -number})
            expect(read("out.case") == read("guest.case"), f"{number}: not what make makes")
            nothing_left("out.case")


# What is said

def test_quiet():
    fault, refused = (os.path.join(FILES, name) for name in ("host_17_load.in", "record_version_2.in"))
    with folder():
        for sub in "run", "trace":
            ended, out, err = call(sub, fault)
            expect(ended == 0 and "host fault" in err, f"{sub}: {ended}, {err}")
            says([sub, fault, "--quiet"], 0, out, None)
            says([sub, "--quiet", "--", fault], 0, out, None)
            says([sub, refused, "--quiet"], 1, b"R 2\n", "refused, R 2: the record's version is 2")
            says([sub, "guest.txt", "--quiet"], 1, b"R 9\n", "not a case file")
            says([sub, "none.case", "--quiet"], 2, b"", "cannot be read")
            says([sub, fault, "--quiet=1"], 2, b"", "option --quiet takes no value")
            says([sub, fault, "--quiet", "--quiet"], 2, b"", "option --quiet is given twice")


# Terminals

class Terminal:
    """The command on a terminal of its own, with the streams named going there and the others to the file `lines`. TERMINAL as
    an argument stands for the terminal's name."""

    def __init__(self, *arguments, streams=(1, 2)):
        self.ours, theirs = pty.openpty()
        self.shown = b""
        arguments = [os.ttyname(theirs) if argument == "TERMINAL" else argument for argument in arguments]
        lines = open("lines", "wb")
        streams = {name: theirs if n in streams else lines for n, name in ((1, "stdout"), (2, "stderr"))}
        self.process = subprocess.Popen([COMMAND, *arguments], stdin=theirs, start_new_session=True, preexec_fn=self.prepare,
                                        **streams)
        os.close(theirs)
        lines.close()

    @staticmethod
    def prepare():
        prepare()
        fcntl.ioctl(0, termios.TIOCSCTTY, 0)

    def shows(self, text):
        """Reads on until the terminal shows the text or nothing writes there any more; returns whether it does."""
        deadline = time.monotonic() + PATIENCE
        while text not in self.shown and time.monotonic() < deadline:
            if not select.select([self.ours], [], [], 0.1)[0]:
                continue
            try:
                self.shown += os.read(self.ours, 65536)
            except OSError:
                break
        return text in self.shown

    def ended(self):
        """The exit status; all that the terminal shows is then in shown."""
        self.shows(b"\0")
        return finish(self.process)[0]

    def close(self):
        os.close(self.ours)


def test_terminal_refused():
    for sub in "run", "trace":
        for name in "-", "so", "/dev/fd/2", "/dev/fd/0", "TERMINAL", *in_dev("/dev/stdout", "/dev/tty"):
            with folder():
                os.symlink("/proc/self/fd/1", "so")
                t = Terminal(sub, "guest.case", "--budget", FOREVER, "--after", name)
                ended = t.ended()
                good = ended == 2 and b"cannot be written: it is a terminal" in t.shown and t.shown.count(b"\n") == 1
                expect(good, f"{sub} --after {name}: {ended}, {t.shown}")
                t.close()
    for name in "/dev/fd/1", "TERMINAL", *in_dev("/dev/stdout", "/dev/tty"):
        with folder():
            t = Terminal("make", "guest.txt", "-o", name)
            ended = t.ended()
            expect(ended == 2 and b"cannot be written: it is a terminal" in t.shown, f"make -o {name}: {ended}, {t.shown}")
            t.close()


def test_terminal_interrupted():
    """Ctrl-C, typed: the progress line is cleared, then come the line and the message."""
    for streams in (1, 2), (2,):
        with folder():
            t = Terminal("run", "guest.case", "--budget", FOREVER, "--after", "out.case", streams=streams)
            expect(t.shows(f" of {FOREVER} units".encode()), f"no progress: {t.shown}")
            os.write(t.ours, b"\x03")
            ended = t.ended()
            shown = t.shown.decode().replace("\r\n", "\n")
            units = units_of(read("out.case"))
            rest = shown.rpartition(f"\r{' ' * 60}\r")
            line, message = f"B 0 {units}\n", f"drevokas: guest.case: interrupted by SIGINT after {counted(units)}\n"
            expect(ended == 130 and rest[1] != "", f"Ctrl-C: {ended}, {shown}")
            expect(rest[2] == (line + message if 1 in streams else message), f"Ctrl-C: {rest[2]}")
            expect(re.search(r"\rdrevokas: \d+ of \d+ units", rest[0]) is not None, f"Ctrl-C: {rest[0]}")
            expect(read("lines") == (b"" if 1 in streams else line.encode()), f"Ctrl-C: {read('lines')}")
            expect(read("out.case") == after(units), "Ctrl-C: not the case file")
            t.close()


def test_terminal_gone():
    """The terminal is closed: SIGHUP, and nothing can be shown; the case file is written."""
    for sub, streams in ("run", (1, 2)), ("trace", (2,)):
        with folder():
            t = Terminal(sub, "guest.case", "--budget", FOREVER, "--after", "out.case", streams=streams)
            poll(lambda: t.process.poll() is not None or is_caught(t.process, signal.SIGHUP), "a handler")
            t.close()
            ended = finish(t.process)[0]
            data = read("out.case")
            expect(ended == 129 and data == after(units_of(data)), f"{sub}, terminal gone: {ended}")


while os.open(os.devnull, os.O_RDWR) <= 2:  # a stream that is closed
    pass
for test in (test_interrupted, test_interrupted_first, test_own_end, test_second_signal, test_ignored, test_reader_gone,
             test_checkpoint_usage, test_killed, test_checkpoint_fails, test_interrupted_between, test_places,
             test_not_over_a_text, test_own_output, test_line_first, test_descriptors, test_devices, test_links,
             test_long_names, test_missing_calls, test_signals_while_writing, test_quiet, test_terminal_refused,
             test_terminal_interrupted, test_terminal_gone):
    test()
report()
