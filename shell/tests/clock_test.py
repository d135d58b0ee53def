#!/usr/bin/env python3
"""clock_test.py COMMAND FOLDER: tests of the time per unit and of the clock that STCK stores. First what every sub-command says
of a time that is refused, and that nothing is written; then guests that store the clock over and over, 370-XA and System/370,
in one run and in pieces: each value is the one that a model gives, and no two are alike. FOLDER is made anew. Prints each
failure, and a count; fails if there is one."""
import itertools
import os
import random
import shutil
import struct
import sys

sys.dont_write_bytecode = True
from tools import FRAME, Case, call, expect, read, report, write  # noqa: E402

FOLDER = os.path.abspath(sys.argv[2])
LEAST, MOST = 1, 1048576
WRONG = {0: "must be 1 at least, so that any two values of STCK differ", MOST + 1: "must be 1048576 at most",
         2**32 - 1: "must be 1048576 at most"}
SYSTEMS = ("xa", "370")
r = random.Random(512)

# A guest that stores the clock every fourth unit, from X'1000' on. Two of the four end in an interruption.
GUEST = """mode.system = {system}
time = {time}
clock = {clock}
epoch = {epoch}
psw.address = start
gr1 = X'1000'
gr2 = 8
host tables at frame 1
map guest 0 to frame 2
{pages}
at real X'60'
        psw     address=back        # SVC new PSW
        psw     address=start       # program new PSW
at real X'200'
start   STCK    0(1)
        AR      1,2
        SVC     7
back    bytes   X'0000'             # an operation exception
"""
PERIOD = 4
BACKED = "map guest X'1000'-X'4FFF' to frame 3-6"
FIRST, LAST = 3, 6  # frames of the values, if all pages are there
VALUES = (LAST - FIRST + 1) * FRAME // 8

# A guest whose second value comes 140,002 units after the first
DISTANT = """time = {time}
clock = {clock}
psw.address = start
gr1 = X'1000'
gr2 = 8
gr3 = 1
gr4 = 70000
host tables at frame 1
map guest 0 to frame 2
map guest X'1000' to frame 3
at real X'200'
start   STCK    0(1)
        AR      1,2
work    SR      4,3
        BNZ     work
        STCK    0(1)
        DIAG    0,0,0
"""
DISTANCE = 2 + 2 * 70000


def make(name, text, **values):
    """A case file of this text; make says nothing, whatever the time."""
    status, out, err = call("make", "-", "-o", name, text=text.format(**values).encode())
    expect((status, out, err) == (0, b"", ""), f"make: {status}, {err}")
    return name


def run(name, *options, sub="run"):
    """The words of the last line."""
    status, out, err = call(sub, name, *options, "--quiet")
    expect(status == 0 and err == "", f"{sub} {options}: {status}, {err}")
    return out.decode().splitlines()[-1].split()


# A time that is refused

OPTIONS = [[], ["--budget", "0"], ["--budget", "1"], ["--budget", "200000"], ["--quiet"], ["--after", "new.case"],
           ["--budget", "3", "--after", "kept.case", "--checkpoint", "1"], ["--after", "time.case"]]
ORDER = [("version = 3", 2), ("reserved = 1", 6), ("budget = 0", 6), ("mode = 0", 6), ("interventions = 4", 6)]


def timed(system, time):
    return make("time.case", GUEST, system=system, time=time, clock=5, epoch=0, pages=BACKED)


def refused(sub, name, sentence):
    """A line, a sentence, status 1, and no file, whatever the options."""
    before = read(name)
    write("kept.case", before)
    for options in OPTIONS:
        got = call(sub, name, *options)
        expect(got == (1, b"R 6\n", f"drevokas: {name}: {sentence}\n"), f"{sub} {options}: {got}")
        expect(not os.path.exists("new.case") and read("kept.case") == before == read(name), f"{sub} {options}: a file")
    got = call(sub, name, "--after", "-")
    expect(got == (1, b"", f"R 6\ndrevokas: {name}: {sentence}\n"), f"{sub} --after -: {got}")


def explained(name, sentence, time):
    status, out, err = call("explain", name)
    words = " ".join(out.decode().split())
    expect(status == 1 and err == f"drevokas: {name}: {sentence}\n", f"explain {time}: {status}, {err}")
    expect(f"time per unit {time} clock units, " in words, f"explain {time}: {words[:400]}")
    expect(f" us: {WRONG[time]}, else a run is refused (R 6) budget " in words, f"explain {time}: {words[:400]}")
    expect(f"check answers: good a run of one unit answers: {sentence}" in words, f"explain {time}: entry")
    expect(all(len(line) <= 100 for line in out.decode().splitlines()), f"explain {time}: a line of more than 100 columns")


def untouched(name, time):
    """The time is no part of what does not run."""
    expect(call("check", name) == (0, b"good\n", ""), "check")
    expect(call("translate", name, "200")[:2] == (0, b"good 00002200: frame 2, offset 200 hex\n"), "translate")
    expect(call("desk", "list", name)[0] == 0, "desk list")
    expect(call("desk", "add", name, "7", "7", "--after", "added.case")[0] == 0, "desk add")
    expect(Case(read("added.case")).time == time, "desk add changes the time")
    expect(call("unbacked", name, "0", "5")[0] == 0, "unbacked")


def test_refused():
    for system, time in itertools.product(SYSTEMS, WRONG):
        name = timed(system, time)
        sentence = f"refused, R 6: the time per unit is {time} clock units, and {WRONG[time]}"
        refused("run", name, sentence)
        refused("trace", name, sentence)
        explained(name, sentence, time)
        untouched(name, time)


def test_order():
    """A refusal before it comes first, and it comes before those behind it, and before entry and requests."""
    for system, time, (line, number) in itertools.product(SYSTEMS, WRONG, ORDER):
        status, out, err = call("make", "-", "--from", timed(system, time), text=line.encode())
        expect(status == 0 and err == "", f"make --from: {line}: {err}")
        got = call("run", "-", text=out)
        expect(got[:2] == (1, f"R {number}\n".encode()), f"{line}, time {time}: {got}")


def test_limits():
    for system, time in itertools.product(SYSTEMS, (LEAST, MOST)):
        name = timed(system, time)
        expect(run(name, "--budget", "9") == ["B", "0", "9"], f"time {time}")
        expect(b"R 6" not in call("explain", name)[1], f"explain: time {time}")


# The values of the clock

def values(name, count, frame=FIRST):
    storage = Case(read(name)).storage
    return list(struct.unpack(f">{count}Q", storage[frame * FRAME:frame * FRAME + 8 * count]))


def model(clock, epoch, time, count, period):
    return [(clock + epoch + time * period * k) % 2**64 for k in range(count)]


def in_pieces(name, units):
    """The run in pieces of any length, by run and by trace, with checkpoints and without."""
    while units > 0:
        piece = min(units, r.choice([1, 2, 3, 7, r.randrange(1, units + 1)]))
        sub = "trace" if piece < 50 and r.random() < 0.5 else "run"
        options = ["--checkpoint", str(r.randrange(1, 20))] if piece < 200 and r.random() < 0.3 else []
        expect(run(name, "--budget", str(piece), "--after", name, *options, sub=sub) == ["B", "0", str(piece)], "a piece")
        units -= piece


def faulted(name, units):
    """The run of a guest that has no page for its values: each is added when the guest wants it, and the call made again."""
    pages = iter(range(1, LAST - FIRST + 2))
    while units > 0:
        kind, number, done = run(name, "--budget", str(units), "--after", name)
        units -= int(done)
        page = next(pages, None) if (kind, number) == ("H", "17") else None
        if units > 0 and page is None:
            expect(False, f"ended with {kind} {number}")
            return
        if page is not None:
            expect(call("desk", "add", name, str(page), str(FIRST + page - 1), "--after", name)[0] == 0, "desk add")


def compare(what, count, **settings):
    """So many values: in one run, in pieces, and with pages that are missing at first."""
    units = PERIOD * count
    clock, time = settings["clock"], settings["time"]
    wanted = model(clock, settings["epoch"], time, count, PERIOD)
    whole = make("whole.case", GUEST, pages=BACKED, **settings)
    cut = write("cut.case", read(whole))
    missing = make("missing.case", GUEST, pages="map guest X'1000'-X'4FFF' invalid", **settings)
    expect(run(whole, "--budget", str(units), "--after", whole) == ["B", "0", str(units)], what)
    expect(values(whole, count) == wanted, f"{what}: not the model's")
    expect(len(set(values(whole, count))) == count, f"{what}: two values are alike")
    expect(Case(read(whole)).clock == (clock + units * time) % 2**64, f"{what}: the clock after it")
    in_pieces(cut, units)
    expect(read(cut) == read(whole), f"{what}: in pieces")
    faulted(missing, units)
    expect(values(missing, count) == wanted, f"{what}: with pages added")


def test_values():
    for system, time, edge in itertools.product(SYSTEMS, (LEAST, 4096, MOST, r.randrange(LEAST, MOST)), range(4)):
        clock, epoch = [(0, 0), (2**64 - 1, 1), (2**64 - 50 * time, 2**63), (r.getrandbits(64), r.getrandbits(64))][edge]
        count = r.randrange(2, VALUES)
        what = f"{system}, time {time}, clock {clock}, epoch {epoch}, {count} values"
        compare(what, count, system=system, time=time, clock=clock, epoch=epoch)


def test_distant():
    """Two values on either side of the command's own slices."""
    for time, clock in ((LEAST, 0), (MOST, 2**64 - 5)):
        name = make("distant.case", DISTANT, time=time, clock=clock)
        cut = write("cut.case", read(name))
        expect(run(name, "--budget", "200000", "--after", name) == ["I", "4", str(DISTANCE + 1)], "distant")
        expect(values(name, 2) == model(clock, 0, time, 2, DISTANCE), f"distant: {values(name, 2)}")
        expect(run(cut, "--budget", "70000", "--after", cut, "--checkpoint", "65536") == ["B", "0", "70000"], "distant, cut")
        expect(run(cut, "--budget", "130000", "--after", cut) == ["I", "4", str(DISTANCE + 1 - 70000)], "distant, resumed")
        expect(read(cut) == read(name), "distant: cut and resumed")


shutil.rmtree(FOLDER, ignore_errors=True)
os.makedirs(FOLDER)
os.chdir(FOLDER)
test_refused()
test_order()
test_limits()
test_values()
test_distant()
report()
