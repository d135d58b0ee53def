#!/usr/bin/env python3
"""words_test.py COMMAND: tests of what run and trace say: how a run ended, and what each unit did. First guests made for this,
word for word; then every kept case file: the columns stand in line, run and trace end with the same words, and the registers
that trace shows are those that a run of one unit changed. Prints each failure, and a count; fails if there is one."""
import glob
import os
import pty
import re
import subprocess
import sys
import tempfile

sys.dont_write_bytecode = True
from tools import COMMAND, call, expect, report  # noqa: E402

FILES = os.path.join(os.path.dirname(os.path.abspath(__file__)), "../../tests/cases/files")
UNIT = re.compile(r" *([0-9]+)  [0-9a-f]{8}  .{22}  cc [0-3]  timer [0-9a-f]{16} .{17} us((?:  \S.*)?)")
EXIT = re.compile(r" *exit  [0-9a-f]{8}  .{22}  cc [0-3]  (?:code [0-9]+: |host fault [0-9a-f]{2} hex, )\S.*")
CHANGE = re.compile(r"  ([gc]r[0-9]+)=([0-9a-f]{8})(?:, ([0-9]+) more)?")
CONTROL, GENERAL = 23 + 72, 23 + 136  # the registers in a case file
MOST_UNITS = 12  # of a kept case file whose registers are compared

HEAD = """time = 1us
host tables at frame 1
map guest X'0' to frame 3
map guest X'1000' to frame 4
map guest X'2000' to frame 5
psw.address = X'200'
"""
NEW_PSWS = "\nat guest X'60'\npsw address=X'300', wait=1\npsw address=X'304', wait=1\n"  # real 96, SVC; real 104, program

# What is changed of HEAD, contents from X'200' on, the sentence of run, and the end of each line of trace before the last.
GUESTS = [
    ("svc = X'80'", "LR 1,2\nSVC 5", "intercepted, code 4: SVC 5 at 00000202",
     ["-1 us", "  exit  00000202  SVC   5                 cc 0  code 4: instruction"]),
    ("interceptions.bit2 = 1", "LPSW X'208'", "intercepted, code 4: LPSW X'208' at 00000200",
     ["instruction  operand 00000208"]),
    ("interceptions.bit1 = 1\ngr6 = X'3000'", "L 2,X'4'(,6)\n",
     "host fault 11 hex, page translation, at host address 00003004, "
     "by L 2,X'4'(,6) at 00000200; host page entry at 0000104c: invalid",
     ["host fault 11 hex, page translation, at host address 00003004  operand 00003004"]),
    ("interceptions.bit1 = 1\npsw.problem = 1", "SPT X'208'",
     "intercepted, code 8: program exception 02 hex, privileged operation, "
     "by SPT X'208' at 00000200", ["code 8: program exception 02 hex, privileged operation  operand 00000208"]),
    ("interceptions.bit1 = 1\npsw.mask = 8\ngr1 = X'7FFFFFFF'\ngr2 = 1", "AR 1,2",
     "intercepted, code 8: program exception 08 hex, "
     "fixed-point overflow, by AR 1,2 at 00000200",
     ["  exit  00000200  AR    1,2               cc 3  code 8: program exception 08 hex, fixed-point overflow  gr1=80000000"]),
    ("psw.mask = 8\ngr1 = X'7FFFFFFF'\ngr2 = 1", "AR 1,2" + NEW_PSWS, "intercepted, code 28: wait state, at 00000304",
     ["  gr1=80000000  program interruption 08 hex  -> 00000304",
      "  exit  00000304  (wait state)            cc 0  code 28: wait state"]),
    ("interceptions.bit0 = 1", "bytes X'9200'", "intercepted, code 44: operation exception, by DC X'92000000' at 00000200",
     ["  exit  00000200  DC    X'92000000'       cc 0  code 44: operation exception"]),
    ("interceptions.bit1 = 1", "bytes X'9200'",
     "intercepted, code 8: program exception 01 hex, operation, by DC X'92000000' at "
     "00000200", ["code 8: program exception 01 hex, operation"]),
    ("interceptions.bit1 = 1\npsw.address = X'201'", "LR 1,2",
     "intercepted, code 8: program exception 06 hex, specification, at the "
     "odd address 00000201",
     ["  exit  00000201  (odd address)           cc 0  code 8: program exception 06 hex, specification"]),
    ("interceptions.bit1 = 1\npsw.bit0 = 1", "LR 1,2",
     "intercepted, code 8: program exception 06 hex, specification, PSW malformed: "
     "bit 0 must be zero, at 00000200", ["  exit  00000200  (PSW malformed)         cc 0  code 8: program exception 06 hex, "
                                         "specification"]),
    ("interceptions.bit1 = 1\npsw.address = X'10000'", "LR 1,2",
     "intercepted, code 8: program exception 05 hex, addressing, in "
     "fetching the instruction at 00010000",
     ["  exit  00010000  (not fetched)           cc 0  code 8: program exception 05 hex, "
                                              "addressing"]),
    ("psw.bit0 = 1", "LR 1,2" + NEW_PSWS, "intercepted, code 28: wait state, at 00000304",
     ["  program interruption 06 hex, PSW bit 0 must be zero  -> 00000304", "wait state"]),
    ("", "SVC 255" + NEW_PSWS, "intercepted, code 28: wait state, at 00000300",
     ["  SVC interruption 255  -> 00000300", "wait state"]),
    # an LPSW of the very PSW that a program interruption would load, and one that an interruption stands beside
    ("", "LPSW X'68'" + NEW_PSWS, "intercepted, code 28: wait state, at 00000304",
     ["  operand 00000068  -> 00000304", "wait state"]),
    ("", "LPSW X'6C'" + NEW_PSWS, "intercepted, code 28: wait state, at 00000304",
     ["  operand 0000006c  program interruption 06 hex  -> 00000304", "wait state"]),
    # the new PSW leads to the instruction that follows
    ("", "bytes X'0000'\nat guest X'68'\npsw address=X'202'\nat guest X'202'\nDIAG 0,0,0",
     "intercepted, code 4: DIAG 0,0,X'0' at "
     "00000202", ["us  program interruption 01 hex", "instruction"]),
    ("gr2 = X'FFF004'\npsw.amode = 24", "L 1,X'FFC'(,2)\nDIAG 1,2,3\n", "intercepted, code 4: DIAG 1,2,X'3' at 00000204",
     ["  operand 00000000", "instruction"]),
    ("", "LCTL 14,1,X'208'\nDIAG 0,0,0\nword 1,2,3,4", "intercepted, code 4: DIAG 0,0,X'0' at 00000204",
     ["  cr0=00000003, 3 more  operand 00000208", "instruction"]),
    ("psw.per = 1", "LR 1,2", "intercepted, code 32: validity, PSW bit 1 must be zero: PER is not installed, at 00000200",
     ["  exit  00000200  (PSW not installed)     cc 0  code 32: validity, PSW bit 1 must be zero: PER is not installed"]),
    ("mode = 0\npsw.address = X'201'", "LR 1,2",
     "intercepted, code 32: validity, mode is 00 hex: bits 4-5 must be 10, for 370-XA",
     ["  exit  00000201  (no entry)              cc 0  code 32: validity, mode is 00 hex: bits 4-5 must be 10, for 370-XA"]),
    ("mode = 4", "LR 1,2",
     "intercepted, code 32: validity, mode is 04 hex: bits 4-5 must be 10, for 370-XA; System/370 needs the record of 208 "
     "bytes",
     ["System/370 needs the record of 208 bytes"]),
    ("interceptions.bit0 = 1", "SIO X'190'", "intercepted, code 44: operation exception, by DC X'9C000190' at 00000200",
     ["code 44: operation exception"]),
    ("interventions = 4", "LR 1,2", "intercepted, code 40: stop request, at 00000200",
     ["  exit  00000200  LR    1,2               cc 0  code 40: stop request"]),
    ("interventions = 2\npsw.io = 1", "LR 1,2", "intercepted, code 24: I/O request, at 00000200", ["code 24: I/O request"]),
    ("interventions = 1\npsw.external = 1", "LR 1,2", "intercepted, code 16: external request, at 00000200",
     ["code 16: external request"]),
    ("psw.external = 1\ncr0.bit20 = 1\nclock = 1", "LR 1,2",
     "intercepted, code 20: external interruption 1004 hex, clock comparator, "
     "at 00000200", ["code 20: external interruption 1004 hex, clock comparator"]),
    ("budget = 1", "LR 1,2", "budget used: 1 unit completed", ["-1 us"]),
    ("budget = 2", "LR 1,2\nLR 1,2", "budget used: 2 units completed", ["-1 us", "-2 us"]),
    ("budget = 0", "LR 1,2", "budget used: 0 units completed", []),
    ("budget = 1\ntime = 1\ntimer = X'8000000000000000'", "LR 1,2", "budget used: 1 unit completed",
     ["  timer 7fffffffffffffff 2251799813685247. us"]),
    # page 0 has no translation: an address of zeros is an address
    ("psw.dat = 1\npsw.address = X'1000'\nguest tables at real X'2000'\nmap virtual X'1000' to real X'1000'",
     "LR 0,0\nat guest X'1000'\nL 1,8\nat guest X'68'\npsw address=X'304', wait=1",
     "intercepted, code 28: wait state, at 00000304",
     ["  operand 00000008  program interruption 11 hex, address 00000000  -> 00000304", "wait state"]),
]

# The same for System/370: the settings have "mode.system = 370" before them.
NEXT = "residue = 40959999"     # the word falls in the next unit
SYSTEM_370 = [
    ("", "SVC 5" + NEW_PSWS, "intercepted, code 28: wait state, at 00000300",
     ["  SVC interruption 5, ILC 1, both in the old PSW at real 00000020  -> 00000300",
      "  exit  00000300  (wait state)            cc 0  code 28: wait state"]),
    ("psw.ec = 1", "SVC 5" + NEW_PSWS, "intercepted, code 28: wait state, at 00000300",
     ["  SVC interruption 5, ILC 1, both at real 00000088  -> 00000300", "wait state"]),
    ("", "bytes X'B2300000'" + NEW_PSWS, "intercepted, code 28: wait state, at 00000304",
     ["  program interruption 01 hex, ILC 2, both in the old PSW at real 00000028  -> 00000304", "wait state"]),
    ("interceptions.bit0 = 1", "bytes X'B2300000'", "intercepted, code 44: operation exception, by DC X'B2300000' at 00000200",
     ["code 44: operation exception"]),
    ("psw.ec = 1\npsw.bit32 = 1", "LR 1,2" + NEW_PSWS, "intercepted, code 28: wait state, at 00000304",
     ["  program interruption 06 hex, ILC 0, both at real 0000008c, PSW bits 32-39 must be zero  -> 00000304", "wait state"]),
    ("psw = X'FC00FFFFC0000200'", "SIO X'190'", "intercepted, code 4: SIO X'190' at 00000200",
     ["  exit  00000200  SIO   X'190'            cc 0  code 4: instruction"]),
    ("", "bytes X'9FFF0001'", "intercepted, code 4: DC X'9FFF0001' at 00000200", ["code 4: instruction"]),
    ("psw.ec = 1\npsw.dat = 1", "LR 1,2",
     "intercepted, code 32: validity, PSW bit 5 must be zero: DAT is not installed for System/370, at 00000200",
     ["  exit  00000200  (PSW not installed)     cc 0  code 32: validity, PSW bit 5 must be zero: DAT is not installed for "
      "System/370"]),
    ("prefix = X'1000000'", "LR 1,2",
     "intercepted, code 32: validity, prefix is 01000000: bits 1-7 must be zero for System/370, whose addresses have 24 bits",
     ["whose addresses have 24 bits"]),
    ("interceptions.bit1 = 1\npsw.mask = 8\ngr1 = X'7FFFFFFF'\ngr2 = 1", "AR 1,2",
     "intercepted, code 8: program exception 08 hex, fixed-point overflow, by AR 1,2 at 00000200",
     ["  exit  00000200  AR    1,2               cc 3  code 8: program exception 08 hex, fixed-point overflow  gr1=80000000"]),
    ("gr1 = X'7FFFFFFF'\ngr2 = 1\nbudget = 1\npsw.ilc = 2", "AR 1,2", "budget used: 1 unit completed",
     ["  00000200  AR    1,2               cc 3  timer fffffffffffff000                -1 us  gr1=80000000"]),
    ("gr2 = X'FFF004'\npsw.ilc = 3", "L 1,X'FFC'(,2)\nDIAG 1,2,3\n", "intercepted, code 4: DIAG 1,2,X'3' at 00000204",
     ["  operand 00000000", "instruction"]),
    ("interventions = 2\npsw.channel3 = 1", "LR 1,2", "intercepted, code 24: I/O request, at 00000200",
     ["code 24: I/O request"]),
    # the interval timer: the last fall before T, and the interception; a fall that sets nothing; none while it is inactive
    (f"interval = 255\n{NEXT}\npsw.external = 1\ncr0.bit24 = 1", "LR 1,2\nLR 1,2",
     "intercepted, code 20: external interruption 0080 hex, interval timer, at 00000202",
     ["us  interval=ffffffff  T=1", "code 20: external interruption 0080 hex, interval timer  T=0"]),
    (f"interval = 256\n{NEXT}\nbudget = 1", "LR 1,2", "budget used: 1 unit completed", ["us  interval=00000000"]),
    (f"interval = X'80000000'\n{NEXT}\nbudget = 1", "LR 1,2", "budget used: 1 unit completed", ["us  interval=7fffff00"]),
    (f"interval = 0\n{NEXT}\nrequest.t = 1\nbudget = 1", "LR 1,2", "budget used: 1 unit completed",
     ["us  interval=ffffff00"]),
    (f"{NEXT}\nbudget = 1\ngr1 = X'1234'", "ST 1,X'50'", "budget used: 1 unit completed",
     ["us  operand 00000050  interval=00001134"]),
    (f"{NEXT}\nmode.inactive = 1\nrequest.t = 1\npsw.external = 1\ncr0.bit24 = 1\nbudget = 1", "LR 1,2",
     "budget used: 1 unit completed", ["-1 us"]),
    (f"{NEXT}\nprefix = X'3000'\npsw.address = X'1000'", "LR 0,0\nat guest X'1000'\nLR 1,2",
     "host fault 11 hex, page translation, at host address 00003050, by LR 1,2 at 00001000, with the fall of the interval "
     "timer's word; host page entry at 0000104c: invalid",
     ["host fault 11 hex, page translation, at host address 00003050"]),
]


def test_guests(folder, guests, first):
    name = os.path.join(folder, "guest.case")
    for settings, contents, sentence, ends in guests:
        head = HEAD + first
        for line in settings.split("\n"):
            head = re.sub(rf"(?m)^{re.escape(line.split('=')[0])}=.*\n", "", head) if "=" in line else head
        text = f"{head}{settings}\nat guest X'200'\n{contents}\n"
        status, _, err = call("make", "-", "-o", name, text=text.encode())
        expect(status == 0, f"{text}: {err}")
        status, out, err = call("run", name)
        expect(status == 0 and err == f"drevokas: {name}: {sentence}\n", f"{settings!r}: {err}")
        status, lines, err = call("trace", name)
        lines = lines.decode().split("\n")
        expect(lines[-2] + "\n" == out.decode() and lines[-1] == "" and err == f"drevokas: {name}: {sentence}\n",
               f"trace: {err}")
        expect(len(lines) == len(ends) + 2 and all(a.endswith(b) for a, b in zip(lines, ends)), f"{settings!r}: {lines}")


def test_wrapped_back(folder):
    """An intercepted SVC in the last halfword of the address space: the PSW's address is 0, the instruction's is not."""
    name = os.path.join(folder, "wrapped.case")
    data = open(os.path.join(FILES, "wrap_2_31_next.in"), "rb").read()
    expect(data.count(b"\x18\x12") == 1, "wrap_2_31_next.in: not one LR 1,2")
    data = bytearray(data.replace(b"\x18\x12", b"\x0a\x07"))
    data[23 + 48] = 0x80
    open(name, "wb").write(data)
    status, out, err = call("run", name)
    expect((out, err) == (b"I 4 0\n", f"drevokas: {name}: intercepted, code 4: SVC 7 at 7ffffffe\n"), f"wrapped: {out} {err}")


def changes(before, after, first):
    """The registers that differ: name's number and value."""
    pairs = [(before[first + 4 * i:first + 4 * i + 4], after[first + 4 * i:first + 4 * i + 4]) for i in range(16)]
    return [(i, b.hex()) for i, (a, b) in enumerate(pairs) if a != b]


def shown(kind, changed):
    if not changed:
        return []
    return [(f"{kind}{changed[0][0]}", changed[0][1], str(len(changed) - 1) if len(changed) > 1 else "")]


def test_registers(file, lines, folder):
    """What the lines show of registers, against runs of one unit."""
    name = os.path.join(folder, "step.case")
    before = open(file, "rb").read()
    for line in lines:
        call("run", "-", "--budget", "1", "--after", name, text=before)
        after = open(name, "rb").read()
        want = shown("gr", changes(before, after, GENERAL)) + shown("cr", changes(before, after, CONTROL))
        expect(CHANGE.findall(line) == want, f"{file}: {line}: registers {want}")
        before = after


def test_kept(folder):
    for file in sorted(glob.glob(os.path.join(FILES, "*.in"))):
        answer = open(file[:-2] + "out").read().split()
        if answer[0] == "R" or int(answer[2]) > 1000:
            continue
        said = call("run", file)[2]
        status, out, err = call("trace", file)
        *lines, last, empty = out.decode().split("\n")
        exits = lines[int(answer[2]):]
        lines = lines[:int(answer[2])]
        expect(status == 0 and err == said and last.split() == answer and empty == "", f"trace {file}: {last}, {err}")
        expect(len(exits) == (answer[0] != "B") and all(EXIT.fullmatch(n) for n in exits), f"trace {file}: {exits}")
        numbers = [m and m[1] for m in map(UNIT.fullmatch, lines)]
        expect(numbers == [str(i + 1) for i in range(len(lines))], f"trace {file}: columns: {lines}")
        if len(lines) <= MOST_UNITS:
            test_registers(file, lines, folder)


def test_wide_numbers():
    """The number's column is as wide as the budget."""
    lines = call("trace", os.path.join(FILES, "svc_stored.in"), "--budget", "12345678")[1].decode().split("\n")[:9]
    expect(all(re.match(r" {7}[1-9]  [0-9a-f]{8}  ", n) for n in lines), f"budget of eight digits: {lines[0]}")


def on_terminal(*arguments):
    """The lines that the command prints where standard output and standard error are one terminal."""
    master, terminal = pty.openpty()
    p = subprocess.Popen([COMMAND, *arguments], stdin=subprocess.DEVNULL, stdout=terminal, stderr=terminal)
    os.close(terminal)
    printed = b""
    try:
        while part := os.read(master, 65536):
            printed += part
    except OSError:  # the end of a terminal that nobody holds
        pass
    os.close(master)
    p.wait(timeout=20)
    return printed.decode().replace("\r\n", "\n").split("\n")


def test_terminal():
    """The sentence is the last line on a terminal."""
    file = os.path.join(FILES, "host_17_load.in")
    said = call("run", file)[2].rstrip("\n")
    for sub in ("run", "trace"):
        expect(on_terminal(sub, file)[-3:] == ["H 17 1", said, ""], f"{sub} on a terminal: {on_terminal(sub, file)}")


def test_one(folder):
    """One of a thing is not called as many are."""
    name = os.path.join(folder, "one.case")
    call("make", "-", "-o", name, text=b"frames = 1\ntime = 1\nbudget = 1\nlength = 1\nilc = 1\nlctl = X'8'\n")
    explained = re.sub(" +", " ", call("explain", name)[1].decode())
    for line in ("time per unit 1 clock unit, 0.000244140625 us", "budget 1 unit\n", "storage 1 frame, ",
                 " 1 byte: must be 200 or 208",
                 "instruction-length code: 1 halfword\n", "of control register 12\n"):
        expect(line in explained, f"explain does not say {line!r}")


with tempfile.TemporaryDirectory() as place:
    test_one(place)
    test_guests(place, GUESTS, "")
    test_guests(place, SYSTEM_370, "mode.system = 370\n")
    test_wrapped_back(place)
    test_kept(place)
test_wide_numbers()
test_terminal()
report()
