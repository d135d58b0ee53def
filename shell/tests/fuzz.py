#!/usr/bin/env python3
"""fuzz.py COMMAND FOLDER COUNT [SEED]: COUNT damaged texts through `make`, half of them with `--from` and a damaged case file;
COUNT damaged case files through `explain`, `run`, `translate`, `desk` and `unbacked`.

Each call must end by itself within a second of CPU time, by no signal, with exit status 0, 1 or 2, and with a message on
standard error, or of translate with its line, if that is not 0; of unbacked with its line alone if that is 3. A file is left by
make only with status 0, and is then a case file. Where the time per unit is one that is refused, explain and run end with 1.
Prints the seed, each failure with the name of the input, which is kept in FOLDER, and a count; fails if there is a failure."""
import glob
import os
import random
import re
import resource
import struct
import subprocess
import sys

COMMAND, FOLDER, COUNT = os.path.abspath(sys.argv[1]), sys.argv[2], int(sys.argv[3])
SEED = int(sys.argv[4]) if len(sys.argv) > 4 else random.SystemRandom().randrange(2**32)
ROOT = os.path.join(os.path.dirname(os.path.abspath(__file__)), "../..")
SECOND, PATIENCE = 1, 20  # of CPU time, and of time on a busy machine
FOUND = 3  # the exit status of unbacked where there is a page
STRANGE = 99  # the exit status of a sanitizer's report
ENVIRONMENT = dict(os.environ, ASAN_OPTIONS=f"exitcode={STRANGE}", UBSAN_OPTIONS=f"exitcode={STRANGE}")

r = random.Random(SEED)
calls = failures = 0
ends = {}


def fail(what, name):
    global failures
    failures += 1
    print(f"fuzz: {what}: {name}")


def limit():
    resource.setrlimit(resource.RLIMIT_CPU, (SECOND, SECOND))


def call(name, *arguments):
    """Runs the command and judges how it ended; returns the exit status."""
    global calls
    calls += 1
    try:
        p = subprocess.run([COMMAND, *arguments], stdin=subprocess.DEVNULL, stdout=subprocess.PIPE, stderr=subprocess.PIPE,
                           timeout=PATIENCE, env=ENVIRONMENT, preexec_fn=limit)
    except subprocess.TimeoutExpired:
        fail(f"{arguments[0]} did not end by itself", name)
        return None
    if p.returncode == FOUND and arguments[0] == "unbacked":
        if p.stderr or not re.match(rb"\d+  [0-9a-f]{8}-[0-9a-f]{8}  not valid, [^\n]+\n\Z", p.stdout):
            fail(f"unbacked found a page, and printed {p.stdout[:200]}, {p.stderr[:200]}", name)
    elif p.returncode not in (0, 1, 2):
        fail(f"{arguments[0]} ended with {p.returncode}: {p.stderr[:2000].decode(errors='replace')}", name)
    elif p.returncode != 0 and not (p.stderr + (p.stdout if arguments[0] == "translate" else b"")).strip():
        fail(f"{arguments[0]} ended with {p.returncode} and no message", name)
    ends[arguments[0], p.returncode] = ends.get((arguments[0], p.returncode), 0) + 1
    return p.returncode


# Damage to texts

NUMBERS = ["0", "1", "-1", "4095", "4096", "X'FFF'", "X'80000000'", "18446744073709551615", "18446744073709551616",
           "-9223372036854775808", "X''", "0x", "B'1'", "1.5us", "99999999999s", "X'7FFFF000'-X'7FFFFFFF'", "7-0", "1..2", "'",
           "X'0"]
LINES = ["at virtual X'7FFFFFFF'", "at frame 7 0FFF", "space 32768", "align 4096", "double 1,2,3", "word " + "1," * 120,
         "map guest 0-X'7FFFFFFF' invalid", "map virtual 0-X'7FFFFFFF' invalid", "guest tables at real 0",
         "host tables at frame 7", "origin = 32767", "prefix = X'7FFFF000'", "frames = 1", "using 0,1", "key 0-7 = 1", "psw",
         "psw dat=1,", "=", "a", "a b c", "L 1,(", "BC 15,start(,", "designation = -1", "bytes X'", "cr0.bit31 = 1",
         "psw.bit64 = 1", "map", "host", "guest", "drop 15", "at", "B B", "* *", "#", "at guest 0FF8", "at guest 10",
         "map guest 0-X'FFFF' invalid", "map guest X'1000' to frame 2", "map guest X'2000' to frame 0 protected",
         "map virtual X'1000'-X'3FFF' to real 0", "at virtual X'1000'", "cr0 = X'00B00000'", "cr1 = 127", "designation = 127",
         "extent = 32767", "guest tables at real X'1000'", "host tables at frame 1",
         "mode.system = 370", "mode.system = xa", "mode.inactive = 1", "length = 208", "length = 200",
         "version = 2", "interval = -1", "residue = 40960000", "request.t = 1", "psw.ec = 1", "psw.channels = 63", "psw.cc = 3",
         "psw ec=1, cc=3, address=start", "psw code=X'80', ilc=2", "SIO 0(1)", "SIO L 1,2"]
ACCESSES = ["fetch", "store", "instruction"]
OPCODES = [0x07, 0x0A, 0x18, 0x1A, 0x41, 0x47, 0x50, 0x58, 0x82, 0x9C, 0x9D, 0xB2, 0xB6, 0xB7]


def split_word(line):
    """A line's words, with the blanks kept."""
    words, word = [], ""
    for c in line:
        if (c in " ,()=-") != (word[-1:] in " ,()=-") and word:
            words.append(word)
            word = ""
        word += c
    return words + [word]


def damage_line(line):
    words = split_word(line)
    i = r.randrange(len(words))
    kind = r.randrange(5)
    if kind == 0:
        words[i] = r.choice(NUMBERS)
    elif kind == 1:
        del words[i]
    elif kind == 2:
        words.insert(i, r.choice(words))
    elif kind == 3:
        at = r.randrange(len(line) + 1)
        return line[:at] + r.choice("',()=-+X0#*. \t9zZ") + line[at:]
    else:
        at = r.randrange(len(line) + 1)
        return line[:at]
    return "".join(words)


def damage_text(text):
    lines = text.split("\n")
    for _ in range(r.choice([1, 1, 2, 3, 8])):
        i = r.randrange(len(lines))
        kind = r.randrange(6)
        if kind <= 2:
            lines[i] = damage_line(lines[i])
        elif kind == 3:
            lines.insert(i, r.choice(LINES))
        elif kind == 4:
            lines.insert(i, r.choice(lines))
        elif len(lines) > 1:
            del lines[i]
    return "\n".join(lines).encode()


def damage_bytes(data):
    data = bytearray(data)
    for _ in range(r.choice([1, 2, 5, 50])):
        if data:
            data[r.randrange(len(data))] = r.randrange(256)
    return bytes(data)


def strange_text():
    kind = r.randrange(4)
    if kind == 0:
        return r.randbytes(r.randrange(3000))
    if kind == 1:
        return bytes(r.randrange(3000))
    if kind == 2:
        return "\n".join(r.choice(LINES) for _ in range(r.randrange(60))).encode()
    return (r.choice("aX'1,(=-# \n") * r.choice([1, 200, 5000, 2**20, 2**20 + 1])).encode()


def fuzz_text(texts, cases, i):
    text = r.choice(texts)
    kind = r.randrange(10)
    if kind < 7:
        damaged = damage_text(text)
    elif kind == 7:
        damaged = damage_bytes(text.encode())
    elif kind == 8:
        damaged = text.encode()[:r.randrange(len(text))]
    else:
        damaged = strange_text()
    name, old, out = (os.path.join(FOLDER, f"{i}.{ending}") for ending in ("txt", "old", "made"))
    with open(name, "wb") as f:
        f.write(damaged)
    with open(old, "wb") as f:
        f.write(r.choice(cases) if r.random() < 0.3 else damage_case(r.choice(cases)))
    before = failures
    status = call(name, "make", name, "-o", out, *r.choice([[], ["--from", old]]))
    if os.path.exists(out) != (status == 0):
        fail(f"make ended with {status}, and its file is {'there' if os.path.exists(out) else 'not there'}", name)
    elif status == 0:
        if i % 4 == 0 and call(name, "run", out) == 2:
            fail("make made what run cannot read", name)
        os.remove(out)
    if failures == before:
        os.remove(name)
        os.remove(old)


# Damage to case files: length 4, version 1, designation 4, clock 8, time 4, budget 2, record 200 or 208, count 1, keys, frames

LEAST_TIME, MOST_TIME = 1, 1048576  # others are refused


def time_of(data):
    return int.from_bytes(data[17:21], "big")


def whole(frames, record, keys, storage, designation, time, budget):
    rest = struct.pack(">BIQIH", 1, designation, r.randrange(2**64), time, budget) + record + bytes([frames]) + keys + storage
    return struct.pack(">I", len(rest)) + rest


def random_case():
    """A file that is well formed, and its parts random or nearly good."""
    frames = r.randrange(1, 9)
    record = bytearray(r.randbytes(200) if r.random() < 0.3 else bytes(200))
    if r.random() < 0.9:
        record[0:5], record[66:72] = bytes([0, 200, 1, record[3], 8]), bytes(6)
        record[12:16] = bytes([0, 0, 0, r.choice([1, 1, 2, 255])])
    if r.random() < 0.7:
        record[16:24] = struct.pack(">II", 0x00080000 | (r.randrange(2**32) & 0x07F73F00), 0x80000000 | r.randrange(0x2000))
    if r.random() < 0.5:
        record[0:5] = bytes([0, 208, 2, record[3], r.choice([4, 4, 4, 5, 8])])
        record += bytes([r.choice([0, 128]), 0, 0, 0]) + struct.pack(">I", r.choice([0, 40959999, 40959999, 40960000]))
    storage = bytearray(frames * 4096)
    for _ in range(r.randrange(2000)):
        at = r.randrange(len(storage) // 2) * 2
        storage[at:at + 2] = bytes([r.choice(OPCODES), r.randrange(256)])
    for page in range(16):
        entry = r.choice([0, 0, 0, 0x200, 0x400, 0x80000000]) | r.randrange(10) * 4096
        if 4096 + 64 + 4 * page + 4 <= len(storage):
            storage[4096 + 64 + 4 * page:4096 + 68 + 4 * page] = struct.pack(">I", entry)
    if len(storage) > 4096:
        storage[4096:4100] = struct.pack(">I", r.choice([0x1040, 0x1040, 0x1040, 0x104F, 0x20, 0x7FFFFFC0]))
    designation = r.choice([0x1000, 0x1000, 0x1000, 0x107F, r.randrange(2**32)])
    time = r.choice([0, LEAST_TIME, LEAST_TIME, 4096, 4096, MOST_TIME, MOST_TIME, MOST_TIME + 1])
    budget = r.choice([0, 1, 200, 65535])
    return whole(frames, bytes(record), r.randbytes(frames), bytes(storage), designation, time, budget)


def damage_case(data):
    kind = r.randrange(8)
    if kind == 0:
        return data[:r.randrange(len(data) + 1)]
    if kind == 1:
        return data + r.randbytes(r.choice([1, 100, 4097, 40000]))
    if kind == 2:
        return bytes(r.choice([0, 4, 23, 224, len(data), 33000, 33008, 33009]))
    if kind == 3:
        return r.randbytes(r.choice([1, 224, len(data), 33000]))
    if kind == 4:
        return data[:4] + damage_bytes(data[4:224]) + data[224:]
    if kind == 5:
        return damage_bytes(data)
    return random_case()


def fuzz_case(cases, i):
    name = os.path.join(FOLDER, f"{i}.case")
    data = damage_case(r.choice(cases))
    with open(name, "wb") as f:
        f.write(data)
    before = failures
    address = f"{r.randrange(2**32) >> r.choice([0, 8, 16, 20]):x}"
    page, frame, out = r.choice(["0", "1", "2", "guest:" + address]), str(r.randrange(9)), os.path.join(FOLDER, "desk.out")
    pages = r.choice([[], [page], [page, r.choice(["3", "16", "host:" + address])]])
    for arguments in (["explain", name], ["run", name], ["translate", name, address, "--access", r.choice(ACCESSES)],
                      ["desk", "list", name], ["desk", "add", name, page, frame, "--after", out],
                      ["desk", r.choice(["remove", "protect"]), name, page, "--after", out], ["unbacked", name, *pages]):
        status = call(name, *arguments)
        if status == 2:
            fail(f"{arguments[0]} calls a damaged file unreadable", name)
        if arguments[0] in ("explain", "run") and status != 1 and not LEAST_TIME <= time_of(data) <= MOST_TIME:
            fail(f"{arguments[0]} ended with {status}, and the time is {time_of(data)}", name)
    if failures == before:
        os.remove(name)


def main():
    print(f"fuzz: seed {SEED}")
    texts, cases = [], []
    for name in sorted(glob.glob(os.path.join(ROOT, "examples/*.txt")) + glob.glob(os.path.join(ROOT, "shell/tests/*.txt"))):
        with open(name, encoding="utf-8") as f:
            texts.append(f.read())
    for name in sorted(glob.glob(os.path.join(ROOT, "tests/cases/files/*.in"))):
        with open(name, "rb") as f:
            cases.append(f.read())
    for i in range(COUNT):
        fuzz_text(texts, cases, i)
        fuzz_case(cases, i)
    print("fuzz:", ", ".join(f"{command} {status}: {n}" for (command, status), n in sorted(ends.items())))
    print(f"fuzz: {calls} calls, {failures} failed")
    return failures > 0


sys.exit(main())
