#!/usr/bin/env python3
"""desk_test.py COMMAND FAULTS FOLDER: tests of `desk`: each action and each answer against a model of the rules, on guests that
are made for it, on pseudo-random ones and on the kept case files, with both records; every sentence word for word; operands;
what is written, and when; host faults that are mended. FAULTS is faults.c as a shared object; what is written goes to
FOLDER. Refusal 15 cannot be shown: the command lends the library as many words as the largest extent has pages. Prints each
failure and a count; fails if there is one."""
import collections
import errno
import glob
import itertools
import os
import random
import re
import shutil
import signal
import struct
import subprocess
import sys

sys.dont_write_bytecode = True
import desk_tools  # noqa: E402
from desk_tools import ENDS, FILES, PROTECTED, Extent, entry_answer, guest, made, random_case, says  # noqa: E402
from tools import COMMAND, FRAME, INVALID, expect, read, report, write  # noqa: E402

FAULTS, FOLDER = (os.path.abspath(name) for name in sys.argv[2:4])
DONE = {"add": "added", "remove": "removed", "protect": "protected"}
RANDOM = 800  # guests
FEW = 10  # each answer is to be found so often
GUEST = """psw.address = start
gr2 = 1
gr7 = X'1000'
host tables at frame 1
map guest 0 to frame 3
map guest X'1000' to frame 4
map guest X'2000' to frame 5 protected
at guest X'200'
start ST 1,X'FFE'(,7)
 LPSW idle
 align 8
idle psw wait=1, address=start
"""
r = random.Random(7095)
seen = collections.Counter()  # answers, by action and number; 0 for one that is done


def call(*arguments, faults=None, **options):
    """Exit status, standard output and standard error."""
    environment = {f"FAULT_{name}": str(fault) for name, fault in (faults or {}).items()}
    return desk_tools.call(*arguments, environment=dict(environment, LD_PRELOAD=FAULTS) if faults else None, **options)


# The model

class Desk(Extent):
    """A case file, and what the desk does with it."""

    def frame(self, page):
        return self.word(self.places[page]) >> 12 & 0x7ffff if self.is_valid(page) else None

    def segment_places(self):
        """Where the segment entries in reach of the extent's segments stand."""
        numbers = range(self.first >> 8, (self.first + self.pages - 1 >> 8) + 1)
        places = ((self.designation & 0x7ffff000) + 4 * n for n in numbers if n >> 4 <= self.designation & 0x7f)
        return {place for place in places if place < len(self.storage)}

    def overlaps(self):
        """Whether an entry that describes the extent lies in a guest frame."""
        entries = self.segment_places() | {place for place in self.places if place is not None}
        return not {place // FRAME for place in entries}.isdisjoint(self.frame(page) for page in range(self.pages))

    def valid(self):
        return sum(self.is_valid(page) for page in range(self.pages))

    def with_word(self, at, word):
        start = len(self.data) - len(self.storage) + at
        return Desk(self.data[:start] + struct.pack(">I", word) + self.data[start + 4:])

    def change(self, action, page, frame):
        """The number of the refusal; or place, entry before and after, and the case file after it."""
        if page >= self.pages or self.places[page] is None:
            return 10
        if self.is_valid(page) == (action == "add"):
            return 11 if action == "add" else 12
        if action == "add" and frame >= self.frames:
            return 13
        place = self.places[page]
        before = self.word(place)
        after = {"add": frame * FRAME, "remove": before | INVALID, "protect": before | PROTECTED}[action]
        new = self.with_word(place, after)
        if new.overlaps() or self.places.count(place) > 1 or place in self.segment_places():
            return 14
        return place, before, after, new

    def words(self, entry):
        """What a page entry says."""
        bits = [str(bit) for bit in (0, 20, 23) if entry >> 31 - bit & 1]
        text = ""
        if entry & INVALID:
            text = "invalid; "
        elif bits:
            text = f"malformed, bit{'s' * (len(bits) > 1)} {', '.join(bits)} must be zero; "
            text = re.sub(r", (\d+) must", r" and \1 must", text)
        frame = entry >> 12 & 0x7ffff
        beyond = ", beyond the storage" * (frame >= self.frames)
        return f"{text}frame {frame}{beyond}{', protected' * bool(entry & PROTECTED)}"

    def list_lines(self):
        """What list prints."""
        width = 2 * len(str(self.pages - 1)) + 1
        lines, page = [], 0
        while page < self.pages:
            last, frame = page, self.frame(page)
            while frame is None and last + 1 < self.pages and not self.is_valid(last + 1):
                last += 1
            numbers = str(page) if page == last else f"{page}-{last}"
            beyond = ", beyond the storage" * (frame is not None and frame >= self.frames)
            what = "not valid" if frame is None else f"frame {frame}{beyond}"
            lines.append(f"{numbers:{width}}  {page * FRAME:08x}-{last * FRAME + FRAME - 1:08x}  {what}\n")
            page = last + 1
        return "".join(lines) + f"{'valid':{width}}  {self.valid()} of {self.pages} pages\n"


# Every sentence of refusals 10 to 14
NUMBERS = r"[0-9a-f]{8} is [0-9a-f]{8}, "
ENTRY = r"(?:malformed, bits? [0-9, and]+ must be zero; |invalid; )?frame \d+(?:, beyond the storage)?(?:, protected)?"
SENTENCES = {
    10: r"page \d+ is outside the extent, which has pages 0 to \d+, at host addresses [0-9a-f]{8}-[0-9a-f]{8}|"
        r"the entry of page \d+ is out of reach: host (?:segment|page) entry (?:at [0-9a-f]{8}: |not read: ).*",
    11: rf"page \d+ is already valid: its entry at {NUMBERS}{ENTRY}",
    12: rf"page \d+ is not valid: its entry at {NUMBERS}{ENTRY}",
    13: r"frame \d+ is outside the storage, which has frames 0 to \d",
    14: r"the entry of page \d+, at [0-9a-f]{8}, is also (?:that|the host segment entry) of page \d+|"
        r"frame \d would be page \d+ of the guest, and hold the host (?:segment|page) entry of page \d+, at [0-9a-f]{8}",
}


def refuses(ended, name, number, sentence, what):
    """The command printed the refusal, and said this sentence, or one of the right form."""
    status, out, err = ended
    said = re.fullmatch(rf"drevokas: {re.escape(name)}: refused, R {number}: (.*)\n", err)
    expect((status, out) == (1, f"R {number}\n".encode()) and said, f"{what}: {ended}, and not R {number}")
    if said and sentence is not None:
        expect(said[1] == sentence, f"{what}: said {said[1]}, and not {sentence}")
    elif said and number in SENTENCES:
        expect(re.fullmatch(SENTENCES[number], said[1]), f"{what}: said {said[1]}")


def changes(data, action, page, frame=0, sentence=None, operand=None):
    """The desk does with a case file what the model says. Returns the case file after it."""
    name, out = write("desk.case", data), "desk.after"
    what = f"{action} {page} {frame} of {Desk(data).list_lines()}"
    if os.path.exists(out):
        os.remove(out)
    operands = [operand or str(page), *([str(frame)] if action == "add" else [])]
    ended = call("desk", action, name, *operands, "--after", out)
    bad = entry_answer(name)
    if bad and bad[0] == "I 32":
        message = f"drevokas: {name}: the page is not changed: code 32, the record is not valid for entry\n"
        expect(ended == (1, f"I 32: {bad[1]}\n".encode(), message), f"{what}: {ended}, and not {bad}")
        expect(not os.path.exists(out) and read(name) == data, f"{what}: code 32, and written")
        seen[action, 32] += 1
        return data
    desk = Desk(data)
    answer = int(bad[0][2:]) if bad else desk.change(action, page, frame)
    seen[action, answer if isinstance(answer, int) else 0] += 1
    if isinstance(answer, int):
        refuses(ended, name, answer, bad[1] if bad else sentence, what)
        expect(not os.path.exists(out) and read(name) == data, f"{what}: refused, and written")
        return data
    place, before, after, new = answer
    first = page * FRAME
    lines = (f"{DONE[action]} page {page}, guest absolute {first:08x}-{first + FRAME - 1:08x}, entry at {place:08x}\n"
             f"before  {before:08x}  {desk.words(before)}\nafter   {after:08x}  {desk.words(after)}\n"
             f"valid   {new.valid()} of {desk.pages} pages\n")
    expect(ended == (0, lines.encode(), ""), f"{what}: {ended}, and not {lines}")
    expect(os.path.exists(out) and read(out) == new.data, f"{what}: not the case file")
    return new.data


def lists(name, what):
    """The desk lists the pages of a case file as the model does."""
    ended, bad = call("desk", "list", name), entry_answer(name)
    if bad and bad[0] == "I 32":
        expect(ended == (0, f"I 32: {bad[1]}\n".encode(), ""), f"list of {what}: {ended}")
    elif bad:
        refuses(ended, name, int(bad[0][2:]), bad[1], f"list of {what}")
    else:
        expect(ended == (0, Desk(read(name)).list_lines().encode(), ""), f"list of {what}: {ended}")


# Guests that are made for it

def test_actions():
    """Every action on every kind of entry, with both records."""
    for settings in ("", "mode.system = 370\n", "mode.system = xa\nlength = 208\nversion = 2\n",
                     "origin = 1\nprefix = X'3000'\n"):
        data = guest(settings)
        for page in (*range(16), 256, 271):
            changes(data, "add", page, 5)
            for action in "remove", "protect":
                changes(data, action, page)
        write("desk.case", data)
        lists("desk.case", settings)
    for frame in 0, 3, 4, 5, 6, 7:
        changes(guest(), "add", 2, frame)
    changes(changes(guest(), "protect", 0), "protect", 0)
    expect(seen["protect", 0] > 8, "protect: a page that is protected already")


def test_count():
    """The number of valid pages over many changes is that of the list."""
    data = guest()
    for _ in range(60):
        action, page = r.choice(list(DONE)), r.choice([0, 1, 2, 8, 9, 256, 257])
        data = changes(data, action, page, r.choice([5, 6, 7, 3]))
    write("desk.case", data)
    lists("desk.case", "a guest of many changes")


def test_sentences():
    """Word for word; page 2 has its entry at 2008 hex."""
    shared = {0x1004: 0x2000}
    for settings, words, action, page, frame, sentence in [
            ("", {}, "add", 288, 5, "page 288 is outside the extent, which has pages 0 to 287, at host addresses "
             "00000000-0011ffff"),
            ("origin = 16\nextent = 1", {}, "protect", 4294967295, 0, "page 4294967295 is outside the extent, which has pages "
             "0 to 15, at host addresses 00100000-0010ffff"),
            ("", {}, "remove", 16, 0, "the entry of page 16 is out of reach: host page entry not read: page index 16 is past "
             "the page table at 00002000, which has 16 entries"),
            ("", {0x1004: 0x2420}, "add", 256, 5, "the entry of page 256 is out of reach: host segment entry at 00001004: "
             "invalid"),
            ("", {0x1004: 0x80002400}, "add", 256, 5, "the entry of page 256 is out of reach: host segment entry at 00001004: "
             "malformed, bit 0 must be zero"),
            ("", {0x1004: 0x8000}, "add", 257, 5, "the entry of page 257 is out of reach: host page entry not read: it would "
             "be at 00008004, past the storage"),
            ("origin = 256\nextent = 1", {}, "add", 0, 5, "the entry of page 0 is out of reach: host segment entry not read: "
             "segment index 16 is past the segment table at 00001000, which has 16 entries"),
            ("designation = X'8000'", {}, "add", 0, 5, "the entry of page 0 is out of reach: host segment entry not read: it "
             "would be at 00008000, past the storage"),
            ("", {}, "add", 0, 5, "page 0 is already valid: its entry at 00002000 is 00005000, frame 5"),
            ("", {}, "add", 1, 99, "page 1 is already valid: its entry at 00002004 is 00006200, frame 6, protected"),
            ("", {}, "add", 3, 5, "page 3 is already valid: its entry at 0000200c is 00009000, frame 9, beyond the storage"),
            ("", {}, "remove", 2, 0, "page 2 is not valid: its entry at 00002008 is 00000400, invalid; frame 0"),
            ("", {}, "protect", 4, 0, "page 4 is not valid: its entry at 00002010 is 80000900, malformed, bits 0, 20 and 23 "
             "must be zero; frame 0"),
            ("", {}, "remove", 5, 0, "page 5 is not valid: its entry at 00002014 is 00005a00, malformed, bit 20 must be zero; "
             "frame 5, protected"),
            ("", {}, "protect", 6, 0, "page 6 is not valid: its entry at 00002018 is 00007c33, invalid; frame 7"),
            ("", {}, "add", 2, 8, "frame 8 is outside the storage, which has frames 0 to 7"),
            ("", {}, "add", 2, 4294967295, "frame 4294967295 is outside the storage, which has frames 0 to 7"),
            # an entry in a guest frame: after the call, and before it too
            ("", {}, "add", 2, 1,
             "frame 1 would be page 2 of the guest, and hold the host segment entry of page 0, at 00001000"),
            ("", {}, "add", 2, 2, "frame 2 would be page 2 of the guest, and hold the host page entry of page 0, at 00002000"),
            ("", {0x1004: 0x7400, 0x7400: 0x400}, "protect", 0, 0,
             "frame 7 would be page 7 of the guest, and hold the host page entry of page 256, at 00007400"),
            ("", {0x2008: 0x2000}, "protect", 0, 0,
             "frame 2 would be page 2 of the guest, and hold the host page entry of page 0, at 00002000"),
            ("", {0x2008: 0x2000}, "remove", 0, 0,
             "frame 2 would be page 2 of the guest, and hold the host page entry of page 0, at 00002000"),
            # an entry that serves twice
            ("", shared, "add", 2, 5, "the entry of page 2, at 00002008, is also that of page 258"),
            ("", shared, "remove", 256, 0, "the entry of page 256, at 00002000, is also that of page 0"),
            ("", {0x1004: 0x1FC2, 0x2008: 0x400}, "add", 274, 5, "the entry of page 274, at 00002008, is also that of page 2"),
            ("", {0x1004: 0x1000}, "protect", 256, 0, "the entry of page 256, at 00001000, is also the host segment entry of "
             "page 0"),
    ]:
        data = guest(settings + "\n", words)
        number = next(n for n, form in SENTENCES.items() if re.fullmatch(form, sentence))
        expect(Desk(data).change(action, page, frame) == number, f"the model: {action} {page} {frame}: {sentence}")
        changes(data, action, page, frame, sentence)


def test_kept_apart():
    """What is no refusal 14: the remove that takes the offending page away, and what is shared outside the extent."""
    data = guest("", {0x2008: 0x2000})
    changes(data, "remove", 2)
    changes(guest("extent = 16\n", {0x1004: 0x2000}), "add", 2, 5)
    changes(guest("extent = 1\n", {0x1010: 0x400, 0x1000: 0x1000, 0x1004: 0x5000}), "remove", 1)
    changes(guest("extent = 1\norigin = 16\n", {0x1004: 0x1000}), "protect", 0)
    changes(guest("", {0x2008: 0x7000}), "add", 8, 7)
    for key in ("add", 0), ("remove", 0), ("protect", 0):
        expect(seen[key] > 0, f"never done: {key}")


def test_entry():
    """Refusals 1, 2 and 7 and code 32 come first, whatever page and frame are."""
    for settings in ("length = 199", "version = 2", "reserved = 1", "extent = 0", "mode = 0", "mode.bit6 = 1", "origin = 32768",
                     "extent = 32769", "prefix = X'7FFFF000'", "mode.system = 370\nresidue = 40960000",
                     "mode.system = 370\nprefix = X'1000000'"):
        data = guest(settings + "\n")
        for action in DONE:
            for page, frame in (0, 5), (4294967295, 4294967295):
                changes(data, action, page, frame)
        write("desk.case", data)
        lists("desk.case", settings)
    for key in itertools.product(DONE, (1, 2, 7, 32)):
        expect(seen[key] > 0, f"never found: {key}")


# Pseudo-random guests

def test_random():
    seen.clear()
    for number in range(RANDOM):
        data = random_case(r)
        desk = Desk(data)
        action = r.choice(list(DONE))
        page = r.choice([r.randrange(16), r.randrange(desk.pages), r.randrange(desk.pages + 1)])
        changes(data, action, page, r.randrange(desk.frames + 1))
        if number % 8 == 0:
            lists("desk.case", f"random guest {number}")
    for key in [*itertools.product(DONE, (0, 10, 14)), ("add", 11), ("remove", 12), ("protect", 12), ("add", 13)]:
        expect(seen[key] >= FEW, f"too few of {key}: {seen[key]}")


def test_kept_files():
    """Every kept case file is listed, and changed."""
    for number, name in enumerate(sorted(glob.glob(os.path.join(FILES, "*.in")))):
        if read(name[:-2] + "out") == b"R 9\n":
            expect(call("desk", "list", name)[:2] == (1, b"R 9\n"), f"list {name}")
            expect(call("desk", "remove", name, "0", "--after", "none")[:2] == (1, b"R 9\n"), f"remove {name}")
            continue
        if Desk(read(name)).pages > 4096:
            continue
        lists(name, name)
        changes(read(name), list(DONE)[number % 3], r.choice([0, 1, 2, 16]), r.randrange(4))


# Operands

def test_operands():
    data = guest("origin = 16\nextent = 1\n", {0x2440: 0x400})
    for operand in ("2", "02", "0x2", "0X02", "X'2'", "X2", "x'00000002'", "guest:2000", "guest:0x2fff", "guest:X'2ABC'",
                    "host:102000", "host:00102fff", "host:X'102001'"):
        changes(data, "add", 2, 5, operand=operand)
    for operand in "0", "guest:0", "host:100000":
        changes(data, "add", 0, 5, operand=operand)
    changes(data, "remove", 0xFFFFF, operand="host:FFFFF", sentence="page 1048575 is outside the extent, which has pages 0 to "
            "15, at host addresses 00100000-0010ffff")
    changes(data, "add", 0xFFFFF, operand="guest:ffffffff", frame=5)
    name = write("desk.case", data)
    for frame in "5", "0x5", "X'5'", "X5", "05":
        status, out, err = call("desk", "add", name, "0", frame, "--after", "-")
        expect(status == 0 and Desk(out).word(0x2400) == 0x5000, f"frame {frame}: {status}, {err}")
    number = "must be a number of 32 bits, decimal or 0x and hexadecimal digits"
    for operand in ("", "x", "-1", "2000h", "1f", "4294967296", "0x100000000", "0x", "X''", "X'1", "0b1", "+1", " 1", "guest",
                    "Guest:0"):
        says(["desk", "remove", name, "--after", "out", "--", operand], f"page {operand}: {number}, or an address in the page, "
             "guest: or host: and hexadecimal digits")
        says(["desk", "add", name, "--after", "out", "--", "0", operand], f"frame {operand}: {number}")
    for operand in "", "x", "100000000", "2000-2fff", "0x":
        for space in "guest", "host":
            says(["desk", "add", name, f"{space}:{operand}", "5", "--after", "out"],
                 f"address {operand}: must be a hexadecimal number of 32 bits")
    says(["desk", "add", name, "guest:0b10", "5", "--after", "out"], "address 0b10: is it hexadecimal, 0x0b10, or binary?")
    expect(not os.path.exists("out"), "bad operands: a file is written")


def test_usage():
    name = write("desk.case", guest())
    says(["desk"], "desk: no action; it is add, remove, protect or list\n"
         "usage: drevokas desk add FILE PAGE FRAME --after OUT\n")
    says(["desk", "fly", name], "desk: no action fly; it is add, remove, protect or list")
    says(["desk", "--after", "out", "add", name, "2", "5"], "desk: no action --after")
    for action, operands in ("add", ["2", "5"]), ("remove", ["0"]), ("protect", ["0"]):
        change = ["desk", action, name, *operands]
        usage = f"usage: drevokas desk {action} FILE PAGE {'FRAME ' * (action == 'add')}--after OUT\n"
        count = len(operands) + 1
        says(change, f"desk {action}: needs --after OUT, which is where the case file goes\n{usage}")
        says([*change, "--after"], f"desk {action}: option --after needs a value\n{usage}")
        says([*change, "--after", "a", "--after", "b"], "option --after is given twice")
        says([*change, "--quiet", "--after", "out"], f"desk {action}: unknown option --quiet\n{usage}")
        says([*change, "9", "--after", "out"], f"desk {action}: too many arguments: {count + 1}, and must be {count}\n{usage}")
        says([*change[:-1], "--after", "out"], f"desk {action}: too few arguments: {count - 1}, and must be {count}\n{usage}")
        says([*change[:2], "none.case", *operands, "--after", "out"], "none.case: cannot be read: No such file")
        says([*change[:2], "none.case", *operands, "--after", "none/out"], "none/out: cannot be written: No such file")
        status, out, err = call("desk", action, "--help")
        expect(status == 0 and out.decode().startswith(usage) and err == "", f"desk {action} --help: {status}, {err}")
    says(["desk", "list", name, "--after", "out"], "desk list: unknown option --after\nusage: drevokas desk list FILE\n")
    says(["desk", "list"], "desk list: too few arguments: 0, and must be 1")
    says(["desk", "list", "none.case"], "none.case: cannot be read: No such file")
    expect(not os.path.exists("out"), "bad usage: a file is written")


# What is written, and when

ADD = ["desk", "add", "guest.case", "3", "6", "--after"]
LINES = ("added page 3, guest absolute 00003000-00003fff, entry at 0000104c\nbefore  00000400  invalid; frame 0\n"
         "after   00006000  frame 6\nvalid   4 of 16 pages\n")


def new_guest(*others):
    """The folder has the guest in it, and these files, and nothing else. Returns the guest, and what it is after the call."""
    for name in os.listdir():
        shutil.rmtree(name) if os.path.isdir(name) else os.remove(name)
    data = made(GUEST)
    for name in ("guest.case", *others):
        write(name, data)
    return data, Desk(data).change("add", 3, 6)[3].data


def only(*names):
    expect(sorted(os.listdir()) == sorted(["guest.case", *names]), f"the folder has {sorted(os.listdir())}, and not {names}")


def test_streams():
    """Standard input and output, a file changed in its place, a new one, one by a link."""
    data, after = new_guest()
    expect(call(*ADD, "-") == (0, after, LINES), "add --after -")
    expect(call("desk", "add", "-", "3", "6", "--after", "-", text=data) == (0, after, LINES), "add - --after -")
    expect(call(*ADD, "new.case") == (0, LINES.encode(), "") and read("new.case") == after, "add --after new.case")
    os.chmod("guest.case", 0o640)
    os.symlink("guest.case", "link")
    expect(call(*ADD, "link") == (0, LINES.encode(), "") and read("guest.case") == after, "add --after FILE")
    expect(os.path.islink("link") and os.stat("guest.case").st_mode & 0o777 == 0o640, "a link, and permissions")
    only("new.case", "link")
    expect(call("desk", "list", "-", text=data) == (0, Desk(data).list_lines().encode(), ""), "list -")
    status, out, err = call("desk", "add", "-", "3", "8", "--after", "-", text=data)
    expect((status, out) == (1, b"") and err.startswith("R 13\ndrevokas: standard input: refused, R 13: "), f"R 13: {err}")
    status, out, err = call("desk", "add", "-", "3", "8", "--after", "-", text=b"text\n")
    good = err.startswith("drevokas: standard input: not a case file: ") and err.endswith("R 9\n")
    expect((status, out) == (1, b"") and good, f"R 9: {err}")
    expect(call("desk", "list", "-", text=b"text\n")[:2] == (1, b"R 9\n"), "list of a text")


def test_places():
    """The place is tested before the work, and what is there stays."""
    data, _ = new_guest()
    os.mkdir("inner")
    write("guest.txt", b"time = 1us\n")
    for name, message in (("none/out", "No such file"), ("inner", "Is a directory"), ("guest.case/x", "Not a directory"),
                          ("guest.txt", "it is there and is no case file")):
        says([*ADD, name], f"{name}: cannot be written: {message}")
        says(["desk", "remove", "guest.txt", "0", "--after", name], f"{name}: cannot be written: {message}")
    with open("lines", "wb") as lines:
        status, _, err = call(*ADD, "lines", stdout=lines)
        expect(status == 2 and "standard output goes there" in err, f"the lines' own file: {status}, {err}")
    expect(read("guest.case") == data and read("guest.txt") == b"time = 1us\n" and read("lines") == b"", "a file has changed")
    only("inner", "guest.txt", "lines")


def test_lines_first():
    """The lines cannot be written, or nobody reads them: the case file stays."""
    data, _ = new_guest()
    with open("/dev/full", "wb") as full:
        status, _, err = call(*ADD, "guest.case", stdout=full)
        expect(status == 2 and "standard output cannot be written: No space" in err, f"/dev/full: {status}, {err}")
        status, _, err = call("desk", "list", "guest.case", stdout=full)
        expect(status == 2 and "standard output cannot be written: No space" in err, f"list > /dev/full: {status}, {err}")
        status, _, err = call(*ADD, "-", stdout=full)
        expect(status == 2 and err == LINES + "drevokas: standard output: cannot be written: No space left on device\n", err)
    ours, theirs = os.pipe()
    os.close(ours)
    expect(call(*ADD, "guest.case", stdout=theirs)[0] == -signal.SIGPIPE, "a reader that is gone")
    os.close(theirs)
    expect(read("guest.case") == data, "the case file has changed")
    only()


def test_full_disk():
    """A file system that fails: the case file that is there stays whole, and nothing is left beside it."""
    data, _ = new_guest()
    for function, number in ("rename", errno.ENOSPC), ("fsync", errno.EIO), ("fsync", errno.ENOSPC), ("fchmod", errno.EIO):
        for name in "guest.case", "new.case":
            ended = call(*ADD, name, faults={function: number})
            message = f"drevokas: {name}: cannot be written: {os.strerror(number)}\n"
            expect(ended == (2, LINES.encode(), message), f"{function} fails: {ended}")
            expect(read("guest.case") == data, f"{function} fails: the case file has changed")
            only()
    limited = subprocess.run(["sh", "-c", f'ulimit -f 1; exec "$0" {" ".join(ADD)} guest.case', COMMAND],
                             stdout=subprocess.PIPE, stderr=subprocess.PIPE)
    expect(limited.returncode == 2 and b"File too large" in limited.stderr, f"a file that grows too large: {limited}")
    expect(read("guest.case") == data, "a file that grows too large: the case file has changed")
    only()


def test_signals():
    """Ctrl-C and its like come too late: the call is done, and written. Other signals wait until the file is in its place."""
    for number in ENDS:
        for fault in "sigaction", "fsync", "rename":
            _, after = new_guest()
            ended = call(*ADD, "guest.case", faults={fault: -number})
            expect(ended == (0, LINES.encode(), "") and read("guest.case") == after, f"{number.name} at {fault}: {ended}")
            only()
    for number in signal.SIGUSR1, signal.SIGALRM, signal.SIGQUIT, signal.SIGPIPE:
        _, after = new_guest()
        ended = call(*ADD, "guest.case", faults={"fsync": -number})
        expect(ended == (-number, LINES.encode(), "") and read("guest.case") == after, f"{number.name}: {ended}")
        only()


def test_goes_on():
    """Runs end in host faults; each page is mended by the address of its fault, and the same run goes on."""
    for origin in 0, 20:
        new_guest()
        write("guest.case", made(f"origin = {origin}\n{GUEST}"))
        fault = None
        for arguments, out in [
                (["desk", "remove", "guest.case", "1"], None), (["run", "guest.case"], b"H 17 0\n"),
                (["desk", "add", "guest.case", "FAULT", "6"], None), (["run", "guest.case"], b"H 4 0\n"),
                (["desk", "remove", "guest.case", "FAULT"], None), (["run", "guest.case"], b"H 17 0\n"),
                (["desk", "add", "guest.case", "FAULT", "7"], None), (["run", "guest.case"], b"I 28 2\n")]:
            arguments = [f"host:{fault[1]}" if argument == "FAULT" else argument for argument in arguments]
            status, printed, err = call(*arguments, "--after", "guest.case")
            expect(status == 0 and out in (None, printed), f"{arguments}: {status}, {printed}, {err}; and not {out}")
            fault = re.search("at host address ([0-9a-f]{8})", err) or fault
        only()


shutil.rmtree(FOLDER, ignore_errors=True)
os.makedirs(FOLDER)
os.chdir(FOLDER)
for test in (test_actions, test_count, test_sentences, test_kept_apart, test_entry, test_random, test_kept_files, test_operands,
             test_usage, test_streams, test_places, test_lines_first, test_full_disk, test_signals, test_goes_on):
    test()
report()
