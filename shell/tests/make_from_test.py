#!/usr/bin/env python3
"""make_from_test.py COMMAND: tests of the page maps of `drevokas make --from`, and of the entry addresses that explain shows.
Tables are walked by a model of document 01's rules. Prints each failure and a count; fails if there is one."""
import os
import random
import re
import struct
import sys
import tempfile

sys.dont_write_bytecode = True
from tools import FRAME, INVALID, Tables, call, expect, report  # noqa: E402

EXAMPLES = os.path.join(os.path.dirname(os.path.abspath(__file__)), "../../examples")
PROTECTED = 0x200
r = random.Random(7095)


def changed(old, new):
    """The words of storage in which two case files differ."""
    return {at: new.word(at) for at in range(0, len(old.storage), 4) if old.word(at) != new.word(at)}


class Folder:
    """A folder with a case file, from which others are made."""

    def __init__(self, data):
        self.folder = tempfile.TemporaryDirectory()
        self.name = os.path.join(self.folder.name, "old")
        with open(self.name, "wb") as f:
            f.write(data)

    def make(self, text):
        """A case file, or else the message."""
        status, out, err = call("make", "-", "--from", self.name, text=text.encode())
        expect((status, out == b"", err == "") in ((0, False, True), (2, True, False)), f"{text!r}: {status}: {err}")
        return Tables(out) if status == 0 else err


def case_of(text):
    status, out, err = call("make", "-", text=text.encode())
    expect(status == 0, f"{text!r}: {err}")
    return out


# The advice of the messages, on the example of a protected page

def test_protected_page():
    with tempfile.TemporaryDirectory() as folder:
        first, fault, mended = (os.path.join(folder, name) for name in ("first", "fault", "mended"))
        call("make", os.path.join(EXAMPLES, "protected_page.txt"), "-o", first)
        status, out, err = call("run", first, "--after", fault)
        expect(out == b"H 4 0\n", f"protected_page: {out} {err}")
        for text in ("map guest X'2000' to frame 5", "host tables at frame 1\nmap guest X'2000' to frame 5",
                     "host tables at frame 7\nmap guest X'2000' to frame 5", "at frame 1 X'48'\nword X'5000'"):
            status, out, err = call("make", "-", "--from", fault, "-o", mended, text=text.encode())
            status, out, err = call("run", mended)
            expect(out == b"I 28 3\n", f"{text!r}: {out} {err}")
        with open(fault, "rb") as f:
            old = Folder(f.read())
        c = old.make("map guest X'2000' to frame 5")
        expect(changed(Tables(open(old.name, "rb").read()), c) == {0x1048: 0x5000}, "one entry and nothing else")
        message = old.make("map guest X'10000' to frame 6")
        expect("its segment is too short for it; add \"host tables at frame NUMBER\"" in message, message)
        c = old.make("host tables at frame 1\nmap guest X'10000' to frame 6")
        wanted = {**{n: INVALID for n in range(32)}, 0: 0x3000, 1: 0x4000, 2: 0x5200, 16: 0x6000}
        expect(c.entries() == wanted, "a longer table")


# The host's tables that are there: page 0 in frame 3, page 1 in frame 4, page 2 in frame 5 protected, 3 to 15 invalid

MAP = "host tables at frame 1\nmap guest 0-X'1FFF' to frame 3-4\nmap guest X'2000' to frame 5 protected\n"


def test_in_place():
    old = Folder(case_of("frames = 8\ngr3 = 5\nkey 4 = 8\n" + MAP))
    before = Tables(open(old.name, "rb").read())
    for text, wanted in [
            ("map guest X'2000' to frame 5", {0x1048: 0x5000}), ("map guest X'2000' invalid", {0x1048: 0x5600}),
            ("map guest X'1000' to frame 4 protected", {0x1044: 0x4200}),
            ("map guest X'1000' to frame 7 invalid", {0x1044: 0x7400}),
            ("map guest X'3000'-X'4FFF' to frame 6-7", {0x104c: 0x6000, 0x1050: 0x7000}),
            ("map guest 0 to frame 4\nmap guest X'1000' to frame 3", {0x1040: 0x4000, 0x1044: 0x3000}),
            ("map guest X'3000' to frame 6\nat guest X'3008'\nword 9\nat guest X'1000'\nword 8",
             {0x104c: 0x6000, 0x6008: 9, 0x4000: 8}),
            ("map guest X'F000' invalid", {})]:
        c = old.make(text)
        expect(isinstance(c, Tables) and changed(before, c) == wanted, f"{text!r}: {c}")
        expect(c.designation == 0x1000 and c.record == before.record and c.keys == before.keys, f"{text!r}: all else stays")
    for text, message in [
            ("map guest X'10000' to frame 6", "guest page X'10000' has no entry that could be changed: the page table of its"),
            ("map guest X'100000' invalid", "its segment entry, at X'1004', is invalid (bit 26); add \"host tables at frame"),
            ("map guest X'1000000' invalid", "page X'1000000' has no entry that could be changed: the segment table is too"),
            ("designation = X'80000'\nmap guest 0 invalid", "its segment entry, at X'80000', is beyond the storage"),
            ("origin = 1\nmap guest 0 to frame 6", "guest page X'0' has no entry that could be changed: the page table of its"),
            ("map guest X'3000' to frame 1", "guest page X'3000' would be in frame 1, which holds entries of the host's"),
            ("map guest X'3000' to frame 8", "the frame is 8"),
            ("map guest X'3000' to frame 6\nat frame 1 X'4C'\nword 1", "this overlaps line 1"),
            ("map guest X'3000' invalid\nat guest X'3000'\nword 1", "in a page that is invalid by line 1"),
            ("map guest 0 invalid\nmap guest 0 invalid", "the page X'0' is mapped in line 1 already"),
            ("map virtual 0 to real 0", "has no tables (CR0 bits 8-12 are not 10110); add \"guest tables at real ADDRESS\"")]:
        err = old.make(text)
        expect(isinstance(err, str) and message in err, f"{text!r}: {err}")
    err = old.make("map guest X'10000' invalid\nmap guest 0 to frame 3\nmap guest X'100000'-X'7FFFFFFF' invalid\n")
    expect([line.split(":")[1] for line in err.split("\n")[:2]] == ["1", "3"] and "2 errors" in err, f"one error a line: {err}")


def test_entries_as_they_are():
    """Bits that the machine ignores stay, malformed entries are mended, a second table is found by its designation."""
    text = ("designation = X'1000'\nat frame 1\nword X'1040',X'1040',X'80000000',X'2000000',X'1080'\nat frame 1 X'40'\n"
            "word X'800033FF',X'5C55'\nat frame 2\nword X'2040'\nat frame 2 X'40'\nword X'7000'\n"
            "at frame 1 X'80'\nword X'4000'\n")
    old = Folder(case_of(text))
    before = Tables(open(old.name, "rb").read())
    for text, wanted in [("map guest X'400000' to frame 6", {0x1080: 0x6000}),
                         ("designation = X'2000'\nmap guest 0 to frame 6 protected", {0x2040: 0x6200})]:
        c = old.make(text)
        expect(isinstance(c, Tables) and changed(before, c) == wanted, f"{text!r}: {c}")
    err = old.make("map guest X'1000' to frame 6")
    expect("this would change the way to the guest page X'101000' too, since the tables use one word for both" in err, err)
    err = old.make("map guest X'1000' to frame 6\nmap guest X'101000' to frame 6")
    expect("guest page X'101000' has its entry, at X'1044', in common with a page of line 1" in err, err)
    err = old.make("map guest X'200000' to frame 6")
    expect("its segment entry, at X'1008', is malformed (bit 0)" in err, err)
    err = old.make("map guest X'300000' to frame 6")
    expect("its page entry, at X'2000000', is beyond the storage" in err, err)
    err = old.make("designation = 0\nmap guest 0 to frame 6")
    expect("this would change the way to the guest page X'0' too" in err, err)
    c = old.make("host tables at frame 2\nmap guest X'1000' to frame 6\nmap guest X'101000' invalid")
    words = (c.designation, c.word(0x2040), c.word(0x2044), c.word(0x2084))
    expect(words == (0x2000, 0x800033ff, 0x6055, 0x5c55), "words carried over")


def test_new_tables():
    old = Folder(case_of(MAP))
    c = old.make("host tables at frame 6")
    wanted = ["00006040"] + ["00000020"] * 15 + ["00003000", "00004000", "00005200"] + ["00000400"] * 13
    expect(c.designation == 0x6000 and c.words(0x6000, 32) == wanted, "tables in another frame")
    c = old.make("host tables at frame 1\nmap guest 0 invalid\nmap guest X'2000' to frame 2")
    expect(c.words(0x1040, 4) == ["00003400", "00004000", "00002000", "00000400"], "tables in the same frame")
    c = old.make("host tables at frame 7\nmap guest X'3000' to frame 1\nat guest X'1004'\nword 5\nat guest X'3000'\nword 6")
    expect((c.word(0x4004), c.word(0x1000)) == (5, 6), "contents through pages that are carried over")
    c = old.make("designation = X'6001'\nhost tables at frame 6")
    expect(c.designation == 0x6001 and c.word(0x6048) == 0x5200, "a designation that is written names the new tables")
    c = old.make("origin = 16\nhost tables at frame 6\nmap guest 0 to frame 7")
    words = (c.word(0x6000), c.word(0x6004), c.word(0x6044), c.word(0x6080))
    expect(words == (0x6040, 0x6080, 0x4000, 0x7000), f"pages below the origin: {words}")
    for text, line, message in [
            ("host tables at frame 4", 1, "page X'1000' is in frame 4 by the old tables, and the host tables would be there"),
            ("host tables at frame 5", 1, "guest page X'2000' is in frame 5 by the old tables"),
            ("origin = 1\nhost tables at frame 4", 2, "host page X'1000' is in frame 4 by the old tables"),
            ("host tables at frame 4\nmap guest X'1000' invalid\nmap guest X'3000' to frame 4", 1, "page X'3000' of line 3 is"),
            ("host tables at frame 7\nmap guest X'7FF00000'-X'7FFFFFFF' invalid", 1,
             "need 9280 bytes, with all pages of the old ones, and from frame 7"),
            ("host tables at frame 7\nat guest X'3000'\nword 1", 3, "address X'3000' is in no mapped page; add \"map guest"),
            ("host tables at frame 7\nat guest X'10000'\nword 1", 3, "address X'10000' is in no mapped page; add \"map guest")]:
        err = old.make(text)
        expect(isinstance(err, str) and err.startswith(f"standard input:{line}: ") and message in err, f"{text!r}: {err}")
    c = old.make("host tables at frame 4\nmap guest X'1000' invalid")
    expect(c.designation == 0x4000 and c.word(0x4044) == 0x4400, "a frame whose page the text makes invalid")


# The guest's own tables

DAT = ("prefix = X'2000'\norigin = 2\nhost tables at frame 1\nmap guest 0-X'4FFF' to frame 3-7\nguest tables at real X'1000'\n"
       "map virtual 0 to real 0\nmap virtual X'5000' to real X'3000'\nmap virtual X'6000' to real X'4000' protected\n")


def test_guest_in_place():
    """The guest's tables are at real 1000, which is frame 4; real 2000 is absolute 0, frame 3."""
    old = Folder(case_of(DAT))
    before = Tables(open(old.name, "rb").read())
    for text, wanted in [
            ("map virtual X'6000' to real X'4000'", {0x4058: 0x4000}), ("map virtual X'5000' invalid", {0x4054: 0x3400}),
            ("map virtual X'7000'-X'8FFF' to real X'3000' protected", {0x405c: 0x3200, 0x4060: 0x4200}),
            ("at virtual X'5004'\nword 7", {0x6004: 7}),
            ("map virtual X'7000' to real X'2000'\nat virtual X'7004'\nword 7", {0x405c: 0x2000, 0x3004: 7}),
            ("map guest X'4000' to frame 2\nmap virtual X'5000' invalid", {0x1040 + 4 * 36: 0x2000, 0x4054: 0x3400})]:
        c = old.make(text)
        expect(isinstance(c, Tables) and changed(before, c) == wanted and c.record == before.record, f"{text!r}: {c}")
    for text, message in [
            ("map virtual X'10000' to real 0", "virtual page X'10000' has no entry that could be changed: the page table"),
            ("map virtual X'100000' to real 0", "its segment entry, at real X'1004', is invalid (bit 26); add \"guest tables"),
            ("map virtual X'1000000' invalid", "the segment table is too short for it"),
            ("cr1 = X'9000'\nmap virtual 0 invalid", "its segment entry, at real X'9000', is beyond the extent or in a page"),
            ("at virtual X'7000'\nword 1", "address X'7000' is in no mapped page; add \"map virtual X'7000' to real ADDRESS\""),
            ("at virtual X'1000000'\nword 1", "virtual address X'1000000' is in no mapped page")]:
        err = old.make(text)
        expect(isinstance(err, str) and message in err, f"{text!r}: {err}")


def test_new_guest_tables():
    old = Folder(case_of(DAT))
    before = Tables(open(old.name, "rb").read())
    for text, at in (("guest tables at real X'1000'\n", 0x4000), ("guest tables at real X'3000'\n", 0x6000),
                     ("guest tables at real X'2000'\n", 0x3000)):
        c = old.make(text + "map virtual X'6000' invalid\nmap virtual X'107000' to real 0")
        wanted = {**before.entries(True), **{n: INVALID for n in range(256, 272)}, 6: 0x4600, 263: 0}
        expect(c.entries(True) == wanted and c.word(at) != 0, f"{text!r}: {c.entries(True)}")
        expect(c.record[72:76] == before.record[72:76] and c.field(76, 4) == int(text[23:27], 16), "CR0 and CR1")
    c = old.make("host tables at frame 0\nmap guest X'1000' to frame 1\nguest tables at real X'1000'")
    expect(c.entries(True) == before.entries(True), "old tables in a page that the host moves")
    plain = Folder(case_of(MAP))
    c = plain.make("guest tables at real X'1000'\nmap virtual 0 to real 0")
    expect(c.entries(True) == {0: 0, **{n: INVALID for n in range(1, 16)}}, "a guest that had no tables")


# Tables of all kinds: the words are pseudo-random, and what make does is what the model says

def put_words(storage, at, words):
    storage[at:at + 4 * len(words)] = struct.pack(f">{len(words)}I", *words)


def random_word(frames):
    bits = r.choice([0, 0, 0, 0x20, INVALID, PROTECTED, 0x80000000, 0x100, 0x55])
    return r.randrange(frames + 1) * FRAME + r.choice([0, 0x40, 0x400, 0x800]) + r.randrange(16) | bits


def random_page(frames, but):
    return r.choice([frame for frame in range(frames) if frame != but]) * FRAME | r.choice([0, 0, PROTECTED, INVALID, 0x55])


def put_good_tables(storage, record):
    """Tables of two segments for the host, and of one for the guest, in frames of their own; the designation."""
    frames, prefix = len(storage) // FRAME, int.from_bytes(record[8:12], "big")
    host, guest, page = *r.sample(range(frames), 2), r.randrange(4)
    place, real = host * FRAME, {0: prefix, prefix: 0}.get(page * FRAME, page * FRAME)
    put_words(storage, place, [place + 0x41, place + 0xc1] + [0x20] * 14 + [random_page(frames, host) for _ in range(64)])
    number = record[13] * 16 + page
    put_words(storage, place + 0x40 + (number >> 8) * 0x80 + (number & 255) * 4, [guest * FRAME])
    put_words(storage, guest * FRAME, [real + 0x40] + [0x20] * 15 + [random_page(4, -1) for _ in range(16)])
    record[76:80] = struct.pack(">I", real)
    return place


def random_case():
    frames = r.randrange(2, 9)
    storage, record = bytearray(frames * FRAME), bytearray(200)
    for _ in range(r.choice([40, 400, 4000])):
        at = r.randrange(frames) * FRAME + r.choice([r.randrange(64), r.randrange(1024)]) * 4
        put_words(storage, at, [random_word(frames)])
    record[1], record[2], record[4], record[13], record[15] = 200, 1, 8, r.choice([0, 0, 1, 17]), r.choice([1, 16, 40])
    record[8:12] = struct.pack(">I", r.randrange(4) * FRAME)
    record[72:80] = struct.pack(">II", 0x00b00000, r.randrange(frames) * FRAME + r.randrange(2))
    designation = put_good_tables(storage, record) if r.randrange(2) else r.randrange(frames) * FRAME + r.randrange(2)
    head = struct.pack(">BIQIH", 1, designation, 0, 1, 1)
    body = head + bytes(record) + bytes([frames]) + bytes(frames) + bytes(storage)
    return struct.pack(">I", len(body)) + body


def change_one(old, before, virtual):
    """One page's entry, in place."""
    origin = 0 if virtual else before.field(12, 2) * 16
    inside = [page for page in before.entries(virtual) if page >= origin]
    page = r.choice(inside) if inside and r.randrange(4) else origin + r.randrange(8192 - origin)
    target, flag = r.randrange(before.frames), r.choice(["", " protected", " invalid"])
    text = f"map {'virtual' if virtual else 'guest'} X'{(page - origin) * FRAME:X}' to "
    text += (f"real X'{target * FRAME:X}'" if virtual else f"frame {target}") + flag
    got, at = old.make(text), before.entry_at(page, virtual)
    if isinstance(got, Tables):
        word = before.word(at) & 0xff | target * FRAME | {"": 0, " protected": PROTECTED, " invalid": INVALID}[flag]
        same = {n: e for n, e in before.entries(virtual).items() if n != page}
        expect(changed(before, got) in ({at: word}, {}) and got.word(at) == word, f"{text!r}: {changed(before, got)}")
        expect({n: e for n, e in got.entries(virtual).items() if n != page} == same, f"{text!r}: another page is changed")
    elif at is None:
        expect("has no entry that could be changed" in got, f"{text!r}: {got}")
    else:
        expect("holds entries of the host's tables" in got or "this would change the way" in got, f"{text!r}: {got}")
    return isinstance(got, Tables)


def move_tables(old, before):
    """The host's tables made anew in the last frame."""
    got = old.make(f"host tables at frame {before.frames - 1}")
    if isinstance(got, Tables):
        kept, now = before.entries(), got.entries()
        expect({n: now.get(n) for n in kept} == kept, "an entry is lost")
        expect(all(entry == INVALID for n, entry in now.items() if n not in kept), "a page comes from nowhere")
    else:
        expect("by the old tables, and the host tables would be there" in got or "the host tables need" in got, got)
    return isinstance(got, Tables)


def test_random():
    done = [0, 0, 0]
    for _ in range(40):
        data = random_case()
        old, before = Folder(data), Tables(data)
        done[0] += change_one(old, before, False)
        done[1] += change_one(old, before, True)
        done[2] += move_tables(old, before)
    expect(min(done) >= 8, f"too few are done: {done}")


# explain's list of pages

def test_explain():
    for data in [case_of(MAP), *(random_case() for _ in range(20))]:
        old, before = Folder(data), Tables(data)
        status, out, err = call("explain", old.name, "--pages", "10000")
        lines = out.decode().split("\nPages: ")[-1].split("\n\n")[0].split("\n")
        expect(status == 0 and max(map(len, lines)) <= 100, f"explain: {err} {max(lines, key=len)!r}")
        pages, origin = 0, before.field(12, 2) * 16
        for line in lines:
            found = re.match(r"  ([0-9a-f]{8})-([0-9a-f]{8})  (?:entry ([0-9a-f]{8})|no entry      )  \S", line)
            if not found:
                continue
            first, last = (int(number, 16) // FRAME for number in found.group(1, 2))
            expect(first == pages and last >= first, f"explain: pages that follow one another: {line!r}")
            places = [before.entry_at(origin + page) for page in range(first, last + 1)]
            at = None if found.group(3) is None else int(found.group(3), 16)
            expect(places == [at if at is None else at + 4 * n for n in range(len(places))], line)
            pages = last + 1
        expect(pages == before.field(14, 2) * 16, f"explain: {pages} pages")


for test in (test_protected_page, test_in_place, test_entries_as_they_are, test_new_tables, test_guest_in_place,
             test_new_guest_tables, test_random, test_explain):
    test()
report()
