#!/usr/bin/env python3
"""unbacked_test.py COMMAND FOLDER: tests of `unbacked`: each answer against a survey of all pages by a model of the rules, on
guests that are made for it, on pseudo-random ones and on the kept case files, with both records, and beside `desk list`; every
sentence word for word; operands; exit status; that nothing is changed; and the loop of examples/back.sh. What is written goes
to FOLDER. Prints each failure and a count; fails if there is one."""
import collections
import glob
import itertools
import os
import random
import re
import shutil
import signal
import subprocess
import sys

sys.dont_write_bytecode = True
from desk_tools import FILES, Extent, call, entry_answer, guest, made, random_case, says  # noqa: E402
from tools import COMMAND, FRAME, INVALID, expect, read, report, write  # noqa: E402

FOLDER = os.path.abspath(sys.argv[2])
LOOP = os.path.join(os.path.dirname(os.path.abspath(__file__)), "../../examples/back.sh")
RANDOM = 500  # guests
FEW = 10  # each answer is to be found so often
REASONS = {  # what each says, with a number in place of each number
    "segment past the table": "host segment entry not read: segment index N is past the segment table at N, which has N "
                              "entries",
    "segment past the storage": "host segment entry not read: it would be at N, past the storage",
    "segment invalid": "host segment entry at N: invalid",
    "segment malformed": "host segment entry at N: malformed, bit N must be zero",
    "page past the table": "host page entry not read: page index N is past the page table at N, which has N entries",
    "page past the storage": "host page entry not read: it would be at N, past the storage",
    "page invalid": "host page entry at N: invalid",
    "page malformed": "host page entry at N: malformed, bit N must be zero",
}
r = random.Random(4381)
seen = collections.Counter()  # answers: "found", "none", "empty", refusals, code 32; and the reasons of the first


# The model

class Survey(Extent):
    """A case file, and what is to be found in it."""

    def search(self, start, end):
        """16, or the lowest page that is not valid, in a list of one, or the empty list."""
        if start > end or end > self.pages:
            return 16
        return [page for page in range(start, end) if not self.is_valid(page)][:1]

    def segment_reason(self, number):
        """Why a segment entry leads to no page table; None if it does."""
        table, entries = self.designation & 0x7ffff000, ((self.designation & 0x7f) + 1) * 16
        at = table + 4 * number
        if number >= entries:
            return f"not read: segment index {number} is past the segment table at {table:08x}, which has {entries} entries"
        if at >= len(self.storage):
            return f"not read: it would be at {at:08x}, past the storage"
        if self.word(at) & 0x20:
            return f"at {at:08x}: invalid"
        return f"at {at:08x}: malformed, bit 0 must be zero" if self.word(at) & 0x80000000 else None

    def page_reason(self, segment, number):
        table, entries = segment & 0x7fffffc0, ((segment & 15) + 1) * 16
        at = table + 4 * number
        if number >= entries:
            return f"not read: page index {number} is past the page table at {table:08x}, which has {entries} entries"
        if at >= len(self.storage):
            return f"not read: it would be at {at:08x}, past the storage"
        if self.word(at) & INVALID:
            return f"at {at:08x}: invalid"
        bits = [str(bit) for bit in (0, 20, 23) if self.word(at) >> 31 - bit & 1]
        named = " and ".join([", ".join(bits[:-1]), bits[-1]]) if bits[1:] else bits[0]
        return f"at {at:08x}: malformed, bit{'s' * (len(bits) > 1)} {named} must be zero"

    def line(self, page):
        """What is printed of a page that is found."""
        host = self.first + page
        why = self.segment_reason(host >> 8)
        if why is None:
            what, why = "page", self.page_reason(self.segment(host >> 8, False), host & 255)
        else:
            what = "segment"
        return (f"{page}  {page * FRAME:08x}-{page * FRAME + FRAME - 1:08x}  not valid, at host address {host * FRAME:08x}; "
                f"host {what} entry {why}\n")

    def refusal(self, start, end):
        """The sentence of refusal 16."""
        if max(start, end) <= self.pages:
            return f"FROM, page {start}, is above TO, page {end}"
        which, page = ("TO", end) if end > self.pages else ("FROM", start)
        first, last = self.first * FRAME, (self.first + self.pages) * FRAME - 1
        return (f"{which}, page {page}, is past the end of the extent, which has pages 0 to {self.pages - 1}, "
                f"at host addresses {first:08x}-{last:08x}")


def none_line(start, end):
    if start == end:
        return "none  no page is asked about\n"
    return f"none  page {start} is valid\n" if end - start == 1 else f"none  pages {start} to {end - 1} are valid\n"


def note(line):
    """Counts why a page that was found is not valid."""
    form = re.sub(r"bits [0-9, and]+ must", "bit N must", line.split("; ", 1)[1].rstrip("\n"))
    form = re.sub(r"\b(?:[0-9a-f]{8}|\d+)\b", "N", form)
    reasons = [reason for reason, words in REASONS.items() if words == form]
    expect(reasons, f"no such reason: {form}")
    seen.update(reasons)


def answer(survey, bad, name, start, end):
    """Exit status, standard output and standard error by the model."""
    if bad and bad[0] == "I 32":
        seen[32] += 1
        message = f"drevokas: {name}: no page is looked for: code 32, the record is not valid for entry\n"
        return 1, f"I 32: {bad[1]}\n", message
    found = int(bad[0][2:]) if bad else survey.search(start, end)
    if isinstance(found, int):
        seen[found] += 1
        return 1, f"R {found}\n", f"drevokas: {name}: refused, R {found}: {bad[1] if bad else survey.refusal(start, end)}\n"
    seen["found" if found else "none" if start < end else "empty"] += 1
    return (3, survey.line(found[0]), "") if found else (0, none_line(start, end), "")


def finds(survey, start, end, operands=None):
    """The command answers as the model, and changes nothing."""
    name = write("guest.case", survey.data)
    operands = [str(start), str(end)] if operands is None else operands
    status, out, err = answer(survey, entry_answer(name), name, start, end)
    ended = call("unbacked", name, *operands)
    what = f"{operands} for {start} to {end} of {survey.pages} pages at {survey.first}"
    expect(ended == (status, out.encode(), err), f"{what}: {ended}, and not {(status, out, err)}")
    expect(read(name) == survey.data and os.listdir() == [name], f"{what}: something is changed: {os.listdir()}")
    if status == 3:
        note(out)


def survey_of(settings="", words=None):
    return Survey(guest(settings, words))


def listed(data):
    """The pages that are not valid, as desk list shows them."""
    shown = call("desk", "list", write("guest.case", data))[1].decode()
    ranges = re.findall(r"^(\d+)(?:-(\d+))? +[0-9a-f]{8}-[0-9a-f]{8}  not valid$", shown, re.MULTILINE)
    return [page for first, last in ranges for page in range(int(first), int(last or first) + 1)]


# Guests that are made for it

def test_ranges():
    """From every page of some up to every other, with both records, and wherever the extent starts."""
    for settings in ("", "mode.system = 370\n", "mode.system = xa\nlength = 208\nversion = 2\n",
                     "origin = 1\nprefix = X'3000'\n", "origin = 15\nextent = 2\n", "extent = 1\n"):
        survey = survey_of(settings)
        pages = [page for page in (0, 2, 3, 8, 16, 255, 256) if page < survey.pages] + [survey.pages - 1, survey.pages]
        for start, end in itertools.product(pages, repeat=2):
            finds(survey, start, end)
        for start, end in ((0, survey.pages + 1), (survey.pages, survey.pages + 1), (survey.pages + 1, survey.pages),
                           (survey.pages + 1, survey.pages + 1), (0, 0xFFFFFFFF), (0xFFFFFFFF, 0), (0xFFFFFFFF, 0xFFFFFFFF),
                           (0x80000000, 0x80000001)):
            finds(survey, start, end)
        finds(survey, 0, survey.pages, [])
        finds(survey, 3, survey.pages, ["3"])
        finds(survey, survey.pages, survey.pages, [str(survey.pages)])
        finds(survey, survey.pages + 1, survey.pages, [str(survey.pages + 1)])


# Two page tables of 256 entries each, whose pages are all in frame 5
FULL = {0x1000: 0x200F, 0x1004: 0x240F, **{at: 0x5000 for at in range(0x2000, 0x2800, 4)}}


def test_one_missing():
    """All pages of two segments are valid but for one, or but for a segment; and all are."""
    extent = "extent = 32\n"
    survey = survey_of(extent, FULL)
    for start, end in (0, 512), (0, 256), (255, 257), (256, 512), (511, 512), (512, 512), (100, 300):
        finds(survey, start, end)
    for page in 0, 1, 255, 256, 257, 511:
        survey = survey_of(extent, {**FULL, 0x2000 + 4 * page: r.choice([0x400, 0x5800, 0x5100, 0x80005000, 0xD400])})
        for start, end in (0, 512), (page, page + 1), (0, page), (page + 1, 512), (page, 512), (0, page + 1):
            finds(survey, start, end)
    for number, segment in itertools.product((0, 1), (0x2020, 0x80002000, 0x200F, 0x2007, 0x2000, 0x8000, 0x7FC0, 0x7FFFFFC0)):
        survey = survey_of(extent, {**FULL, 0x1000 + 4 * number: segment})
        for start, end in (0, 512), (0, 256), (0, 257), (20, 300), (255, 256), (256, 512), (300, 512), (511, 512):
            finds(survey, start, end)
    for settings in ("designation = X'8000'\n", "designation = X'7FFFF07F'\n", "origin = 255\nextent = 2\n",
                     "origin = 32767\nextent = 1\n"):
        survey = survey_of(settings, FULL)
        for start, end in (0, survey.pages), (3, 5), (15, 16), (survey.pages - 1, survey.pages):
            finds(survey, start, end)


def test_counts_as_valid():
    """A page that is protected, in a frame beyond the storage, or in a frame with entries is valid."""
    survey = survey_of("extent = 1\n", {0x2000 + 4 * page: entry for page, entry in enumerate(
        [0x5200, 0x9000, 0x7FFFF000, 0x1000, 0x2000, 0x5055] + [0x5000] * 10)})
    finds(survey, 0, 16)
    finds(survey, 2, 3)
    expect(survey.search(0, 16) == [], "the model: a page that counts as valid")


def test_large():
    """The largest extent: its last page is out of reach."""
    line = (b"524287  7ffff000-7fffffff  not valid, at host address 7ffff000; host segment entry not read: segment index 2047 "
            b"is past the segment table at 00001000, which has 16 entries\n")
    none = b"none  no page is asked about\n"
    name = write("guest.case", guest("extent = 32768\n"))
    for ended, operands in [
            ((3, line), ["524287"]), ((3, line), ["524287", "524288"]), ((3, line), ["guest:7fffffff", "guest:80000000"]),
            ((3, line), ["host:7ffff000", "host:80000000"]), ((0, none), ["524288"]), ((0, none), ["0x80000", "X'80000'"]),
            ((0, none), ["guest:80000000"]), ((0, none), ["host:80000000"]), ((1, b"R 16\n"), ["524289"]),
            ((1, b"R 16\n"), ["0", "524289"]), ((1, b"R 16\n"), ["guest:80001000"]),
            ((1, b"R 16\n"), ["0", "host:80001000"])]:
        expect(call("unbacked", name, *operands)[:2] == ended, f"{operands} of the largest extent: not {ended}")


def test_sentences():
    """Word for word."""
    def ends(operands, status, out, err, settings="", words=None):
        name = write("guest.case", guest(settings, words))
        err = err and f"drevokas: {name}: {err}\n"
        ended = call("unbacked", name, *operands)
        expect(ended == (status, f"{out}\n".encode(), err), f"{operands}: {ended}, and not {status}, {out}, {err}")

    found = "not valid, at host address"
    ends([], 3, f"2  00002000-00002fff  {found} 00002000; host page entry at 00002008: invalid", "")
    ends(["4"], 3, f"4  00004000-00004fff  {found} 00004000; host page entry at 00002010: malformed, bits 0, 20 and 23 must be "
         "zero", "")
    ends(["5", "6"], 3, f"5  00005000-00005fff  {found} 00005000; host page entry at 00002014: malformed, bit 20 must be zero",
         "")
    ends(["20", "30"], 3, f"20  00014000-00014fff  {found} 00014000; host page entry not read: page index 20 is past the page "
         "table at 00002000, which has 16 entries", "")
    ends(["256"], 3, f"256  00100000-00100fff  {found} 00100000; host segment entry at 00001004: invalid", "",
         words={0x1004: 0x2420})
    ends(["256"], 3, f"256  00100000-00100fff  {found} 00100000; host segment entry at 00001004: malformed, bit 0 must be zero",
         "", words={0x1004: 0x80002400})
    ends([], 3, f"2  00002000-00002fff  {found} 00102000; host page entry at 00002408: invalid", "",
         "origin = 16\nextent = 1\n", {0x2400: 0x5000, 0x2404: 0x5000})
    ends(["0", "2"], 0, "none  pages 0 to 1 are valid", "")
    ends(["3", "4"], 0, "none  page 3 is valid", "")
    ends(["9", "9"], 0, "none  no page is asked about", "")
    ends(["288"], 0, "none  no page is asked about", "")
    ends(["3", "2"], 1, "R 16", "refused, R 16: FROM, page 3, is above TO, page 2")
    past = "is past the end of the extent, which has pages 0 to 287, at host addresses 00000000-0011ffff"
    for start in "0", "289", "290":
        ends([start, "289"], 1, "R 16", f"refused, R 16: TO, page 289, {past}")
    for operands in ["289"], ["289", "288"], ["guest:121000", "5"]:
        ends(operands, 1, "R 16", f"refused, R 16: FROM, page 289, {past}")
    ends(["0"], 1, "I 32: extent is 0 blocks, and must be 1 at least",
         "no page is looked for: code 32, the record is not valid for entry", "extent = 0\n")
    ends(["5", "4"], 1, "R 7", "refused, R 7: bytes 66-71 of the record are 000000000001 hex, and must be zero",
         "reserved = 1\n")


def test_entry():
    """Refusals 1, 2 and 7 and code 32 come first, whatever is asked about."""
    seen.clear()
    for settings in ("length = 199", "version = 2", "reserved = 1", "extent = 0", "mode = 0", "mode.bit6 = 1", "origin = 32768",
                     "prefix = X'7FFFF000'", "mode.system = 370\nresidue = 40960000", "mode.system = 370\nprefix = X'1000000'"):
        survey = survey_of(settings + "\n")
        for start, end in (0, 1), (0, 0), (5, 4), (0, 4294967295):
            finds(survey, start, end)
        finds(survey, 0, survey.pages, [])
    for number in 1, 2, 7, 32:
        expect(seen[number] > 0, f"never found: {number}")


# Pseudo-random guests and the kept ones

def random_range(pages):
    """Mostly one of the extent."""
    start, end = sorted((r.randrange(pages + 1), r.randrange(pages + 1)))
    return r.choice([(start, end)] * 4 + [(0, pages), (start, start), (end, start), (start, pages + r.randrange(2)),
                                          (start, min(start + 1, pages)), (0, min(r.randrange(6), pages))])


def test_random():
    """Each answer, and each reason that two segments in storage have, often enough; and what desk list shows."""
    seen.clear()
    for number in range(RANDOM):
        survey = Survey(random_case(r))
        start, end = random_range(survey.pages)
        finds(survey, start, end)
        if number % 8 == 0 and start <= end <= survey.pages:
            asked = [page for page in listed(survey.data) if start <= page < end]
            expect(asked[:1] == survey.search(start, end), f"random guest {number}: desk list has {asked[:1]}")
    for key in {"found", "none", "empty", 16, *REASONS} - {"segment past the table", "segment past the storage"}:
        expect(seen[key] >= FEW, f"too few of {key}: {seen[key]}")


def test_kept_files():
    for name in sorted(glob.glob(os.path.join(FILES, "*.in"))):
        if read(name[:-2] + "out") == b"R 9\n":
            status, out, err = call("unbacked", name)
            expect((status, out) == (1, b"R 9\n") and f"{name}: not a case file: " in err, f"{name}: {status}, {err}")
            continue
        survey = Survey(read(name))
        if survey.pages > 4096:
            continue
        start, end = random_range(max(survey.pages, 1))
        finds(survey, start, end)


# Operands

def test_operands():
    """An address stands for its page, of TO too."""
    survey = survey_of("origin = 16\nextent = 1\n", {**{0x2400 + 4 * page: 0x5000 for page in range(16)}, 0x2408: 0x400})
    for two in ("2", "02", "0x2", "0X02", "X'2'", "X2", "x'00000002'", "guest:2000", "guest:0x2fff", "guest:X'2ABC'",
                "host:102000", "host:00102fff", "host:X'102001'"):
        finds(survey, 2, 16, [two])
        finds(survey, 2, 3, [two, "3"])
        finds(survey, 2, 2, [two, two])
        finds(survey, 0, 2, ["0", two])
        finds(survey, 3, 2, ["guest:3000", two])
    for end in "16", "0x10", "X'10'", "guest:10000", "guest:10fff", "host:110000", "host:110FFF":
        finds(survey, 0, 16, ["host:100000", end])
        finds(survey, 3, 16, ["guest:3fff", end])
        finds(survey, 16, 16, [end])
    finds(survey, 0, 17, ["0", "guest:11000"])
    finds(survey, 0, 17, ["0", "host:111000"])
    finds(survey, 0xFFFFF, 16, ["host:FFFFF"])
    finds(survey, 0, 0xFFFFF, ["0", "host:FFFFF"])
    finds(survey, 0, 0xFFFFF, ["0", "guest:ffffffff"])
    for operand in ("", "x", "-1", "2000h", "1f", "4294967296", "0x100000000", "0x", "X''", "0b1", "+1", " 1", "guest",
                    "Guest:0", "end", "0-3"):
        for operands in [operand], ["0", operand]:
            says(["unbacked", "guest.case", "--", *operands], f"page {operand}: must be a number of 32 bits, decimal or 0x and "
                 "hexadecimal digits, or an address in the page, guest: or host: and hexadecimal digits")
    for operand, space in itertools.product(("", "x", "100000000", "2000-2fff", "0x"), ("guest", "host")):
        says(["unbacked", "guest.case", "0", f"{space}:{operand}"],
             f"address {operand}: must be a hexadecimal number of 32 bits")


def test_usage():
    name = write("guest.case", guest())
    usage = "usage: drevokas unbacked FILE [FROM [TO]]\n"
    says(["unbacked"], f"unbacked: too few arguments: 0, and must be 1 to 3\n{usage}")
    says(["unbacked", name, "0", "1", "2"], f"unbacked: too many arguments: 4, and must be 1 to 3\n{usage}")
    for option in "--after", "--quiet", "--from", "-1":
        says(["unbacked", name, option], f"unbacked: unknown option {option}\n{usage}")
    says(["unbacked", "none.case"], "none.case: cannot be read: No such file")
    says(["unbacked", "none.case", "x"], "page x: must be")
    says(["unbacked", "."], "cannot be read: Is a directory")
    status, out, err = call("unbacked", "--help")
    expect(status == 0 and out.decode().startswith(usage) and err == "", f"unbacked --help: {status}, {err}")
    for words in "Exit status: 0 if there is none; 3 if one is found; 1 if", "    16  FROM is above TO, or TO is past":
        expect(words in out.decode(), f"unbacked --help does not say: {words}")


# Streams, and the loop

def test_streams():
    """Standard input; a full disk, a reader that is gone and a closed stream: never an exit status that means an answer."""
    data = guest()
    name = write("guest.case", data)
    line = b"2  00002000-00002fff  not valid, at host address 00002000; host page entry at 00002008: invalid\n"
    expect(call("unbacked", "-", text=data) == (3, line, ""), "unbacked -")
    status, out, err = call("unbacked", "-", "1", "0", text=data)
    expect((status, out) == (1, b"R 16\n") and err.startswith("drevokas: standard input: refused, R 16: "), f"R 16: {err}")
    status, out, err = call("unbacked", "-", text=b"text\n")
    expect((status, out) == (1, b"R 9\n") and "standard input: not a case file: this is a text" in err, f"R 9: {err}")
    for operands in [], ["0", "2"], ["1", "0"]:
        with open("/dev/full", "wb") as full:
            status, _, err = call("unbacked", name, *operands, stdout=full)
            expect(status == 2 and "standard output cannot be written" in err, f"{operands} > /dev/full: {status}, {err}")
        closed = subprocess.run(["sh", "-c", '"$0" "$@" >&-', COMMAND, "unbacked", name, *operands], stderr=subprocess.PIPE)
        expect(closed.returncode == 2 and b"standard output cannot be written" in closed.stderr, f"{operands} >&-: {closed}")
        ours, theirs = os.pipe()
        os.close(ours)
        expect(call("unbacked", name, *operands, stdout=theirs)[0] == -signal.SIGPIPE, f"{operands}: a reader that is gone")
        os.close(theirs)
    expect(read(name) == data and os.listdir() == [name], f"something is changed: {os.listdir()}")


def back(*arguments):
    """The loop: exit status, standard output and standard error."""
    p = subprocess.run(["sh", LOOP, *arguments], env=dict(os.environ, DREVOKAS=COMMAND), timeout=60, stdin=subprocess.DEVNULL,
                       stdout=subprocess.PIPE, stderr=subprocess.PIPE)
    return p.returncode, p.stdout.decode(), p.stderr.decode()


MAPS = "host tables at frame 1\nmap guest 0 to frame 3\nmap guest X'2000' to frame 4 protected\n"


def loops(arguments, status, out, err):
    """The loop ends so: with these pages added, and then, of standard output and standard error, these last lines."""
    *pages, line = out
    ended, printed, said = back("guest.case", *arguments)
    added = re.findall(r"^added page (\d+)", printed, re.MULTILINE)
    good = ended == status and added == pages and printed.endswith(line) and said.endswith(err) and (said == "") == (err == "")
    expect(good, f"back.sh {arguments}: {ended}, {printed}, {said}; and not {status}, {out}, {err}")


def test_loop():
    """It ends once all is backed; it stops with a message where a page is refused or no frame is left, and can be started once
    more."""
    write("guest.case", made(MAPS))
    loops(["0", "guest:6000", "5", "6"], 1, ["1", "3", "\n"], "back.sh: no frame is left for page 4\n")
    before = read("guest.case")
    loops(["0", "6", "1", "7"], 1, ["R 14\n"], "at 00001000\nback.sh: page 4 is not added in frame 1\n")
    loops(["0", "6", "x"], 1, [""], "hexadecimal digits\nback.sh: page 4 is not added in frame x\n")
    loops(["0", "17", "5"], 1, [""], "-0000ffff\nback.sh: it cannot be told which page is missing\n")
    expect(read("guest.case") == before, "back.sh: a page is refused, and the file has changed")
    loops(["0", "6", "7", "0"], 0, ["4", "5", "\nnone  pages 0 to 5 are valid\n"], "")
    loops(["0", "6"], 0, ["none  pages 0 to 5 are valid\n"], "")
    words = Survey(read("guest.case")).words(0x1040, 7)
    expect(words == ["00003000", "00005000", "00004200", "00006000", "00007000", "00000000", "00000400"], f"entries: {words}")
    write("guest.case", made(f"extent = 2\n{MAPS}"))
    loops(["16", "32", "5"], 1, ["R 10\n"], "back.sh: page 16 is not added in frame 5\n")
    expect(back("guest.case", "0") == (1, "", "back.sh: too few arguments: it takes FILE FROM TO FRAME...\n"), "two arguments")
    expect(os.listdir() == ["guest.case"], f"left behind: {os.listdir()}")


shutil.rmtree(FOLDER, ignore_errors=True)
os.makedirs(FOLDER)
os.chdir(FOLDER)
for test in (test_ranges, test_one_missing, test_counts_as_valid, test_large, test_sentences, test_entry, test_random,
             test_kept_files, test_operands, test_usage, test_streams, test_loop):
    test()
report()
