#!/usr/bin/env python3
"""stage_test.py COMMAND: tests of the table entry that translate, run and trace name where a translation fails: every stage and
every sentence, word for word, and nothing where no table is bad; then every host fault of the kept case files. Prints each
failure, and a count; fails if there is one."""
import glob
import os
import re
import sys
import tempfile

sys.dont_write_bytecode = True
from tools import Case, call, expect, report  # noqa: E402

FILES = os.path.join(os.path.dirname(os.path.abspath(__file__)), "../../tests/cases/files")
NAMES = {0x04: "protection", 0x05: "addressing", 0x10: "segment translation", 0x11: "page translation",
         0x12: "translation specification"}
ENTRY = re.compile(r"host (?:segment|page) entry (?:at [0-9a-f]{8}: (?:invalid|its frame is beyond the storage|"
                   r"malformed, bits? [0-9]+(?:, [0-9]+)*(?: and [0-9]+)? must be zero)|"
                   r"not read: (?:it would be at [0-9a-f]{8}, past the storage|"
                   r"(segment|page) index [0-9]+ is past the \1 table at [0-9a-f]{8}, which has [0-9]+ entries))"
                   r"(?:; so the guest (?:segment|page) entry at real [0-9a-f]{8} cannot be read)?\n")

L = 0x58102000      # L 1,0(,2): register 2 has the address that is asked for
SPT = 0xB2082000    # SPT 0(2)
SVC = 0x0A050000
NO_OPERATION = 0

# Host tables with DAT off: the words of storage by their places, and L at guest 200. Guest page 0 is frame 3.
HOST = {0x1000: 0x2000, 0x2000: 0x3000, 0x3200: L}
HOST_SETTINGS = "designation = X'1000'\nextent = 512\npsw.address = X'200'\n"

# Settings and words that differ, address, program code, sentence; the line that translate prints follows from them.
HOST_FAULTS = [
    ("", {0x2004: 0x400}, 0x1000, 0x11, "host page entry at 00002004: invalid"),
    ("", {0x2004: 0x80000D00}, 0x1000, 0x11, "host page entry at 00002004: invalid"),
    ("", {0x2004: 0x80000000}, 0x1000, 0x12, "host page entry at 00002004: malformed, bit 0 must be zero"),
    ("", {0x2008: 0x3A00}, 0x2000, 0x12, "host page entry at 00002008: malformed, bit 20 must be zero"),
    ("", {0x2008: 0x100}, 0x2000, 0x12, "host page entry at 00002008: malformed, bit 23 must be zero"),
    ("", {0x2008: 0x900}, 0x2000, 0x12, "host page entry at 00002008: malformed, bits 20 and 23 must be zero"),
    ("", {0x2008: 0x80000900}, 0x2000, 0x12, "host page entry at 00002008: malformed, bits 0, 20 and 23 must be zero"),
    ("", {0x2004: 0x8000}, 0x1FFC, 0x05, "host page entry at 00002004: its frame is beyond the storage"),
    ("", {}, 0x10000, 0x11, "host page entry not read: page index 16 is past the page table at 00002000, which has 16 entries"),
    ("", {0x1000: 0x2002}, 0xFF000, 0x11,
     "host page entry not read: page index 255 is past the page table at 00002000, which has 48 entries"),
    ("", {0x1004: 0x8000}, 0x101000, 0x05, "host page entry not read: it would be at 00008004, past the storage"),
    ("", {0x1004: 0x20}, 0x100000, 0x10, "host segment entry at 00001004: invalid"),
    ("", {0x1004: 0x80000020}, 0x1FF000, 0x10, "host segment entry at 00001004: invalid"),
    ("", {0x1004: 0x80000000}, 0x100000, 0x12, "host segment entry at 00001004: malformed, bit 0 must be zero"),
    ("", {}, 0x1000000, 0x10,
     "host segment entry not read: segment index 16 is past the segment table at 00001000, which has 16 entries"),
    ("designation = X'7001'\nextent = 8192", {0x7000: 0x2000}, 0x1FFFFFFC, 0x10,
     "host segment entry not read: segment index 511 is past the segment table at 00007000, which has 32 entries"),
    ("designation = X'707F'\nextent = 32768", {0x7000: 0x2000}, 0x7FFFFFFC, 0x05,
     "host segment entry not read: it would be at 00008ffc, past the storage"),
    # at address 0, where an entry can be read as well
    ("", {0x1004: 0, 0: 0x400}, 0x100000, 0x11, "host page entry at 00000000: invalid"),
    ("", {0x1004: 0, 0: 0x100}, 0x100000, 0x12, "host page entry at 00000000: malformed, bit 23 must be zero"),
    ("", {0x1004: 0, 0: 0x8000}, 0x100000, 0x05, "host page entry at 00000000: its frame is beyond the storage"),
    ("", {0x1004: 0}, 0x110000, 0x11,
     "host page entry not read: page index 16 is past the page table at 00000000, which has 16 entries"),
]

# The same where the text cannot be fetched: the instruction is at guest 200, and so is the address.
TEXT_FAULTS = [
    ("designation = 0", {0: 0x20}, 0x10, "host segment entry at 00000000: invalid"),
    ("designation = 0", {0: 0x80000000}, 0x12, "host segment entry at 00000000: malformed, bit 0 must be zero"),
    ("designation = X'8000'", {}, 0x05, "host segment entry not read: it would be at 00008000, past the storage"),
    ("designation = X'7FFFF000'", {}, 0x05, "host segment entry not read: it would be at 7ffff000, past the storage"),
    ("origin = 256\ndesignation = 0", {}, 0x10,
     "host segment entry not read: segment index 16 is past the segment table at 00000000, which has 16 entries"),
]

# DAT on. Guest absolute pages 0 to 6 are frames 0 to 6; the host's tables are in frame 7. The guest's segment table is at real
# 1000, its page table for segment 0 at real 4000; virtual page 0 is real page 3, with the instruction at 200.
GUEST = {0x7000: 0x7040, **{0x7040 + 4 * page: page << 12 for page in range(7)}, 0x1000: 0x4000, 0x4000: 0x3000, 0x3200: L}
GUEST_SETTINGS = ("designation = X'7000'\nextent = 1\npsw.address = X'200'\npsw.dat = 1\ncr0 = X'00B00000'\n"
                  "cr1 = X'107F'\n")

# The guest's own tables: program exceptions, of translate alone.
EXCEPTIONS = [
    ("", {0x4004: 0x400}, 0x1000, 0x11, "guest page entry at real 00004004: invalid"),
    ("", {0x4004: 0x80000900}, 0x1000, 0x12, "guest page entry at real 00004004: malformed, bits 0, 20 and 23 must be zero"),
    ("", {0x4004: 0x800}, 0x1000, 0x12, "guest page entry at real 00004004: malformed, bit 20 must be zero"),
    ("", {0x4004: 0x400}, 0x80001FFF, 0x11, "guest page entry at real 00004004: invalid"),
    ("psw.amode = 24", {0x4004: 0x400}, 0xFF001FFF, 0x11, "guest page entry at real 00004004: invalid"),
    ("", {}, 0x1F000, 0x11,
     "guest page entry not read: page index 31 is past the page table at real 00004000, which has 16 entries"),
    ("", {0x1004: 0x10000}, 0x102000, 0x05, "guest page entry not read: it would be at real 00010008, past the guest's extent"),
    ("", {0x1008: 0x7FFFFFC0}, 0x200000, 0x05,
     "guest page entry not read: it would be at real 7fffffc0, past the guest's extent"),
    ("", {0x1004: 0x20}, 0x100000, 0x10, "guest segment entry at real 00001004: invalid"),
    ("", {0x1004: 0x80000000}, 0x100000, 0x12, "guest segment entry at real 00001004: malformed, bit 0 must be zero"),
    ("cr1 = X'1000'", {}, 0x1000000, 0x10,
     "guest segment entry not read: segment index 16 is past the segment table at real 00001000, which has 16 entries"),
    ("cr1 = X'10000'", {}, 0x300000, 0x05,
     "guest segment entry not read: it would be at real 0001000c, past the guest's extent"),
    # at address 0; through the prefix it is the same real address
    ("cr1 = 0", {0: 0x20}, 0, 0x10, "guest segment entry at real 00000000: invalid"),
    ("cr1 = 0\nprefix = X'5000'", {0x5000: 0x20}, 0, 0x10, "guest segment entry at real 00000000: invalid"),
    ("prefix = X'1000'", {0: 0x4000, 4: 0x20}, 0x100000, 0x10, "guest segment entry at real 00001004: invalid"),
    ("", {0x1004: 0, 0: 0x400}, 0x100000, 0x11, "guest page entry at real 00000000: invalid"),
    ("", {0x1004: 0, 0: 0x80000000}, 0x100000, 0x12, "guest page entry at real 00000000: malformed, bit 0 must be zero"),
    ("cr1 = 0", {}, 0x1000000, 0x10,
     "guest segment entry not read: segment index 16 is past the segment table at real 00000000, which has 16 entries"),
]

# The host's tables behind a guest with DAT on: behind the byte itself, and behind a guest's own entry. With them the host
# virtual address.
BEHIND = [
    ("", {0x4004: 0x7000}, 0x1FF0, 0x11, 0x7FF0, "host page entry at 0000705c: invalid", {0x705C: 0x400}),
    ("", {0x1004: 0x6000}, 0x101000, 0x11, 0x6004,
     "host page entry at 00007058: invalid; so the guest page entry at real 00006004 cannot be read", {0x7058: 0x400}),
    ("", {0x1004: 0x6000}, 0x101000, 0x12, 0x6004, "host page entry at 00007058: malformed, bit 23 must be zero; "
     "so the guest page entry at real 00006004 cannot be read", {0x7058: 0x6100}),
    ("", {0x1004: 0x6000}, 0x101000, 0x05, 0x6004, "host page entry at 00007058: its frame is beyond the storage; "
     "so the guest page entry at real 00006004 cannot be read", {0x7058: 0x8000}),
    ("prefix = X'5000'", {0x1004: 0}, 0x101000, 0x11, 0x5004,
     "host page entry at 00007054: invalid; so the guest page entry at real 00000004 cannot be read", {0x7054: 0x400}),
    ("extent = 2", {0x1004: 0x10000}, 0x103000, 0x11, 0x1000C,
     "host page entry not read: page index 16 is past the page table at 00007040, which has 16 entries; "
     "so the guest page entry at real 0001000c cannot be read", {}),
    ("extent = 32", {0x1004: 0x100000}, 0x103000, 0x10, 0x10000C,
     "host segment entry at 00007004: invalid; so the guest page entry at real 0010000c cannot be read", {0x7004: 0x20}),
    ("extent = 32", {0x1004: 0x100000}, 0x103000, 0x12, 0x10000C, "host segment entry at 00007004: malformed, bit 0 must be "
     "zero; so the guest page entry at real 0010000c cannot be read", {0x7004: 0x80000000}),
    ("extent = 512", {0x1004: 0x1000000}, 0x103000, 0x10, 0x100000C,
     "host segment entry not read: segment index 16 is past the segment table at 00007000, which has 16 entries; "
     "so the guest page entry at real 0100000c cannot be read", {}),
    ("", {}, 0x40000000, 0x11, 0x2000,
     "host page entry at 00007048: invalid; so the guest segment entry at real 00002000 cannot be read", {0x7048: 0x400}),
    # DAT off: it is no entry of a guest's table, whatever CR1 says
    ("psw.dat = 0\ncr1 = X'7000'", {0x200: L}, 0x7000, 0x11, 0x7000, "host page entry at 0000705c: invalid", {0x705C: 0x400}),
    ("origin = 16\nextent = 17", {0x7004: 0x7040, 0x1004: 0x100000}, 0x101000, 0x10, 0x200004,
     "host segment entry at 00007008: invalid; so the guest page entry at real 00100004 cannot be read", {0x7008: 0x20}),
]

# No table is bad: settings, words, address, access, and the line that translate prints.
EXCEPTION = "exception %02x hex: %s, a program exception of the guest"
FAULT = "fault %02x hex at %08x: %s, a host fault at that host address"
NONE = [
    ("", {}, "200", "fetch", "good 00003200: frame 3, offset 200 hex"),
    ("cr0 = 0", {}, "200", "fetch", EXCEPTION % (0x12, NAMES[0x12])),
    ("cr0 = X'10B00000'", {}, "1ff", "store", EXCEPTION % (0x04, NAMES[0x04])),
    ("", {0x4004: 0x10000}, "1000", "fetch", EXCEPTION % (0x05, NAMES[0x05])),
    ("", {0x4004: 0x3200}, "1000", "store", EXCEPTION % (0x04, NAMES[0x04])),
    ("psw.key = 1", {}, "200", "store", EXCEPTION % (0x04, NAMES[0x04])),
    ("", {0x704C: 0x3200}, "200", "store", FAULT % (0x04, 0x3200, NAMES[0x04])),
    ("psw.dat = 0", {}, "10000", "fetch", EXCEPTION % (0x05, NAMES[0x05])),
    ("extent = 0", {}, "200", "fetch", "I 32: extent is 0 blocks, and must be 1 at least"),
]

# Other ends of run: settings, words, sentence of run.
AT_TEXT = ", in fetching the instruction at 00000200"
RUNS = [
    # the text's own translation, and its second halfword's in the next page
    ("", {0x7044: 0x400}, f"host fault 11 hex, page translation, at host address 00001000{AT_TEXT}; host page entry at "
     "00007044: invalid; so the guest segment entry at real 00001000 cannot be read"),
    ("", {0x7050: 0x900}, f"host fault 12 hex, translation specification, at host address 00004000{AT_TEXT}; host page entry "
     "at 00007050: malformed, bits 20 and 23 must be zero; so the guest page entry at real 00004000 cannot be read"),
    ("", {0x704C: 0x400}, f"host fault 11 hex, page translation, at host address 00003200{AT_TEXT}; host page entry at "
     "0000704c: invalid"),
    ("psw.address = X'FFFE'", {0x1000: 0x4FC1, 0x4FFC: 0x3000, 0x3FFC: L >> 16, 0x7054: 0x400},
     "host fault 11 hex, page translation, at host address 00005000, in fetching the instruction at 0000fffe; host page entry "
     "at 00007054: invalid; so the guest page entry at real 00005000 cannot be read"),
    # an operand that crosses into a page whose entry the host cannot give
    ("gr2 = X'FFFE'", {0x1000: 0x4FC1, 0x4FC0: 0x3000, 0x4FFC: 0x3000, 0x7054: 0x400},
     "host fault 11 hex, page translation, at host address 00005000, by L 1,X'0'(,2) at 00000200; host page entry at 00007054: "
     "invalid; so the guest page entry at real 00005000 cannot be read"),
    # interruption areas: they have real addresses, whatever the guest's tables are
    ("prefix = X'6000'", {0x3200: NO_OPERATION, 0x7058: 0x400},
     "host fault 11 hex, page translation, at host address 00006028, by DC X'0000' at 00000200; host page entry at 00007058: "
     "invalid"),
    ("prefix = X'6000'", {0x3200: SVC, 0x7058: 0x8000},
     "host fault 05 hex, addressing, at host address 00006020, by SVC 5 at 00000200; host page entry at 00007058: its frame is "
     "beyond the storage"),
    ("prefix = X'6000'\npsw.address = X'201'", {0x7058: 0x400},
     "host fault 11 hex, page translation, at host address 00006028, at the odd address 00000201; host page entry at 00007058: "
     "invalid"),
    ("prefix = X'6000'", {0x7058: 0x6200, 0x3200: SVC},
     "host fault 04 hex, protection, at host address 00006020, by SVC 5 at 00000200"),
    # a guest page entry in the prefix page, at real 28: SPT cannot read it; in problem state it is never sought, and what
    # cannot be stored is the old PSW at real 28
    ("prefix = X'6000'\ngr2 = X'10A000'", {0x1004: 0, 0x7058: 0x400, 0x3200: SPT},
     "host fault 11 hex, page translation, at host address 00006028, by SPT X'0'(2) at 00000200; host page entry at 00007058: "
     "invalid; so the guest page entry at real 00000028 cannot be read"),
    ("prefix = X'6000'\ngr2 = X'10A000'\npsw.problem = 1", {0x1004: 0, 0x7058: 0x400, 0x3200: SPT},
     "host fault 11 hex, page translation, at host address 00006028, by SPT X'0'(2) at 00000200; host page entry at 00007058: "
     "invalid"),
]

# System/370: the interval timer's word, and interruption areas. Guest page 0 is frame 3; the prefix page is page 1.
SYSTEM_370_SETTINGS = ("mode.system = 370\ndesignation = X'1000'\nextent = 2\nprefix = X'1000'\npsw.address = X'1200'\n"
                       "residue = 40959999\n")
LR = 0x18120000
FALL = ", with the fall of the interval timer's word"
SYSTEM_370 = [
    ("", {0x3200: LR, 0x2004: 0x400},
     f"host fault 11 hex, page translation, at host address 00001050, by LR 1,2 at 00001200{FALL}; host page entry at "
     "00002004: invalid"),
    ("", {0x3200: LR, 0x2004: 0x80000000},
     f"host fault 12 hex, translation specification, at host address 00001050, by LR 1,2 at 00001200{FALL}; host page entry at "
     "00002004: malformed, bit 0 must be zero"),
    ("", {0x3200: LR, 0x2004: 0x8000},
     f"host fault 05 hex, addressing, at host address 00001050, by LR 1,2 at 00001200{FALL}; host page entry at 00002004: its "
     "frame is beyond the storage"),
    ("prefix = X'10000'\npsw.address = X'10200'", {0x3200: LR},
     f"host fault 11 hex, page translation, at host address 00010050, by LR 1,2 at 00010200{FALL}; host page entry not read: "
     "page index 16 is past the page table at 00002000, which has 16 entries"),
    ("", {0x3200: LR, 0x2004: 0x4200},
     f"host fault 04 hex, protection, at host address 00001050, by LR 1,2 at 00001200{FALL}"),
    ("residue = 0", {0x3200: SVC, 0x2004: 0x400},
     "host fault 11 hex, page translation, at host address 00001020, by SVC 5 at 00001200; host page entry at 00002004: "
     "invalid"),
    ("residue = 0\npsw.ec = 1", {0x3200: NO_OPERATION, 0x2004: 0x400},
     "host fault 11 hex, page translation, at host address 00001028, by DC X'0000' at 00001200; host page entry at 00002004: "
     "invalid"),
]


class Guest:
    """A case file, of settings of which those after the first win, and of words by their places in storage."""

    def __init__(self, folder, first, settings, words):
        lines = {line.split("=")[0].strip(): line for line in (first + settings).split("\n") if line}
        contents = (f"at frame {at >> 12} X'{at & 0xFFF:X}'\nword X'{word:X}'" for at, word in sorted(words.items()))
        self.text = "\n".join([*lines.values(), *contents]) + "\n"
        self.name = os.path.join(folder, "stage.case")
        status, _, err = call("make", "-", "-o", self.name, text=self.text.encode())
        expect(status == 0, f"{self.text}: {err}")

    def translates(self, address, access, line, sentence):
        """Translate prints this line, and says this sentence, or nothing."""
        ended = call("translate", self.name, address, "--access", access)
        said = f"drevokas: {self.name}: {sentence}\n" if sentence else ""
        expect(ended == (0, f"{line}\n".encode(), said), f"translate {address}: {ended}, and not {line}, {said}: {self.text}")

    def runs(self, sentence):
        """Run ends with a host fault and this sentence, trace with the same. Its line "exit" has the fault without the entry."""
        code = int(sentence.split()[2], 16)
        said = f"drevokas: {self.name}: {sentence}\n"
        after = self.name + ".after"
        ended = call("run", self.name, "--after", after)
        expect(ended == (0, f"H {code} 0\n".encode(), said), f"run: {ended}, and not {said}: {self.text}")
        with open(self.name, "rb") as before, open(after, "rb") as left:
            expect(before.read() == left.read(), f"run: the case file after the fault is another one: {self.text}")
        status, out, err = call("trace", self.name)
        lines = out.decode().split("\n")
        expect((status, lines[1:], err) == (0, [f"H {code} 0", ""], said), f"trace: {err}, and not {said}: {self.text}")
        cause = re.match("host fault .. hex, [^,]*, at host address [0-9a-f]{8}", sentence).group()
        expect(lines[0].startswith("  exit  ") and re.search(f"  {cause}(  |$)", lines[0]), f"trace: {lines[0]}: {self.text}")


def fault(code, host):
    return f"host fault {code:02x} hex, {NAMES[code]}, at host address {host:08x}"


def test_host(folder):
    for settings, words, address, code, sentence in HOST_FAULTS:
        g = Guest(folder, HOST_SETTINGS, f"gr2 = X'{address:X}'\n{settings}", {**HOST, **words})
        for access in ("fetch", "store", "instruction"):
            g.translates(f"{address:x}", access, FAULT % (code, address, NAMES[code]), sentence)
        g.runs(f"{fault(code, address)}, by L 1,X'0'(,2) at 00000200; {sentence}")
    for settings, words, code, sentence in TEXT_FAULTS:
        g = Guest(folder, HOST_SETTINGS, settings, {**HOST, **words})
        host = 0x1000200 if "origin" in settings else 0x200
        g.translates("80000200", "fetch", FAULT % (code, host, NAMES[code]), sentence)
        g.runs(f"{fault(code, host)}, in fetching the instruction at 00000200; {sentence}")


def test_guest(folder):
    for settings, words, address, code, sentence in EXCEPTIONS:
        g = Guest(folder, GUEST_SETTINGS, settings, {**GUEST, **words})
        for access in ("fetch", "store", "instruction"):
            g.translates(f"{address:x}", access, EXCEPTION % (code, NAMES[code]), sentence)
    for settings, words, address, code, host, sentence, more in BEHIND:
        g = Guest(folder, GUEST_SETTINGS, f"gr2 = X'{address:X}'\n{settings}", {**GUEST, **words, **more})
        g.translates(f"{address:x}", "fetch", FAULT % (code, host, NAMES[code]), sentence)
        g.translates(f"{address | 1 << 31:x}", "store", FAULT % (code, host, NAMES[code]), sentence)
        g.runs(f"{fault(code, host)}, by L 1,X'0'(,2) at 00000200; {sentence}")
    for settings, words, address, access, line in NONE:
        Guest(folder, GUEST_SETTINGS, settings, {**GUEST, **words}).translates(address, access, line, "")


def test_runs(folder):
    for settings, words, sentence in RUNS:
        Guest(folder, GUEST_SETTINGS, settings, {**GUEST, **words}).runs(sentence)
    for settings, words, sentence in SYSTEM_370:
        tables = {0x1000: 0x2000, 0x2000: 0x3000}
        Guest(folder, SYSTEM_370_SETTINGS, settings, {**tables, **words}).runs(sentence)


def test_explain(folder):
    """What a run of one unit would answer has the entry too."""
    g = Guest(folder, HOST_SETTINGS, "gr2 = X'1000'", {**HOST, 0x2004: 0x400})
    out = re.sub(r"\s+", " ", call("explain", g.name)[1].decode())
    answer = f"{fault(0x11, 0x1000)}, by L 1,X'0'(,2) at 00000200; host page entry at 00002004: invalid "
    expect(f"a run of one unit answers: {answer}" in out, f"explain: {out}")


def test_input(folder):
    """The line is out before the message, and standard input has its name."""
    g = Guest(folder, HOST_SETTINGS, "", {**HOST, 0x2004: 0x400})
    with open(g.name, "rb") as f:
        status, out, err = call("translate", "-", "1000", text=f.read())
    expect((status, err) == (0, "drevokas: standard input: host page entry at 00002004: invalid\n"), f"translate -: {err}")


def test_kept():
    """Every host fault of the kept case files but that of a protected page names a host entry, and that is in storage."""
    for file in sorted(glob.glob(os.path.join(FILES, "*.in"))):
        with open(file[:-2] + "out") as f:
            answer = f.read().split()
        if answer[0] != "H":
            continue
        sentence, _, entry = call("run", file)[2].partition("; ")
        expect(sentence.startswith(f"drevokas: {file}: host fault {int(answer[1]):02x} hex, "), f"{file}: {sentence}")
        if answer[1] == "4":
            expect(entry == "", f"{file}: {entry}")
            continue
        expect(ENTRY.fullmatch(entry) is not None, f"{file}: {entry}")
        with open(file, "rb") as f:
            storage = Case(f.read()).storage
        at = re.match(r"host \w+ entry at ([0-9a-f]{8}):", entry)
        expect(at is None or int(at[1], 16) + 4 <= len(storage), f"{file}: {entry}")


with tempfile.TemporaryDirectory() as place:
    test_host(place)
    test_guest(place)
    test_runs(place)
    test_explain(place)
    test_input(place)
test_kept()
report()
