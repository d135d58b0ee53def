#!/usr/bin/env python3
"""make_test.py COMMAND: tests of `drevokas make`. What it makes is compared with bytes worked out by hand, and every message is
provoked once. Prints each failure and a count; fails if there is one."""
import itertools
import os
import pty
import resource
import subprocess
import sys
import tempfile

sys.dont_write_bytecode = True
from tools import COMMAND, FRAME, Case, call, expect, made, report  # noqa: E402

FOLDER = os.path.dirname(os.path.abspath(__file__))


# What holds if nothing is said

def test_defaults():
    c = made("frames = 8", what="hardly a text")
    expect((c.length, c.version, c.designation, c.clock, c.time, c.budget) == (220 + 8 * 4097, 1, 0, 0, 4096, 65535),
           "numbers of no text")
    expect(c.frames == 8 and c.keys == bytes(8) and c.storage == bytes(8 * FRAME), "storage of no text")
    record = bytearray(200)
    record[1], record[2], record[4], record[15], record[17], record[20] = 200, 1, 8, 1, 8, 0x80
    expect(c.record == bytes(record), "record of no text")
    text = "# a comment\n* another\n   * a third, Größe\n\t\r\n\n # Grüße\n"
    expect(made(text + "frames = 8").record == bytes(record), "comments")
    for nothing in ("", text, "\n", "\ufeff", "\ufeff# a comment"):
        status, out, err = call("make", "-", text=nothing.encode())
        expect(status == 2 and out == b"" and "standard input: the text says nothing: it has no line" in err, f"nothing: {err}")
    expect(made("\ufeffframes = 1\r\nbudget = 3\r\n").budget == 3, "a byte order mark, and lines that end with CR LF")
    expect(made("FRAMES=1").frames == 1, "capitals, no blanks, no newline")


# Settings: name, value, first byte of the record, expected bytes

FIELDS = [
    ("length", "199", 0, "00c7"), ("version", "2", 2, "02"), ("interventions", "X'04'", 3, "04"), ("mode", "0x0A", 4, "0a"),
    ("interceptions", "B'11000000'", 5, "c0"), ("lctl", "X'8001'", 6, "8001"), ("prefix", "X'2000'", 8, "00002000"),
    ("origin", "32767", 12, "7fff"), ("extent", "65535", 14, "ffff"), ("psw", "X'0102030405060708'", 16, "0102030405060708"),
    ("timer", "20us", 24, "0000000000014000"), ("timer", "-20us", 24, "fffffffffffec000"),
    ("timer", "1.5us", 24, "0000000000001800"),
    ("timer", "3ms", 24, "0000000000bb8000"), ("timer", "1s", 24, "00000000f4240000"), ("timer", "-1", 24, "f" * 16),
    ("timer", "0.25us - 1", 24, "00000000000003ff"), ("timer", "+0x10", 24, "0000000000000010"),
    ("timer", "-9223372036854775808", 24, "8" + "0" * 15), ("comparator", "18446744073709551615", 32, "f" * 16),
    ("epoch", "X'FFFFFFFFFFFFFFFF'", 40, "f" * 16), ("svc", "X'F0'", 48, "f0"), ("svc1", "1", 49, "01"),
    ("svc2", "2", 50, "02"),
    ("svc3", "255", 51, "ff"), ("code", "20", 52, "14"), ("ilc", "1", 53, "01"), ("interruption", "X'1005'", 54, "1005"),
    ("address", "X'12345678'", 56, "12345678"), ("text", "X'010203040506'", 60, "010203040506"),
    ("reserved", "1", 66, "000000000001"),
    ("psw.per", "1", 16, "4008000080000000"), ("psw.dat", "1", 16, "0408000080000000"), ("psw.io", "1", 16, "0208000080000000"),
    ("psw.external", "1", 16, "0108000080000000"), ("psw.key", "15", 16, "00f8000080000000"),
    ("psw.check", "1", 16, "000c000080000000"),
    ("psw.wait", "1", 16, "000a000080000000"), ("psw.problem", "1", 16, "0009000080000000"),
    ("psw.space", "1", 16, "0008800080000000"),
    ("psw.cc", "3", 16, "0008300080000000"), ("psw.mask", "X'F'", 16, "00080f0080000000"),
    ("psw.amode", "24", 16, "0008000000000000"),
    ("psw.amode", "31", 16, "0008000080000000"), ("psw.address", "X'7FFFFFFF'", 16, "00080000ffffffff"),
    ("psw.bit12", "0", 16, "0000000080000000"), ("psw.bit63", "1", 16, "0008000080000001"),
    ("PSW.BIT0", "1", 16, "8008000080000000"),
    ("cr0.bit21", "1", 72, "00000400"), ("mode.bit6", "1", 4, "0a"), ("gr7.bit31", "1", 136 + 28, "00000001"),
] + [(f"cr{n}", f"{n + 1}", 72 + 4 * n, f"{n + 1:08x}") for n in range(16)] + [
    (f"gr{n}", f"-{n + 1}", 136 + 4 * n, f"{2**32 - n - 1:08x}") for n in range(16)]


def test_fields():
    for name, value, at, wanted in FIELDS:
        c = made(f"{name} = {value}", what=name)
        expect(c.record[at:at + len(wanted) // 2].hex() == wanted,
               f"{name} = {value}: {c.record[at:at + len(wanted) // 2].hex()}")
    for name in ("gr0.bit21", "gr0.bit021", "gr0.bit" + "0" * 32 + "21", "GR0.BIT" + "0" * 200 + "21"):
        c = made(f"{name} = 1", what=name)
        expect(c.record[72:140].hex() == "0" * 128 + "00000400", f"{name} = 1: {c.record[72:140].hex()}")
    for value in ("2FF0", "0x2FF0", "X'2FF0'", "X'2FE8'+8", "start", "start+0", "12272+0"):
        c = made(f"psw.address = {value}\n" + MAP + "at guest 2FF0\nstart half 1\n", what=value)
        expect(c.record[16:24].hex() == "0008000080002ff0", f"psw.address = {value}: {c.record[16:24].hex()}")
    c = made("prefix = 0A000\naddress = 1e5\nat frame 3 0FFe\nhalf 1\nat frame 2 008\npsw address=3aB, dat=1")
    expect(c.record[8:12].hex() + c.record[56:60].hex() == "0000a000" "000001e5", "addresses in fields")
    expect(c.hex(4 * FRAME - 2, 2) + c.hex(2 * FRAME + 8, 8) == "0001" "04080000800003ab", "addresses in hex digits")
    c = made("psw.dat = 1\npsw.wait=1\npsw = X'0008000080000200'\npsw.cc = 2")
    expect(c.record[16:24].hex() == "040a200080000200", "parts of a PSW over the whole of it")
    c = made("designation = X'80001003'\nclock = -1\ntime = 256us\nbudget = 0\nframes = 3\nkey 0 = X'F8'\nkey 1-2 = 16")
    expect((c.designation, c.clock, c.time, c.budget, c.frames) == (0x80001003, 2**64 - 1, 1048576, 0, 3), "numbers")
    expect(c.keys.hex() == "f81010", "keys")


# System/370: the record of 208 bytes, its fields, and PSWs in BC and EC form

LARGER = bytes([0, 208, 2, 0, 4]) + bytes(10) + bytes([1]) + bytes(192)  # mode 01, extent 1, a PSW of zeros

SYSTEM_370 = [  # what is changed of "mode.system = 370": name, value, first byte of the record, expected bytes
    ("mode.inactive", "1", 4, "05"), ("mode.bit7", "1", 4, "05"), ("mode.bit6", "1", 4, "06"), ("version", "1", 2, "01"),
    ("request", "X'FF'", 200, "ff"), ("request.t", "1", 200, "80"), ("request.bit0", "1", 200, "80"),
    ("request.bit7", "1", 200, "01"), ("reserved2", "1", 201, "000001"), ("residue", "40959999", 204, "0270ffff"),
    ("residue.bit31", "1", 204, "00000001"),
    ("psw.channels", "B'100001'", 16, "8400000000000000"), ("psw.channel0", "1", 16, "8000000000000000"),
    ("psw.channel5", "1", 16, "0400000000000000"), ("psw.io", "1", 16, "0200000000000000"),
    ("psw.external", "1", 16, "0100000000000000"), ("psw.key", "9", 16, "0090000000000000"),
    ("psw.check", "1", 16, "0004000000000000"), ("psw.wait", "1", 16, "0002000000000000"),
    ("psw.problem", "1", 16, "0001000000000000"), ("psw.code", "X'0080'", 16, "0000008000000000"),
    ("psw.ilc", "3", 16, "00000000c0000000"), ("psw.cc", "3", 16, "0000000030000000"),
    ("psw.mask", "8", 16, "0000000008000000"),
    ("psw.address", "X'FFFFFF'", 16, "0000000000ffffff"), ("psw.ec", "1", 16, "0008000000000000"),
    ("psw.bit12", "1", 16, "0008000000000000"),
    ("psw", "X'FFFFFFFFFFFFFFFF'", 16, "f" * 16),
]

EXTENDED = [  # parts of a PSW in EC form, and all of it
    ("per = 1", "4008000000000000"), ("dat = 1", "0408000000000000"), ("io = 1", "0208000000000000"),
    ("external = 1", "0108000000000000"), ("key = 9", "0098000000000000"), ("check = 1", "000c000000000000"),
    ("wait = 1", "000a000000000000"), ("problem = 1", "0009000000000000"), ("space = 1", "0008800000000000"),
    ("cc = 3", "0008300000000000"), ("mask = 8", "0008080000000000"), ("address = X'123456'", "0008000000123456"),
]


def test_system_370():
    c = made("mode.system = 370")
    expect(c.record == LARGER and c.length == 228 + 8 * 4097, f"System/370: {c.record.hex()}")
    expect(made("length = 208\nmode = 4\npsw = 0").record == LARGER, "System/370 by the whole fields")
    expect(made("MODE.SYSTEM=370\nmode = 0").record == LARGER, "System/370 over the whole of the mode")
    for name, value, at, wanted in SYSTEM_370:
        c = made(f"{name} = {value}\nmode.system = 370", what=name)
        expect(c.record[at:at + len(wanted) // 2].hex() == wanted, f"{name} = {value}: {c.record[at:].hex()}")
    for part, wanted in EXTENDED:
        for bit in ("ec", "bit12", "bit012"):
            c = made(f"psw.{part}\npsw.{bit} = 1\nmode.system = 370", what=part)
            expect(c.record[16:24].hex() == wanted, f"EC form, psw.{part}: {c.record[16:24].hex()}")
        c = made(f"at frame 3\npsw {part}, ec = 1\npsw ec = 1, {part}\nmode.system = 370", what=part)
        expect(c.hex(3 * FRAME, 16) == wanted + wanted, f"EC form, psw {part}: {c.hex(3 * FRAME, 16)}")
    c = made("mode.system = 370\nat frame 3\npsw\n"
             "psw channels=B'1', io=1, key=1, code=X'1234', ilc=2, cc=1, mask=15, address=8")
    expect(c.hex(3 * FRAME, 16) == "0" * 16 + "061012349f000008", f"BC form: {c.hex(3 * FRAME, 16)}")
    c = made("mode.system = 370\npsw = X'0008000000000000'\npsw.cc = 1\nat frame 3\npsw cc=1, ec=0")
    expect(c.record[16:24].hex() + c.hex(3 * FRAME, 8) == "0008100000000000" "0000000010000000", "the form by bit 12")


def test_larger_record():
    """370-XA in the larger record, sizes that --from changes, and what stays as it was without the new names."""
    c = made("length = 208")
    record = bytearray(208)
    record[1], record[2], record[4], record[15], record[17], record[20] = 208, 2, 8, 1, 8, 0x80
    expect(c.record == bytes(record), f"370-XA in the larger record: {c.record.hex()}")
    expect(made("mode.system = xa").record == made("frames = 8").record, "370-XA by name")
    for text, at, wanted in (("version = 2", 0, "00c802"), ("mode = 4\npsw.cc = 1", 16, "0008100080000000"),
                             ("mode.bit5 = 1\nmode.bit4 = 0", 0, "00c8010004"), ("length = 207", 0, "00cf01")):
        c = made(text)
        expect(len(c.record) == 200 and c.record[at:at + len(wanted) // 2].hex() == wanted, f"{text!r}: {c.record.hex()}")
    with tempfile.TemporaryDirectory() as folder:
        small, large = os.path.join(folder, "small"), os.path.join(folder, "large")
        call("make", "-", "-o", small, text=b"gr1 = 5\nkey 7 = 9\nat frame 7 0FFC\nword 7")
        call("make", "-", "-o", large, text=b"mode.system = 370\nrequest.t = 1\nresidue = 5\ngr1 = 5\npsw.ec = 1")
        c = made("mode.system = 370", "--from", small)
        expect(c.record[:5].hex() + c.record[16:24].hex() + c.record[200:].hex() ==
               "00d0020004" "0008000080000000" + "0" * 16, f"to System/370: {c.record.hex()}")
        expect((c.record[140:144].hex(), c.keys.hex(), c.hex(8 * FRAME - 4, 4)) == ("00000005", "0" * 14 + "09", "00000007"),
               "what stays on the way to System/370")
        c = made("length = 200", "--from", large)
        expect(len(c.record) == 200 and c.record[:5].hex() == "00c8010004", f"to the smaller record: {c.record.hex()}")
        c = made("psw.cc = 3\nresidue = 6", "--from", large)
        expect(c.record[16:24].hex() + c.record[200:].hex() == "0008300000000000" "8000000000000006",
               "fields over a larger record")
        c = made("mode.system = xa", "--from", large)
        expect(len(c.record) == 208 and c.record[2:5].hex() == "020008", "370-XA in a larger record that is there")


def test_interval():
    """The interval timer's word, by the prefix; and names of instructions of channels as labels."""
    text = "mode.system = 370\nprefix = X'1000'\n" + MAP
    expect(made(text + "interval = X'300'").hex(4 * FRAME + 80, 4) == "00000300", "the word at real 80")
    expect(made(text + "interval = -1").hex(4 * FRAME + 80, 4) == "ffffffff", "a negative word")
    c = made(text + "at guest 0\nsio L 1,tio(2)\ntio word 7\nnext SIO next\nTIO 4(0)\nHIO X'190'")
    expect(c.hex(3 * FRAME, 20) == "58120004" "00000007" "9c000008" "9d000004" "9e000190", f"labels: {c.hex(3 * FRAME, 20)}")


# Page maps: tables worked out by hand

MAP = "host tables at frame 1\nmap guest X'0000'-X'2FFF' to frame 3-5\n"


def test_host_tables():
    c = made("host tables at frame 1\nmap guest X'0000'-X'2FFF' to frame 3-5\nmap guest X'3000' to frame 6 protected\n"
             "map guest X'4000' invalid\nmap guest X'5000' to frame 3\nmap guest X'6000' to frame 7 invalid")
    expect(c.designation == 0x1000, "designation")
    expect(c.words(FRAME, 16) == ["00001040"] + ["00000020"] * 15, "host segment table")
    expect(c.words(FRAME + 64, 16) == ["00003000", "00004000", "00005000", "00006200", "00000400", "00003000", "00007400"]
           + ["00000400"] * 9, "host page table")
    expect(c.storage[FRAME + 128:] == bytes(6 * FRAME + FRAME - 128), "nothing else")
    c = made("origin = 17\nhost tables at frame 2\nmap guest X'1000' to frame 1")
    expect(c.designation == 0x2000, "designation with an origin")
    expect(c.words(2 * FRAME, 16) == ["00000020", "00002041"] + ["00000020"] * 14, "segment table with an origin")
    expect(c.words(2 * FRAME + 64, 32) == ["00000400"] * 17 + ["00001000"] + ["00000400"] * 14, "page table with an origin")
    c = made("host tables at frame 0\nmap guest X'7FFFF000' to frame 7\nmap guest X'0' to frame 6")
    expect(c.designation == 127 and c.words(0, 2) == ["00002000", "00000020"], "segment table of 2,048 entries")
    expect(c.words(4 * 2047, 1) == ["0000204f"] and c.words(0x2040 + 4 * 255, 1) == ["00007000"], "the last page")
    c = made("host tables at frame 3")
    expect(c.designation == 0x3000 and c.words(3 * FRAME, 17) == ["00000020"] * 16 + ["00000000"], "tables of no page")
    c = made("designation = X'5000'\nhost tables at frame 3")
    expect(c.designation == 0x5000, "a designation that is written")


def test_guest_tables():
    text = ("prefix = X'2000'\nhost tables at frame 1\nmap guest X'0000'-X'3FFF' to frame 4-7\nguest tables at real X'0'\n"
            "map virtual X'5000'-X'6FFF' to real X'1000' protected\nmap virtual X'107000' to real X'3000'\n")
    c = made(text)
    cr0, cr1 = c.record[72:76].hex(), c.record[76:80].hex()
    expect((cr0, cr1) == ("00b00000", "00000000"), f"CR0 and CR1: {cr0} {cr1}")
    at = 6 * FRAME  # real 0 is absolute 2000 by the prefix, and that is frame 6
    expect(c.words(at, 16) == ["00000040", "00000080"] + ["00000020"] * 14, "guest segment table")
    expect(c.words(at + 64, 16) == ["00000400"] * 5 + ["00001200", "00002200"] + ["00000400"] * 9, "first guest page table")
    expect(c.words(at + 128, 16) == ["00000400"] * 7 + ["00003000"] + ["00000400"] * 8, "second guest page table")
    c = made(text + "cr0 = X'00080400'\ncr1 = X'123'")
    expect(c.record[72:80].hex() == "0008040000000123", "CR0 and CR1 that are written")
    c = made(text + "cr1.bit0 = 1\ncr1.bit24 = 1")
    expect(c.record[76:80].hex() == "80000080", "bits of CR1 that are written")
    c = made(text + "cr0 = X'00000400'\n")
    expect(c.record[72:76].hex() == "00b00400", "CR0 without its format")


# Contents

def test_data():
    c = made("at frame 2\nhalf 1,-1, X'8000'\nalign 4\nword 1,-2,X'80000000'\nalign 8\ndouble -1 , 20us\npsw\n"
             "psw dat=1, io=1,external=1, key=9, wait=1, problem=1, cc=1, mask=8, amode=24, address=X'345678'\n"
             "psw bit12=0\nspace 3\nbytes X'aBc D'\nDC X'0a'\n")
    wanted = ("0001ffff8000" "0000" "00000001fffffffe80000000" "00000000" "ffffffffffffffff" "0000000000014000"
              "0008000080000000" "079b180000345678" "0000000080000000" "000000" "abcd" "0a")
    expect(c.hex(2 * FRAME, len(wanted) // 2) == wanted, f"data: {c.hex(2 * FRAME, len(wanted) // 2)}")
    c = made(MAP + "at guest X'0FFE'\nbytes X'0102 0304'\nat frame 7 8\nhalf 1\nat frame 6 X'FFF'\nbytes X'0506'\n")
    expect(c.hex(4 * FRAME - 2, 4) == "01020304", "bytes over a page's end")
    expect(c.hex(7 * FRAME - 1, 11) == "0506" + "00" * 7 + "0001", "bytes over a frame's end")


def test_spaces():
    """Contents by guest absolute, real and virtual addresses; the prefix exchanges real 0 and 1000."""
    c = made("prefix = X'1000'\nhost tables at frame 1\nmap guest X'0'-X'2FFF' to frame 3-5\nguest tables at real X'2000'\n"
             "map virtual X'100000' to real X'0'\nmap virtual X'101000' to real X'1000'\n"
             "at guest X'10'\nbytes X'11'\nat real X'11'\nbytes X'22'\nat real X'1011'\nbytes X'33'\n"
             "at virtual X'100012'\nbytes X'44'\nat virtual X'101012'\nv bytes X'55'\ngr1 = v\n")
    expect(c.hex(3 * FRAME + 0x10, 3) == "113355", "guest absolute page 0")
    expect(c.hex(4 * FRAME + 0x10, 3) == "002244", "guest absolute page 1")
    expect(c.record[140:144].hex() == "00101012", "a label in virtual storage")


def test_code():
    c = made(MAP + "psw.address = start\ngr12 = table\ngr1 = end-start\ngr2 = -end+table\nat guest X'200'\n"
             "start  L 1,value\n       AR 1,2\nloop   BC 15,LOOP\n b start+4\n St 1,value+2(3)\n lpsw value\n"
             " la 1,end-start(2,3)\n LA 4,start(,5)\n LCTL 0,1,start(6)\n align 4\nvalue word start,value-start\nend SVC 1\n"
             "at guest X'1800'\ntable word 1\nusing table,12\n L 1,here\n L 2,far(7)\nusing near,11\nnear L 3,far\n"
             " drop 11\n L 4,far\n stck far\n L 5,value\nhere word table\n at guest X'27FC'\nfar word 5\n")
    # start 200, AR 204, loop 206, B 20A, ST 20E, LPSW 212, LA 216, LA 21A, LCTL 21E, value 224, end 22C
    wanted = "58100224 1a12 47f00206 47f00204 50130226 82000224 4112302c 41405200 b7016200 0000 0000020000000024 0a01"
    got = c.hex(3 * FRAME + 0x200, 0x2e)
    expect(got == wanted.replace(" ", ""), f"code with labels: {got}")
    # table 1800, L 1804, L 1808, near 180C, L 1810, STCK 1814, L 1818, here 181C
    wanted = "00000001 5810c01c 5827cffc 5830bff0 5840cffc b205cffc 58500224 00001800"
    got = c.hex(4 * FRAME + 0x800, 32)
    expect(got == wanted.replace(" ", ""), f"code with base registers: {got}")
    expect(c.hex(5 * FRAME + 0x7fc, 4) == "00000005", "far")
    expect(c.record[16:24].hex() == "0008000080000200", "PSW by a label")
    expect(c.record[140:148].hex() == "0000002c" "000015d4" and c.record[184:188].hex() == "00001800", "registers by labels")


def test_known_case():
    """Document 01's example of a stop request, byte for byte."""
    with open(os.path.join(FOLDER, "../../tests/cases/files/stop.in"), "rb") as f:
        kept = f.read()
    c = Case(kept)
    text = f"frames = {c.frames}\ndesignation = {c.designation}\nclock = {c.clock}\ntime = {c.time}\nbudget = {c.budget}\n"
    text += "interventions = X'04'\npsw = X'" + c.record[16:24].hex() + "'\n"
    for frame in range(c.frames):
        for at in range(0, FRAME, 4):
            word = c.hex(frame * FRAME + at, 4)
            if word != "00000000":
                text += f"at frame {frame} X'{at:X}'\nbytes X'{word}'\n"
    status, out, err = call("make", "-", text=text.encode())
    expect(status == 0 and out == kept, f"stop.in made from text: {err}")


def test_from():
    with tempfile.TemporaryDirectory() as folder:
        old, new = os.path.join(folder, "old"), os.path.join(folder, "new")
        text = MAP + "frames = 6\ntimer = 5\ngr1 = 1\nkey 3 = X'10'\nat guest X'1000'\nword 1,2\n"
        call("make", "-", "-o", old, text=text.encode())
        text = "gr2 = X'2'\npsw.wait = 1\nat guest X'1004'\nword 9\n"
        status, _, err = call("make", "-", "--from", old, "-o", new, text=text.encode())
        expect(status == 0, f"--from: {err}")
        with open(old, "rb") as f:
            before = bytearray(f.read())
        with open(new, "rb") as f:
            after = f.read()
        before[23 + 17] |= 2
        before[23 + 147] = 2
        before[224 + 6 + 4 * FRAME + 7] = 9
        expect(bytes(before) == after, "--from changes what the text says, and nothing else")
        status, _, err = call("make", "-", "--from", old, "-o", new, text=b"at guest X'3000'\nword 9\n")
        expect(status == 2 and "guest address X'3000' is in no mapped page" in err, f"--from and no page: {err}")
        status, _, err = call("make", "-", "--from", old, text=b"frames = 3\nat frame 3\nword 9\n")
        expect(status == 2 and "frame 3 is not there; frames = 3" in err, f"--from with fewer frames: {err}")
        c = made("frames = 8\nkey 7 = 1", "--from", old)
        expect(c.frames == 8 and c.keys.hex() == "0000001000000001" and c.storage[6 * FRAME:] == bytes(2 * FRAME),
               "--from with more frames")
        status, out, err = call("make", "-", "--from", old, text=b"# nothing\n")
        expect(status == 2 and out == b"" and "the text says nothing, so it changes nothing" in err, f"--from, no line: {err}")
        status, _, err = call("make", "-", "--from", "/dev/null", text=b"")
        expect(status == 1 and "not a case file" in err, f"--from no case file: {err}")
        status, _, err = call("make", "-", "--from", os.path.join(folder, "none"), text=b"")
        expect(status == 2 and "cannot be read" in err, f"--from no file: {err}")
        status, _, err = call("make", "-", "--from", "-", text=b"")
        expect(status == 2 and "standard input cannot be both" in err, f"--from -: {err}")


# Messages: a text, the line, and a part of the message

ERRORS = [
    ("clock = 18446744073709551616", 1, "is too large; a number has at most 64 bits"),
    ("clock = 0x", 1, "hex digits are missing"),
    ("clock = X'12", 1, "X'12 is not closed, or has a wrong digit; write it like X'1F'"),
    ("clock = B'2'", 1, "binary digits are missing"),
    ("clock = 0.1234567890us", 1, "has too many digits; at most nine"),
    ("clock = 1.us", 1, "digits are missing after the dot"),
    ("clock = 2FFF", 1, "2FFF is not a decimal number; write hex as X'1F' or 0x1F"),
    ("clock = 20min", 1, "20min is not a decimal number"),
    ("clock = 1.5", 1, "1.5 has a fraction; only amounts of time may"),
    ("clock = 0.1us", 1, "0.1us is not a whole number of clock units"),
    ("clock = 99999999999999999s", 1, "is too large; it must fit 64 bits of clock units"),
    ("clock = X'1F'Z", 1, "is not a number; write 31, X'1F', 0x1F or B'11111'"),
    ("frames = 8\nclock = nowhere", 2, "there is no label nowhere"),
    ("clock = ", 1, "a number or label is missing at the end of the line"),
    ("clock = (1)", 1, "a number or label is missing before \"(1)\""),
    ("clock = X'FFFFFFFFFFFFFFFF' + 1", 1, "the sum is too large"),
    (MAP + "at guest 0\na word a+a", 4, "labels can be taken from one another"),
    ("clock = 1 1", 1, "\"1\" is too much at the end of the line; a comment starts with #"),
    ("budget = 65536", 1, "65536 (X'10000') does not fit 16 bits; it may be at most 65535 (X'FFFF')"),
    ("gr1 = -2147483649", 1, "-2147483649 (X'80000001') does not fit 32 bits"),
    ("at frame -1", 1, "the frame must not be negative"),
    ("at frame 8", 1, "the frame is 8 (X'8'), and may be at most 7"),
    ("at frame 1 X'1000'", 1, "the offset is 4096"),
    ("at frame 1 16", 1, "16 is X'10' in decimal and X'16' in hex: write which"),
    ("at guest 200", 1, "200 is X'C8' in decimal and X'200' in hex: write which"),
    ("at real 0000000000000200", 1, "0000000000000200 is X'C8' in decimal and X'200' in hex: write which"),
    ("at virtual 10", 1, "10 is X'A' in decimal and X'10' in hex: write which"),
    ("at guest 20us", 1, "20us is not an address; write 0FFF, X'FFF' or 0xFFF"),
    ("at guest 1F.0", 1, "1F.0 is not an address"),
    ("at guest 1F'", 1, "1F' is not an address"),
    ("at guest FFF", 1, "FFF is not an address; write 0FFF, X'FFF' or 0xFFF"),
    ("at guest 0FFFFFFFFFFFFFFFFF", 1, "0FFFFFFFFFFFFFFFFF is too large"),
    ("at guest 99999999999999999", 1, "99999999999999999 is too large"),
    ("at guest", 1, "a number is missing at the end of the line"),
    ("psw.address = 200", 1, "200 is X'C8' in decimal and X'200' in hex: write which"),
    ("at frame 1\npsw address=200, wait=1", 2, "200 is X'C8' in decimal and X'200' in hex: write which"),
    ("psw.address = 2FF0 + 8", 1, "2FF0 is not a decimal number; write hex as X'1F' or 0x1F"),
    ("prefix = 4096", 1, "4096 is X'1000' in decimal and X'4096' in hex: write which"),
    ("address = 20", 1, "20 is X'14' in decimal and X'20' in hex: write which"),
    ("using 100,1", 1, "100 is X'64' in decimal and X'100' in hex: write which"),
    ("gr1 = 2FF0", 1, "2FF0 is not a decimal number"),
    ("at guest X'80000000'", 1, "the address is 2147483648"),
    ("at X'200'", 1, "the place is missing; write \"at guest X'200'\""),
    ("at frame 1\nalign 3", 2, "the alignment is 3; it must be 1, 2, 4, 8"),
    ("align 8", 1, "nothing is to be aligned before the first \"at\""),
    (MAP + "at guest 0\n" + "l" * 32 + " word 1", 4, "the label is 32 characters long; at most 31"),
    (MAP + "at guest 0\na.b word 1", 4, "the label a.b has a dot"),
    ("at frame 1\na word 1", 2, "a label has no guest address after \"at frame\""),
    (MAP + "at guest 0\na word 1\nA word 1", 5, "the label A is in line 4 already"),
    ("at frame 1\nloop", 2, "loop is no directive or operation, and stands alone"),
    ("at frame 1\nMVC 1,2", 2, "MVC is not an instruction (BCR SVC LR"),
    ("at frame 1\nloop MVC 1,2", 2, "neither loop nor MVC is an instruction (BCR SVC LR"),
    ("AR 1,2", 1, "there is no place for this yet; write \"at guest X'200'\""),
    ("at frame 1 1\nAR 1,2", 2, "the address is X'1001' here and must be a multiple of 2; write \"align 2\""),
    ("at frame 1 2\nword 1", 2, "must be a multiple of 4; write \"align 4\""),
    ("at frame 1 4\npsw", 2, "must be a multiple of 8; write \"align 8\""),
    ("= 1", 1, "a line starts with a name, a directive or an instruction"),
    ("at frame 1\nbytes 0102", 2, "the hex digits are missing; write bytes as X'0102 0304'"),
    ("at frame 1\nbytes X'0G'", 2, "\"G\" is not a hex digit"),
    ("at frame 1\nbytes X'00", 2, "the closing quote is missing"),
    ("at frame 1\nbytes X'000'", 2, "there are 3 hex digits; a byte has two"),
    ("at frame 1\nbytes X''", 2, "there are 0 hex digits"),
    ("at frame 1\nspace 32769", 2, "the space is 32769"),
    ("at frame 1\nhalf 65536", 2, "65536 (X'10000') does not fit 16 bits"),
    ("at frame 1\nword 1,", 2, "a number or label is missing at the end of the line"),
    ("at frame 1\nword 1,,2", 2, "a number or label is missing before \",2\""),
    ("at frame 1\nLR 1,16", 2, "the second register is 16"),
    ("at frame 1\nB away", 2, "there is no label away"),
    (MAP + "at guest X'1000'\na B a", 4, "no base register reaches the address X'1000'; write \"using LABEL,REGISTER\""),
    (MAP + "at guest X'1000'\na L 1,a(,2)", 4, "the displacement is 4096 (X'1000'); it must be 0 to 4095"),
    ("using -1,2", 1, "the address is not 0 to X'7FFFFFFF'"),
    ("using 0", 1, "the register is missing; write \"using LABEL,12\""),
    ("using 0,0", 1, "register 0 cannot be a base register"),
    ("using 0,16", 1, "the base register is 16"),
    ("drop 3", 1, "register 3 is not in use as a base register here"),
    ("at frame 1\npsw dat", 2, "\"dat\" is not NAME=VALUE; write a PSW as"),
    ("at frame 1\npsw dat=1,", 2, "\"\" is not NAME=VALUE"),
    ("at frame 1\npsw dog=1", 2, "the PSW has no part \"dog\"; parts are per dat"),
    ("at frame 1\npsw key=16", 2, "16 (X'10') does not fit 4 bits"),
    ("at frame 1\npsw dat=1 wait=1", 2, "\"wait=1\" is too much"),
    ("psw.dat = 2", 1, "2 (X'2') does not fit 1 bit;"),
    ("psw.dog = 1", 1, "the PSW has no part \"dog\""),
    ("psw.ec = 1", 1, "the PSW has no part \"ec\"; parts are per dat"),
    ("mode.system = 370\npsw.amode = 24", 2, "the PSW in BC form has no part \"amode\"; parts are channels channel0"),
    ("mode.system = 370\npsw.ec = 1\npsw.code = 1", 3, "the PSW in EC form has no part \"code\"; parts are per dat io "
     "external key ec check wait problem space cc mask address, and bit0 to bit63"),
    ("mode.system = 370\nat frame 1\npsw dat=1", 3, "the PSW in BC form has no part \"dat\""),
    ("mode.system = 370\nat frame 1\npsw ec=1, channel0=1", 3, "the PSW in EC form has no part \"channel0\""),
    ("mode.system = 370\nat frame 1\npsw channels=1, channel0=1", 3, "channel0, or a bit of it, is given twice"),
    ("mode.system = 370\npsw.address = X'1000000'", 2, "24 bits"),
    ("mode.system = 390", 1, "the system is 370, for System/370, or xa, for 370-XA"),
    ("mode.system = 370-XA", 1, "the system is 370, for System/370, or xa"),
    ("mode.system = 370 bc", 1, "\"bc\" is too much"),
    ("mode.system = 370\nmode.bit5 = 1", 2, "bit 5 of mode is set in line 1 already"),
    ("mode.dog = 1", 1, "the field mode has no part \"dog\"; its parts are system inactive and bit0 to bit7"),
    ("request.t = 1", 1, "request is a field of the record of 208 bytes; add \"mode.system = 370\" or \"length = 208\""),
    ("mode = 4\nresidue = 5", 2, "residue is a field of the record of 208 bytes"),
    ("interval = 5", 1, "interval is the word of System/370's interval timer; add \"mode.system = 370\""),
    ("mode.system = 370\ninterval = 5", 2, "guest address X'50' is in no mapped page"),
    ("mode.system = 370\ninterval = 5\ninterval = 6", 3, "this is set in line 2 already"),
    ("mode.system = 370\nhost tables at frame 1\nmap guest 0 to frame 3\ninterval = 5\nat real X'50'\nword 5", 4,
     "overlaps line 6"),
    ("at frame 1\nSIO", 2, "the operands of SIO are missing; they are D2(B2)"),
    ("psw.bit64 = 1", 1, "the PSW has no part \"bit64\""),
    ("cr0.bit32 = 1", 1, "the field cr0 has no part \"bit32\"; its parts are bit0 to bit31"),
    ("psw.amode = 32", 1, "amode is 24 or 31"),
    ("frames = 0", 1, "a case file has 1 to 8 frames"),
    ("frames = 9", 1, "a case file has 1 to 8 frames"),
    ("tmier = 1", 1, "there is nothing named \"tmier\" to set"),
    ("dog.bit1 = 1", 1, "there is nothing named \"dog.bit1\" to set"),
    ("timer = 1\nTIMER = 2", 2, "this is set in line 1 already"),
    ("frames = 8\nframes = 8", 2, "this is set in line 1 already"),
    ("cr0.bit21 = 1\ncr0.bit021 = 1", 2, "bit 21 of cr0 is set in line 1 already; leave one of the lines out"),
    ("gr0.bit" + "0" * 40 + "21 = 1\nGR0.BIT21 = 0", 2, "bit 21 of gr0 is set in line 1 already"),
    ("psw.dat = 1\npsw.bit5 = 1", 2, "bit 5 of psw is set in line 1 already"),
    ("psw.bit9 = 1\npsw.key = 0", 2, "bit 9 of psw is set in line 1 already"),
    ("psw.address = 0\npsw.bit63 = 0", 2, "bit 63 of psw is set in line 1 already"),
    ("psw.amode = 31\npsw.bit32 = 1", 2, "bit 32 of psw is set in line 1 already"),
    ("cr0.bit0x15 = 1", 1, "the field cr0 has no part \"bit0x15\""),
    ("cr0.bit0us = 1", 1, "the field cr0 has no part \"bit0us\""),
    ("cr0.bit = 1", 1, "the field cr0 has no part \"bit\""),
    ("cr0. = 1", 1, "the field cr0 has no part \"\""),
    ("cr0.bit4294967296 = 1", 1, "the field cr0 has no part \"bit4294967296\""),
    ("gr0" + "0" * 60 + " = 1", 1, "there is nothing named \"gr0" + "0" * 37 + "\" to set"),
    ("at frame 1\npsw dat=1, bit5=0", 2, "bit5, or a bit of it, is given twice in this PSW"),
    ("at frame 1\npsw bit40=1, address=X'100'", 2, "address, or a bit of it, is given twice in this PSW"),
    ("key 8 = 1", 1, "the frame is 8"),
    ("frames = 2\nkey 2 = 1", 2, "the frame is 2 (X'2'), and may be at most 1"),
    ("key 2-1 = 1", 1, "the frames are the wrong way round"),
    ("key 2", 1, "\"=\" is missing; write \"key 3 = X'10'\""),
    ("key 2 = 256", 1, "256 (X'100') does not fit 8 bits"),
    ("at virtual 0\nbytes X'00'", 2, "virtual address X'0' is in no mapped page; add \"map virtual X'0' to real ADDRESS\""),
    (MAP + "guest tables at real 0\nmap virtual X'5000' invalid\nat virtual X'5008'\nword 1", 6,
     "is in a page that is invalid by line 4"),
    (MAP + "at guest X'2FFE'\nbytes X'010203'", 4,
     "guest address X'3000' is in no mapped page; add \"map guest X'3000' to frame NUMBER\""),
    (MAP + "map guest X'4000' invalid\nat guest X'4000'\nword 1", 5,
     "guest address X'4000' is in a page that is invalid by line 3"),
    ("at guest X'7FFFFFFF'\nbytes X'0102'", 2, "guest address X'7FFFFFFF' is in no mapped page"),
    ("frames = 2\nat frame 2\nword 1", 3, "frame 2 is not there; frames = 2, the last one is frame 1"),
    ("at frame 7 X'FFE'\nbytes X'010203'", 2, "frame 8 is not there"),
    ("at frame 7\nword 1\nat frame 7 2\nhalf 1", 4, "this overlaps line 2: both have contents for frame 7, offset X'2'"),
    (MAP + "at frame 1 X'40'\nword 1", 4, "this overlaps line 1"),
    (MAP + "at guest X'10'\nspace 8\nat frame 3 X'17'\nbytes X'01'", 6, "this overlaps line 4"),
    ("host tables", 1, "write \"host tables at frame NUMBER\""),
    ("host tables at frame 8", 1, "the frame is 8"),
    ("host tables at frame 1\nhost tables at frame 2", 2, "the host tables have their place in line 1 already"),
    ("guest tables at X'1000'", 1, "write \"guest tables at real ADDRESS\""),
    (MAP + "guest tables at real 0FFF", 3, "the address X'FFF' (decimal 4095) is not a multiple of X'1000'"),
    (MAP + "guest tables at real 4096", 3, "4096 is X'1000' in decimal and X'4096' in hex: write which"),
    (MAP + "guest tables at real 0\nguest tables at real 0", 4, "the guest tables have their place in line 3 already"),
    ("guest tables at real 0", 1, "guest address X'0' is in no mapped page"),
    ("map X'0' to frame 1", 1, "\"guest\" or \"virtual\" is missing"),
    (MAP + "map guest 3000 to frame 6", 3, "3000 is X'BB8' in decimal and X'3000' in hex: write which"),
    (MAP + "map guest X'3000'-4999 to frame 6-7", 3, "4999 is X'1387' in decimal and X'4999' in hex: write which"),
    (MAP + "map guest 0BB8 to frame 6", 3, "the address X'BB8' (decimal 3000) is not the first of a page"),
    (MAP + "map guest X'3000'-X'4000' to frame 6", 3,
     "the last address X'4000' (decimal 16384) is not the last of this page or a later one"),
    (MAP + "map guest X'3000'-X'2FFF' to frame 6", 3, "is not the last of this page or a later one, as X'3FFF' would be"),
    (MAP + "map guest X'3000' to frame 6 hidden", 3, "\"hidden\" is too much; a page is \"protected\" or \"invalid\""),
    (MAP + "map guest X'3000' to frame 6-7", 3, "1 page must go to as many frames: 6-6"),
    (MAP + "map guest X'3000'-X'5FFF' to frame 6", 3, "3 pages from frame 6 on need frame 8; the last one is frame 7"),
    (MAP + "map guest X'3000' to frame 8", 3, "the frame is 8"),
    (MAP + "map guest X'3000' to real X'1000'", 3, "\"frame\" is missing after \"to\"; write \"map guest"),
    (MAP + "map virtual X'3000' to frame 1", 3, "\"real\" is missing after \"to\"; write \"map virtual"),
    (MAP + "map virtual X'3000' to real 1000", 3, "1000 is X'3E8' in decimal and X'1000' in hex: write which"),
    (MAP + "map virtual X'3000' to real 0x3E8", 3, "the real address X'3E8' (decimal 1000) is not the first of a page"),
    (MAP + "map virtual 0-X'1FFF' to real X'7FFFF000'", 3, "2 pages from real X'7FFFF000' on do not end below X'80000000'"),
    (MAP + "map guest X'3000'", 3, "where the page goes is missing; write \"map guest"),
    (MAP + "map guest X'3000' protected", 3, "where the page goes is missing"),
    (MAP + "map guest X'1000' to frame 6", 3, "the page X'1000' is mapped in line 2 already"),
    (MAP + "origin = 32767\nmap guest X'10000' to frame 6", 4,
     "the origin and this guest address together are not below X'80000000'"),
    ("map guest 0 to frame 3", 1, "add \"host tables at frame NUMBER\""),
    (MAP + "map virtual 0 to real 0", 3, "add \"guest tables at real ADDRESS\""),
    ("host tables at frame 1\nmap guest 0 to frame 1", 1,
     "the guest page X'0' of line 2 is in frame 1, where the host tables are"),
    ("host tables at frame 7\nmap guest X'7FFFF000' to frame 1", 1,
     "the host tables need 9216 bytes, and from frame 7 to the last one, frame 7, there are 4096"),
    (MAP + "guest tables at real X'2000'\nmap virtual X'40000000' to real 0", 3, "guest address X'3000' is in no mapped page"),
    ("frames = 8\n\x01", 2, "there is a character X'01'; only plain text is taken"),
    ("\nfrämes = 8", 2, "there is a character X'C3'"),
    ("\0", 1, "there is a character X'00'"),
    ("clock = " + "0" * 250, 1, "the line has 258 characters without its comment, and may have 250"),
]


def test_errors():
    with tempfile.TemporaryDirectory() as folder:
        name, out = os.path.join(folder, "t.txt"), os.path.join(folder, "out")
        for text, line, message in ERRORS:
            with open(name, "w", encoding="utf-8") as f:
                f.write(text)
            status, printed, err = call("make", name, "-o", out)
            good = status == 2 and printed == b"" and err.startswith(f"{name}:{line}: ") and message in err.split("\n")[0]
            good = good and err.endswith("drevokas: 1 error; no case file is written\n")
            expect(good and os.listdir(folder) == ["t.txt"], f"{text[-60:]!r}: exit status {status}: {err}")


def test_many_errors():
    text = "x = 1\n" * 12 + "at frame 1\n" + "LR 1,16\n" * 5
    status, out, err = call("make", "-", text=text.encode())
    lines = err.split("\n")
    expect(status == 2 and out == b"" and len(lines) == 19, f"17 errors: {err}")
    expect([n.split(":")[1] for n in lines[:17]] == [str(n) for n in list(range(1, 13)) + list(range(14, 19))],
           "errors by their lines")
    expect(lines[0].startswith("standard input:1: ") and lines[17] == "drevokas: 17 errors; no case file is written",
           "how many errors")
    status, out, err = call("make", "-", text=b"at frame 1\nLR 1,16\nhost\nx = 1\n")
    expect([n.split(":")[1] for n in err.split("\n")[:3]] == ["2", "3", "4"], "errors of different kinds by their lines")
    status, out, err = call("make", "-", text=b"at frame 1\n" + b"LR 1,16\n" * 21)
    expect(status == 2 and err.count("\n") == 21 and err.endswith("drevokas: more than 20 errors; no case file is written\n"),
           "21 errors")
    status, out, err = call("make", "-", text=b"\n" * 10001)
    expect(status == 2 and "the text has 10001 lines, and may have 10000" in err, "too many lines")
    status, out, err = call("make", "-", text=b"#" * (2**20 + 1))
    expect(status == 2 and "the text is over 1048576 bytes" in err, "too long a text")


# Texts of 10,000 lines: each must be done with in a second of CPU time, where a step for every pair of lines takes longer

def quick(text, wanted, what):
    def limit():
        resource.setrlimit(resource.RLIMIT_CPU, (1, 1))
    p = subprocess.run([COMMAND, "make", "-"], input=text.encode(), stdout=subprocess.PIPE, stderr=subprocess.PIPE, timeout=60,
                       preexec_fn=limit)
    expect(p.returncode == wanted and text.count("\n") <= 10000, f"{what}: exit status {p.returncode}: {p.stderr[:300]}")


def test_long_texts():
    bits = [f"{name}{n}.bit{bit} = 1\n" for name in ("cr", "gr") for n in range(16) for bit in range(32)]
    spelled = [line.replace(".bit", ".bit" + "0" * zeros) for zeros in range(9) for line in bits]
    alike = ["".join(letters) for letters in itertools.islice(itertools.product(("A_", "B@"), repeat=14), 9990)]
    here = "host tables at frame 1\nmap guest 0-X'5FFF' to frame 2-7\nat guest 0\n"
    quick("".join(bits) + "key 0-7 = 1\n" * 8976, 0, "1,024 settings and 8,976 keys")
    quick("".join(spelled), 2, "1,024 settings that are each spelled in nine ways")
    quick("frames = 8\n" * 10000, 2, "one setting 10,000 times")
    quick("".join(f"x{n} = 1\n" for n in range(10000)), 2, "10,000 names that are none")
    quick(here + "".join(f"l{n} half l{9989 - n}\n" for n in range(9990)), 0, "9,990 labels")
    quick(here + "".join(f"{label} half {label}\n" for label in alike), 0, "9,990 labels that are alike")
    quick(here + "".join(f"{label} half {label}\n" for label in reversed(alike)), 0, "the same, backwards")
    quick(here + "same half same\n" * 9990, 2, "one label 9,990 times")
    quick("host tables at frame 0\n" + "map guest 0-X'7FFFFFFF' invalid\n" * 9990, 2, "9,990 maps of all pages")


# Files and arguments

def test_files():
    with tempfile.TemporaryDirectory() as folder:
        name, out = os.path.join(folder, "t.txt"), os.path.join(folder, "out")
        with open(name, "w") as f:
            f.write("frames = 1\n")
        status, printed, err = call("make", name, "-o", out)
        expect(status == 0 and printed == b"" and err == "" and os.path.getsize(out) == 224 + 4097, f"-o: {err}")
        status, printed, err = call("make", "-o", "-", name)
        with open(out, "rb") as f:
            kept = f.read()
        expect(status == 0 and printed == kept, "-o -")
        with open(name, "w") as f:
            f.write("frames = 9\n")
        status, printed, err = call("make", name, "-o", out)
        with open(out, "rb") as f:
            expect(status == 2 and f.read() == kept, "an error leaves the file that is there")
        with open(name, "w") as f:
            f.write("frames = 1\n")
        for arguments, message in [
                ([], "too few arguments"), ([name, name], "too many arguments"), ([name, "-o"], "option -o needs a value"),
                ([name, "-x"], "unknown option -x"), ([name, "-o", out, "-o", out], "given twice"),
                ([name, "-o", os.path.join(folder, "none", "out")], "cannot be written"),
                ([name, "-o", folder], "cannot be written"),
                ([name, "-o", os.path.join(folder, ".", "t.txt")], "is the text, and would be lost"),
                ([os.path.join(folder, "none")], "cannot be read: No such file"), ([folder], "cannot be read: Is a directory")]:
            status, printed, err = call("make", *arguments)
            expect(status == 2 and printed == b"" and message in err, f"make {arguments}: exit status {status}: {err}")
        expect(sorted(os.listdir(folder)) == ["out", "t.txt"], f"left behind: {os.listdir(folder)}")
        status, printed, err = call("make", "--help")
        expect(status == 0 and printed.startswith(b"usage: drevokas make TEXT") and err == "", "--help")
        expect(max(len(line) for line in printed.split(b"\n")) <= 100, "--help within 100 columns")


def test_terminal():
    """Standard output that is a terminal is refused."""
    ours, theirs = pty.openpty()
    p = subprocess.run([COMMAND, "make", "-"], input=b"", stdout=theirs, stderr=subprocess.PIPE, timeout=20)
    os.close(theirs)
    os.close(ours)
    expect(p.returncode == 2 and b"standard output is a terminal" in p.stderr, f"a terminal: {p.stderr}")


for test in (test_defaults, test_fields, test_system_370, test_larger_record, test_interval, test_host_tables,
             test_guest_tables, test_data, test_spaces, test_code, test_known_case, test_from, test_errors, test_many_errors,
             test_long_texts, test_files, test_terminal):
    test()
report()
