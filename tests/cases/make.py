#!/usr/bin/env python3
"""make.py DIR: writes case files NAME.in into DIR, each with the line NAME.out that the program `case` prints for it.

Every line follows from document 01, for System/370 guests from request 1/12, and for the time per unit from request
5/12. A guest program that finds what it should ends at DIAGNOSE (code 4); one that does not goes to BAD, where an
operation exception leads to a wait, so that the code in the line differs. The table that request 2/12 has a failure name
is not in the line; there is a file for each such table and for each way to it.
"""
import os
import struct
import sys

FRAME = 4096
TEXT = 0x200  # where a program begins
BAD = 0x800  # zeros: an operation exception
OK = 0x900  # DIAGNOSE
HANDLER = 0x300
SPOT = 0x100000  # the first byte of host segment 1
END = "83000000"  # DIAGNOSE: code 4
A31 = 0x80000000  # PSW bit 32, in the second word
INVALID, PROTECTED = 0x400, 0x200  # page entry bits 21 and 22
DAT, IO, EXTERNAL, WAIT, PROBLEM, OVERFLOW = 0x04000000, 0x02000000, 0x01000000, 0x00020000, 0x00010000, 0x0800
COMPARATOR, TIMER, LOW, FORMAT = 0x800, 0x400, 0x10000000, 0x00B00000  # CR0 bits 20, 21, 3, and 8-12 as 10110
INTERVAL = 0x80  # CR0 bit 24
FULL = 40959999  # the largest residue


# Instructions and PSWs, in hex

def rr(op, r1, r2):
    return f"{op:02x}{r1:x}{r2:x}"


def rx(op, r1, d, b=0, x=0):
    """RX, and RS with R3 in the place of the index."""
    return f"{op:02x}{r1:x}{x:x}{b:x}{d:03x}"


def s(op, d, b=0):
    return f"{op:04x}{b:x}{d:03x}"


def lr(r1, r2): return rr(0x18, r1, r2)
def ar(r1, r2): return rr(0x1A, r1, r2)
def sr(r1, r2): return rr(0x1B, r1, r2)
def bcr(mask, r2): return rr(0x07, mask, r2)
def svc(number): return f"0a{number:02x}"
def la(r1, d, b=0, x=0): return rx(0x41, r1, d, b, x)
def bc(mask, d, b=0, x=0): return rx(0x47, mask, d, b, x)
def st(r1, d, b=0): return rx(0x50, r1, d, b)
def load(r1, d, b=0): return rx(0x58, r1, d, b)
def lpsw(d, b=0): return s(0x8200, d, b)
def stctl(r1, r3, d, b=0): return rx(0xB6, r1, d, b, r3)
def lctl(r1, r3, d, b=0): return rx(0xB7, r1, d, b, r3)
def stck(d, b=0): return s(0xB205, d, b)
def spt(d, b=0): return s(0xB208, d, b)
def stpt(d, b=0): return s(0xB209, d, b)


def need(mask):
    """One unit: goes on when the condition code is one of the mask, else to BAD."""
    return bc(15 - mask, BAD)


def same(r1, r2):
    """Two units: goes on when the registers are equal."""
    return sr(r1, r2) + need(8)


def word(d, r, b=0):
    """Three units: goes on when the word in storage equals the register. Uses register 1."""
    return load(1, d, b) + same(1, r)


def apart(first, second):
    """Six units: goes on when two clocks differ, the right word of the second by register 15. Uses registers 1 and 2."""
    return load(2, second + 4) + load(1, first + 4) + sr(2, 1) + need(7) + same(2, 15)


def psw(flags=0, address=A31 | TEXT):
    """A PSW with bit 12 one; each bit of flags turns one bit of the first word over."""
    return (0x00080000 ^ flags) << 32 | address


def hexes(*words):
    return "".join(f"{w:08x}" for w in words)


WAITING = f"{psw(WAIT, A31):016x}"

# Record, storage and file

FIELDS = {"length": (0, "H"), "version": (2, "B"), "v": (3, "B"), "mode": (4, "B"), "control": (5, "B"), "lctl": (6, "H"),
          "prefix": (8, "I"), "origin": (12, "H"), "extent": (14, "H"), "psw": (16, "Q"), "timer": (24, "Q"),
          "comparator": (32, "Q"), "epoch": (40, "Q"), "svc": (48, "I"), "byte66": (66, "B"), "byte71": (71, "B"),
          "request": (200, "B"), "byte201": (201, "B"), "byte203": (203, "B"), "residue": (204, "I")}


def record(cr=(), gr=(), size=200, **fields):
    """A record whose entry is good: mode 08 hex, origin 0, extent 1, prefix 0. An SVC field is flags and three numbers."""
    r = bytearray(size)
    default = {"length": size, "version": 1 if size == 200 else 2, "mode": 8, "extent": 1, "psw": psw()}
    for name, value in {**default, **fields}.items():
        place, form = FIELDS[name]
        struct.pack_into(">" + form, r, place, value % 2 ** 64)
    for start, registers in (72, cr), (136, gr):
        for n, value in dict(registers).items():
            struct.pack_into(">I", r, start + 4 * n, value)
    return bytes(r)


def storage(text, at, mem, frames, host, spot, segment, first):
    """Frame 0 is guest page 0. The host tables lie in the last frame, which may be frame 0 too: segment table at 0, with
    entries for segment `first` and the next, page tables at F40 hex (guest pages 0-15, `host` gives entries) and F80 hex
    (`spot` is the entry for the page at SPOT)."""
    b = bytearray(frames * FRAME)
    t = (frames - 1) * FRAME
    pages = {**dict.fromkeys(range(16), INVALID), 0: 0, **dict(host)}
    parts = {0x60: WAITING, 0x68: WAITING, OK: END, at: text,
             t + 4 * first: hexes(t + 0xF40 if segment is None else segment, 0x20 if spot is None else t + 0xF80),
             t + 0xF40: hexes(*(pages[n] for n in range(16))), t + 0xF80: hexes(spot or 0), **dict(mem)}
    for place, part in parts.items():
        part = bytes.fromhex(part)
        b[place:place + len(part)] = part
    assert len(b) == frames * FRAME
    return bytes(b)


def pack(r, b, keys=None, designation=0, clock=0, time=1, budget=100, version=1, count=None, longer=0):
    """A case file. A count or a length that is wrong is asked for by name."""
    frames = len(b) // FRAME
    head = struct.pack(">BIQIH", version, designation, clock % 2 ** 64, time, budget)
    rest = head + r + bytes([frames if count is None else count]) + bytes(keys or frames) + b
    return struct.pack(">I", len(rest) + longer) + rest


CASES = {}
# Guest page 0 begins host segment 4, which leaves bytes 0-15 of frame 0 to the guest.
AWAY = {"origin": 64, "first": 4}


def add(name, line, text=END, at=TEXT, mem=(), frames=1, host=(), spot=None, segment=None, first=0, **given):
    """A case of one program. What is given goes to the file if `pack` knows it, else to the record."""
    outer = {k: given.pop(k) for k in ("keys", "designation", "clock", "time", "budget") if k in given}
    outer.setdefault("designation", (frames - 1) * FRAME)
    keep(name, line, pack(record(**given), storage(text, at, mem, frames, host, spot, segment, first), **outer))


def keep(name, line, file):
    assert name not in CASES, name
    CASES[name] = (file, line)


def dat(pages=(0, INVALID), segments=(0x1C0, 0x20), cr0=FORMAT, cr1=0, **given):
    """DAT on: guest segment table at real 0, page table at 1C0 hex, so that virtual page 0 is real page 0."""
    mem = {0: hexes(*segments), 0x1C0: hexes(*pages), **given.pop("mem", {})}
    return {**AWAY, "mem": mem, "psw": psw(DAT), "cr": {0: cr0, 1: cr1}, **given}


def stored(name, code, ilc=2, old=None, address=0, **given):
    """A program exception as an interruption to a handler, which looks at the ILC and code, the address at 144 and the
    second word of the old PSW (by default advanced)."""
    old = A31 | TEXT + 2 * ilc if old is None else old
    handler = word(140, 15) + word(144, 14) + word(44, 13) + END
    mem = {0x68: f"{psw(0, A31 | HANDLER):016x}", HANDLER: handler, **given.pop("mem", {})}
    gr = {13: old, 14: address, 15: ilc << 17 | code, **given.pop("gr", {})}
    add(name + "_stored", "I 4 10", mem=mem, gr=gr, **given)


def exception(name, code, ilc=2, old=None, address=0, **given):
    """A program exception three times: as code 8, as an interruption to a wait, and as above."""
    add(name + "_code_8", "I 8 0", control=0x40, **given)
    add(name + "_to_wait", "I 28 1", **given)
    stored(name, code, ilc, old, address, **given)


# Files: budget ends and refusals

STOP = record(v=0x04, psw=psw(0, A31))


def stop(frames=1, r=STOP, **given):
    """A file of zeros with a stop request."""
    return pack(r, bytes(frames * FRAME), **{"designation": 0x1000, "budget": 1, **given})


keep("stop", "I 40 0", stop())
keep("no_budget", "B 0 0", stop(budget=0))
keep("largest", "I 40 0", stop(8))
for budget in 1, 7, 65535:
    add(f"budget_{budget}", f"B 0 {budget}", bc(15, TEXT), budget=budget)
add("budget_before_code_28", "B 0 1", lpsw(0x60), budget=1)
add("time_largest", "B 0 3", bc(15, TEXT), time=1048576, budget=3)

for length in 199, 201:
    keep(f"record_length_{length}", "R 1", stop(r=record(length=length)))
keep("record_version_2", "R 2", stop(r=record(version=2)))
keep("time_too_large", "R 6", stop(time=1048577))
keep("byte_66_used", "R 7", stop(r=record(byte66=1)))
keep("byte_71_used", "R 7", stop(r=record(byte71=0x80)))
keep("malformed_before_length", "R 9", stop(r=record(length=0), version=0))
keep("length_before_version", "R 1", stop(r=record(length=201, version=2)))
keep("version_before_time", "R 2", stop(r=record(version=2), time=1048577))
keep("time_before_byte_66", "R 6", stop(r=record(byte66=1), time=2 ** 32 - 1))
keep("refusal_before_entry", "R 7", stop(r=record(byte66=1, mode=0)))

# Time 0: whatever the guest does, before byte 66 and entry. No file can have refusals 3, 4 and 5.
keep("time_0", "R 6", stop(time=0))
keep("time_0_no_budget", "R 6", stop(time=0, budget=0))
add("time_0_stck", "R 6", stck(0x400) + stck(0x408) + END, time=0)
for budget in 0, 1, 65535:
    add(f"time_0_no_stck_budget_{budget}", "R 6", bc(15, TEXT), time=0, budget=budget)
keep("malformed_before_time_0", "R 9", stop(time=0, longer=1))
keep("length_before_time_0", "R 1", stop(r=record(length=199), time=0))
keep("version_before_time_0", "R 2", stop(r=record(version=2), time=0))
keep("time_0_before_byte_66", "R 6", stop(r=record(byte66=1), time=0))
keep("time_0_before_byte_71", "R 6", stop(r=record(byte71=0x80), time=0))
for budget in 0, 1:
    keep(f"time_0_before_entry_budget_{budget}", "R 6", stop(r=record(mode=0), time=0, budget=budget))

keep("malformed_empty", "R 9", b"")
keep("malformed_part_of_length", "R 9", bytes(3))
keep("malformed_length_only", "R 9", bytes(4))
keep("malformed_no_frame_count", "R 9", struct.pack(">I", 219) + stop()[4:223])
keep("malformed_short", "R 9", stop()[:-1])
keep("malformed_byte_after", "R 9", stop() + b"\0")
keep("malformed_length_over", "R 9", stop(longer=1))
keep("malformed_length_under", "R 9", stop(longer=-1))
keep("malformed_version_0", "R 9", stop(version=0))
keep("malformed_version_2", "R 9", stop(version=2))
keep("malformed_count_0", "R 9", stop(0))
keep("malformed_count_9", "R 9", stop(9))
keep("malformed_count_over", "R 9", stop(count=2))
keep("malformed_count_under", "R 9", stop(2, count=1))

# Entry, and code 32 by PSW

for mode in 0x00, 0x0C, 0x0A:
    add(f"entry_mode_{mode:02x}", "I 32 0", mode=mode)
add("entry_mode_bits_ignored", "I 4 0", mode=0xF9)
add("entry_extent_0", "I 32 0", extent=0)
add("entry_origin_32768", "I 32 0", origin=32768)
add("entry_sum_32769", "I 32 0", origin=32767, extent=2)
add("entry_sum_32768", "H 5 0", origin=32767, designation=0x7F)  # the host segment entry lies past the storage
add("entry_prefix_over_extent", "I 32 0", prefix=0x10000)
add("entry_prefix_last_page", "I 4 0", prefix=0xF000, host={15: 0})
add("entry_prefix_bits_ignored", "I 4 0", prefix=0x80000FFF)
add("entry_before_budget", "I 32 0", mode=0, budget=0)
add("entry_before_stop", "I 32 0", mode=0, v=0x04)
add("psw_bit_1", "I 32 0", psw=psw(0x40000000))
add("psw_bit_16", "I 32 0", psw=psw(0x8000))
add("psw_bit_1_by_lpsw", "I 32 1", lpsw(0x400), mem={0x400: f"{psw(0x40000000):016x}"})

# Code 4: mandatory, SVC, LPSW, LCTL. Codes 44, 16, 24, 28

for op in 0x8300, 0xAE00, 0xB230, 0xB236, 0xB23C:
    add(f"mandatory_{op:04x}", "I 4 0", s(op, 0))
for op in 0xB22F, 0xB23D:
    add(f"operation_{op:04x}", "I 44 0", s(op, 0), control=0x80)
add("svc_to_wait", "I 28 1", svc(5))
add("svc_flag_all", "I 4 0", svc(5), svc=0x80000000)
for n in 1, 2, 3:
    number = 5 << 24 - 8 * n
    add(f"svc_number_{n}", "I 4 0", svc(5), svc=0x80000000 >> n | number)
add("svc_number_flag_zero", "I 28 1", svc(5), svc=0x50000500)
add("svc_number_other", "I 28 1", svc(5), svc=0x70040607)
add("svc_stored", "I 4 10", svc(0xFE) + "0000", gr={13: 0x00082000, 14: A31 | TEXT + 2, 15: 0x000200FE}, psw=psw(0x2000),
    mem={0x60: f"{psw(0, A31 | HANDLER):016x}", HANDLER: word(32, 13) + word(36, 14) + word(136, 15) + END})
add("lpsw_by_control", "I 4 0", lpsw(0x60), control=0x20)
add("lpsw_by_control_unaligned", "I 4 0", lpsw(0x64), control=0xE0)
add("lctl_last_register", "I 4 0", lctl(5, 7, 0x400), lctl=0x0100)
add("lctl_register_after", "I 28 2", lctl(5, 7, 0x400) + "0000", lctl=0xF8FF)
add("lctl_over_15_to_0", "I 4 0", lctl(15, 0, 0x400), lctl=0x8000)
add("lctl_before_alignment", "I 4 0", lctl(5, 5, 0x401), lctl=0x0400, control=0x40)
add("code_44", "I 44 0", "0000", control=0x80)
add("code_44_before_8", "I 44 0", "ff0000000000", control=0xC0)
add("external_request", "I 16 0", v=0x01, psw=psw(EXTERNAL))
add("external_request_masked", "I 4 0", v=0x01, psw=psw(IO))
add("io_request", "I 24 0", v=0x02, psw=psw(IO))
add("io_request_masked", "I 4 0", v=0x02, psw=psw(EXTERNAL))
add("request_bits_0_to_4", "I 4 0", v=0xF8, psw=psw(IO | EXTERNAL))
add("wait", "I 28 0", psw=psw(WAIT))

# Code 20

for name, line, given in [
    ("greater", "I 20 0", dict(clock=8, comparator=7)),
    ("equal", "I 4 0", dict(clock=7, comparator=7)),
    ("unsigned_due", "I 20 0", dict(clock=2 ** 63, comparator=2 ** 63 - 1)),
    ("unsigned_not_due", "I 4 0", dict(clock=1, comparator=2 ** 63)),
    ("epoch_carry_equal", "I 4 0", dict(clock=-1, epoch=2, comparator=1)),
    ("epoch_carry_greater", "I 20 0", dict(clock=-1, epoch=2, comparator=0)),
    ("after_three_units", "I 20 3", dict(text=bc(15, TEXT), clock=1, time=3, comparator=7)),
    ("clock_wraps", "B 0 2", dict(text=bc(15, TEXT), clock=-1, comparator=-1, budget=2)),
    ("cr0_zero", "I 4 0", dict(clock=1, cr={0: TIMER})),
    ("psw_bit_7_zero", "I 4 0", dict(clock=1, psw=psw(IO))),
]:
    add("comparator_" + name, line, **{"psw": psw(EXTERNAL), "cr": {0: COMPARATOR}, **given})
for name, line, given in [
    ("negative", "I 20 0", dict(timer=-1)),
    ("zero", "I 4 0", dict(timer=0)),
    ("falls_to_0_then_below", "I 20 2", dict(text=bc(15, TEXT), timer=5, time=5)),
    ("wraps", "I 4 1", dict(text=lctl(0, 0, 0x400) + END, mem={0x400: hexes(TIMER)}, timer=-2 ** 63, cr={})),
    ("enabled_by_lctl", "I 20 1", dict(text=lctl(0, 0, 0x400) + END, mem={0x400: hexes(TIMER)}, timer=-1, cr={})),
    ("cr0_zero", "I 4 0", dict(timer=-1, cr={0: COMPARATOR}, comparator=1)),
    ("psw_bit_7_zero", "I 4 0", dict(timer=-1, psw=psw(IO))),
    ("falls_in_interruption", "I 20 1", dict(text="0000", timer=0, mem={0x68: f"{psw(EXTERNAL):016x}"})),
]:
    add("timer_" + name, line, **{"psw": psw(EXTERNAL), "cr": {0: TIMER}, **given})

# Order before a unit

BOTH = {"cr": {0: COMPARATOR | TIMER}}
add("order_stop_psw_bit_1", "I 40 0", v=0x04, psw=psw(0x40000000))
add("order_psw_bit_1_malformed", "I 32 0", psw=psw(0xC0000000), control=0x40)
add("order_malformed_comparator", "I 8 0", psw=psw(0x4000 | EXTERNAL), clock=1, control=0x40, **BOTH)
add("order_malformed_wait", "I 8 0", psw=psw(0x4000 | WAIT), control=0x40)
add("order_malformed_requests", "I 28 1", psw=psw(0x4000 | IO | EXTERNAL), v=0x03)
add("order_comparator_external", "I 20 0", psw=psw(EXTERNAL | IO), clock=1, v=0x03, **BOTH)
add("order_timer_external", "I 20 0", psw=psw(EXTERNAL | IO), timer=-1, v=0x03, **BOTH)
add("order_external_io", "I 16 0", psw=psw(EXTERNAL | IO | WAIT), v=0x03)
add("order_io_wait", "I 24 0", psw=psw(IO | WAIT), v=0x03)
add("order_timer_wait", "I 20 0", psw=psw(EXTERNAL | WAIT), timer=-1, **BOTH)
add("order_wait_odd_address", "I 28 0", psw=psw(WAIT, A31 | 0x201), control=0x40)
add("order_budget_comparator", "B 0 1", lr(1, 2), psw=psw(EXTERNAL), budget=1, **BOTH)

# Program exceptions

TWO = {"frames": 2, "host": {1: FRAME}}  # guest page 1 is frame 1
exception("operation", 1, 1, text="0000")
exception("privileged", 2, text=lpsw(0x60), psw=psw(PROBLEM))
exception("key_store", 4, text=st(1, 0x400), psw=psw(0x00100000), keys=[0x20])
stored("key_text", 4, 1, psw=psw(0x00100000), keys=[0x28])
exception("page_protected", 4, text=st(1, 0x400, 2), gr={2: 0x1000}, **dat(pages=(0, PROTECTED)))
exception("low_address", 4, text=st(1, 0x1FF), cr={0: LOW})
exception("addressing", 5, text=load(1, 0, 2), gr={2: 0x10000})
stored("addressing_text", 5, 1, psw=psw(0, A31 | 0x10000), old=A31 | 0x10002)
exception("odd_address", 6, 1, psw=psw(0, A31 | 0x201), old=A31 | 0x203)
stored("odd_address_over_2_24", 6, 1, psw=psw(0, 0x00FFFFFF), old=1)
stored("odd_address_over_2_31", 6, 1, psw=psw(0, 0xFFFFFFFF), old=A31 | 1)
exception("alignment", 6, text=lpsw(0x404))
exception("malformed_psw", 6, 0, psw=psw(0x00080000))
exception("overflow", 8, 1, text=ar(1, 2), gr={1: 0x7FFFFFFF, 2: 1}, psw=psw(OVERFLOW))
exception("segment_invalid", 0x10, old=A31 | TEXT, address=SPOT, text=load(1, 4, 2), gr={2: SPOT}, **dat())
exception("page_invalid", 0x11, old=A31 | TEXT, address=0x1000, text=load(1, 0, 2), gr={2: 0x1ABC}, **dat())
exception("translation_page_bit_20", 0x12, text=load(1, 0, 2), gr={2: 0x1000}, **dat(pages=(0, 0x800)))
stored("operation_length_2", 1, 2, text="40000000")
stored("operation_length_3", 1, 3, text="d20000000000")
for op, name in (0xB208, "spt"), (0xB209, "stpt"), (0xB600, "stctl"), (0xB700, "lctl"), (0x8300, "diagnose"), (0xAE00, "sigp"):
    add(f"problem_state_{name}", "I 8 0", s(op, 0x400), psw=psw(PROBLEM), control=0x60, lctl=0xFFFF)
add("problem_state_lpsw_control", "I 8 0", lpsw(0x60), psw=psw(PROBLEM), control=0x60)
add("problem_state_stck", "I 4 1", stck(0x400) + svc(1), psw=psw(PROBLEM), svc=0x80000000)
for text, name in (spt(0x404), "spt"), (stpt(0x404), "stpt"), (lctl(2, 2, 0x402), "lctl"), (stctl(2, 2, 0x402), "stctl"):
    stored("alignment_" + name, 6, text=text)
for n, flags in (0, 0x80000000), (2, 0x20000000), (3, 0x10000000), (4, 0x08000000), (17, 0x4000), (24, 0x80), (31, 1):
    add(f"malformed_psw_bit_{n}", "I 8 0", psw=psw(flags), control=0x40)
for n, second in (33, 0x40000200), (39, 0x01000200):
    add(f"malformed_psw_bit_{n}", "I 8 0", psw=psw(0, second), control=0x40)
add("malformed_psw_by_lpsw", "I 28 2", lpsw(0x400), mem={0x400: f"{psw(0x00080000):016x}"})
stored("psw_bit_40_in_24_bit_mode", 5, 1, psw=psw(0, 0x00800000), old=0x00800002)  # well formed, but beyond the extent
stored("fetch_override_not_applied", 4, 1, psw=psw(0x00100000), keys=[0x28], cr={0: 0x02000000})
stored("key_fetch", 4, text=load(1, 0, 2), gr={2: 0x1000}, psw=psw(0x00100000), keys=[0x10, 0x28], **TWO)
stored("overflow_sr", 8, 1, text=sr(1, 2), gr={1: 0x80000000, 2: 1}, psw=psw(OVERFLOW))
stored("segment_invalid_text", 0x10, 1, old=A31 | SPOT, address=SPOT, **{**dat(), "psw": psw(DAT, A31 | SPOT)})
stored("segment_length", 0x10, old=A31 | TEXT, address=0x01000000, text=load(1, 0, 2), gr={2: 0x01000000}, **dat())
# Address 00FFFFFF hex passes the segment length test; the entry at 60 is zero, a page table of length 0.
stored("segment_length_last", 0x11, old=A31 | TEXT, address=0x00FFF000, text=load(1, 0, 2), gr={2: 0x00FFFFFF}, **dat())
stored("page_table_length", 0x11, old=A31 | TEXT, address=0x10000, text=load(1, 0, 2), gr={2: 0x10000}, **dat())
stored("translation_cr0", 0x12, 1, **dat(cr0=0x00B80000))
stored("translation_segment_bit_0", 0x12, text=load(1, 0, 2), gr={2: SPOT}, **dat(segments=(0x1C0, 0x800001C0)))
stored("translation_page_bit_0", 0x12, text=load(1, 0, 2), gr={2: 0x1000}, **dat(pages=(0, 0x80000000)))
stored("translation_page_bit_23", 0x12, text=load(1, 0, 2), gr={2: 0x1000}, **dat(pages=(0, 0x100)))
stored("invalid_before_bit_20", 0x11, old=A31 | TEXT, address=0x1000, text=load(1, 0, 2), gr={2: 0x1000},
       **dat(pages=(0, 0xC00)))
stored("addressing_segment_table", 5, 1, **dat(cr1=0x10000))
stored("addressing_page_table", 5, text=load(1, 0, 2), gr={2: SPOT}, **dat(segments=(0x1C0, 0x10000)))
stored("addressing_by_dat", 5, text=load(1, 0, 2), gr={2: 0x1000}, **dat(pages=(0, 0x10000)))
stored("odd_before_addressing", 6, 1, psw=psw(0, A31 | 0x10001), old=A31 | 0x10003)
stored("alignment_before_addressing", 6, text=lpsw(4, 2), gr={2: 0x10000})
stored("low_address_before_dat", 4, text=st(1, 0), old=A31 | 0x1204,
       **{**dat(cr0=FORMAT | LOW, pages=(INVALID, 0)), "psw": psw(DAT, A31 | 0x1000 | TEXT)})
stored("privileged_before_alignment", 2, text=spt(0x401), psw=psw(PROBLEM))
add("low_address_512", "I 4 1", st(1, 0x200) + END, cr={0: LOW})
add("low_address_fetch", "I 4 1", load(1, 0x1FF) + END, cr={0: LOW})
add("low_address_not_interruptions", "I 28 1", "0000", cr={0: LOW})
add("operation_before_privileged", "I 44 0", "b2040000", psw=psw(PROBLEM), control=0xC0)
add("key_0_stores", "I 4 1", st(1, 0x400) + END, keys=[0x28])
add("key_equal_stores", "I 4 1", st(1, 0x400) + END, psw=psw(0x00200000), keys=[0x28])
add("guest_entry_bits_ignored", "I 4 0", **dat(pages=(0xFF,), segments=(0x1D0,), cr1=0x80000F80))
add("page_protected_fetch", "I 4 1", load(1, 0x400, 2) + END, gr={2: 0x1000}, **dat(pages=(0, PROTECTED)))

# Host faults: at SPOT, by text, operand, guest table entry and prefix area

FAULTS = {4: PROTECTED, 5: FRAME, 16: None, 17: INVALID, 18: 0x800}
for code, entry in FAULTS.items():  # FRAME is one frame past the storage
    reach = {"spot": entry, "extent": 17}
    line = f"H {code} 0"
    if code != 4:
        add(f"host_{code}_text", line, psw=psw(0, A31 | SPOT), **reach)
        add(f"host_{code}_load", f"H {code} 1", lr(1, 3) + load(1, 0, 2), gr={2: SPOT}, **reach)
        add(f"host_{code}_segment_entry", line, **dat(cr1=SPOT, **reach))
    add(f"host_{code}_prefix_program", line, "0000", psw=psw(0, A31 | SPOT | TEXT), prefix=SPOT, **reach)
    if code in (4, 17):
        add(f"host_{code}_store", line, st(1, 0, 2), gr={2: SPOT}, **reach)
add("host_4_prefix_svc", "H 4 0", svc(1), psw=psw(0, A31 | SPOT | TEXT), prefix=SPOT, spot=PROTECTED, extent=17)
add("host_17_page_entry", "H 17 0", **dat(segments=(SPOT,), spot=INVALID, extent=17))
add("host_18_page_entry", "H 18 0", **dat(segments=(SPOT,), spot=0x100, extent=17))
add("host_protected_load", "I 4 1", load(1, 0, 2) + END, gr={2: SPOT}, spot=PROTECTED, extent=17)
add("host_protected_code_8", "I 8 0", "0000", psw=psw(0, A31 | SPOT | TEXT), prefix=SPOT, spot=PROTECTED, extent=17,
    control=0x40)
add("host_16_length", "H 16 0", origin=256)
add("host_17_length", "H 17 0", psw=psw(0, A31 | 0x10000), extent=2)
add("host_18_segment_bit_0", "H 18 0", segment=0x80000F40)
add("host_18_page_bit_0", "H 18 0", host={0: 0x80000000})
add("host_18_page_bit_23", "H 18 0", host={0: 0x100})
add("host_16_before_18", "H 16 0", segment=0x80000F60)
add("host_17_before_18", "H 17 0", host={0: 0xC00})
add("host_5_segment_table", "H 5 0", designation=0x1000)
add("host_5_page_table", "H 5 0", segment=0x1000)
add("host_origin", "I 4 0", origin=16, host={0: INVALID}, spot=0)
add("host_designation_bits_ignored", "I 4 0", designation=0x80000F80)
add("host_entry_bits_ignored", "I 4 0", segment=0xF50, host={0: 0xFF})
add("st_into_host_table", "I 4 2", st(15, 0xF44) + load(1, 0, 2) + END, gr={2: 0x1000})
# The old PSW goes over the host segment entry at 40, whose page table then lies past the storage: felt in the next unit.
add("interruption_over_host_table", "H 5 1", "0000", origin=160, first=10, mem={0x68: f"{psw():016x}"})
add("host_17_before_page_protection", "H 17 0", st(1, 0, 2), gr={2: 0x1000}, **dat(pages=(0, 0x1000 | PROTECTED)))
add("page_protection_before_host_4", "I 8 0", st(1, 0, 2), gr={2: 0x1000}, host={1: PROTECTED}, control=0x40,
    **dat(pages=(0, 0x1000 | PROTECTED)))
add("key_before_host_4", "I 8 0", st(1, 0, 2), gr={2: SPOT}, spot=PROTECTED, extent=17, psw=psw(0x00100000), keys=[0x20],
    control=0x40)
add("host_17_before_key", "H 17 0", st(1, 0, 2), gr={2: 0x1000}, psw=psw(0x00100000), keys=[0x20])
add("extent_before_origin", "I 8 1", lr(1, 3) + load(1, 0, 2), gr={2: 0x10000}, origin=16, host={0: INVALID}, spot=0,
    control=0x40)

# Instructions

add("lr", "I 4 3", lr(1, 2) + same(1, 15) + END, gr={2: 5, 15: 5})
add("lr_l_la_keep_cc", "I 4 6", lr(1, 2) + need(1) + load(1, 0x400) + need(1) + la(1, 0) + need(1) + END, psw=psw(0x3000))
for name, op, rows in [
    ("ar", ar, [(1, 0xFFFFFFFF, 0, 8), (1, 0xFFFFFFFE, 0xFFFFFFFF, 4), (2, 0xFFFFFFFF, 1, 2), (0x7FFFFFFF, 1, 0x80000000, 1),
                (0x80000000, 0x80000000, 0, 1)]),
    ("sr", sr, [(7, 7, 0, 8), (7, 8, 0xFFFFFFFF, 4), (8, 7, 1, 2), (0, 0x80000000, 0x80000000, 1),
                (0x80000000, 1, 0x7FFFFFFF, 1)]),
]:
    # Rows of first operand, second operand, result and condition code, as a mask: registers 1-5, 6-10 and 11-15
    text = "".join(op(n, n + 5) + need(row[3]) + same(n, n + 10) for n, row in enumerate(rows, 1))
    add(name, "I 4 20", text + END, gr={n + 5 * k: row[k] for n, row in enumerate(rows, 1) for k in range(3)})
# The old PSW of an overflow has condition code 3, and the register is set.
add("overflow_sets_results", "I 4 6", ar(1, 2), gr={1: 0x7FFFFFFF, 2: 1, 14: 0x00083800, 15: 0x80000000}, psw=psw(OVERFLOW),
    mem={0x68: f"{psw(0, A31 | HANDLER):016x}", HANDLER: same(1, 15) + word(40, 14) + END})
add("bcr_register_0", "I 4 1", bcr(15, 0) + END, gr={0: BAD})
for cc in range(4):
    on, off = 8 >> cc, 15 - (8 >> cc)
    add(f"bc_bcr_cc_{cc}", "I 4 4", bcr(off, 3) + bc(off, BAD) + bc(on, 0x500) + "0000", gr={2: OK, 3: BAD}, psw=psw(cc << 12),
        mem={0x500: bcr(on, 2) + "0000"})
add("bc_base_and_index", "I 4 2", bc(15, 0x100, 2, 3) + "0000", gr={0: 0x1000, 2: 0x400, 3: 0x100}, mem={0x600: bc(15, OK)})
add("bc_odd", "I 8 1", bc(15, OK + 1) + END, control=0x40)
add("la_31", "I 4 12", la(1, 0xFFF, 2, 3) + same(1, 15) + la(1, 0xFFF) + same(1, 14) + la(1, 1, 4) + same(1, 13) + la(1, 1, 5)
    + same(1, 12) + END, gr={0: 9, 2: 1, 3: 0x10, 15: 0x1010, 14: 0xFFF, 4: 0x7FFFFFFF, 13: 0, 5: 0x00FFFFFF, 12: 0x01000000})
add("la_24", "I 4 6", la(1, 1, 2) + same(1, 15) + la(1, 0, 3) + same(1, 14) + END, psw=psw(0, TEXT),
    gr={2: 0x00FFFFFF, 15: 0, 3: 0xFF123456, 14: 0x123456})
add("st_and_l", "I 4 4", st(15, 0x400) + word(0x400, 15) + END, gr={15: 0x89ABCDEF})
add("unaligned", "I 4 10", st(2, 0x401) + word(0x400, 14) + word(0x404, 15) + word(0x401, 2) + END,
    gr={2: 0x89ABCDEF, 14: 0x0089ABCD, 15: 0xEF000000})
add("st_into_guest_table", "I 8 2", load(1, 0, 2) + st(15, 0x1C4) + load(1, 0, 2), gr={2: 0x1000, 15: INVALID}, control=0x40,
    **dat(pages=(0, 0)))
add("st_into_text", "I 4 1", st(1, TEXT + 4) + "0000", gr={1: 0x83000000})
add("lpsw", "I 4 2", lpsw(0x400) + "0000", mem={0x400: f"{psw(0x3000, A31 | 0x500):016x}", 0x500: need(1) + END})
add("stctl", "I 4 7", stctl(5, 6, 0x400) + word(0x400, 14) + word(0x404, 15) + END, cr={5: 1, 6: 2}, gr={14: 1, 15: 2})
add("stctl_over_15_to_0", "I 4 7", stctl(15, 0, 0x400) + word(0x400, 14) + word(0x404, 15) + END, cr={15: 1, 0: 2},
    gr={14: 1, 15: 2})
add("lctl", "I 4 5", lctl(6, 7, 0x400) + stctl(7, 7, 0x500) + word(0x500, 15) + END, mem={0x400: hexes(1, 2)}, gr={15: 2})
add("lctl_all", "I 4 8", lctl(1, 0, 0x400) + stctl(15, 0, 0x500) + word(0x500, 14) + word(0x504, 15) + END,
    mem={0x400: hexes(*range(1, 16), 0x55)}, gr={14: 15, 15: 0x55})
add("stck", "I 4 8", stck(0x401) + need(8) + word(0x401, 14) + word(0x405, 15) + END, clock=0x1122334455667788,
    epoch=0x1000000010, psw=psw(0x3000), gr={14: 0x11223354, 15: 0x55667798})
add("stck_second_unit", "I 4 5", lr(2, 3) + stck(0x400) + word(0x404, 15) + END, clock=5, epoch=2, time=10, gr={15: 17})
add("stck_carry_dropped", "I 4 7", stck(0x400) + word(0x400, 14) + word(0x404, 15) + END, clock=-1, epoch=2, gr={15: 1})
# Two clocks, the second by register 15 after the first: a unit each, with the time between
TWO_CLOCKS = stck(0x400) + stck(0x408) + apart(0x400, 0x408) + END
for time in 1, 2, 4096, 1048576:
    add(f"stck_twice_time_{time}", "I 4 8", TWO_CLOCKS, time=time, gr={15: time})
add("stck_twice_by_dat", "I 4 8", TWO_CLOCKS, gr={15: 1}, **dat())
add("stck_twice_long_record", "I 4 8", TWO_CLOCKS, size=208, gr={15: 1})
add("stck_twice_unaligned", "I 4 8", stck(0x401) + stck(0x409) + apart(0x401, 0x409) + END, gr={15: 1})
add("stck_third_unit", "I 4 9", stck(0x400) + lr(3, 4) + stck(0x408) + apart(0x400, 0x408) + END, time=7, gr={15: 14})
# One STCK twice, by a way of five units: STCK, LA, BCR, LA, BC. Then LA and BCR again, with register 4 for the way out
add("stck_in_a_loop", "I 4 14", stck(0x400, 3) + la(3, 8, 3) + bcr(15, 4), time=5, gr={4: 0x500, 15: 25},
    mem={0x500: la(4, 0x600) + bc(15, TEXT), 0x600: apart(0x400, 0x408) + END})
# Two clocks whose four words are registers 11 to 14; the guest clock wraps, or the host clock does
FOUR_WORDS = stck(0x400) + stck(0x408) + word(0x400, 11) + word(0x404, 12) + word(0x408, 13) + word(0x40C, 14) + END
for name, clock, epoch, time, words in [
    ("epoch_wraps", 5, -6, 1, (0xFFFFFFFF, 0xFFFFFFFF, 0, 0)),
    ("epoch_wraps_largest_time", 2 ** 63, 2 ** 63 - 1, 1048576, (0xFFFFFFFF, 0xFFFFFFFF, 0, 0x000FFFFF)),
    ("clock_wraps", -1, 0, 1, (0xFFFFFFFF, 0xFFFFFFFF, 0, 0)),
    ("clock_wraps_before_epoch", -1, 7, 1, (0, 6, 0, 7)),
    ("carry_to_left_word", 0xFFFFFFF0, 15, 1, (0, 0xFFFFFFFF, 1, 0)),
]:
    add("stck_twice_" + name, "I 4 14", FOUR_WORDS, clock=clock, epoch=epoch, time=time,
        gr={11 + n: w for n, w in enumerate(words)})
# An interrupting unit between: twice the time. The handler reads the second clock
SECOND_CLOCK = stck(0x408) + apart(0x400, 0x408) + END
TO_HANDLER = f"{psw(0, A31 | HANDLER):016x}"
for name, new, text, given in [
    ("svc", 0x60, svc(5), {}),
    ("operation", 0x68, "0000", {}),
    ("addressing", 0x68, load(3, 0, 4), {"gr": {4: 0x10000}}),
    ("alignment", 0x68, lpsw(0x404), {}),
    ("overflow", 0x68, ar(3, 4), {"gr": {3: 0x7FFFFFFF, 4: 1}, "psw": psw(OVERFLOW)}),
]:
    gr = {15: 20, **given.pop("gr", {})}
    add(f"stck_{name}_stck", "I 4 9", stck(0x400) + text, time=10, gr=gr, mem={new: TO_HANDLER, HANDLER: SECOND_CLOCK}, **given)
add("stck_svc_stck_largest_time", "I 4 9", stck(0x400) + svc(5), time=1048576, gr={15: 2097152},
    mem={0x60: TO_HANDLER, HANDLER: SECOND_CLOCK})
# LPSW, and then the interruption by what it loaded: two units
add("stck_malformed_psw_stck", "I 4 10", stck(0x400) + lpsw(0x500), time=10, gr={15: 30},
    mem={0x500: f"{psw(0x4000):016x}", 0x68: TO_HANDLER, HANDLER: SECOND_CLOCK})
add("stpt", "I 4 8", lr(2, 3) + stpt(0x400) + word(0x400, 14) + word(0x404, 15) + END, timer=-90, time=10,
    gr={14: 0xFFFFFFFF, 15: 0xFFFFFF9C})
add("spt", "I 4 5", spt(0x400) + stpt(0x408) + word(0x40C, 15) + END, mem={0x400: hexes(0, 50)}, time=10, gr={15: 40})
add("spt_then_due", "I 20 2", spt(0x400) + lr(1, 2) + END, mem={0x400: hexes(0, 5)}, time=5, psw=psw(EXTERNAL), cr={0: TIMER})

# Page crossings

EDGE = {"gr": {2: 0xFFE}}
TWICE = {**AWAY, "host": {1: 0}}  # guest page 1 is frame 0 too: what crosses goes on at 0
add("cross_load", "I 4 3", word(0, 15, 2) + END, mem={0xFFE: "3333", 0: "4444"}, gr={2: 0xFFE, 15: 0x33334444}, **TWICE)
add("cross_store", "I 4 7", st(15, 0, 2) + word(0xFFC, 13) + word(0, 14) + END,
    gr={2: 0xFFE, 13: 0x00003333, 14: 0x44440000, 15: 0x33334444}, **TWICE)
add("cross_text", "I 4 1", "47f0", at=0xFFE, psw=psw(0, A31 | 0xFFE), mem={0: "0900"}, **TWICE)
add("cross_text_six_bytes", "H 17 0", "d200", at=0xFFE, psw=psw(0, A31 | 0xFFE))
add("cross_text_two_bytes", "I 28 1", "0000", at=0xFFE, psw=psw(0, A31 | 0xFFE))
add("cross_load_host_17", "H 17 0", load(1, 0, 2), **EDGE)
add("cross_store_host_4", "H 4 0", st(1, 0, 2), **EDGE, host={1: PROTECTED})
add("cross_store_addressing", "I 8 0", st(1, 0, 2), gr={2: 0xFFFE}, host={15: 0}, control=0x40)
add("cross_stck", "H 17 0", stck(0, 2), gr={2: 0xFF9})
add("cross_stck_not", "I 4 1", stck(0, 2) + END, gr={2: 0xFF8})
add("cross_lctl", "H 17 0", lctl(5, 6, 0, 2), gr={2: 0xFFC})
add("cross_stctl", "H 4 0", stctl(5, 6, 0, 2), gr={2: 0xFFC}, host={1: PROTECTED})
stored("cross_text_addressing", 5, 2, text="47f0", at=0xFFE, psw=psw(0, A31 | 0xFFFE), host={15: 0}, old=A31 | 0x10002)
stored("cross_load_page_invalid", 0x11, text=load(1, 0, 2), old=A31 | TEXT, address=0x1000, gr={2: 0xFFE}, **dat())
stored("cross_text_page_invalid", 0x11, 2, text="47f0", at=0xFFE, old=A31 | 0xFFE, address=0x1000,
       **{**dat(), "psw": psw(DAT, A31 | 0xFFE)})
# A store whose second page is guest-protected stores nothing in the first.
add("cross_store_nothing", "I 4 4", st(15, 0, 2), gr={2: 0xFFE, 15: 0xFFFFFFFF}, **dat(pages=(0, PROTECTED), mem={
    0x68: f"{psw(0, A31 | HANDLER):016x}", HANDLER: word(0xFFC, 13) + END}))
# A store crossing into bytes 0-511 of a page other than page 0 is not a low-address one.
add("low_address_page_1", "I 4 1", st(15, 0, 2) + END, gr={2: 0xFFE}, cr={0: LOW}, **TWICE)

# Wraps at 2^24 and 2^31. The last guest page before the wrap is frame 0, as page 0 is

TABLE = {4 * 19: hexes(0x40F), 0x7FC: hexes(0)}
AT24 = {**AWAY, "extent": 256, "designation": 1, "psw": psw(0, TEXT)}
AT31 = {"frames": 3, "extent": 32768, "designation": 0x107F, "segment": 0}
HIGH = {0x1000: hexes(0x1F40), 0x1F40: hexes(0), 0x2FFC: hexes(0x180F), 0x1BFC: hexes(0)}
for name, base, mem, last, where in ("2_24", AT24, TABLE, 0xFFFFFE, 0), ("2_31", AT31, HIGH, 0x7FFFFFFE, A31):
    add(f"wrap_{name}_load", "I 4 3", word(0, 15, 2) + END, gr={2: last, 15: 0x33334444}, **base,
        mem={**mem, 0xFFE: "3333", 0: "4444"})
    add(f"wrap_{name}_store", "I 4 7", st(15, 0, 2) + word(0xFFC, 13) + word(0, 14) + END, **base, mem=mem,
        gr={2: last, 13: 0x00003333, 14: 0x44440000, 15: 0x33334444})
    add(f"wrap_{name}_low_address", "I 8 0", st(15, 0, 2), gr={2: last}, cr={0: LOW}, control=0x40, **base, mem=mem)
    add(f"wrap_{name}_text", "I 4 1", "47f0", at=0xFFE, **{**base, "psw": psw(0, where | last)}, mem={**mem, 0: "0900"})
    add(f"wrap_{name}_next", "I 4 1", lr(1, 2), at=0xFFE, **{**base, "psw": psw(0, where | last)}, mem={**mem, 0: END})
    over = 0xFF000000 if where == 0 else A31
    add(f"wrap_{name}_branch", "I 4 2", bc(15, 0x500, 2) + "0000", gr={2: over, 3: over | OK}, psw=psw(0, where | TEXT),
        mem={0x500: bcr(15, 3) + "0000"})
# The entry of segment 2047 would be at 80000FFC hex, past the extent.
stored("no_wrap_2_31_table", 5, 1, old=0xFFF00002, cr={0: FORMAT, 1: 0x7FFFF07F}, mem=HIGH,
       **{**AT31, "psw": psw(DAT, 0xFFF00000)})
add("no_wrap_2_24_load", "I 8 0", load(1, 0, 2), gr={2: 0xFFFFFE}, control=0x40, mem=TABLE, **{**AT24, "psw": psw()})
add("no_wrap_2_24_branch", "I 8 1", bc(15, OK, 2), gr={2: 0x01000000}, control=0x40)

# Prefixing

add("prefix_exchanges", "I 4 6", word(0x400, 14) + word(0x400, 15, 2) + END, at=0x1000 | TEXT, prefix=0x1000,
    gr={2: 0x1000, 14: 5, 15: 6}, mem={0x1400: hexes(5), 0x400: hexes(6)}, **TWO)
add("prefix_guest_tables", "I 4 0", at=TEXT, prefix=0x1000, psw=psw(DAT), cr={0: FORMAT}, **AWAY, **TWO,
    mem={0x1000: hexes(0x1C0), 0x11C0: hexes(0x1000)})  # virtual 0 is real 1000 hex, absolute 0
add("prefix_new_psw", "I 28 1", "0000", at=0x1000 | TEXT, prefix=0x1000, mem={0x68: "", 0x1068: WAITING}, **TWO)

# System/370 guests: the record

BC_WAIT = hexes(WAIT, 0)


def basic(flags=0, right=TEXT):
    """A BC PSW."""
    return flags << 32 | right


def extended(flags=0, right=TEXT):
    """An EC PSW: bit 12 one."""
    return psw(flags, right)


def guest(mem=(), **given):
    """A System/370 guest with a BC PSW; its new PSWs are BC PSWs that wait."""
    return {"size": 208, "mode": 4, "psw": basic(), "mem": {0x60: BC_WAIT, 0x68: BC_WAIT, **dict(mem)}, **given}


def system370(name, **given):
    add("system370_" + name, **guest(**given))


def long(time=1, budget=1, **given):
    return stop(r=record(**{"size": 208, "mode": 4, "v": 0x04, **given}), time=time, budget=budget)


keep("system370_stop", "I 40 0", long())
keep("system370_no_budget", "B 0 0", long(budget=0))
keep("system370_largest", "I 40 0", stop(8, r=record(size=208, mode=4, v=0x04)))
keep("long_record_mode_10", "I 40 0", long(mode=8))
keep("long_record_version_1", "R 2", long(version=1))
keep("long_record_length_field_200", "R 9", long(length=200))
keep("long_record_length_field_200_count_1", "R 9", long(length=200, request=1))
keep("long_record_length_field_207", "R 9", long(length=207))
keep("short_record_length_field_208", "R 9", stop(r=record(length=208)))
keep("byte_201_used", "R 7", long(byte201=1))
keep("byte_203_used", "R 7", long(byte203=0x80))
keep("byte_201_used_mode_10", "R 7", long(byte201=1, mode=8))
keep("residue_out_of_range", "R 7", long(residue=FULL + 1))
keep("residue_out_of_range_inactive", "R 7", long(residue=2 ** 32 - 1, mode=5))
keep("residue_largest", "I 40 0", long(residue=FULL))
keep("long_record_version_before_byte_201", "R 2", long(version=3, byte201=1))
keep("system370_time_0", "R 6", long(time=0))
keep("system370_time_0_no_budget", "R 6", long(time=0, budget=0))
keep("long_record_time_0_mode_10", "R 6", long(time=0, mode=8))
keep("long_record_malformed_before_time_0", "R 9", long(time=0, length=200))
keep("long_record_version_before_time_0", "R 2", long(time=0, version=1))
for name, given in ("byte_66", {"byte66": 1}), ("byte_201", {"byte201": 1}), ("byte_203", {"byte203": 0x80}), \
        ("residue", {"residue": FULL + 1}), ("entry", {"mode": 0}), ("entry_prefix", {"prefix": 0x01000000, "extent": 512}):
    keep(f"long_record_time_0_before_{name}", "R 6", long(time=0, **given))
keep("long_record_malformed_no_frame_count", "R 9", struct.pack(">I", 227) + long()[4:231])
keep("long_record_malformed_byte_after", "R 9", long() + b"\0")

# Entry

add("entry_mode_04_short_record", "I 32 0", mode=4)
for mode in 0x00, 0x0C, 0x06:
    system370(f"entry_mode_{mode:02x}", line="I 32 0", mode=mode)
system370("entry_mode_bits_ignored", line="I 4 0", mode=0xF5)
system370("entry_prefix_bit_7", line="I 32 0", prefix=0x01000000, extent=512)
system370("entry_prefix_bit_1", line="I 32 0", prefix=0x40000000, extent=32768)
add("entry_prefix_bit_7_mode_10", "H 16 0", size=208, prefix=0x01000000, extent=512)
system370("entry_prefix_bits_ignored", line="I 4 0", prefix=0x80000FFF)
system370("entry_prefix_over_extent", line="I 32 0", prefix=0x10000)

# What a PSW means

system370("bc", line="I 4 0")
system370("ec", line="I 4 0", psw=extended())
system370("bc_every_mask_and_code", line="I 4 0", psw=basic(0xFF04FFFF, 0xFF000200))
system370("bc_wait", line="I 28 0", psw=basic(WAIT))
system370("ec_wait", line="I 28 0", psw=extended(WAIT))
for name, form in ("bc", basic), ("ec", extended):
    system370(name + "_problem_state", line="I 8 0", text=lpsw(0x60), psw=form(PROBLEM), control=0x40)
    system370(name + "_key", line="I 8 0", text=st(1, 0x400), psw=form(0x00100000), keys=[0x20], control=0x40)
    system370(name + "_low_address", line="I 8 0", text=st(1, 0x1FF), psw=form(), cr={0: LOW}, control=0x40)
    system370(name + "_sum_code", line="I 4 2", text=ar(1, 2) + need(8) + END, psw=form(), gr={1: 1, 2: 0xFFFFFFFF})
    system370(name + "_sum_overflows", line="I 4 2", text=ar(1, 2) + need(1) + END, psw=form(), gr={1: 0x7FFFFFFF, 2: 1})
    system370(name + "_stck_code_0", line="I 4 2", text=stck(0x400) + need(8) + END, psw=form(0x3000, TEXT))
system370("bc_condition_code", line="I 4 1", text=need(1) + END, psw=basic(0, 0x30000000 | TEXT))
system370("bc_bits_18_19_are_no_code", line="I 4 1", text=need(8) + END, psw=basic(0x3000))
system370("ec_condition_code", line="I 4 1", text=need(1) + END, psw=extended(0x3000))
OVER = {"text": ar(1, 2) + END, "gr": {1: 0x7FFFFFFF, 2: 1}, "control": 0x40}
system370("bc_overflow_bit_36", line="I 8 0", psw=basic(0, 0x08000000 | TEXT), **OVER)
system370("bc_overflow_not_bit_20", line="I 4 1", psw=basic(OVERFLOW), **OVER)
system370("ec_overflow_bit_20", line="I 8 0", psw=extended(OVERFLOW), **OVER)
for n in 1, 5, 16:
    system370(f"ec_bit_{n}", line="I 32 0", psw=extended(0x80000000 >> n))
    system370(f"bc_bit_{n}", line="I 4 0", psw=basic(0x80000000 >> n))
for n in 0, 2, 3, 4, 17, 24, 31:
    system370(f"ec_malformed_bit_{n}", line="I 8 0", psw=extended(0x80000000 >> n), control=0x40)
    system370(f"bc_bit_{n}", line="I 4 0", psw=basic(0x80000000 >> n), control=0x40)
for n in 32, 33, 39:
    system370(f"ec_malformed_bit_{n}", line="I 8 0", psw=extended(0, 0x80000000 >> n - 32 | TEXT), control=0x40)
    system370(f"bc_bit_{n}", line="I 4 0", psw=basic(0, 0x80000000 >> n - 32 | TEXT), control=0x40)
system370("order_ec_bit_16_bit_0", line="I 32 0", psw=extended(0x80008000), control=0x40)
system370("order_stop_dat", line="I 40 0", psw=extended(DAT), v=0x04)
system370("order_budget_dat", line="B 0 1", text=lpsw(0x400), mem={0x400: f"{extended(DAT):016x}"}, budget=1)
system370("dat_by_lpsw", line="I 32 1", text=lpsw(0x400), mem={0x400: f"{extended(DAT):016x}"})
system370("lpsw_bc_to_ec", line="I 4 2", text=lpsw(0x400), mem={0x400: f"{extended(0x3000, 0x500):016x}", 0x500: need(1) + END})
system370("lpsw_ec_to_bc", line="I 4 2", text=lpsw(0x400), psw=extended(),
    mem={0x400: f"{basic(0, 0x30000500):016x}", 0x500: need(1) + END})
system370("ec_malformed_by_lpsw", line="I 28 2", text=lpsw(0x400), mem={0x400: f"{extended(0x4000):016x}"})
for right in 0x200, 0xC0000200:
    system370(f"la_24_{right:08x}", line="I 4 3", text=la(1, 1, 2) + same(1, 15) + END, psw=basic(0, right),
              gr={2: 0x00FFFFFF, 15: 0})
system370("branch_24", line="I 4 1", text=bcr(15, 2), psw=basic(0, 0x80000200), gr={2: 0xFF000000 | OK})
for n in range(7):
    system370(f"bc_channel_{n}", line="I 24 0", psw=basic(0x80000000 >> n), v=0x02)
system370("bc_channels_masked", line="I 4 0", psw=basic(EXTERNAL), v=0x02)
system370("ec_io_mask", line="I 24 0", psw=extended(IO), v=0x02)
system370("ec_io_masked", line="I 4 0", psw=extended(EXTERNAL), v=0x02)
for name, form in ("bc", basic), ("ec", extended):
    system370(name + "_external_request", line="I 16 0", psw=form(EXTERNAL), v=0x01)
    system370(name + "_comparator", line="I 20 0", psw=form(EXTERNAL), clock=1, cr={0: COMPARATOR})
    system370(name + "_timer", line="I 20 0", psw=form(EXTERNAL), timer=-1, cr={0: TIMER})

# Interruptions: 136-147 keep what they have where the old PSW is BC

KEPT = 0x5A5A5A5A


def presented(name, line, place, left, right, fields, code, new=0x68, **given):
    """An interruption to a handler, which looks at the old PSW's two words and at the word of the code fields."""
    handler = word(place, 12) + word(place + 4, 13) + word(fields, 14) + END
    mem = {new: hexes(0, HANDLER), HANDLER: handler, 136: hexes(KEPT, KEPT, KEPT), **given.pop("mem", {})}
    system370(name, line=line, mem=mem, gr={12: left, 13: right, 14: code, **given.pop("gr", {})}, **given)


presented("bc_svc", "I 4 10", 32, 0xFF0400FE, 0x7F000202, 136, KEPT, 0x60, text=svc(0xFE), psw=basic(0xFF04FFFF, 0xFF000200))
presented("ec_svc", "I 4 10", 32, 0x00083000, 0x202, 136, 0x000200FE, 0x60, text=svc(0xFE), psw=extended(0x3000))
presented("bc_svc_after_branch", "I 4 11", 32, 5, 0x7F000502, 136, KEPT, 0x60, text=bc(15, 0x500),
          psw=basic(0, 0x3F000200), mem={0x500: svc(5)})
for length, text in (1, "0000"), (2, "40000000"), (3, "d20000000000"):
    presented(f"bc_operation_length_{length}", "I 4 10", 40, 1, length << 30 | TEXT + 2 * length, 140, KEPT, text=text)
    presented(f"ec_operation_length_{length}", "I 4 10", 40, 0x00080000, TEXT + 2 * length, 140, length << 17 | 1, text=text,
              psw=extended())
presented("bc_odd_address", "I 4 10", 40, 6, 0x40000203, 140, KEPT, psw=basic(0, 0x201))
presented("bc_addressing_text", "I 4 10", 40, 5, 0x40010002, 140, KEPT, psw=basic(0, 0x10000))
presented("bc_overflow_code_3", "I 4 10", 40, 8, 0x78000202, 140, KEPT, text=ar(1, 2), psw=basic(0, 0x08000200),
          gr={1: 0x7FFFFFFF, 2: 1})
presented("ec_malformed", "I 4 10", 40, 0x00084000, 0x200, 140, 6, psw=extended(0x4000))
presented("bc_old_psw_of_24_bits", "I 4 10", 40, 6, 0x40000001, 140, KEPT, psw=basic(0, 0x00FFFFFF))

# Opcodes

for op in 0x9C00, 0x9D01, 0x9E00, 0x9FFF:
    system370(f"mandatory_{op:04x}", line="I 4 0", text=s(op, 0))
    system370(f"problem_state_{op:04x}", line="I 8 0", text=s(op, 0), psw=basic(PROBLEM), control=0x40)
    add(f"operation_{op:04x}", "I 44 0", s(op, 0), control=0x80)
    add(f"long_record_operation_{op:04x}", "I 44 0", s(op, 0), control=0x80, size=208)
for op in 0x9B00, 0xA000:
    system370(f"operation_{op:04x}", line="I 44 0", text=s(op, 0), control=0x80)
for op in 0xB230, 0xB236, 0xB23C:
    system370(f"operation_{op:04x}", line="I 44 0", text=s(op, 0), control=0x80)
    system370(f"operation_before_privileged_{op:04x}", line="I 44 0", text=s(op, 0), psw=basic(PROBLEM), control=0xC0)
    add(f"long_record_mandatory_{op:04x}", "I 4 0", s(op, 0), size=208)
for op in 0x8300, 0xAE00:
    system370(f"mandatory_{op:04x}", line="I 4 0", text=s(op, 0))

# The interval timer: T

T = {"request": 0x80, "cr": {0: INTERVAL}}
for name, form in ("bc", basic), ("ec", extended):
    system370(name + "_t", line="I 20 0", psw=form(EXTERNAL), **T)
    system370(name + "_t_psw_bit_7_zero", line="I 4 0", psw=form(), **T)
    system370(name + "_t_external_request", line="I 20 0", psw=form(EXTERNAL), v=0x03, **T)
    system370(name + "_t_wait", line="I 20 0", psw=form(EXTERNAL | WAIT), **T)
system370("t_cr0_bit_24_zero", line="I 4 0", psw=basic(EXTERNAL), request=0x80)
system370("t_cr0_bit_24_zero_external_request", line="I 16 0", psw=basic(EXTERNAL), request=0x80, v=0x01)
system370("t_inactive", line="I 4 0", psw=basic(EXTERNAL), mode=5, **T)
add("t_mode_10", "I 4 0", size=208, psw=psw(EXTERNAL), **T)
system370("t_bits_1_to_7", line="I 4 0", psw=basic(EXTERNAL), request=0x7F, cr={0: INTERVAL})
system370("t_budget", line="B 0 1", text=lpsw(0x400), mem={0x400: f"{basic(EXTERNAL):016x}"}, budget=1, **T)
system370("t_malformed_first", line="I 8 0", psw=extended(EXTERNAL | 0x4000), control=0x40, **T)
system370("t_dat_first", line="I 32 0", psw=extended(EXTERNAL | DAT), **T)

# The interval timer: residue and word. Reading the word takes three units


def timed(name, line, word_before, text=END, residue=FULL, mem=(), **given):
    system370("timer_" + name, line=line, text=text, residue=residue, mem={80: hexes(word_before), **dict(mem)}, **given)


READ = word(80, 15) + END
timed("falls", "I 4 4", 0x300, lr(2, 3) + READ, gr={15: 0x200})
timed("falls_at_the_period", "I 4 4", 0x300, lr(2, 3) + READ, residue=FULL - 2, gr={15: 0x200})
timed("not_below_the_period", "I 4 4", 0x300, lr(2, 3) + READ, residue=FULL - 3, gr={15: 0x300})
timed("second_unit", "I 4 5", 0x300, lr(2, 3) + lr(2, 3) + READ, residue=FULL - 3, gr={15: 0x200})
timed("read_in_the_unit", "I 4 3", 0x300, READ, gr={15: 0x300})
timed("stored_in_the_unit", "I 4 4", 0x300, st(2, 80) + READ, gr={2: 0x1000, 15: 0xF00})
timed("stored_in_part", "I 4 4", 0x300, st(2, 78) + READ, gr={2: 0x00001234, 15: 0x12340200})
timed("wraps", "I 4 4", 0x80000010, lr(2, 3) + READ, gr={15: 0x7FFFFF10})
timed("inactive", "I 4 4", 0x300, lr(2, 3) + READ, mode=5, gr={15: 0x300})
timed("time_1", "I 4 4", 0x300, lr(2, 3) + READ, residue=FULL - 12, gr={15: 0x300})
add("long_record_timer_mode_10", "I 4 4", lr(2, 3) + READ, size=208, residue=FULL, mem={80: hexes(0x300)}, gr={15: 0x300})
timed("low_address_and_key", "I 4 4", 0x300, lr(2, 3) + READ, cr={0: LOW}, psw=basic(0x00100000), keys=[0x20], gr={15: 0x200})
timed("prefixed", "I 4 4", 0x300, lr(2, 3) + READ, at=0x1000 | TEXT, prefix=0x1000,
      mem={0x1000 | 80: hexes(0x700)}, gr={15: 0x600}, **TWO)
ON = {"psw": basic(EXTERNAL), "cr": {0: INTERVAL}}
for before, line in (0, "I 20 1"), (255, "I 20 1"), (256, "I 4 1"), (0x80000100, "I 4 1"), (0x80000000, "I 4 1"), \
        (0x800000FF, "I 4 1"), (0xFFFFFFFF, "I 4 1"), (0x7FFFFFFF, "I 4 1"):
    timed(f"word_{before:08x}", line, before, lr(2, 3) + END, **ON)
for residue, line in (FULL - 12, "I 4 4"), (FULL - 11, "I 20 4"):  # four units of time 1 add 12
    timed(f"time_1_residue_{residue}", line, 0, lr(2, 3) * 4 + END, residue=residue, **ON)
timed("word_00000000_ec", "I 20 1", 0, lr(2, 3) + END, psw=extended(EXTERNAL), cr={0: INTERVAL})
timed("t_waits_for_the_mask", "I 20 3", 0, lr(2, 3) + lr(2, 3) + lpsw(0x400), mem={0x400: f"{basic(EXTERNAL):016x}"},
      cr={0: INTERVAL})
timed("largest_time", "I 20 14", 0, bc(15, TEXT), residue=0, time=1048576, **ON)
timed("largest_time_two_falls", "I 20 27", 256, bc(15, TEXT), residue=0, time=1048576, **ON)
timed("svc_is_a_unit", "I 20 1", 0, svc(1), mem={0x60: hexes(EXTERNAL, HANDLER)}, cr={0: INTERVAL})
timed("malformed_psw_is_a_unit", "I 20 1", 0, psw=extended(0x4000), mem={0x68: hexes(EXTERNAL, HANDLER)}, cr={0: INTERVAL})
timed("an_exit_is_none", "I 4 0", 0, END, **ON)

# Two clocks. The interval timer's word falls in the unit of the first one

for name, form in ("bc", basic), ("ec", extended):
    system370(name + "_time_0_stck", line="R 6", text=TWO_CLOCKS, psw=form(), time=0)
    for time in 1, 1048576:
        system370(f"{name}_stck_twice_time_{time}", line="I 4 8", text=TWO_CLOCKS, psw=form(), time=time, gr={15: time},
                  residue=FULL)
    new = f"{form(0, HANDLER):016x}"
    for between, text, place in ("svc", svc(5), 0x60), ("operation", "0000", 0x68):
        system370(f"{name}_stck_{between}_stck", line="I 4 9", text=stck(0x400) + text, psw=form(), time=10, gr={15: 20},
                  residue=FULL, mem={place: new, HANDLER: SECOND_CLOCK})
    system370(name + "_stck_twice_epoch_wraps", line="I 4 14", text=FOUR_WORDS, psw=form(), clock=5, epoch=-6,
              gr={11: 0xFFFFFFFF, 12: 0xFFFFFFFF})

# The interval timer: host faults at its word. The prefix page is at SPOT, so that real SPOT is absolute 0

for code, entry in FAULTS.items():
    gone = {"prefix": SPOT, "psw": basic(0, SPOT | TEXT), "spot": entry, "extent": 17, "gr": {2: SPOT}}
    timed(f"host_{code}", f"H {code} 3", 0, bc(15, TEXT, 2), residue=FULL - 9, **gone)
    timed(f"host_{code}_store", f"H {code} 0", 0, st(1, 0x400, 2), **gone)
    timed(f"host_{code}_not_for_an_exit", "I 4 0", 0, END, **gone)
    timed(f"host_{code}_after_a_program_exception", "I 8 0", 0, "0000", control=0x40, **gone)
    timed(f"host_{code}_inactive", "B 0 100", 0, bc(15, TEXT, 2), mode=5, **gone)


# Which table was bad: the guest's, for text, fetch and store, and on both sides of each boundary

WALKS = {  # code, virtual address, and what dat() is given
    "segment_length": (0x10, 0x01000000, {}),
    "segment_invalid": (0x10, SPOT, {}),
    "translation_segment_bit_0": (0x12, SPOT, {"segments": (0x1C0, 0x800001C0)}),
    "page_table_length": (0x11, 0x10000, {}),
    "addressing_page_table": (5, SPOT, {"segments": (0x1C0, 0x10000)}),
    "page_invalid": (0x11, 0x1000, {}),
    "translation_page_bit_0": (0x12, 0x1000, {"pages": (0, 0x80000000)}),
    "translation_page_bit_20": (0x12, 0x1000, {"pages": (0, 0x800)}),
    "translation_page_bit_23": (0x12, 0x1000, {"pages": (0, 0x100)}),
    "addressing_by_dat": (5, 0x1000, {"pages": (0, 0x10000)}),
}
for name, (code, at, tables) in WALKS.items():
    kept = code in (0x10, 0x11)  # the address is stored, and that in the PSW is not advanced
    address = at if kept else 0
    if name != "segment_invalid":
        stored(name + "_text", code, 1, A31 | at + (0 if kept else 2), address,
               **{**dat(**tables), "psw": psw(DAT, A31 | at)})
    stored(name + "_store", code, 2, A31 | TEXT if kept else None, address, text=st(1, 0, 2), gr={2: at}, **dat(**tables))
    if at == 0x1000 and name != "page_invalid":
        stored("cross_load_" + name, code, text=load(1, 0, 2), gr={2: 0xFFE}, **dat(**tables))
stored("segment_invalid_before_bit_0", 0x10, old=A31 | TEXT, address=SPOT, text=load(1, 0, 2), gr={2: SPOT},
       **dat(segments=(0x1C0, 0x80000020)))
for n in 0, 23:
    stored(f"invalid_before_bit_{n}", 0x11, old=A31 | TEXT, address=0x1000, text=load(1, 0, 2), gr={2: 0x1000},
           **dat(pages=(0, INVALID | 0x80000000 >> n)))
stored("segment_invalid_entry_at_0", 0x10, 1, old=A31 | TEXT, **dat(segments=(0x20,)))
stored("translation_page_entry_at_0", 0x12, text=load(1, 0, 2), gr={2: SPOT}, **dat(segments=(0x1C0, 0)))
add("page_table_length_last", "I 4 1", load(1, 0, 2) + END, gr={2: 0xF000}, **dat(pages=(0, *[INVALID] * 14, 0)))
# Tables at the end of the extent, in frame 0 as page 15: the entry at FFFC hex is the last one in it.
add("segment_entry_last_in_extent", "I 4 1", load(1, 0, 2) + END, gr={2: 0x3FF00000},
    **dat(cr1=0xF040, host={15: 0}, mem={0xFFC: hexes(0x1C0)}))
stored("addressing_segment_entry", 5, text=load(1, 0, 2), gr={2: 0x40000000}, **dat(cr1=0xF040, host={15: 0}))
add("page_entry_last_in_extent", "I 4 1", load(1, 0, 2) + END, gr={2: SPOT | 0xF000},
    **dat(segments=(0x1C0, 0xFFC1), host={15: 0}))
stored("addressing_page_entry", 5, text=load(1, 0, 2), gr={2: SPOT | 0x10000}, **dat(segments=(0x1C0, 0xFFC1), host={15: 0}))
add("byte_by_dat_last_in_extent", "I 4 1", load(1, 0, 2) + END, gr={2: 0x1FFC}, **dat(pages=(0, 0xF000), host={15: 0}))
# Entries in block 0, which is absolute 1000 hex, and in the prefix block, which is absolute 0
for name, cr1, mem in [
    ("block_0", 0, {0x1000: hexes(0x1C0, 0x20), 0x11C0: hexes(0x1000, INVALID)}),
    ("prefix_block", 0x1000, {0: hexes(0x11C0, 0x20), 0x1C0: hexes(0x1000, INVALID)}),
]:
    moved = {"prefix": 0x1000, "psw": psw(DAT), "cr": {0: FORMAT, 1: cr1}, "mem": mem, "control": 0x40, **AWAY, **TWO}
    add(f"segment_invalid_in_{name}", "I 8 0", load(1, 0, 2), gr={2: SPOT}, **moved)
    add(f"page_invalid_in_{name}", "I 8 0", load(1, 0, 2), gr={2: 0x1000}, **moved)
    add(f"valid_in_{name}", "I 4 1", load(1, 0, 2) + END, gr={2: 0xFFC}, **moved)

# The host's, at SPOT, by the paths that are left

for code, entry in FAULTS.items():
    reach = {"spot": entry, "extent": 17}
    line = f"H {code} 0"
    by_dat = dat(pages=(0, SPOT), **reach)
    area = {"prefix": SPOT, "psw": psw(0, A31 | SPOT | TEXT), **reach}  # real SPOT is absolute 0
    add(f"host_{code}_store_by_dat", line, st(1, 0, 2), gr={2: 0x1000}, **by_dat)
    add(f"host_{code}_malformed_psw", line, **{**area, "psw": psw(0x4000, A31 | SPOT | TEXT)})
    if code == 4:
        add("host_protected_load_by_dat", "I 4 1", load(1, 0, 2) + END, gr={2: 0x1000}, **by_dat)
    else:
        add(f"host_{code}_load_by_dat", line, load(1, 0, 2), gr={2: 0x1000}, **by_dat)
        add(f"host_{code}_text_by_dat", line, **{**by_dat, "psw": psw(DAT, A31 | 0x1000)})
        add(f"host_{code}_segment_entry_in_block_0", line, cr={0: FORMAT}, **{**area, "psw": psw(DAT)})
        add(f"host_{code}_prefix_svc", line, svc(1), **area)
    if code in (5, 16):
        add(f"host_{code}_page_entry", line, **dat(segments=(SPOT,), **reach))
    if code in (5, 16, 18):
        add(f"host_{code}_store", line, st(1, 0, 2), gr={2: SPOT}, **reach)
    # The area of a guest exception that names a table itself
    for name, at in ("segment_invalid", SPOT), ("page_invalid", 0x1000):
        tables = dat(segments=(SPOT | 0x1C0, 0x20), pages=(SPOT, INVALID), cr1=SPOT, prefix=SPOT, **reach)
        add(f"host_{code}_area_of_{name}", line, load(1, 0, 2), gr={2: at}, **tables)
        add(f"host_{code}_no_area_of_{name}_code_8", "I 8 0", load(1, 0, 2), gr={2: at}, control=0x40, **tables)
    area["psw"] = basic(0, SPOT | TEXT)
    system370(f"host_{code}_prefix_svc", line=line, text=svc(1), **area)
    system370(f"host_{code}_prefix_program", line=line, text="0000", **area)
    system370(f"host_{code}_store", line=line, text=st(1, 0x400), **area)
    if code != 4:
        system370(f"host_{code}_load", line=line, text=load(1, 0x400), **area)
        system370(f"host_{code}_text", line=line, **{**area, "psw": basic()})
for code, entry in (5, FRAME), (17, INVALID), (18, 0x800):
    if code != 17:
        add(f"cross_load_host_{code}", f"H {code} 0", load(1, 0, 2), gr={2: 0xFFE}, host={1: entry})
    add(f"cross_store_host_{code}", f"H {code} 0", st(1, 0, 2), gr={2: 0xFFE}, host={1: entry})
    add(f"cross_text_host_{code}", f"H {code} 0", "47f0", at=0xFFE, psw=psw(0, A31 | 0xFFE), host={1: entry})
add("host_17_page_entry_at_0", "H 17 0", frames=2, segment=0, mem={0: hexes(INVALID)})
add("host_page_entry_at_0", "I 4 0", frames=2, segment=0)

# The host's, where a segment or a page is past its table, or an entry past the storage. Guest page 0, in frame 0, is host page
# 32 of segment 1023; FAR and the page before it, both in frame 1, are host pages 16 and 15 of segment 1024

FAR = 0xF0000


def far(name, line, text=END, frames=2, designation=0x40, segment=0x1401, mem=(), **given):
    """The segment table is in frames 0 and 1, the page tables at 1080 and 1400 hex. The last word of the storage is the entry
    of segment 1023 for a table in the last frame, and that of the page before FAR for a page table that ends there."""
    b = bytearray(frames * FRAME)
    parts = {TEXT: text, 0xFFC: hexes(0x1082), 0x1000: hexes(segment), 0x143C: hexes(0x1000, 0x1000), len(b) - 4: hexes(0x1082),
             0x1060: WAITING, 0x1068: WAITING, **dict(mem)}
    for place, part in parts.items():
        part = bytes.fromhex(part)
        b[place:place + len(part)] = part
    assert len(b) == frames * FRAME
    keep(name, line, pack(record(origin=0x3FF2, extent=16, **given), bytes(b), designation=designation))


FAR_DAT = {"psw": psw(DAT), "cr": {0: FORMAT},
           "mem": {0: hexes(0x1C0, FAR | 0x300), 0x1C0: hexes(0, FAR), 0x1300: hexes(0x1C0, 0)}}
FAR_AREA = {"prefix": FAR, "psw": psw(0, A31 | FAR | TEXT)}  # real FAR is absolute 0
PATHS = {  # the line where the host gives FAR, and the guest
    "text": ("I 4 0", {"psw": psw(0, A31 | FAR | TEXT), "mem": {0x1200: END}}),
    # BC 15,0, of which the second halfword is that of the segment entry
    "text_second_half": ("I 4 1", {"psw": psw(0, A31 | FAR - 2), "mem": {0x1FFE: "47f0", 0: END}, "frames": 3}),
    "load": ("I 4 1", {"text": load(1, 0x500, 2) + END, "gr": {2: FAR}}),
    "load_second_page": ("I 4 1", {"text": load(1, 0, 2) + END, "gr": {2: FAR - 2}}),
    "store": ("I 4 1", {"text": st(1, 0x500, 2) + END, "gr": {2: FAR}}),
    "store_second_page": ("I 4 1", {"text": st(1, 0, 2) + END, "gr": {1: 0x12340000, 2: FAR - 2}}),
    "load_by_dat": ("I 4 1", {"text": load(1, 0x500, 2) + END, "gr": {2: 0x1000}, **FAR_DAT}),
    "store_by_dat": ("I 4 1", {"text": st(1, 0x500, 2) + END, "gr": {2: 0x1000}, **FAR_DAT}),
    "segment_entry": ("I 4 0", {**FAR_DAT, "psw": psw(DAT, A31 | 0x0C000000 | TEXT), "cr": {0: FORMAT, 1: FAR | 12}}),
    "page_entry": ("I 4 0", {**FAR_DAT, "psw": psw(DAT, A31 | 0x00101000 | TEXT)}),
    "load_page_entry": ("I 4 1", {**FAR_DAT, "text": load(1, 0, 2) + END, "gr": {2: 0x00101000}}),
    "prefix_svc": ("I 28 1", {**FAR_AREA, "text": svc(1)}),
    "prefix_program": ("I 28 1", {**FAR_AREA, "text": "0000"}),
    "malformed_psw": ("I 28 1", {**FAR_AREA, "psw": psw(0x4000, A31 | FAR | TEXT)}),
    "timer": ("I 4 1", {"text": lr(2, 3) + END, "size": 208, "mode": 4, "residue": FULL, "prefix": FAR,
                        "psw": basic(0, FAR | TEXT)}),
}
for path, (good, given) in PATHS.items():
    end = given.get("frames", 2) * FRAME
    far(f"host_tables_{path}", good, **given)
    for name, code, bad in [
        ("segment_past_table", 16, {"designation": 0x3F}),
        ("segment_entry_past_storage", 5, {"designation": end - FRAME | 0x40}),
        ("segment_bit_0", 18, {"segment": 0x80001401}),
        ("page_past_table", 17, {"segment": 0x1400}),
        ("page_entry_past_storage", 5, {"segment": end - 64 | 1}),
    ]:
        if not ("segment" in name and "second" in path):  # the page before FAR is in its segment
            far(f"host_{name}_{path}", f"H {code} 0", **given, **bad)


def main():
    if len(sys.argv) != 2:
        sys.exit(__doc__)
    folder = sys.argv[1]
    os.makedirs(folder, exist_ok=True)
    for name, (file, line) in CASES.items():
        with open(os.path.join(folder, name + ".in"), "wb") as out:
            out.write(file)
        with open(os.path.join(folder, name + ".out"), "w") as out:
            out.write(line + "\n")


if __name__ == "__main__":
    main()
