"""What the tests of the command have in common: its calls (it is the first argument), case files taken apart, their tables
walked by a model of document 01's rules, and the count of tests."""
import os
import struct
import subprocess
import sys

COMMAND = os.path.abspath(sys.argv[1])
FRAME = 4096
INVALID, MALFORMED = 0x400, 0x80000900  # bits of a page entry
tests = failures = 0


def expect(good, what):
    global tests, failures
    tests += 1
    if not good:
        failures += 1
        print(f"{os.path.basename(sys.argv[0])}: {what[:1000]}")


def report():
    """Prints the count, and ends with status 1 if a test has failed."""
    print(f"{os.path.basename(sys.argv[0])}: {tests} tests, {failures} failed")
    sys.exit(failures > 0)


def call(*arguments, text=b""):
    """Exit status, standard output and standard error."""
    p = subprocess.run([COMMAND, *arguments], input=text, stdout=subprocess.PIPE, stderr=subprocess.PIPE, timeout=20)
    return p.returncode, p.stdout, p.stderr.decode()


def read(name):
    with open(name, "rb") as f:
        return f.read()


def write(name, data):
    with open(name, "wb") as f:
        f.write(data)
    return name


def record_size(data):
    """The bytes of the record in a case file, by its length field."""
    return 208 if data[23:25] == bytes([0, 208]) else 200


class Case:
    """A case file taken apart; storage is all frames together."""

    def __init__(self, data):
        self.length, self.version, self.designation, self.clock, self.time, self.budget = struct.unpack(">IBIQIH", data[:23])
        count = 23 + record_size(data)
        self.record, self.frames = data[23:count], data[count]
        self.keys = data[count + 1:count + 1 + self.frames]
        self.storage = data[count + 1 + self.frames:]

    def words(self, at, count):
        return [f"{w:08x}" for w in struct.unpack(f">{count}I", self.storage[at:at + 4 * count])]

    def hex(self, at, count):
        return self.storage[at:at + count].hex()


class Tables(Case):
    """A case file whose tables can be walked."""

    def field(self, at, size):
        return int.from_bytes(self.record[at:at + size], "big")

    def word(self, at):
        return struct.unpack(">I", self.storage[at:at + 4])[0]

    def host_place(self, at):
        return at if at < len(self.storage) else None

    def real_place(self, at):
        """A guest real address in storage; None if it is beyond the extent, or if the host has no such page."""
        prefix, origin, extent = self.field(8, 4) & 0x7ffff000, self.field(12, 2), self.field(14, 2)
        block = at & ~0xfff
        absolute = at | prefix if block == 0 else at & 0xfff if block == prefix else at
        if at >= extent * 65536:
            return None
        place = self.entry_at(origin * 16 + absolute // FRAME)
        entry = INVALID if place is None else self.word(place)
        if entry & (INVALID | MALFORMED) or (entry & 0x7ffff000) >= len(self.storage):
            return None
        return (entry & 0x7ffff000) + at % FRAME

    def place_of(self, virtual):
        return self.real_place if virtual else self.host_place

    def segment(self, number, virtual):
        """A segment entry; an invalid one if it is out of reach or malformed."""
        designation = self.field(76, 4) if virtual else self.designation
        if number >> 4 > designation & 0x7f:
            return 0x20
        place = self.place_of(virtual)((designation & 0x7ffff000) + 4 * number)
        return 0x20 if place is None or self.word(place) & 0x80000000 else self.word(place)

    def entry_at(self, page, virtual=False):
        """Where a page's entry stands in storage, by the host's tables or by the guest's; None if it is out of reach."""
        segment = self.segment(page >> 8, virtual)
        if segment & 0x20 or page >> 4 & 15 > segment & 15:
            return None
        return self.place_of(virtual)((segment & 0x7fffffc0) + 4 * (page & 255))

    def entries(self, virtual=False):
        """The entries in reach in the first 32 segments, by their pages."""
        segments = {number: self.segment(number, virtual) for number in range(32)}
        pages = [number << 8 | page for number, segment in segments.items() if not segment & 0x20
                 for page in range(((segment & 15) + 1) * 16)]
        places = {page: self.entry_at(page, virtual) for page in pages}
        return {page: self.word(place) for page, place in places.items() if place is not None}


def made(text, *options, what="text"):
    """The case file of a text that is good."""
    status, out, err = call("make", "-", *options, text=text.encode())
    expect(status == 0 and err == "", f"{what}: exit status {status}: {err}")
    if status != 0:
        report()
    return Case(out)
