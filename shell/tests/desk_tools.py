"""What the tests of `desk` and `unbacked` have in common: calls as a shell's foreground job, the pages of the extent by a model
of the rules, guests that are made for it, and pseudo-random ones."""
import os
import resource
import signal
import struct
import subprocess

import tools
from tools import COMMAND, FRAME, INVALID, MALFORMED, Tables, expect, read

FILES = os.path.join(os.path.dirname(os.path.abspath(__file__)), "../../tests/cases/files")
PROTECTED = 0x200  # a bit of a page entry
ENDS = (signal.SIGHUP, signal.SIGINT, signal.SIGTERM)
checked = {}  # what check says, by record


def call(*arguments, environment=None, text=None, **options):
    """Exit status, standard output and standard error."""
    streams = {"stdout": subprocess.PIPE, "stderr": subprocess.PIPE, **options}
    streams.update({"stdin": subprocess.DEVNULL} if text is None else {"input": text})
    p = subprocess.run([COMMAND, *arguments], env=dict(os.environ, **(environment or {})), timeout=60, preexec_fn=prepare,
                       **streams)
    return p.returncode, p.stdout or b"", (p.stderr or b"").decode()


def prepare():
    """In the new process: signals as a shell's foreground job has them, and no core files."""
    resource.setrlimit(resource.RLIMIT_CORE, (0, 0))
    signal.pthread_sigmask(signal.SIG_SETMASK, ())
    for number in (*ENDS, signal.SIGPIPE):
        signal.signal(number, signal.SIG_DFL)


def says(arguments, message, **options):
    """Nothing is printed, and this is said; the exit status is 2."""
    status, out, err = call(*arguments, **options)
    expect((status, out) == (2, b"") and message in err, f"{arguments}: {status}, {out[:80]}, {err}; and not {message}")


def made(text):
    status, out, err = tools.call("make", "-", text=text.encode())
    expect(status == 0, f"{text}: {err}")
    return out


class Extent(Tables):
    """A case file, and which pages of its guest are valid."""

    def __init__(self, data):
        super().__init__(data)
        self.data = data
        self.first, self.pages = self.field(12, 2) * 16, self.field(14, 2) * 16
        self.places = [self.entry_at(self.first + page) for page in range(self.pages)]

    def is_valid(self, page):
        return self.places[page] is not None and not self.word(self.places[page]) & (INVALID | MALFORMED)


def entry_answer(name):
    """What check says of the record, if it is not good: "R 2" and its sentence, or "I 32" and its sentence."""
    record = Tables(read(name)).record
    if record not in checked:
        line = tools.call("check", name)[1].decode().rstrip("\n")
        checked[record] = None if line == "good" else line.split(": ", 1)
    return checked[record]


# Guests that are made for it

TABLES = "designation = X'1000'\nextent = 18\n"  # pages 0 to 287: host segments 0 and 1
WORDS = {0x1000: 0x2000, 0x1004: 0x2400, 0x2000: 0x5000, 0x2004: 0x6200, 0x2008: 0x400, 0x200C: 0x9000, 0x2010: 0x80000900,
         0x2014: 0x5A00, 0x2018: 0x7C33, 0x201C: 0x7055, **{at: 0x400 for at in range(0x2020, 0x2040, 4)},
         **{at: 0x400 for at in range(0x2400, 0x2440, 4)}}


def guest(settings="", words=None):
    """A case file: settings of which those after the first win, and words by their places in storage."""
    lines = {line.split("=")[0].strip(): line for line in (TABLES + settings).split("\n") if line}
    contents = sorted({**WORDS, **(words or {})}.items())
    contents = [f"at frame {at >> 12} X'{at & 0xFFF:X}'\nword X'{word:X}'" for at, word in contents]
    return made("\n".join([*lines.values(), *contents]) + "\n")


# Pseudo-random guests

def random_entry(r):
    bits = r.choice([0, 0, 0, 0, INVALID, INVALID, PROTECTED, 0x800, 0x100, 0x80000000, 0x55])
    return r.randrange(9) * FRAME | bits


def random_case(r):
    """Two segments whose tables are in frame 0, apart from the guest, or anywhere, often on one another."""
    frames, tidy = r.choice([2, 4, 8]), r.randrange(2)
    storage = bytearray(frames * FRAME)
    segment = 0 if tidy else r.randrange(frames) * FRAME
    for at in segment, segment + 4:
        table = (0 if tidy else r.randrange(frames) * FRAME) + r.choice([0x40, 0x400, 0]) + r.choice([0, 0, 1, 15])
        struct.pack_into(">I", storage, at, table | r.choice([0] * 8 + [0x20, 0x80000000]))
        for page in range(1 if table < 16 else 0, 16):
            entry = random_entry(r) if r.randrange(3) else INVALID
            struct.pack_into(">I", storage, (table & ~63) + page * 4, entry | FRAME if tidy else entry)
    origin = r.choice([0, 0, 15, 16])
    extent = r.choice([1, 1, 2, 17, 32])
    version = r.choice([1, 2])
    record = bytearray([200, 208][version - 1])
    struct.pack_into(">HBBB", record, 0, len(record), version, r.randrange(256), 8 if version == 1 else r.choice([4, 8]))
    struct.pack_into(">IHH", record, 8, r.choice([0, FRAME]), origin, extent)
    body = (struct.pack(">BIQIH", 1, segment | r.choice([0, 0, 1]), 0, 1, 1) + record + bytes([frames]) +
            bytes(r.randrange(256) for _ in range(frames)) + storage)
    return struct.pack(">I", len(body)) + body
