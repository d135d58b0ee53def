#!/usr/bin/env python3
"""make.py [--check]: makes the pictures of this folder: translation, record, crates (from crates.txt) and loop. With --check it
writes nothing, and fails where a picture that is kept here is not what it makes."""
import os
import sys
from xml.sax.saxutils import escape

HERE = os.path.dirname(os.path.abspath(__file__))
CRATES = os.path.join(HERE, "..", "..", "crates.txt")
FONTS = "DejaVu Sans, Verdana, Arial, sans-serif"
INK, DIM, LINE, PAPER = "#1b2530", "#4d5a66", "#6b7783", "#fbfbf8"
GUEST, HOST, STATE, RESULT, PLAIN = "#d9e8f7", "#fbe3c8", "#dcefd8", "#f3dcec", "#eceff1"
WIDE = 0.56  # width of a character as a part of its size, on the average of a line, at most


# Drawing. Each function answers with elements of SVG, as lines.


def fits(words, width, size):
    if len(words) * size * WIDE > width:
        sys.exit(f"make.py: {words!r} is too long for {width:g}")


def text(x, y, words, size=13, anchor="start", fill=INK, bold=False):
    style = f'font-size="{size:g}" text-anchor="{anchor}" fill="{fill}"' + (' font-weight="bold"' if bold else "")
    return [f'<text x="{x:g}" y="{y:g}" {style}>{escape(words)}</text>']


def rows(x, y, lines, size=13, fill=INK, anchor="start"):
    """Lines under one another, the first with its base at y."""
    return [part for i, line in enumerate(lines) for part in text(x, y + i * (size + 5), line, size, anchor, fill)]


def frame(x, y, width, height, fill, dash=""):
    extra = f' stroke-dasharray="{dash}"' if dash else ""
    return [f'<rect x="{x:g}" y="{y:g}" width="{width:g}" height="{height:g}" rx="4" fill="{fill}" stroke="{LINE}"{extra}/>']


def box(x, y, width, height, lines, fill=PLAIN, size=14, dash=""):
    """A box with lines in its middle, the first of them in bold, the others smaller."""
    small = size - 1.5
    fits(lines[0], width, size)
    top = y + height / 2 - (len(lines) - 1) * (small + 5) / 2 + size * 0.36
    drawn = frame(x, y, width, height, fill, dash) + text(x + width / 2, top, lines[0], size, "middle", bold=True)
    for line in lines[1:]:
        fits(line, width, small)
    return drawn + rows(x + width / 2, top + small + 5, lines[1:], small, anchor="middle")


def path(points, arrow=True, dash=""):
    way = " ".join(f"{'L' if i else 'M'}{x:g} {y:g}" for i, (x, y) in enumerate(points))
    return stroke(way, arrow, dash)


def stroke(way, arrow=True, dash=""):
    extra = (' marker-end="url(#head)"' if arrow else "") + (f' stroke-dasharray="{dash}"' if dash else "")
    return [f'<path d="{way}" fill="none" stroke="{LINE}" stroke-width="1.5"{extra}/>']


def legend(x, y, entries):
    """Coloured squares in one line, with what each stands for."""
    drawn = []
    for fill, words in entries:
        drawn += frame(x, y - 12, 16, 16, fill) + text(x + 23, y + 1, words, 13, fill=DIM)
        x += 50 + len(words) * 7.2
    return drawn


def svg(width, height, title, drawn):
    head = ('<defs><marker id="head" viewBox="0 0 8 8" refX="7" refY="4" markerWidth="8" markerHeight="8" orient="auto">'
            f'<path d="M0 0 L8 4 L0 8 z" fill="{LINE}"/></marker></defs>')
    size = f'viewBox="0 0 {width:g} {height:g}" width="{width:g}" height="{height:g}"'
    paper = f'<rect x="0.5" y="0.5" width="{width - 1:g}" height="{height - 1:g}" rx="6" fill="{PAPER}" stroke="{LINE}"/>'
    first = f'<svg xmlns="http://www.w3.org/2000/svg" {size} font-family="{FONTS}" role="img">'
    heading = text(30, 36, title, 17, bold=True)
    return "\n".join([first, f"<title>{escape(title)}</title>", head, paper, *heading, *drawn, "</svg>"]) + "\n"


# The two-level translation.

LEVELS = [
    (["guest virtual", "24 or 31 bits"], GUEST),
    (["guest real"], GUEST),
    (["guest absolute"], GUEST),
    (["host virtual", "31 bits"], HOST),
    (["host absolute", "a place in storage"], HOST),
    (["the byte", "fetched or stored"], STATE),
]

# What leads from one level to the next: colour, heading, tests in their order.
STEPS = [
    (GUEST, "The guest's tables, if DAT (PSW bit 5) is on; else real is virtual", [
        "System/370 has DAT off: BC has no such bit; EC with it one is code 32",
        "a store to 0-511 with CR0 bit 3 one, DAT on or off: 4, protection",
        "CR0 bits 8-12 are not 10110: 12 hex, translation specification",
        "the walk from CR1 on: 10, 11 or 12 hex. Each of its entries stands at a",
        "guest real address, and is read by the three steps below, without keys",
    ]),
    (GUEST, "Prefixing", ["real page 0 and the prefix page change places"]),
    (GUEST, "The extent, and only then the origin", [
        "at or above extent x 64 KiB: 5, addressing",
        "host virtual is origin x 64 KiB plus guest absolute",
    ]),
    (HOST, "The host's tables, from the designation that is handed in", [
        "the walk: host fault 10, 11 or 12 hex",
        "an entry, or the frame, is beyond storage: host fault 5",
    ]),
    (PLAIN, "Protection", [
        "a store, and bit 22 of the guest's page entry is one: 4",
        "access key not 0 and not the frame's; a store, or key bit 4 one: 4",
        "a store, and bit 22 of the host's page entry is one: host fault 4",
    ]),
]

# The walk: what it goes through, and the tests made there.
WALK = [
    (["designation", "1-19 table, x 4096", "25-31 length"], ["index / 16 above length:", "10 hex"]),
    (["segment entry", "at table + 4 x index", "1-25 table, x 64", "28-31 length"],
     ["bit 26: 10 hex", "bit 0: 12 hex", "index / 16 above length:", "11 hex"]),
    (["page entry", "at table + 4 x index", "1-19 page or frame", "22 protected"],
     ["bit 21: 11 hex", "bits 0, 20, 23: 12 hex"]),
    (["real page (guest)", "or frame (host)", "then the byte, 12 bits"], []),
]


def step_box(middle, step):
    fill, heading, tests = step
    fits(heading, 540, 13.5)
    for line in tests:
        fits(line, 540, 13)
    height = 35 + 18 * len(tests)
    y = middle - height / 2
    return frame(280, y, 550, height, fill) + text(294, y + 21, heading, 13.5, bold=True) + rows(294, y + 41, tests)


def levels():
    drawn = []
    for i, (names, fill) in enumerate(LEVELS):
        y = 60 + 104 * i
        drawn += box(30, y, 190, 46, names, fill)
        if i < len(STEPS):
            drawn += path([(125, y + 46), (125, y + 103)]) + path([(280, y + 75), (131, y + 75)], arrow=False, dash="2 4")
            drawn += step_box(y + 75, STEPS[i])
    return drawn


def walk(y):
    drawn = frame(30, y, 840, 214, PAPER) + text(44, y + 24, "The walk, one for guest and host", 14, bold=True)
    drawn += text(340, y + 24, "31-bit address: segment index 11 bits, page index 8, byte 12", 13, fill=DIM)
    for i, (names, tests) in enumerate(WALK):
        x = 44 + 208 * i
        drawn += box(x, y + 40, 184, 84, names, PLAIN, 13.5) + rows(x + 6, y + 146, tests, 12.5)
        if i:
            drawn += path([(x - 24, y + 82), (x - 2, y + 82)])
    return drawn


def translation():
    entries = path([(830, 135), (852, 135), (852, 447), (832, 447)])
    entries += path([(852, 239), (832, 239)]) + path([(852, 343), (832, 343)])
    key = legend(30, 664, [(GUEST, "the guest's program exceptions"), (HOST, "host faults"), (PLAIN, "both")])
    title = "From a guest address to a byte of storage: the tests of one byte, in their order"
    return svg(900, 922, title, levels() + entries + key + walk(688))


# The record.

# Lines of eight bytes: first byte, length, colour, name and what stands there.
KEPT = PLAIN
FIELDS = [
    (0, 2, KEPT, ["length", "200 or 208"]), (2, 1, KEPT, ["version", "1 or 2"]), (3, 1, KEPT, ["V", "5 stop, 6 I/O", "7 external"]),
    (4, 1, KEPT, ["mode", "4-5: 10, 01", "6: zero", "7: timer off"]), (5, 1, KEPT, ["controls", "0 op., 1 prog.", "2 LPSW"]),
    (6, 2, KEPT, ["LCTL controls", "bit i: control register i"]),
    (8, 4, KEPT, ["prefix", "bits 1-19: number of the prefix page; in mode 01, 1-7 zero"]),
    (12, 2, KEPT, ["origin", "in blocks of 64 KiB"]),
    (14, 2, KEPT, ["extent", "in blocks of 64 KiB"]),
    (16, 8, STATE, ["PSW"]), (24, 8, STATE, ["CPU timer"]),
    (32, 8, KEPT, ["clock comparator"]), (40, 8, KEPT, ["epoch difference"]),
    (48, 1, KEPT, ["SVC flags", "0 all", "1-3 by number"]), (49, 1, KEPT, ["SVC", "number 1"]),
    (50, 1, KEPT, ["SVC", "number 2"]), (51, 1, KEPT, ["SVC", "number 3"]),
    (52, 1, RESULT, ["code"]), (53, 1, RESULT, ["ILC"]), (54, 2, RESULT, ["interruption code"]),
    (56, 4, RESULT, ["address"]), (60, 4, RESULT, ["instruction text, first four bytes"]),
    (64, 2, RESULT, ["text, last two bytes"]), (66, 6, KEPT, ["zero"]),
    (72, 4, STATE, ["CR0"]), (76, 4, STATE, ["CR1"]), (128, 4, STATE, ["CR14"]), (132, 4, STATE, ["CR15"]),
    (136, 4, STATE, ["GR0"]), (140, 4, STATE, ["GR1"]), (192, 4, STATE, ["GR14"]), (196, 4, STATE, ["GR15"]),
    (200, 1, STATE, ["request", "0 is T"]), (201, 3, KEPT, ["zero"]), (204, 4, STATE, ["residue", "0 to 40,959,999"]),
]

# The lines, by the first byte of each: how high it is, and what stands between it and the one above.
LOW, HIGH = 42, 56
LINES = {
    0: (74, ""), 8: (HIGH, ""), 16: (LOW, ""), 24: (LOW, ""), 32: (LOW, ""), 40: (LOW, ""), 48: (HIGH, ""), 56: (LOW, ""),
    64: (LOW, ""), 72: (LOW, ""), 128: (LOW, "control registers 2 to 13"), 136: (LOW, ""),
    192: (LOW, "general registers 2 to 13"), 200: (LOW, "in version 2 alone, for the interval timer"),
}

# The PSW's forms: what is said of each, and its bits by name, numbers and width.
STATES = [("key", "8-11", 46), ("one", "12", 40), ("m.c.", "13", 42), ("wait", "14", 42), ("prob.", "15", 46)]
LEFT = [("zero", "0", 46), ("PER", "1", 40), ("zero", "2-4", 46), ("DAT", "5", 40), ("I/O", "6", 36), ("ext.", "7", 38), *STATES,
        ("sec.", "16", 40), ("zero", "17", 46), ("cc", "18-19", 48), ("ovfl.", "20", 46), ("masks", "21-23", 56)]
PSW = [
    ("The PSW of 370-XA, mode 10; bit 32 is the addressing mode (one: 31 bits), bits 33-63 are the instruction address",
     [*LEFT, ("zero", "24-31", 62)]),
    ("EC, a PSW of System/370, mode 01; bits 40-63 are the instruction address, of 24 bits", [*LEFT, ("zero", "24-39", 62)]),
    ("BC, the other PSW of System/370; bits 16-33 stay as loaded", [
        ("channels", "0-5", 70), ("others", "6", 54), ("ext.", "7", 38), STATES[0], ("zero", "12", 42), *STATES[2:],
        ("interruption code", "16-31", 128), ("ILC", "32-33", 48), ("cc", "34-35", 48), ("ovfl.", "36", 46),
        ("masks", "37-39", 56), ("address", "40-63", 64)]),
]


def tops(y):
    """Where each line of the record starts, from y on, and where the last one ends."""
    found = {}
    for first, (height, above) in LINES.items():
        found[first] = y = y + (24 if above else 0)
        y += height
    return found, y


def cell(y, first, length, fill, lines):
    return box(84 + first % 8 * 98, y, 98 * length, LINES[first // 8 * 8][0], lines, fill, 12.5)


def psw(y):
    drawn = []
    for words, bits in PSW:
        drawn, x = drawn + text(30, y - 12, words, 13, fill=DIM), 84
        for name, which, width in bits:
            drawn += box(x, y, width, 40, [name, which], STATE, 11.5)
            x += width
        y += 82
    return drawn


def record():
    top, end = tops(60)
    drawn = []
    for field in FIELDS:
        drawn += cell(top[field[0] // 8 * 8], *field)
    for first, (_, above) in LINES.items():
        drawn += text(74, top[first] + 24, str(first), 13, "end", DIM)
        drawn += text(476, top[first] - 9, above, 12.5, "middle", DIM) if above else []
    key = [(STATE, "state: changed by units"), (RESULT, "results: set by the end of a run"), (KEPT, "kept by every operation")]
    title = "The record: 200 bytes, 208 in version 2; eight to a line, by the number of the first"
    return svg(900, end + 322, title, drawn + legend(84, end + 32, key) + psw(end + 94))


# The crates, from crates.txt. Layers, with a place in each layer that a long line passes.

CALLERS = "C programs"
NO_CODE = {"machine", "desk", "laws", "witnesses", "blocks", "steps", "remaining"}
ROW, BOX, TALL = 64, 108, 32


def read_crates():
    """Each crate of the file with those that it names, and the callers in C over drevokas_c."""
    with open(CRATES) as file:
        listed = {name.split()[0]: rest.split() for name, rest in (line.split(":", 1) for line in file if line.strip())}
    crates = {name: [other for other in rest if other in listed] for name, rest in listed.items()}
    crates[CALLERS] = ["drevokas_c"]
    return crates


def below(crates, name):
    """Everything that a crate stands on."""
    found = set(crates[name])
    for other in crates[name]:
        found |= below(crates, other)
    return found


def direct(crates):
    """Each crate with those that it names and that no other one of these stands on."""
    under = {name: below(crates, name) for name in crates}
    return {name: [o for o in rest if not any(o in under[other] for other in rest)] for name, rest in crates.items()}


def layer_of(crates, name):
    return 1 + max((layer_of(crates, other) for other in crates[name]), default=-1)


def chains(crates):
    """The lines, each as its nodes from the upper crate to the lower. A node is a layer and a name; where a line only passes,
    the name is the pair of crates that it joins."""
    found = []
    for name, rest in crates.items():
        top = layer_of(crates, name)
        for other in rest:
            bottom = layer_of(crates, other)
            found.append([(top, name)] + [(at, (name, other)) for at in range(top - 1, bottom, -1)] + [(bottom, other)])
    return found


def layers(lines, crates):
    """The nodes by layer, those of the file first."""
    nodes = [[] for _ in range(1 + max(layer_of(crates, name) for name in crates))]
    for node in [(layer_of(crates, name), name) for name in crates] + [node for line in lines for node in line]:
        if node not in nodes[node[0]]:
            nodes[node[0]].append(node)
    return nodes


def neighbours(lines):
    found = {}
    for line in lines:
        for upper, lower in zip(line, line[1:]):
            found.setdefault(upper, {"down": [], "up": []})["down"].append(lower)
            found.setdefault(lower, {"down": [], "up": []})["up"].append(upper)
    return found


def crossings(nodes, near):
    count = 0
    for layer, under in zip(nodes[1:], nodes):
        ends = [under.index(lower) for node in layer for lower in sorted(near[node]["down"], key=under.index)]
        starts = [i for i, node in enumerate(layer) for _ in near[node]["down"]]
        count += sum(1 for i in range(len(ends)) for j in range(i) if starts[j] < starts[i] and ends[j] > ends[i])
    return count


def sorted_by(layer, beside, near, way):
    """A layer in the order of the means of its neighbours' places."""
    place = {node: i for i, node in enumerate(beside)}

    def mean(node):
        others = [place[other] for other in near[node][way]]
        return sum(others) / len(others) if others else layer.index(node)
    return sorted(layer, key=mean)


def ordered(nodes, near):
    """The layers, sorted up and down in turn; of all these orders the one with the fewest crossings."""
    best = nodes
    for turn in range(24):
        nodes = [list(layer) for layer in nodes]
        order = range(1, len(nodes)) if turn % 2 == 0 else range(len(nodes) - 2, -1, -1)
        for at in order:
            way, beside = ("down", nodes[at - 1]) if turn % 2 == 0 else ("up", nodes[at + 1])
            nodes[at] = sorted_by(nodes[at], beside, near, way)
        best = min(best, nodes, key=lambda some: crossings(some, near))
    return best


def wide(node):
    return BOX if isinstance(node[1], str) else 8


def apart(left, right):
    return (wide(left) + wide(right)) / 2 + 20


def spread(layer, wanted):
    """Places near those wanted, far enough from one another: the mean of two passes, one from each side."""
    right, left = dict(wanted), dict(wanted)
    for a, b in zip(layer, layer[1:]):
        right[b] = max(right[b], right[a] + apart(a, b))
    for a, b in zip(layer[::-1], layer[-2::-1]):
        left[b] = min(left[b], left[a] - apart(a, b))
    return {node: (left[node] + right[node]) / 2 for node in layer}


def pull(node, other):
    """How much two neighbours want to stand one above the other: more where both are places that a line passes."""
    return 8 if wide(node) == wide(other) < BOX else 1


def placed(nodes, near):
    """The middle of each node, drawn to the mean of its neighbours."""
    x = {}
    for layer in nodes:
        x.update(spread(layer, {node: 0 for node in layer}))
    for turn in range(60):
        for layer in nodes if turn % 2 else nodes[::-1]:
            wanted = {}
            for node in layer:
                others = [x[other] for way in near[node].values() for other in way for _ in range(pull(node, other))]
                wanted[node] = sum(others) / len(others)
            x.update(spread(layer, wanted))
    least = min(at - wide(node) / 2 for node, at in x.items())
    return {node: round(at - least + 30, 1) for node, at in x.items()}


def curve(points):
    """A line that is upright where it starts, passes a layer or ends."""
    way = f"M{points[0][0]:g} {points[0][1]:g}"
    for (x, y), (to, at) in zip(points, points[1:]):
        way += f" C{x:g} {(y + at) / 2:g} {to:g} {(y + at) / 2:g} {to:g} {at:g}"
    return stroke(way)


def edge(line, x, top):
    """From the foot of the upper box, by what it passes, to the head of the lower one."""
    points = [(x[line[0]], top(line[0]) + TALL)]
    for node in line[1:-1]:
        points += [(x[node], top(node)), (x[node], top(node) + TALL)]
    return curve(points + [(x[line[-1]], top(line[-1]) - 1)])


def crates():
    listed = direct(read_crates())
    lines = chains(listed)
    near = neighbours(lines)
    nodes = ordered(layers(lines, listed), near)
    x = placed(nodes, near)
    height = 70 + ROW * len(nodes)
    drawn = []
    for line in lines:
        drawn += edge(line, x, lambda node: height - ROW * (node[0] + 1))
    for name in listed:
        node = (layer_of(listed, name), name)
        left, y = x[node] - BOX / 2, height - ROW * (node[0] + 1)
        fill, dash = (PLAIN, "4 3") if name == CALLERS else (GUEST if name in NO_CODE else STATE, "")
        drawn += box(left, y, BOX, TALL, [name], fill, 12.5, dash)
    key = legend(30, height + 2, [(GUEST, "the definition, and proofs about it"), (STATE, "code, proved"), (PLAIN, "C, tested")])
    width = max(max(x.values()) + BOX / 2 + 30, 520)
    return svg(width, height + 24, "The crates: an arrow leads to what is imported", drawn + key)


# The host's loop around run.

ENDS = [
    (PLAIN, ["R: refused", "kind 0, numbers 1 to 7"], ["No byte is changed.", "", "The host mends what it", "handed in."]),
    (STATE, ["B: budget used", "kind 3"], [
        "All units are done.", "", "The host does its own", "work, and hands out", "more units."]),
    (HOST, ["H: host fault", "kind 2, a program code"], [
        "The unit is undone whole.", "", "The host mends the page", "of *where in its tables:", "4: it is protected",
        "5: beyond storage", "10, 11, 12 hex: its entries"]),
    (RESULT, ["I: intercepted", "kind 1, a code"], [
        "The host acts by code:", "4: simulates it", "8, 44: mends or presents it", "16, 24: presents, clears V",
        "20: presents, or time is up", "28: waits", "32: mends the record", "40: stopped, clears V"]),
]


def end_column(i, fill, heads, lines):
    x = 30 + 217 * i
    for line in lines:
        fits(line, 204, 12.5)
    return (path([(455, 222), (455, 240), (x + 100, 240), (x + 100, 262)]) + box(x, 264, 200, 48, heads, fill)
            + rows(x + 4, 336, lines, 12.5) + path([(x + 100, 336 + 17.5 * len(lines)), (x + 100, 508)], arrow=False))


def loop():
    drawn = box(30, 62, 210, 62, ["The host", "makes record, storage,", "keys and its tables"], PLAIN)
    drawn += path([(240, 93), (333, 93)])
    drawn += box(335, 62, 240, 62, ["drevokas_run", "designation, clock, time,", "budget"], GUEST)
    drawn += path([(455, 124), (455, 174)]) + text(466, 154, "answer: kind, number, stage, units; *where", 13, fill=DIM)
    drawn += box(335, 176, 240, 46, ["clock += units x time", "whatever the end"], PLAIN)
    for i, end in enumerate(ENDS):
        drawn += end_column(i, *end)
    drawn += path([(130, 508), (915, 508), (915, 93), (578, 93)])
    drawn += rows(30, 534, [
        "The same call again, with record, storage and keys as the run left them and as the host mended them. The library",
        "keeps nothing between calls; a run that is cut at any unit and resumed so is the uncut run (theorem resumption)."],
        13, DIM)
    return svg(940, 574, "The host's loop around run", drawn)


PICTURES = {"translation.svg": translation, "record.svg": record, "crates.svg": crates, "loop.svg": loop}


def kept(name):
    try:
        with open(os.path.join(HERE, name)) as file:
            return file.read()
    except FileNotFoundError:
        return ""


def main():
    check = sys.argv[1:] == ["--check"]
    if sys.argv[1:] and not check:
        sys.exit(__doc__)
    differ = [name for name, make in PICTURES.items() if kept(name) != make()]
    if check:
        for name in differ:
            print(f"docs/pictures/{name}: not what docs/pictures/make.py makes: run it, and look at the picture")
        print(f"{len(PICTURES)} pictures, {len(differ)} differ")
        sys.exit(bool(differ))
    for name in differ:
        with open(os.path.join(HERE, name), "w") as file:
            file.write(PICTURES[name]())


main()
