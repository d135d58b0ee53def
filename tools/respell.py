#!/usr/bin/env python3
"""respell.py [--list]: turns the names that specs/ and proofs/ declare to the spelling of today's Rattle.

Run once, at the top of the repository, after the toolchain's own port script. Words are in snake case, and a dash joins the names
of two definitions: withCpu becomes with_cpu, cpu-of-withCpu becomes cpu_of-with_cpu, entry-placed becomes entry_placed. Types and
facts, which begin with a capital, stay; so do the names of src/, of goals and of steps in proofs. Where a lemma would fall together
with a definition, a field or another lemma, it gets _lem. The files of crates/ are rewritten in place: .antt, .rt, and the edits of
must-fail/. --list prints old and new names, and writes nothing.
"""

import collections
import glob
import re
import sys

WORD = r"[^\s(){}\[\],;:.`'\"λ=→∷+*/%^≤<≡∙⊎×∘|&¬«»↦?-]"
TOKEN = re.compile(r"(\.?)((?:%s|(?<=[\w'])-(?=[\w'])|')+)" % WORD)
DECLARED = re.compile(r"^(\s*)((?:(?:pub|unfoldable|abbrev|ruleset)\s+)*)([^\s:(){}]+)\s*:\s*(\S*)")
# std's names that lemmas of this repository are about
LIBRARY = {"length", "append", "get_or", "set", "sets", "take", "drop", "map", "cond", "eqb", "ltb", "leb", "add", "sub", "mul", "div", "mod", "zero", "one"}
# words of sentences that definitions have for names too
PLAIN = {"a", "all", "at", "by", "cut", "ends", "first", "goes", "here", "in", "is", "kept", "lasts", "left", "more", "none", "of", "on", "one", "second", "to", "with"}
# libraries of the toolchain that are named as crates are
KIT = {"std", "core", "std_alloc", "std_collections", "io", "bytes", "libc", "os"}


def sources():
    return sorted(glob.glob("crates/*/specs/**/*.antt", recursive=True) + glob.glob("crates/*/proofs/**/*.antt", recursive=True))


def snake(word):
    if not re.match(r"[a-z]", word):
        return word
    word = re.sub(r"(?<=[a-z0-9])([A-Z])", lambda m: "_" + m.group(1).lower(), word)
    return re.sub(r"_([A-Z])", lambda m: "_" + m.group(1).lower(), word)


def declarations():
    """The names that are declared: definitions and fields of specs/, and all others."""
    defined, fields, others = set(), set(), collections.defaultdict(set)
    for f in sources():
        inside = None
        with open(f, encoding="utf-8") as it:
            for line in it:
                if re.match(r"(abbrev )?(pub )?(record|data)\b", line):
                    inside = "data" if "data " in line else "record"
                elif re.match(r"\S", line):
                    inside = None
                m = DECLARED.match(line)
                if not m or m.group(3) in ("let", "open", "use") or m.group(4).startswith(("tie.", "goal.")):
                    continue
                name = m.group(3)
                if m.group(4) == "{M" and name.endswith(("-spec", "_spec")):
                    continue
                if inside == "record" and m.group(1):
                    fields.add(name)
                elif "/specs/" in f:
                    defined.add(name)
                else:
                    others[name].add(f)
    return defined, fields, others


def dashes(name, words):
    """A dash stays between the names of two definitions."""
    parts = [snake(p) for p in name.split("-")]
    out = parts[0]
    for i, p in enumerate(parts[1:], 1):
        before = out.split("-")[-1].split("_")
        left = any("_".join(before[k:]) in words for k in range(len(before)))
        rest = "_".join(parts[i:]).split("_")
        right = any("_".join(rest[:k]) in words for k in range(1, len(rest) + 1)) or re.match("[A-Z]", p)
        out += ("-" if left and right else "_") + p
    return out


def renamings():
    defined, fields, others = declarations()
    words = {snake(d) for d in defined if "-" not in d} | {d for d in defined if re.match("[A-Z]", d)} | LIBRARY
    words -= PLAIN
    to = {}
    for name in sorted(defined | fields | set(others)):
        if not re.match(r"[a-zA-Z]", name):
            continue
        to[name] = dashes(name, words)
    taken = {to.get(n, n) for n in defined | fields}
    new = {}
    for name in sorted(to):
        if name not in defined | fields:
            if to[name] in taken:
                to[name] += "_lem"
            taken.add(to[name])
        if to[name] != name:
            new[name] = to[name]
    return new, defined, fields, others


def foreign(text):
    """The names that a file has from the toolchain's library."""
    found = set()
    for path, names in re.findall(r"\buse ([^;{}\s]+)\.\{([^}]*)\}", text):
        if path.split(".")[0] != "Rattle" or path.split(".")[1] in KIT:
            found |= set(names.replace(",", " ").split())
    return found


def turned(text, new, fields):
    others = foreign(text)

    def turn(m):
        dot, word = m.groups()
        if word in others or dot and word not in fields and "-" in word:
            return m.group(0)
        return dot + new.get(word, word)

    return TOKEN.sub(turn, text)


def main(argv):
    new, defined, fields, others = renamings()
    if argv == ["--list"]:
        for name in sorted(new):
            print(name, new[name])
        return 0
    for f in sources() + sorted(glob.glob("crates/*/src/**/*.rt", recursive=True) + glob.glob("crates/*/must-fail/*.edit")):
        with open(f, encoding="utf-8") as it:
            text = it.read()
        to = turned(text, new, fields)
        if to != text:
            with open(f, "w", encoding="utf-8") as it:
                it.write(to)
    return 0


if __name__ == "__main__":
    raise SystemExit(main(sys.argv[1:]))
