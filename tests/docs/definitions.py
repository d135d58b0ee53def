#!/usr/bin/env python3
"""definitions.py: holds docs/MACHINE.md to the definition. Every definition of crates/machine/specs and crates/desk/specs, but
for the statements of theorems, stands there by its name, in backquotes; and every name that stands there is one of the specs or
of the types. Prints what is missing, and a count; fails if anything is."""
import glob
import os
import re
import sys

DOCUMENT = "docs/MACHINE.md"
CRATES = ["machine", "desk"]  # those that define
THEOREMS = {"Theorems"}  # README.md has the table of theorems
DEFINITION = r"^ *(?:(?:abbrev|unfoldable) pub|pub (?:record|data)) ([^\s:({]+)"
WORD = r"[A-Za-z]\w*"


def module(file):
    return os.path.splitext(os.path.basename(file))[0]


def found(pattern, files):
    """What the pattern finds in files, comments left out, with the module in which it stands first."""
    names = {}
    for file in files:
        with open(file) as text:
            for name in re.findall(pattern, re.sub(r"--.*|//.*", "", text.read()), re.M):
                names.setdefault(name, module(file))
    return names


def specs(crate):
    return sorted(glob.glob(f"crates/{crate}/specs/*.antt"))


defining = [file for crate in CRATES for file in specs(crate)]
known = defining + specs("cases") + specs("lines") + [f"crates/{crate}/src/lib.rt" for crate in CRATES]
definitions = found(DEFINITION, [file for file in defining if module(file) not in THEOREMS])
words = found(WORD, known).keys() | {module(file) for file in known}
with open(DOCUMENT) as document:
    said = {part for name in re.findall(rf"`({WORD}(?:\.{WORD})?)`", document.read()) for part in name.split(".")}
missing = [f"no sentence for {where}.{name}" for name, where in definitions.items() if name not in said]
unknown = [f"no definition named {name}" for name in sorted(said - words)]
for line in missing + unknown:
    print(f"{DOCUMENT}: {line}")
print(f"{len(definitions)} definitions, {len(missing)} without a sentence; {len(unknown)} names without a definition")
sys.exit(bool(missing or unknown))
