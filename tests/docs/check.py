#!/usr/bin/env python3
"""check.py DOCUMENT...: runs the examples of Markdown documents.

    ```console   a line that starts with "$ " is a command; the lines up to the next one are what it prints, on standard output
                 and standard error. A line that is "..." stands for any lines, also none.
    ```c         a program. Its first line, /* NAME.c: ... */, gives the name under which the commands after it find it; it must
                 compile without a warning.
    ```sh        commands that are not run.

A document's examples are run in their order, in a folder of their own that has the files of the repository, with target/bin on
the path. A command in any other block is an error; so are a link to a file that is not there, in a table of theorems the name
of one that is not in the proofs, and a README.md that does not name the toolchain of toolchain.txt. Prints a diff for each
difference, and a count; fails if there is a difference."""
import difflib
import glob
import os
import re
import subprocess
import sys
import tempfile

SECONDS = "60"  # for a command
ENDED = 124  # the exit status of timeout
ROOT = os.path.join(os.path.dirname(os.path.abspath(__file__)), "../..")
PLAIN = ". tools/plain.sh\n"  # before each command
COMPILE = ["gcc", "-std=c99", "-Wall", "-Wextra", "-Werror", "-pedantic", "-fsyntax-only", "-Iinclude"]
examples = differ = 0


def fail(place, message):
    global differ
    differ += 1
    print(f"{place}: {message}")


def blocks(lines):
    """The fenced blocks: mark, number of the first line in the document, lines. Then all else, as one block without a mark."""
    rest, block, mark, first = [], None, "", 0
    for number, line in enumerate(lines, 1):
        fence = re.match(r"```(\S*)", line)
        if fence and block is None:
            block, mark, first = [], fence[1], number + 1
        elif fence:
            yield mark, first, block
            block = None
        elif block is not None:
            block.append(line)
        else:
            rest.append(line)
    if block is not None:
        yield "console", first, ["$ false", "a block without an end"]
    yield None, 1, rest


def commands(first, lines):
    """The commands of a console block: number of the line, command, what it prints."""
    found = []
    for number, line in enumerate(lines, first):
        if line.startswith("$ "):
            found.append((number, line[2:], []))
        elif found:
            found[-1][2].append(line)
        else:
            found.append((number, ":", [line]))  # output of no command
    return found


def matches(shown, printed):
    if not shown:
        return not printed
    if shown[0] == "...":
        return any(matches(shown[1:], printed[i:]) for i in range(len(printed) + 1))
    return bool(printed) and shown[0] == printed[0] and matches(shown[1:], printed[1:])


def run_command(folder, place, command, shown):
    global examples
    examples += 1
    path = os.path.join(folder, "target/bin") + os.pathsep + os.environ["PATH"]
    p = subprocess.run(["timeout", SECONDS, "sh", "-c", PLAIN + command], cwd=folder, env=dict(os.environ, PATH=path),
                       stdin=subprocess.DEVNULL, stdout=subprocess.PIPE, stderr=subprocess.STDOUT)
    printed = p.stdout.decode(errors="replace").splitlines()
    if p.returncode == ENDED:
        fail(place, f"did not end within {SECONDS} seconds: {command}")
    elif not matches(shown, printed):
        fail(place, f"$ {command}")
        print("\n".join(difflib.unified_diff(shown, printed, "the document", "printed", lineterm="")))


def compile_program(folder, place, lines):
    global examples
    examples += 1
    name = re.match(r"/\* (\w+\.c): ", lines[0])
    if not name:
        fail(place, "a program must start with /* NAME.c: ... */")
        return
    with open(os.path.join(folder, name[1]), "w", encoding="utf-8") as file:
        file.write("\n".join(lines) + "\n")
    p = subprocess.run([*COMPILE, name[1]], cwd=folder, stdout=subprocess.PIPE, stderr=subprocess.STDOUT)
    if p.returncode != 0:
        fail(place, f"{name[1]} does not compile:\n{p.stdout.decode()}")


def proved():
    """The names of the laws in the proofs."""
    names = set()
    for file in glob.glob("crates/*/proofs/**/*.antt", recursive=True):
        with open(file, encoding="utf-8") as lines:
            names.update(re.findall(r"^ *(?:pub )?([^\s:]+) :", lines.read(), re.M))
    return names


def check_text(document, lines):
    """What the text says of files and theorems."""
    for target in re.findall(r"\]\(([^)#]+)\)", "\n".join(lines)):
        if "://" not in target and not os.path.exists(os.path.join(os.path.dirname(document), target)):
            fail(document, f"no file {target}")
    table = False
    for line in lines:
        table = line.startswith("|") and (table or line.startswith("| Theorem "))
        if table:
            for name in re.findall(r"`([^`]+)`", line.split("|")[1]):
                if name not in PROVED:
                    fail(document, f"no proof of {name}")


def check_toolchain():
    """README.md names the toolchain and its version."""
    with open("toolchain.txt", encoding="utf-8") as file, open("README.md", encoding="utf-8") as readme:
        toolchain = file.read().strip()
        if toolchain not in " ".join(readme.read().split()):
            fail("README.md", f"the toolchain, {toolchain}, is not named")


def check(document):
    with open(document, encoding="utf-8") as file:
        lines = file.read().splitlines()
    with tempfile.TemporaryDirectory() as folder:
        for name in os.listdir("."):
            if name != ".git":
                os.symlink(os.path.abspath(name), os.path.join(folder, name))
        for mark, first, block in blocks(lines):
            place = f"{document}:{first}"
            if mark == "console":
                for number, command, shown in commands(first, block):
                    run_command(folder, f"{document}:{number}", command, shown)
            elif any(re.match(r"\s*\$ ", line) for line in block):
                fail(place, "a command in a block that is not marked console")
            elif mark == "c":
                compile_program(folder, place, block)
            elif mark is None:
                check_text(document, block)


documents = [os.path.relpath(name, ROOT) for name in sys.argv[1:]]
os.chdir(ROOT)
PROVED = proved()
check_toolchain()
for document in documents:
    check(document)
print(f"{examples} examples in {len(documents)} documents, {differ} differ")
sys.exit(differ != 0)
