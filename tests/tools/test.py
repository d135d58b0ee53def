#!/usr/bin/env python3
"""Tests of the Makefile, of tools/ and of tests/gate.sh in a copy of the repository, where tests/tools/rt, rattle and gcc stand
in for toolchain and compiler and the tests that the gate runs are empty; then of scripts in a strange environment."""
import os
import pty
import re
import select
import shutil
import signal
import subprocess
import tempfile
import time
import unittest

ROOT = os.path.abspath(os.path.join(os.path.dirname(os.path.abspath(__file__)), "../.."))
LIBRARY, PROGRAM, COMMAND = "target/staticlib/libdrevokas.a", "target/bin/case", "target/bin/drevokas"
PARTS = ["tests/cases", "shell/tests", "tests/docs", "tests/c", "tests/tools", "tests/rust"]
# what these print is shown only where they fail
BESIDE = PARTS[-3:]
TOOLS = "cargo cat dirname echo find gcc grep make mkdir python3 rm rt sed setsid sh sleep".split()
SECONDS = 60
# What a caller's environment may hold. MAKEFLAGS "n" alone would make every make in a script do nothing.
STRANGE = {"MAKEFLAGS": "nw", "MFLAGS": "-nw", "MAKELEVEL": "2", "LANG": "tr_TR.UTF-8", "LC_ALL": "de_DE.UTF-8",
           "CDPATH": "/:/tmp", "GREP_OPTIONS": "--color=always", "GREP_COLORS": "mt=01", "POSIXLY_CORRECT": "1",
           "PYTHONOPTIMIZE": "2", "PYTHONIOENCODING": "ascii", "VALGRIND_OPTS": "-v"}


def read(*names):
    with open(os.path.join(*names), encoding="utf-8") as file:
        return file.read()


def write(text, *names):
    with open(os.path.join(*names), "w", encoding="utf-8") as file:
        file.write(text)


LISTED = dict(line.split(":") for line in read(ROOT, "crates.txt").splitlines())
CRATES = [name.split()[0] for name in LISTED]
# on which no other rests
TOPS = [name for name in CRATES if not any(name in uses.split() for uses in LISTED.values())]
PASSED = f"{len(CRATES) + 1} passed, 0 failed"  # the stand-in refuses one must-fail edit


def progress(crate, how="proved", crates=CRATES):
    """What the line that tells how a crate's check ended begins with, as one of these."""
    return f"crate {crates.index(crate) + 1} of {len(CRATES)}, {crate}, {how}, "


def in_time(lines):
    """The lines, without the seconds at their ends."""
    return [re.sub(r"\d+ s$", "", line) for line in lines]


def wait_for(what):
    """Waits until what() holds, and answers whether it came to that."""
    end = time.monotonic() + SECONDS
    while not what() and time.monotonic() < end:
        time.sleep(0.02)
    return what()


def read_terminal(terminal):
    """What is printed at a terminal until the last process there has ended, or is silent for long."""
    text = b""
    try:
        while select.select([terminal], [], [], SECONDS)[0]:
            text += os.read(terminal, 4096)
    except OSError:  # no process has it open
        pass
    return text.decode().replace("\r\n", "\n")


def exit_status(process):
    """The exit status of a child; one that does not end is killed."""
    found = [0, 0]

    def ended():
        if found[0] == 0:
            found[:] = os.waitpid(process, os.WNOHANG)
        return found[0] != 0

    if not wait_for(ended):
        os.killpg(process, signal.SIGKILL)
        raise AssertionError("it did not end")
    return os.waitstatus_to_exitcode(found[1])


def is_running(process):
    """Whether there is such a process, and it has not ended."""
    try:
        return read("/proc", str(process), "stat").rpartition(")")[2].split()[0] not in "ZX"
    except FileNotFoundError:
        return False


class Copy(unittest.TestCase):
    """A copy of the repository without target/ and what the toolchain has made."""

    def setUp(self):
        self.folder = tempfile.mkdtemp()
        self.addCleanup(shutil.rmtree, self.folder)
        self.top = os.path.join(self.folder, "copy")
        self.store = os.path.join(self.folder, "store")
        for name in ["tools", "crates", "shell", "include", "examples", ".ci"]:
            shutil.copytree(os.path.join(ROOT, name), os.path.join(self.top, name), ignore=shutil.ignore_patterns("out"))
        for name in ["Makefile", "toolchain.txt", "crates.txt", "tests/gate.sh"]:
            os.makedirs(os.path.dirname(os.path.join(self.top, name)), exist_ok=True)
            shutil.copy(os.path.join(ROOT, name), os.path.join(self.top, name))
        for name in PARTS:
            os.makedirs(os.path.join(self.top, name), exist_ok=True)
            write("echo tested\n", self.top, name, "run.sh")
        os.mkdir(self.store)
        for name in [LIBRARY, PROGRAM, COMMAND]:
            shutil.copy(os.path.join(ROOT, name), self.store)
        self.environment = dict(os.environ, STORE=self.store, PATH=self.tools() + os.pathsep + os.environ["PATH"])

    def tools(self):
        """A folder with the stand-ins."""
        place = os.path.join(self.folder, "bin")
        os.mkdir(place)
        for name in ["rt", "rattle", "gcc"]:
            shutil.copy(os.path.join(ROOT, "tests/tools", name), place)
        for name in ["cargo", "valgrind"]:
            os.symlink("/bin/true", os.path.join(place, name))
        return place

    def without(self, missing):
        """A PATH on which all is there that is needed but this."""
        place = os.path.join(self.folder, "without-" + missing)
        os.mkdir(place)
        for name in set(TOOLS) - {missing}:
            os.symlink(shutil.which(name, path=self.environment["PATH"]), os.path.join(place, name))
        return place

    def call(self, *words, **more):
        """Calls a command in the copy: exit status, what it printed."""
        p = subprocess.run(words, cwd=self.top, env=dict(self.environment, **more), stdin=subprocess.DEVNULL, timeout=SECONDS,
                           stdout=subprocess.PIPE, stderr=subprocess.STDOUT)
        return p.returncode, p.stdout.decode()

    def passes(self, *words, **more):
        status, printed = self.call(*words, **more)
        self.assertEqual(status, 0, printed)
        return printed

    def fails(self, *words, **more):
        status, printed = self.call(*words, **more)
        self.assertNotEqual(status, 0, printed)
        return printed

    def start_at_terminal(self, *words, **more):
        """Starts a command at a terminal of its own: process, the terminal's other end."""
        process, terminal = pty.fork()
        if process == 0:
            os.chdir(self.top)
            os.execvpe(words[0], words, dict(self.environment, **more))
        self.addCleanup(os.close, terminal)
        return process, terminal

    def calls(self):
        """The calls of the stand-ins since the last look."""
        name = os.path.join(self.store, "calls")
        found = read(name).splitlines() if os.path.exists(name) else []
        write("", name)
        return found

    def has(self, *names):
        return [name for name in names if os.path.exists(os.path.join(self.top, name))]


class Build(Copy):
    DEMO = read(ROOT, "examples/run.expected")

    def test_progress(self):
        head, *lines = self.passes("make", "demo").splitlines()
        self.assertIn("target/proofs.log", head)
        crates, (proved, library, built), demo = lines[:len(CRATES)], lines[len(CRATES):][:3], lines[len(CRATES) + 3:]
        self.assertEqual(in_time(crates), [progress(name) for name in CRATES])
        self.assertEqual(proved, f"{len(CRATES)} of {len(CRATES)} crates ok")
        self.assertEqual([library, built], [f"Built {PROGRAM} and {LIBRARY}.", f"Built {COMMAND}."])
        self.assertEqual("\n".join(demo) + "\n", self.DEMO)
        self.assertIn("fn storage::first: proved\n", read(self.top, "target/proofs.log"))
        self.assertEqual(self.has(LIBRARY, PROGRAM, COMMAND), [LIBRARY, PROGRAM, COMMAND])

    def test_nothing_twice(self):
        self.passes("make", "-j4", "demo")
        self.calls()
        for words in [["make", "demo"], ["make", "-s", "demo"], ["make", "-k", "-j4", "demo"]]:
            self.assertEqual(self.passes(*words), self.DEMO)
        self.assertEqual(self.calls(), [])
        os.remove(os.path.join(self.top, PROGRAM))
        proved = [line for line in self.passes("make").splitlines() if line.startswith("crate ")]
        self.assertEqual([line.split(", ")[1:3] for line in proved], [[name, "proved"] for name in TOPS])
        self.assertEqual(self.has(PROGRAM), [PROGRAM])

    def test_terminal(self):
        process, terminal = self.start_at_terminal("make", "demo")
        printed = read_terminal(terminal)
        self.assertEqual(exit_status(process), 0)
        self.assertRegex(printed, f"\n{progress('case')}[0-9]+ s\n")
        self.assertTrue(printed.endswith("\n" + self.DEMO) and printed.replace("\n", "").isprintable(), printed)

    def test_compiler_shown(self):
        self.assertNotIn("-std=c99", self.passes("make"))
        self.passes("make", "clean")
        self.assertIn("gcc -std=c99", self.passes("make", "V=1"))

    def test_dry_run(self):
        for words in [["make", "-n", "gate"], ["make", "-n", "demo"], ["make", "-n", "gate", "demo"]]:
            self.passes(*words)
        self.assertEqual(self.calls() + self.has("target"), [])

    def test_proof_fails(self):
        for goal in ["demo", "gate"]:
            printed = self.fails("make", goal, FAILS="storage")
            self.assertRegex(printed, progress("storage", "NOT PROVED") + r"[0-9]+ s\n    note: src/lib.rt:1:31: it is not proved")
            self.assertIn("all that it said is in target/", printed)
            self.assertEqual(self.has(LIBRARY), [])
        self.assertNotIn("passed, 0 failed", printed)
        self.assertIn(", storage, proved, ", self.passes("make", "demo"))

    def test_missing(self):
        self.passes("make")
        os.utime(os.path.join(self.top, "crates.txt"))
        self.calls()
        for missing in ["rt", "gcc"]:
            path = self.without(missing)
            for words in [["make"], ["make", "demo"], ["make", "gate"], ["make", "-k", "-j4"], [".ci/run"]]:
                printed = self.fails(*words, PATH=path)
                self.assertIn(f"missing: {missing}, ", printed)
                self.assertEqual(printed.count("README.md, \"Two commands\""), 1, printed)
            self.passes("make", "help", PATH=path)
        self.assertEqual(self.calls(), [])
        self.assertEqual(self.has(LIBRARY, PROGRAM, COMMAND), [LIBRARY, PROGRAM, COMMAND])
        for missing in ["python3", "cargo"]:
            self.assertIn(f"missing: {missing}, ", self.fails("make", "gate", PATH=self.without(missing)))
        self.assertEqual(self.calls(), [])

    def test_other_version(self):
        here = read(ROOT, "toolchain.txt").strip()
        self.assertIn(f"note: proved with {here}; this is kit-9\n", self.passes("make", VERSION="kit-9"))
        self.assertNotIn("note: ", self.passes("make"))


class Gate(Copy):
    def test_gate(self):
        for words in [["make", "gate"], ["make", "-j4", "gate"], ["make", "-s", "gate"], ["sh", "tests/gate.sh"]]:
            printed = self.passes(*words)
            self.assertEqual(printed.splitlines()[-1], PASSED)
            self.assertIn("\nedit 1 of ", printed)
            self.assertIn(", adder/sum.edit, refused\nprogram case, ran and wrote what it must\n", printed)
            self.assertEqual(self.has(LIBRARY, PROGRAM, COMMAND), [LIBRARY, PROGRAM, COMMAND])
            self.assertIn(PASSED, read(self.top, "target/gate.log"))
            # each crate is proved once
            self.assertEqual([call for call in self.calls() if call.startswith("r")], ["rt ci", "rattle build"])
        self.assertEqual(self.passes("make", "demo"), Build.DEMO)
        self.assertEqual(self.calls(), [])

    def test_gate_after_checks(self):
        """Libraries that checks have left stay, and rt brings them up to date."""
        self.passes("make")
        self.calls()
        self.assertEqual(self.passes("make", "gate").splitlines()[-1], PASSED)
        calls = [call for call in self.calls() if call.startswith("r")]
        self.assertEqual((calls[0], calls[1][:12], calls[2:]), ("rt ci", "rt all check", ["rt run", "rt lib"]))
        self.assertEqual(self.has("crates/machine/out/rlib/machine.rlib"), ["crates/machine/out/rlib/machine.rlib"])

    def test_gate_proves_again(self):
        """Where the toolchain does not build the library from what rt ci left, it is built from new proofs."""
        write("exit 1\n", self.folder, "bin", "rattle")
        printed = self.passes("make", "gate")
        self.assertIn("failed: rattle build", printed)
        self.assertEqual(printed.splitlines()[-1], PASSED)
        self.assertEqual(self.has(LIBRARY, PROGRAM, COMMAND), [LIBRARY, PROGRAM, COMMAND])

    def test_bad_edit(self):
        printed = self.fails("make", "gate", BADLY="1")
        self.assertIn(", adder/other.edit, BAD EDIT: an 'old:' text is in src/lib.rt 0 times, and not once\n", printed)
        self.assertIn("gate: failed: each edit tells something\n", printed)
        self.assertNotIn("\n" + PASSED, printed)

    def test_ci(self):
        for more in [{}, STRANGE]:
            p = subprocess.run([os.path.join(self.top, ".ci/run")], cwd="/", env=dict(self.environment, **more),
                               stdout=subprocess.PIPE, stderr=subprocess.STDOUT, timeout=SECONDS)
            self.assertEqual((p.returncode, p.stdout.decode().splitlines()[-1]), (0, PASSED))

    def test_part_fails(self):
        for parts in [PARTS[1:2], PARTS]:
            for part in parts:
                write("echo tested; exit 3\n", self.top, part, "run.sh")
            printed = self.fails("make", "gate")
            self.assertIn(f"gate: failed: {' '.join(parts)}\n", printed)
            hidden = [part for part in BESIDE if part not in parts]
            self.assertEqual(printed.count("\ntested\n"), len(PARTS) - len(hidden))
            self.assertNotIn("passed, 0 failed", printed)


class Interrupted(Copy):
    def interrupt(self, goal, how):
        """Ends make by how(process, terminal) while a prover runs: make fails, and neither prover nor library is left."""
        name = os.path.join(self.folder, "prover")
        process, terminal = self.start_at_terminal("make", goal, HANGS=name)
        self.assertTrue(wait_for(lambda: os.path.exists(name) and read(name).endswith("\n")))
        prover = int(read(name))
        self.assertTrue(is_running(prover))
        how(process, terminal)
        read_terminal(terminal)
        self.assertNotEqual(exit_status(process), 0)
        self.assertTrue(wait_for(lambda: not is_running(prover)))
        self.assertEqual(self.has(LIBRARY), [])
        os.remove(name)

    def test_interrupted(self):
        self.interrupt("demo", lambda process, terminal: os.write(terminal, b"\x03"))
        self.interrupt("demo", lambda process, terminal: os.kill(process, signal.SIGTERM))
        self.interrupt("gate", lambda process, terminal: os.write(terminal, b"\x03"))
        self.interrupt("gate", lambda process, terminal: os.killpg(process, signal.SIGHUP))
        self.assertTrue(self.passes("make", "demo").endswith(Build.DEMO))
        self.assertTrue(self.passes("make", "gate").endswith(PASSED + "\n"))


class Environment(unittest.TestCase):
    """The scripts of the repository itself, called from elsewhere, in a strange environment, with standard input closed."""

    def call(self, *words):
        p = subprocess.run(["sh", "-c", 'umask 077; exec "$@" <&-', "sh", *words], cwd="/", env=dict(os.environ, **STRANGE),
                           stdout=subprocess.PIPE, stderr=subprocess.STDOUT, timeout=SECONDS)
        return p.returncode, p.stdout.decode(errors="replace")

    def test_scripts(self):
        self.assertEqual(self.call("sh", os.path.join(ROOT, "examples/run.sh")), (0, Build.DEMO))
        self.assertEqual(self.call("sh", os.path.join(ROOT, "examples/check.sh")), (0, "6 examples, 0 differ\n"))
        status, printed = self.call("sh", os.path.join(ROOT, "tests/cases/run.sh"))
        self.assertEqual((status, printed.split(", ")[1]), (0, "0 differ\n"), printed)
        status, printed = self.call("python3", os.path.join(ROOT, "tests/docs/check.py"), os.path.join(ROOT, "README.md"))
        self.assertEqual((status, printed.split(", ")[-1]), (0, "0 differ\n"), printed)

    def test_prologue(self):
        """Each script that a person may call reads tools/plain.sh before it does anything."""
        others = {"tools/plain.sh", "tools/group.sh", "tools/progress.sh", "bench/library.sh", "examples/begin.sh"}
        for folder, _, files in os.walk(ROOT):
            for name in files if not os.path.relpath(folder, ROOT).startswith(("target", ".git")) else []:
                script = os.path.relpath(os.path.join(folder, name), ROOT)
                if name.endswith(".sh") and script not in others:
                    with self.subTest(script):
                        commands = [line for line in read(ROOT, script).splitlines() if not line.startswith("#")]
                        plain = os.path.relpath("tools/plain.sh", os.path.dirname(script))
                        self.assertIn(f'. "$(dirname "$0")/{plain}"', commands[:3])


unittest.main(argv=["test.py"], verbosity=0)
