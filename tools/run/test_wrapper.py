#!/usr/bin/env python3
"""Tests the script `rpkica`, tools/run/build_crates.py, tools/run/trial.py and bench/first_run.py, in a copy with small crates and with a
toolchain that is a script of its own.

    tools/run/test_wrapper.py [NAME ..]

Nothing is proved: the `rt` here notes what it is called for, waits, and writes what the real one would. It takes two minutes."""

from __future__ import annotations

import os
import pathlib
import pty
import re
import shutil
import signal
import subprocess
import tempfile
import time
import unittest
from typing import Any, Optional

TOP = pathlib.Path(__file__).resolve().parents[2]
Path = pathlib.Path

CRATES = """\
# Lowest first.
low:
left: low hex
right: low
tall: left low
other: low
rpkica: tall right
rpkiguard: right
"""
MINUTES = "low 1\nleft 2\nright 1\ntall 3\nother 9\nrpkica 1\nrpkiguard 1\n"

# A toolchain: `FAKE` names a folder, in which it writes `log`, and reads which crates `fail`, how long each takes, and how a trial ends.
FAKE_RT = '''#!/usr/bin/env python3
import hashlib, os, pathlib, shutil, sys, time

place, fake = pathlib.Path.cwd(), pathlib.Path(os.environ["FAKE"])
crate, verb = place.name, sys.argv[1]
uses = {}
for line in (place.parent.parent / "crates.txt").read_text().splitlines():
    if line and line[0] != "#":
        uses[line.partition(":")[0]] = line.partition(":")[2].split()


def note(word):
    with open(fake / "log", "a") as log:
        log.write(f"{word} {crate} {os.getpid()}\\n")


def told(name):
    return (fake / name).read_text() if (fake / name).exists() else ""


def stamp(name):
    files = sorted((place.parent / name / "src").iterdir())
    text = repr([(file.name, file.read_text()) for file in files] + [stamp(below) for below in uses[name] if below in uses])
    return hashlib.sha256(text.encode()).hexdigest()


def check():
    for below in uses[crate]:
        if below in uses and (place.parent / below / "out/rlib/stamp").read_text() != stamp(below):
            sys.exit(f"{below} is not built")
    note("begin")
    with open(place / "out/incremental/work", "a") as work:
        work.write("begun\\n")
    time.sleep(float(told("seconds") or 0))
    if crate in told("fail").split():
        print("error: first line\\nerror: last line of", crate)
        note("fail")
        sys.exit(1)
    note("end")


def library():
    kept = place / "out/rlib"
    if kept.is_dir() and (kept / "stamp").read_text() == stamp(crate):
        return
    shutil.rmtree(kept, ignore_errors=True)
    check()
    kept.mkdir(parents=True)
    (kept / "stamp").write_text(stamp(crate))
    print("logic=proved")


def program():
    made, kept = place / "out" / crate, place / "out" / f"{crate}.stamp"
    if kept.exists() and kept.read_text() == stamp(crate):
        print("rt: nothing has changed since the last proved build")
    else:
        check()
        text = (place / "src/main.rt").read_text()
        made.write_text(f"#!/bin/sh\\necho {crate} {text}\\nfor word; do echo \\"<$word>\\"; done\\ncat\\nexit 6\\n")
        made.chmod(0o755)
        kept.write_text(stamp(crate))
    print("rt: running out/" + crate, flush=True)
    sys.exit(6)


def attempt():
    note("try")
    time.sleep(float(told("seconds") or 0))
    words = sys.argv[sys.argv.index("--") + 1:]
    if told("try") == "large":
        print("checked: no-answer: the program wrote more than 1048576 bytes to standard output\\nrun=no-answer proved=no", file=sys.stderr)
        sys.exit(6)
    if told("try") == "fault":
        print("checked: fault kind=index-out-of-bounds\\nrun=fault proved=no", file=sys.stderr)
        sys.exit(4)
    print("tried", crate, words, sys.stdin.read())
    print("own words\\nchecked: ended status=4\\nraces: not looked for", file=sys.stderr)
    print("run=ended status=4 runners=1 races=unchecked proved=no", file=sys.stderr)
    sys.exit(4)


(place / "out/incremental").mkdir(parents=True, exist_ok=True)
{"lib": library, "run": program, "try": attempt}[verb]()
'''


class InCopy(unittest.TestCase):
    """A copy of the tree whose path has spaces."""

    def setUp(self) -> None:
        """Makes the copy, and the toolchain."""
        room = tempfile.TemporaryDirectory(prefix="test wrapper ")
        self.addCleanup(room.cleanup)
        self.room = Path(room.name).resolve()
        self.top, self.fake, self.bin = self.room / "a tree", self.room / "fake", self.room / "bin"
        for folder in (self.top / "tools" / "run", self.top / "tools" / "tree", self.fake, self.bin):
            folder.mkdir(parents=True)
        self.copy_tree()
        rt = self.bin / "rt"
        rt.write_text(FAKE_RT)
        rt.chmod(0o755)
        (self.fake / "log").touch()
        self.environment = {**os.environ, "PATH": f"{self.bin}:{os.environ['PATH']}", "FAKE": str(self.fake)}
        for name in ("RPKI_UNPROVED", "RPKI_NO_BUILD"):
            self.environment.pop(name, None)

    def copy_tree(self) -> None:
        """Copies the scripts, and makes small crates."""
        shutil.copy(TOP / "rpkica", self.top / "rpkica")
        (self.top / "rpkiguard").symlink_to("rpkica")
        for name in ("run/build_crates.py", "run/rooms.py", "tree/sources.py", "run/trial.py"):
            shutil.copy(TOP / "tools" / name, self.top / "tools" / name)
        (self.top / "tools" / "run" / "minutes.txt").write_text(MINUTES)
        (self.top / "crates.txt").write_text(CRATES)
        for line in CRATES.splitlines()[1:]:
            crate = line.partition(":")[0]
            self.write(crate, "one")

    def write(self, crate: str, text: str, file: Optional[str] = None) -> None:
        """Writes a source of a crate."""
        file = file or ("main.rt" if crate.startswith("rpki") else "lib.rt")
        path = self.top / "crates" / crate / "src" / file
        path.parent.mkdir(parents=True, exist_ok=True)
        path.write_text(text)

    def tell(self, name: str, text: str) -> None:
        """Tells the toolchain something."""
        (self.fake / name).write_text(text)

    def log(self, word: str = "begin") -> list[str]:
        """The crates that the toolchain noted with this word."""
        rows = [line.split() for line in (self.fake / "log").read_text().splitlines()]
        return [row[1] for row in rows if row[0] == word]

    def start(self, *words: object, **how: Any) -> subprocess.Popen[str]:
        """Starts a process in the copy."""
        environment = {**self.environment, **how.pop("env", {})}
        given = {"stdin": subprocess.DEVNULL, "stdout": subprocess.PIPE, "stderr": subprocess.PIPE, "cwd": self.top, **how}
        return subprocess.Popen([str(word) for word in words], env=environment, text=True, start_new_session=True, **given)

    def run_it(self, *words: object, given: Optional[str] = None, **how: Any) -> tuple[int, str, str]:
        """Status, standard output and standard error of a command."""
        how = {**how, **({"stdin": subprocess.PIPE} if given is not None else {})}
        with self.start(*words, **how) as process:
            out, said = process.communicate(given, timeout=60)
        return process.returncode, out, said

    def wait_for(self, holds: Any, seconds: float = 20) -> None:
        """Waits until something holds."""
        until = time.monotonic() + seconds
        while not holds():
            self.assertLess(time.monotonic(), until, "waited in vain")
            time.sleep(0.05)

    def program(self, name: str = "rpkica") -> Path:
        """Where a program stands."""
        return self.top / "crates" / name / "out" / name

    def assert_tidy(self) -> None:
        """No room and no lock is left, and no rt runs."""
        self.assertEqual([], [*self.top.glob("crates/*/out/building"), *self.top.glob("out/building*")])
        pids = [int(line.split()[2]) for line in (self.fake / "log").read_text().splitlines()]
        self.assertEqual([], [pid for pid in pids if Path(f"/proc/{pid}/cmdline").exists()])


class Wrapper(InCopy):
    """The script `rpkica`."""

    def test_builds_once_and_hands_on(self) -> None:
        status, out, said = self.run_it("./rpkica", "a b", "", given="input\n")
        self.assertEqual((6, "rpkica one\n<a b>\n<>\ninput\n"), (status, out))
        self.assertIn("proving and building", said)
        self.assertEqual({"low", "left", "right", "tall", "rpkica"}, set(self.log()))
        self.assertEqual((6, "rpkica one\n", ""), self.run_it("./rpkica"))
        self.assertEqual(5, len(self.log()))
        self.assert_tidy()

    def test_links(self) -> None:
        elsewhere = self.room / "else where"
        elsewhere.mkdir()
        (elsewhere / "rpkica").symlink_to(self.top / "rpkica")
        (elsewhere / "guard").symlink_to("../a tree/rpkiguard")
        (elsewhere / "again").symlink_to("guard")
        (elsewhere / "none").symlink_to("nothing")
        (elsewhere / "nothing").symlink_to(self.top / "tools")
        path = f"{elsewhere}:{self.environment['PATH']}"
        self.assertEqual("rpkica one\n", self.run_it("rpkica", cwd="/", env={"PATH": path})[1])
        for name in ("./guard", "./again", elsewhere / "guard", "../else where/guard"):
            self.assertEqual("rpkiguard one\n", self.run_it(name, cwd=elsewhere)[1])
        self.assertEqual("rpkiguard one\n", self.run_it("sh", "guard", cwd=elsewhere)[1])

    def test_unknown_name(self) -> None:
        (self.top / "rpkinone").symlink_to("rpkica")
        shutil.rmtree(self.top / "crates" / "rpkica")
        status, out, said = self.run_it("./rpkinone")
        self.assertEqual((1, ""), (status, out))
        self.assertIn("no program has this name", said)

    def test_builds_what_is_old_alone(self) -> None:
        self.run_it("./rpkica")
        (self.fake / "log").write_text("")
        self.write("other", "two")
        self.write("rpkiguard", "two")
        self.run_it("./rpkica")
        self.assertEqual([], self.log())
        self.write("left", "two")
        self.run_it("./rpkica")
        self.assertEqual(["left", "tall", "rpkica"], self.log())
        self.write("rpkica", "three")
        self.assertEqual("rpkica three\n", self.run_it("./rpkica")[1])

    def test_removed_file_counts(self) -> None:
        self.write("right", "more", "more.rt")
        self.run_it("./rpkica")
        (self.fake / "log").write_text("")
        (self.top / "crates" / "right" / "src" / "more.rt").unlink()
        self.run_it("./rpkica")
        self.assertEqual(["right", "rpkica"], self.log())

    def test_touched_file_proves_nothing(self) -> None:
        self.run_it("./rpkica")
        (self.fake / "log").write_text("")
        self.write("low", "one")
        self.assertIn("5 of them by earlier work", self.run_it("./rpkica")[2])
        self.assertEqual([], self.log())
        self.assertEqual("", self.run_it("./rpkica")[2])

    def test_change_during_the_build_counts(self) -> None:
        self.tell("seconds", "0.3")
        with self.start("./rpkica") as process:
            self.wait_for(lambda: "tall" in self.log())
            self.write("low", "two")
            self.assertEqual("rpkica one\n", process.communicate()[0])
        (self.fake / "log").write_text("")
        self.run_it("./rpkica")
        self.assertEqual(5, len(self.log()))

    def test_several_at_once(self) -> None:
        self.tell("seconds", "0.5")
        processes = [self.start(f"./{name}") for name in ("rpkica", "rpkica", "rpkiguard")]
        said = [process.communicate(timeout=60) for process in processes]
        self.assertEqual(["rpkica one\n", "rpkica one\n", "rpkiguard one\n"], [out for out, _ in said])
        self.assertEqual(2, sum("waiting for the build of process" in text for _, text in said))
        self.assertEqual(6, len(self.log()))
        self.assert_tidy()

    def test_failed_build_leaves_the_program(self) -> None:
        self.run_it("./rpkica")
        before = self.program().stat()
        self.write("tall", "two")
        self.tell("fail", "tall")
        status, out, said = self.run_it("./rpkica")
        self.assertEqual((1, ""), (status, out))
        self.assertIn("error: first line\nerror: last line of tall\n", said)
        self.assertIn("is old", said)
        after = self.program().stat()
        self.assertEqual((before.st_ino, before.st_mtime_ns), (after.st_ino, after.st_mtime_ns))
        self.assertEqual((6, "rpkica one\n", ""), self.run_it("./rpkica", env={"RPKI_NO_BUILD": "1"}))
        self.assertEqual(1, self.run_it("./rpkica")[0])
        self.assert_tidy()

    def test_failed_first_build(self) -> None:
        self.tell("fail", "rpkica")
        status, out, said = self.run_it("./rpkica")
        self.assertEqual((1, ""), (status, out))
        self.assertIn("could not be built", said)
        self.assertFalse(self.program().exists())

    def interrupt(self, number: int, whole_group: bool) -> None:
        """Interrupts a build: the program that was there stays, and the next build goes on."""
        self.run_it("./rpkica")
        before = self.program().stat()
        self.write("low", "two")
        self.tell("seconds", "30")
        with self.start("./rpkica") as process:
            self.wait_for(lambda: self.log().count("low") == 2)
            (os.killpg if whole_group else os.kill)(process.pid, number)
            process.communicate(timeout=15)
        self.assertEqual(128 + number, process.returncode)
        after = self.program().stat()
        self.assertEqual((before.st_ino, before.st_mtime_ns), (after.st_ino, after.st_mtime_ns))
        self.assert_tidy()
        self.tell("seconds", "0")
        self.assertEqual("rpkica one\n", self.run_it("./rpkica")[1])
        self.assertEqual("begun\n" * 3, (self.top / "crates/low/out/incremental/work").read_text())

    def test_interrupted_from_the_terminal(self) -> None:
        self.interrupt(signal.SIGINT, True)

    def test_terminated_alone(self) -> None:
        self.interrupt(signal.SIGTERM, False)

    def test_lock_of_a_dead_process(self) -> None:
        with self.start("true") as gone:
            gone.wait()
        lock = self.top / "out" / "building"
        lock.mkdir(parents=True)
        (lock / "pid").write_text(f"{gone.pid}\n")
        self.assertEqual("rpkica one\n", self.run_it("./rpkica")[1])
        self.assert_tidy()

    def test_lock_without_a_process(self) -> None:
        (self.top / "out" / "building").mkdir(parents=True)
        self.assertEqual("rpkica one\n", self.run_it("./rpkica")[1])
        self.assert_tidy()

    def test_no_build(self) -> None:
        status, out, said = self.run_it("./rpkica", env={"RPKI_NO_BUILD": "1"})
        self.assertEqual((1, ""), (status, out))
        self.assertIn("no program yet", said)
        self.run_it("./rpkica")
        self.write("rpkica", "two")
        self.assertEqual((6, "rpkica one\n", ""), self.run_it("./rpkica", env={"RPKI_NO_BUILD": "1"}))
        self.assertEqual("rpkica two\n", self.run_it("./rpkica", env={"RPKI_NO_BUILD": "0"})[1])


class Trial(InCopy):
    """Trials, without proofs."""

    def setUp(self) -> None:
        """Asks for trials."""
        super().setUp()
        self.environment["RPKI_UNPROVED"] = "1"

    def assert_refused(self, why: str, found: tuple[int, str, str]) -> None:
        """A trial isn't made, and says why."""
        self.assertEqual((125, ""), found[:2])
        self.assertIn(why, found[2])

    def test_hands_on_what_is_the_programs(self) -> None:
        status, out, said = self.run_it("./rpkiguard", "a b", "--help", given="input")
        self.assertEqual((4, "tried rpkiguard ['a b', '--help'] input\n"), (status, out))
        self.assertEqual(2, len(said.splitlines()))
        self.assertIn("nothing is proved", said.splitlines()[0])
        self.assertEqual("own words", said.splitlines()[1])
        self.assertEqual([], self.log())

    def test_waits_for_a_slow_pipe(self) -> None:
        out = self.run_it("sh", "-c", "{ echo one; sleep 3; echo two; } | ./rpkica")[1]
        self.assertEqual("tried rpkica [] one\ntwo\n\n", out)

    def test_too_much_output(self) -> None:
        self.tell("try", "large")
        self.assert_refused("more than 1 MiB", self.run_it("./rpkica", "content"))

    def test_fault(self) -> None:
        self.tell("try", "fault")
        self.assert_refused("index-out-of-bounds", self.run_it("./rpkica", "content"))

    def test_no_input(self) -> None:
        self.assert_refused("isn't there", self.run_it("sh", "-c", "./rpkica content <&-"))

    def test_terminal(self) -> None:
        ours, theirs = pty.openpty()
        self.addCleanup(os.close, ours)
        self.addCleanup(os.close, theirs)
        self.assert_refused("terminal", self.run_it("./rpkica", "content", stdin=theirs))
        self.assertEqual(4, self.run_it("./rpkica", "--help", stdin=theirs)[0])

    def test_output_that_nobody_takes(self) -> None:
        self.assertIn("can't be written", self.run_it("sh", "-c", "./rpkica content </dev/null >/dev/full")[2])
        self.assertIn("can't be written", self.run_it("sh", "-c", "./rpkica content </dev/null >&-")[2])

    def test_interrupted(self) -> None:
        self.tell("seconds", "30")
        with self.start("./rpkica", "content") as process:
            self.wait_for(lambda: self.log("try"))
            os.killpg(process.pid, signal.SIGINT)
            process.communicate(timeout=15)
        self.assertEqual(130, process.returncode)
        self.assert_tidy()

    def test_too_much_input(self) -> None:
        self.assert_refused("octets of input", self.run_it("sh", "-c", "head -c 67108864 /dev/zero | ./rpkica content"))


class Build(InCopy):
    """The script that proves and builds."""

    def build(self, *words: str) -> tuple[int, str, str]:
        """Runs the script."""
        return self.run_it("tools/run/build_crates.py", *words)

    def test_order_by_chains(self) -> None:
        self.assertEqual(0, self.build("--jobs", "1", "rpkica", "other")[0])
        self.assertEqual(["low", "other", "left", "tall", "right", "rpkica"], self.log())

    def test_begins_only_above_what_stands(self) -> None:
        self.tell("seconds", "0.2")
        self.assertEqual(0, self.build("--jobs", "4", "--all")[0])
        rows = [line.split()[:2] for line in (self.fake / "log").read_text().splitlines()]
        for crate, below in (("left", "low"), ("right", "low"), ("tall", "left"), ("rpkica", "tall"), ("rpkica", "right")):
            self.assertLess(rows.index(["end", below]), rows.index(["begin", crate]))
        self.assertLess(rows.index(["begin", "right"]), rows.index(["end", "left"]))
        self.assertEqual(7, len(self.log()))

    def test_failure_stops_all_and_keeps_what_stands(self) -> None:
        self.tell("seconds", "0.5")
        self.tell("fail", "left")
        status, out, said = self.build("--jobs", "4", "--all")
        self.assertEqual((1, ""), (status, out))
        self.assertIn("error: first line\nerror: last line of left\n", said)
        self.assertTrue((self.top / "crates/low/out/rlib/stamp").exists())
        self.assertFalse((self.top / "crates/left/out/rlib").exists())
        self.assertNotIn("tall", self.log())
        self.assert_tidy()
        self.tell("fail", "")
        self.assertEqual(0, self.build("--all")[0])
        self.assertEqual(1, self.log().count("low"))

    def test_begins_with_kept_work(self) -> None:
        self.build("left")
        self.write("low", "two")
        self.build("left")
        self.assertEqual("begun\n" * 2, (self.top / "crates/low/out/incremental/work").read_text())

    def test_takes_up_the_rooms_of_a_killed_build(self) -> None:
        kept = self.top / "crates/left/out/building/rooms/left/crates/left/out/incremental"
        kept.mkdir(parents=True)
        (kept / "work").write_text("earlier\n")
        self.assertEqual(0, self.build("left")[0])
        self.assertEqual("earlier\nbegun\n", (self.top / "crates/left/out/incremental/work").read_text())
        self.assert_tidy()

    def test_failed_library_stays_as_it_was(self) -> None:
        self.build("left")
        stamp = (self.top / "crates/left/out/rlib/stamp").read_text()
        self.write("left", "two")
        self.tell("fail", "left")
        self.build("left")
        self.assertEqual(stamp, (self.top / "crates/left/out/rlib/stamp").read_text())

    def test_interrupted(self) -> None:
        self.tell("seconds", "30")
        with self.start("tools/run/build_crates.py", "left") as process:
            self.wait_for(lambda: self.log() == ["low"])
            os.kill(process.pid, signal.SIGINT)
            self.assertIn("stopped", process.communicate(timeout=15)[1])
        self.assertEqual(130, process.returncode)
        self.assert_tidy()

    def test_shows_on_a_terminal_how_far_it_is(self) -> None:
        self.tell("seconds", "0.5")
        ours, theirs = pty.openpty()
        self.addCleanup(os.close, ours)
        with self.start("tools/run/build_crates.py", "left", stderr=theirs, env={"COLUMNS": "100"}) as process:
            process.communicate(timeout=60)
        os.close(theirs)
        said = os.read(ours, 1 << 20).decode()
        self.assertIn("\r\033[K1 of 2 proved, 0 minutes gone, about ", said)
        self.assertIn("to go: left", said)

    def test_list(self) -> None:
        status, out, said = self.build("--list", "rpkica")
        self.assertEqual((0, ""), (status, said))
        self.assertIn("5 crates, 8.0 minutes; longest chain 7.0: low, left, tall, rpkica", out)
        self.assertEqual([], self.log())

    def test_wrong_words(self) -> None:
        for words in ([], ["nothing"], ["--jobs", "0", "low"], ["--jobs", "x", "low"]):
            self.assertEqual(2, self.build(*words)[0])

    def test_times(self) -> None:
        self.build("left", "--times", str(self.room / "times"))
        rows = [line.split("\t") for line in (self.room / "times").read_text().splitlines()]
        self.assertEqual([["low", "anew"], ["left", "anew"]], [[row[0], row[4]] for row in rows])


class FirstRun(InCopy):
    """The script that measures a first run."""

    def test_measures_in_a_clone(self) -> None:
        (self.top / "bench").mkdir()
        shutil.copy(TOP / "bench" / "first_run.py", self.top / "bench")
        git = ["git", "-c", "user.name=Test", "-c", "user.email=test@localhost"]
        for words in (["init", "-q"], ["add", "-A"], ["commit", "-qm", "All"]):
            self.assertEqual(0, self.run_it(*git, *words)[0])
        self.run_it("tools/run/build_crates.py", "low")
        (self.fake / "log").write_text("")
        self.tell("seconds", "0.3")
        status, out, _ = self.run_it("bench/first_run.py", "--jobs", "2", "rpkica", "rpkiguard")
        self.assertEqual(0, status)
        self.assertEqual({"low", "left", "right", "tall", "rpkica", "rpkiguard"}, set(self.log()))
        self.assertRegex(out, r"longest chain +0\.0  low, left, tall, rpkica\n")
        self.assertRegex(out, r"processor minutes +0\.0  over 2 processors 0\.0\n")
        self.assertRegex(out, r"by the clock +0\.[0-9]  [0-9.]+ times the longer of the two\n")
        self.assertFalse(self.program().exists())


class Shares(unittest.TestCase):
    """The minutes by which crates are ordered."""

    def test_shares_are_those_of_the_table(self) -> None:
        rows = re.findall(r"\| (\w+) \| ([\d.]+) \|", (TOP / "CONTRIBUTING.md").read_text(encoding="utf-8"))
        lines = (TOP / "tools" / "run" / "minutes.txt").read_text(encoding="utf-8").splitlines()
        self.assertEqual(sorted(rows), sorted(tuple(line.split()) for line in lines if not line.startswith("#")))

    def test_each_crate_has_one(self) -> None:
        crates = (TOP / "crates.txt").read_text(encoding="utf-8").splitlines()
        names = [line.partition(":")[0].split()[0] for line in crates if line and not line.startswith("#")]
        lines = (TOP / "tools" / "run" / "minutes.txt").read_text(encoding="utf-8").splitlines()
        self.assertEqual(sorted(names), sorted(line.split()[0] for line in lines[1:]))


if __name__ == "__main__":
    unittest.main()
