#!/usr/bin/env python3
"""Proves crates and builds programs and the static library, several crates side by side.

    tools/run/build_crates.py rpkica ..     these crates, and all that they stand on
    tools/run/build_crates.py --all         every crate of crates.txt
    tools/run/build_crates.py --list ..     shows in which order, with each crate's share in minutes, and proves nothing

A crate begins as soon as those below it are proved; where several could, the one comes first whose longest chain of crates above it takes
longest, by tools/run/minutes.txt. `rt lib` proves a library, and builds a static one; `rt run -- --version` proves and builds a program;
each works in a room of its own (tools/run/rooms.py), over what earlier runs kept. As many run side by side as there are processors and
free memory, 2.5 GB for each; processors that no crate waits for go to one that runs, by rt's --jobs. No test runs, and no wrong body is
tried: `rt ci` does that.

Each crate is shown on standard error as it begins and as it ends, on a terminal also, in one line, how far all is. The exit status is 0, or
1 where a crate isn't proved (all that rt said of it is shown), 2 where the words are wrong, or 130 after Ctrl-C. A failure and Ctrl-C end
what still runs, and leave what was proved, and each program that there was, in its place."""

from __future__ import annotations

import argparse
import os
import pathlib
import shutil
import signal
import subprocess
import sys
import time
from typing import Optional, TextIO

import rooms

sys.path.insert(0, str(pathlib.Path(__file__).resolve().parents[1] / "tree"))
from sources import TOP, crates_in_order  # noqa: E402

EACH = 2_500_000_000  # bytes that a check may take
MOST_JOBS = 4
SHARE = 1.0  # minutes of a crate that tools/run/minutes.txt doesn't name
PAUSE = 0.1
AT_ONCE = 2  # seconds
PATIENCE = 10  # seconds that rt has to end in
RUNNING = b"rt: running "  # what rt says once a program is proved and built
KEPT = (b"begins with what a check kept", b"nothing has changed since")  # what it says where it doesn't begin from nothing


def closure(uses: dict[str, list[str]], names: list[str]) -> list[str]:
    """These crates and all below them, in the order of crates.txt, lowest first."""
    found: set[str] = set()
    left = list(names)
    while left:
        name = left.pop()
        if name not in found:
            found.add(name)
            left += [below for below in uses[name] if below in uses]
    return [name for name in uses if name in found]


def read_shares() -> dict[str, float]:
    """Each crate's minutes, where the file tells."""
    try:
        lines = (TOP / "tools" / "run" / "minutes.txt").read_text(encoding="utf-8").splitlines()
    except OSError:
        return {}
    rows = [line.split() for line in lines if line and not line.startswith("#")]
    return {name: float(minutes) for name, minutes in rows}


def minutes(seconds: float) -> str:
    """A time in words."""
    return f"{seconds / 60:.1f} minutes" if seconds >= 60 else f"{seconds:.0f} seconds"


class Plan:
    """What stands on what, and how long it takes."""

    def __init__(self, names: list[str]) -> None:
        uses, shares = crates_in_order(), read_shares()
        self.crates = closure(uses, names)
        self.below = {crate: [name for name in closure(uses, [crate]) if name != crate] for crate in self.crates}
        self.share = {crate: shares.get(crate, SHARE) for crate in self.crates}

    def chains(self, left: dict[str, float]) -> dict[str, float]:
        """Of each crate, the longest chain of it and of crates above it, in what is left of their minutes."""
        longest = {crate: 0.0 for crate in self.crates}
        for crate in reversed(self.crates):
            longest[crate] += left[crate]
            for name in self.below[crate]:
                longest[name] = max(longest[name], longest[crate])
        return longest

    def longest_chain(self, left: dict[str, float]) -> list[str]:
        """The crates of the longest chain, lowest first."""
        longest = self.chains(left)
        chain: list[str] = []
        above: Optional[str] = max(self.crates, key=lambda crate: longest[crate])
        while above is not None:
            chain.append(above)
            on_it = [crate for crate in self.crates if chain[-1] in self.below[crate]]
            above = max(on_it, key=lambda crate: longest[crate], default=None)
        return chain

    def shown(self) -> str:
        """The table that --list prints."""
        longest = self.chains(self.share)
        lines = [f"{'crate':20}{'minutes':>9}{'chain':>9}"]
        lines += [f"{crate:20}{self.share[crate]:9.1f}{longest[crate]:9.1f}" for crate in self.crates]
        chain = self.longest_chain(self.share)
        whole, of_chain = sum(self.share.values()), sum(self.share[crate] for crate in chain)
        lines += [f"{len(self.crates)} crates, {whole:.1f} minutes; longest chain {of_chain:.1f}: {', '.join(chain)}"]
        return "\n".join(lines)


class Screen:
    """Standard error: lines that stay and, on a terminal, a last one that is written over."""

    def __init__(self, out: TextIO) -> None:
        self.out, self.is_terminal, self.last = out, out.isatty(), ""

    def say(self, line: str) -> None:
        """Prints a line that stays."""
        self.wipe()
        print(line, file=self.out, flush=True)

    def wipe(self) -> None:
        """Wipes the line that doesn't stay."""
        if self.last:
            print("\r\033[K", end="", file=self.out, flush=True)
        self.last = ""

    def show(self, line: str) -> None:
        """Shows a line that doesn't stay, where there is a terminal."""
        if self.is_terminal and line != self.last:
            cut = line[: shutil.get_terminal_size().columns - 1]
            print(f"\r\033[K{cut}", end="", file=self.out, flush=True)
            self.last = line


class Signals:
    """Notes the first signal that asks the build to end."""

    def __init__(self) -> None:
        self.number = 0
        signal.signal(signal.SIGINT, self.note)
        signal.signal(signal.SIGTERM, self.note)
        if signal.getsignal(signal.SIGHUP) != signal.SIG_IGN:
            signal.signal(signal.SIGHUP, self.note)

    def note(self, number: int, _frame: object) -> None:
        """Notes the first signal that comes."""
        self.number = self.number or number

    def has_come(self) -> bool:
        """Whether a signal has come."""
        return self.number != 0


class Run:
    """rt at work on a crate in its room."""

    def __init__(self, crate: str, place: pathlib.Path, jobs: int) -> None:
        self.crate, self.jobs, self.began = crate, jobs, time.monotonic()
        self.is_program = (place / "src" / "main.rt").is_file()
        self.said = place.parent.parent / "said"
        self.status, self.seconds, self.processor = 0, 0.0, 0.0
        self.was_kept = self.is_shown = False
        words = ["rt", "run" if self.is_program else "lib", "--jobs", str(jobs)]
        words += ["--", "--version"] if self.is_program else []
        with open(self.said, "wb") as out:
            self.process = subprocess.Popen(
                words, cwd=place, stdin=subprocess.DEVNULL, stdout=out, stderr=subprocess.STDOUT, start_new_session=True
            )

    def has_ended(self) -> bool:
        """Whether the run has ended; then what it took is noted."""
        if self.process.returncode is not None:
            return True
        pid, status, used = os.wait4(self.process.pid, os.WNOHANG)
        if pid:
            self.status = self.process.returncode = os.waitstatus_to_exitcode(status)
            self.seconds = time.monotonic() - self.began
            self.processor = used.ru_utime + used.ru_stime
        return bool(pid)

    def text(self) -> bytes:
        """What the run has said."""
        return self.said.read_bytes()

    def is_made(self) -> bool:
        """A program that is built may end with any status."""
        return self.status == 0 or (self.is_program and any(line.startswith(RUNNING) for line in self.text().splitlines()))

    def end(self, number: int) -> None:
        """Sends the run and all that it started a signal."""
        try:
            os.killpg(self.process.pid, number)
        except ProcessLookupError:
            pass


class Builder:
    """Has rt prove the crates of a plan."""

    def __init__(self, plan: Plan, most: Optional[int], screen: Screen, signals: Signals) -> None:
        self.plan, self.screen, self.signals = plan, screen, signals
        self.rooms = rooms.Rooms(TOP, plan.crates)
        self.lanes = most or lanes_here()
        self.left = list(plan.crates)
        self.running: list[Run] = []
        self.done: dict[str, Run] = {}
        self.chains = plan.chains(plan.share)
        self.began = time.monotonic()

    def build(self) -> int:
        """Proves all crates of the plan; the exit status."""
        try:
            with self.rooms.opened(self.screen.say, self.signals.has_come):
                try:
                    status = self.work()
                finally:
                    self.end_all()
        except rooms.Stopped:
            status = 1
        self.screen.wipe()
        if self.signals.number:
            self.screen.say("stopped; what was proved stays")
            return 128 + self.signals.number
        return status

    def work(self) -> int:
        """Proves all, and gives 0; or 1 where a crate isn't proved or a signal came, and some may still run."""
        self.began = time.monotonic()
        while self.left or self.running:
            if self.signals.has_come():
                return 1
            while start := self.next_start():
                self.begin(*start)
            for run in [run for run in self.running if run.has_ended()]:
                if not self.end(run):
                    return 1
            self.show()
            time.sleep(PAUSE)
        self.screen.say(self.summary())
        return 0

    def next_start(self) -> Optional[tuple[str, int]]:
        """The crate that is to begin now, and with how many jobs."""
        ready = [crate for crate in self.left if all(name in self.done for name in self.plan.below[crate])]
        idle = self.lanes - sum(run.jobs for run in self.running)
        free = rooms.memory_free()
        if not ready or idle < 1 or (self.running and free is not None and free < EACH):
            return None
        first = max(ready, key=lambda crate: self.chains[crate])
        jobs = max(1, idle // len(ready))
        if self.lanes > 2 and self.is_waited_for(first):
            jobs = max(jobs, min(2, idle))
        return first, min(jobs, MOST_JOBS)

    def is_waited_for(self, crate: str) -> bool:
        """Whether its chain is the longest of what is left, and takes longer than all that is left does side by side."""
        left = [*self.left, *(run.crate for run in self.running)]
        chain, whole = self.chains[crate], sum(self.plan.share[name] for name in left)
        return chain == max(self.chains[name] for name in left) and chain * self.lanes > whole

    def begin(self, crate: str, jobs: int) -> None:
        """Begins the run of a crate, in a room."""
        place = self.rooms.enter(crate, self.plan.below[crate])
        self.left.remove(crate)
        self.running.append(Run(crate, place, jobs))

    def end(self, run: Run) -> bool:
        """Takes what a run made, or shows what it said; whether it made it."""
        self.running.remove(run)
        is_made, text = run.is_made(), run.text()
        run.was_kept = not text or any(word in text for word in KEPT)
        self.rooms.leave(run.crate, is_made)
        if not is_made:
            self.screen.say(f"{run.crate}: not proved (status {run.status}); rt said:")
            self.screen.out.buffer.write(text)
            self.screen.say(f"{run.crate}: not proved")
            return False
        self.done[run.crate] = run
        if run.is_shown or not run.was_kept:
            what = "built" if run.is_program else "proved"
            self.screen.say(f"{run.crate}: {what} in {minutes(run.seconds)}, {len(self.done)} of {len(self.plan.crates)}")
        return True

    def end_all(self) -> None:
        """Ends all runs, and waits for them."""
        for run in self.running:
            run.end(signal.SIGTERM)
        until = time.monotonic() + PATIENCE
        for run in self.running:
            while not run.has_ended():
                if time.monotonic() > until:
                    run.end(signal.SIGKILL)
                time.sleep(PAUSE)
            self.rooms.leave(run.crate, False)
        self.running = []

    def to_go(self) -> float:
        """Seconds, by the shares of what is left and by how long others took beside theirs."""
        ended = [run for run in self.done.values() if run.seconds > 5]
        shares = sum(self.plan.share[run.crate] for run in ended)
        pace = sum(run.seconds for run in ended) / shares if shares else 60.0
        left = {crate: 0.0 if crate in self.done else pace * self.plan.share[crate] for crate in self.plan.crates}
        for run in self.running:
            left[run.crate] = max(0.0, left[run.crate] - (time.monotonic() - run.began))
        return max(*self.plan.chains(left).values(), sum(left.values()) / self.lanes)

    def show(self) -> None:
        """Names each crate that has begun; one that ends at once has nothing new in it."""
        for run in self.running:
            if not run.is_shown and time.monotonic() - run.began > AT_ONCE:
                run.is_shown = True
                self.screen.say(f"{run.crate}: begins" + (f" ({run.jobs} jobs)" if run.jobs > 1 else ""))
        self.screen.show(self.progress())

    def progress(self) -> str:
        """How far the work is, in words."""
        gone = (time.monotonic() - self.began) / 60
        names = ", ".join(run.crate for run in self.running)
        return f"{len(self.done)} of {len(self.plan.crates)} proved, {gone:.0f} minutes gone, about {self.to_go() / 60:.0f} to go: {names}"

    def summary(self) -> str:
        """What the work took, in words."""
        gone, used = time.monotonic() - self.began, sum(run.processor for run in self.done.values())
        kept = sum(run.was_kept for run in self.done.values())
        return f"{len(self.done)} crates stand, {kept} of them by earlier work, after {minutes(gone)} and {used / 60:.1f} processor minutes"

    def write_times(self, path: str) -> None:
        """A line for each crate: its name, jobs, seconds by the clock and of processors, and whether rt began with what it had kept."""
        with open(path, "w", encoding="utf-8") as out:
            for crate, run in self.done.items():
                print(crate, run.jobs, f"{run.seconds:.1f}", f"{run.processor:.1f}", "kept" if run.was_kept else "anew", sep="\t", file=out)


def lanes_here() -> int:
    """How many checks the machine has processors and memory for."""
    free = rooms.memory_free()
    by_memory = int(0.9 * free / EACH) if free is not None else rooms.processors()
    return max(1, min(rooms.processors(), by_memory))


def at_least_one(word: str) -> int:
    """The number that a word names, which is 1 at least."""
    if not word.isdigit() or int(word) < 1:
        raise argparse.ArgumentTypeError("a number from 1 on")
    return int(word)


def read_words() -> argparse.Namespace:
    """What the words ask for."""
    parser = argparse.ArgumentParser(description=__doc__, formatter_class=argparse.RawDescriptionHelpFormatter)
    parser.add_argument("crate", nargs="*")
    parser.add_argument("--all", action="store_true", help="every crate of crates.txt")
    parser.add_argument("--list", action="store_true", help="show the order, and prove nothing")
    parser.add_argument("--jobs", type=at_least_one, metavar="N", help="processors to use")
    parser.add_argument("--times", metavar="FILE", help="write what each crate took")
    asked = parser.parse_args()
    names = list(crates_in_order())
    asked.crate = names if asked.all else asked.crate
    unknown = [name for name in asked.crate if name not in names]
    if not asked.crate or unknown:
        parser.error(f"crates.txt has no crate {unknown[0]}" if unknown else "name crates, or --all")
    return asked


def main() -> int:
    """Does what the words ask for; the exit status."""
    asked = read_words()
    plan = Plan(asked.crate)
    if asked.list:
        print(plan.shown())
        return 0
    screen = Screen(sys.stderr)
    if not shutil.which("rt"):
        screen.say("rt isn't found: README says which toolchain this needs")
        return 1
    builder = Builder(plan, asked.jobs, screen, Signals())
    status = builder.build()
    if asked.times:
        builder.write_times(asked.times)
    return status


if __name__ == "__main__":
    sys.exit(main())
