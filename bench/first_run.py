#!/usr/bin/env python3
"""Measures what the first call of a program takes, where nothing is proved yet.

    bench/first_run.py [PROGRAM ..] [--jobs N] [--at FOLDER]

Clones this repository, as committed, into a new folder (in FOLDER, or where temporary files stand; it takes some 5 GB), has its
tools/run/build_crates.py prove and build the programs (rpkica, if none is named), and removes it. It prints for each crate its minutes by
the clock and of processors, and then three sums: the longest chain of crates by the clock, the processor minutes, and the minutes by the
clock of all, beside the longer of the chain and the processor minutes shared out over the processors.

rt begins with what it kept of other copies on the machine. So that it finds none, it is run from a folder of links to the toolchain beside
the clone. Where it says that it began with kept work nonetheless, the exit status is 1: then the sums are not those of a first run."""

from __future__ import annotations

import argparse
import os
import pathlib
import shutil
import subprocess
import sys
import tempfile
import time

TOP = pathlib.Path(__file__).resolve().parent.parent
sys.path.insert(0, str(TOP / "tools" / "run"))

import build_crates as build  # noqa: E402  (it stands in tools/run/)
import rooms  # noqa: E402

Path = pathlib.Path
BUSY = 0.5  # of the load's average, from which on others are at work


def link_toolchain(to: Path) -> Path:
    """Makes a folder that is the toolchain by links, but for rt's own scripts, which look beside themselves; gives its bin."""
    found = shutil.which("rt")
    if not found:
        sys.exit("rt isn't found: README says which toolchain this needs")
    kit = Path(found).resolve().parent.parent
    (to / "bin").mkdir(parents=True)
    for path in kit.iterdir():
        if path.name != "bin":
            (to / path.name).symlink_to(path)
    for path in (kit / "bin").iterdir():
        if path.name == "rt" or path.suffix == ".py":
            shutil.copy2(path, to / "bin" / path.name)
        else:
            (to / "bin" / path.name).symlink_to(path)
    return to / "bin"


class Crate:
    """What a crate took, as tools/run/build_crates.py wrote it."""

    def __init__(self, line: str) -> None:
        self.name, jobs, clock, processor, kept = line.split("\t")
        self.jobs, self.clock, self.processor, self.was_kept = int(jobs), float(clock) / 60, float(processor) / 60, kept == "kept"


def run_build(room: Path, programs: list[str], jobs: list[str]) -> tuple[list[Crate], float]:
    """Builds in a clone; what each crate took, and the minutes of all."""
    clone, times = room / "clone", room / "times"
    subprocess.run(["git", "clone", "--quiet", str(TOP), str(clone)], check=True)
    environment = {**os.environ, "PATH": f"{link_toolchain(room / 'toolchain')}:{os.environ['PATH']}"}
    began = time.monotonic()
    words = [str(clone / "tools" / "run" / "build_crates.py"), *programs, *jobs, "--times", str(times)]
    ran = subprocess.run(words, env=environment, check=False)
    taken = (time.monotonic() - began) / 60
    if ran.returncode:
        sys.exit(ran.returncode)
    return [Crate(line) for line in times.read_text(encoding="utf-8").splitlines()], taken


def report(crates: list[Crate], programs: list[str], taken: float, lanes: int) -> str:
    """The table of the crates, and the three sums."""
    plan = build.Plan(programs)
    clock = {crate.name: crate.clock for crate in crates}
    chain = plan.longest_chain(clock)
    of_chain, used = sum(clock[name] for name in chain), sum(crate.processor for crate in crates)
    least = max(of_chain, used / lanes)
    lines = [f"{'minutes':20}{'jobs':>6}{'clock':>8}{'processor':>11}"]
    lines += [f"{crate.name:20}{crate.jobs:6}{crate.clock:8.1f}{crate.processor:11.1f}" for crate in crates]
    lines += [f"longest chain      {of_chain:8.1f}  {', '.join(chain)}"]
    lines += [f"processor minutes  {used:8.1f}  over {lanes} processors {used / lanes:.1f}"]
    lines += [f"by the clock       {taken:8.1f}  {taken / least if least else 1:.2f} times the longer of the two"]
    return "\n".join(lines)


def main() -> int:
    """Measures a first run, and prints it; 1 where it began with kept work."""
    parser = argparse.ArgumentParser(description=__doc__, formatter_class=argparse.RawDescriptionHelpFormatter)
    parser.add_argument("program", nargs="*", default=["rpkica"])
    parser.add_argument("--jobs", type=build.at_least_one, metavar="N")
    parser.add_argument("--at", metavar="FOLDER")
    asked = parser.parse_args()
    if os.getloadavg()[0] > BUSY:
        print(f"the machine is at work (load {os.getloadavg()[0]:.1f}): its minutes are no others'", file=sys.stderr)
    with tempfile.TemporaryDirectory(prefix="first-run-", dir=asked.at) as room:
        jobs = ["--jobs", str(asked.jobs)] if asked.jobs else []
        crates, taken = run_build(Path(room), asked.program, jobs)
    print(report(crates, asked.program, taken, asked.jobs or rooms.processors()))
    kept = [crate.name for crate in crates if crate.was_kept]
    if kept:
        print(f"not from nothing, by what rt had kept: {', '.join(kept)}")
    return 1 if kept else 0


if __name__ == "__main__":
    sys.exit(main())
