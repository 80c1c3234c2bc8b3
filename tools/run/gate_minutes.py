#!/usr/bin/env python3
"""Says how much processor time the gate takes, crate by crate.

    tools/run/gate_minutes.py [--watch PID] [--log FILE] [--read FILE ..] [--edits N] [--markdown | --shares]

Runs `rt ci` at the top, with `--anew` where rt knows that word, or watches a gate that runs already, of which PID is the process. Every
second it reads how much processor time each process below it has taken, and when the gate ends it prints, for each crate, the minutes of
its proofs, of its wrong bodies and of its tests and programs, and the same of all. A process counts for the crate that is named by
`--crate-name`, or in whose folder it runs; it counts as a wrong body where it works on a copy that rt makes for one, as a run where it is
no `rattle`. Processes that end within the second are missed, so the sums are a little too low. What rt itself takes stands under `rt`.

With --log each process is noted in a file as well, a line each: crate, what it counts for, seconds, place, which of a wrong body's try is
the edit, and of the check with which they begin `seed`. With --read nothing runs, and the table is that of such files. With --edits the N
edits that took longest are printed too. With --markdown the table is the one of CONTRIBUTING.md, and with --shares it is
tools/run/minutes.txt, by which tools/run/build_crates.py orders crates."""

import argparse
import collections
import os
import pathlib
import re
import subprocess
import sys
import time

sys.path.insert(0, str(pathlib.Path(__file__).resolve().parents[1] / "tree"))
from sources import TOP, crates_in_order  # noqa: E402

KINDS = ("proofs", "wrong bodies", "runs")
TICKS = os.sysconf("SC_CLK_TCK")


def stat_of(pid):
    """The parent of a process and its processor seconds; None where it is gone."""
    try:
        with open(f"/proc/{pid}/stat", encoding="utf-8", errors="replace") as file:
            fields = file.read().rpartition(")")[2].split()
    except OSError:
        return None
    return int(fields[1]), (int(fields[11]) + int(fields[12])) / TICKS


def place_of(pid):
    """The words of a process and the folder that it runs in."""
    try:
        with open(f"/proc/{pid}/cmdline", encoding="utf-8", errors="replace") as file:
            return file.read().split("\0"), os.readlink(f"/proc/{pid}/cwd")
    except OSError:
        return [], ""


def counted_for(words, folder, crates):
    """The crate that a process counts for, and what it counts as."""
    named = re.search(r"/crates/(\w+)", folder)
    crate = words[words.index("--crate-name") + 1] if "--crate-name" in words[:-1] else named.group(1) if named else "rt"
    if "rattle" not in os.path.basename(words[0] if words else ""):
        return (crate, "runs") if crate in crates else ("rt", "runs")
    is_edit = any("/rt-edit" in word for word in [folder, *words])
    return crate, "wrong bodies" if is_edit else "proofs"


def place_noted(words, folder, crate, kind):
    """What is noted as the place of a process: of a try the edit, which rt tells apart by its number, and of the first check `seed`."""
    at = os.path.basename(words[words.index("--incremental") + 1]) if "--incremental" in words[:-1] else ""
    if kind != "wrong bodies" or not at:
        return folder
    edits = sorted(name for name in os.listdir(os.path.join(TOP, "crates", crate, "must-fail")) if name.endswith(".edit"))
    return edits[int(at)] if at.isdigit() and int(at) < len(edits) else at


def below(root):
    """The processes below one, with their processor seconds."""
    stats = {pid: found for pid in map(int, filter(str.isdigit, os.listdir("/proc"))) if (found := stat_of(pid))}
    inside = {root}
    while more := {pid for pid, (parent, _) in stats.items() if parent in inside} - inside:
        inside |= more
    return {pid: stats[pid][1] for pid in inside if pid in stats}


def watch(root, is_over):
    """The seconds that each process below the gate took, with what it counts for."""
    crates, seconds, known = set(crates_in_order()), {}, {}
    while not is_over():
        for pid, taken in below(root).items():
            if pid == root:
                known[pid] = ("rt", "runs", "")
            elif (words_and_folder := place_of(pid))[0][:1] not in ([], [""]):
                # What a process is can change, as rt starts one by a copy of itself.
                found = counted_for(*words_and_folder, crates)
                known[pid] = (*found, place_noted(*words_and_folder, *found))
            seconds[pid] = max(taken, seconds.get(pid, 0.0))
        time.sleep(1)
    return [(*known[pid], taken) for pid, taken in seconds.items() if pid in known]


def sums_of(rows):
    """The minutes of each kind, by crate, in the order of crates.txt."""
    sums = collections.defaultdict(lambda: dict.fromkeys(KINDS, 0.0))
    for crate, kind, _, taken in rows:
        sums[crate][kind] += taken / 60
    order = [crate for crate in crates_in_order() if crate in sums] + sorted(set(sums) - set(crates_in_order()))
    return {crate: sums[crate] for crate in order}


def markdown_of(rows):
    """The table of CONTRIBUTING.md, two crates a line; runs of less than three seconds are left out, and so is what rt itself takes."""
    sums = sums_of(rows)
    sums.pop("rt", None)
    said = {crate: [f"{of[kind]:.1f}" if of[kind] >= 0.05 else "" for kind in KINDS] for crate, of in sums.items()}
    cells = [f"| {crate} | " + " | ".join(row) + " " for crate, row in said.items()]
    half = (len(cells) + 1) // 2
    cells += ["| " * (len(KINDS) + 1)] * (2 * half - len(cells))
    head = "| Crate | " + " | ".join(KINDS) + " "
    lines = [head * 2 + "|", "|---" * (2 * len(KINDS) + 2) + "|"]
    return "\n".join(lines + [cells[at] + cells[at + half] + "|" for at in range(half)])


def shares_of(rows):
    """The lines of tools/run/minutes.txt."""
    head = "# Each crate's minutes of proofs, of CONTRIBUTING.md's table: tools/run/build_crates.py says by them what comes first."
    return "\n".join([head, *(f"{crate} {of['proofs']:.1f}" for crate, of in sums_of(rows).items() if crate != "rt")])


def table_of(rows):
    """The table of all crates, with their sums."""
    sums = sums_of(rows)
    lines = [f"{'minutes':20}" + "".join(f"{kind:>14}" for kind in KINDS) + f"{'all':>8}"]
    for crate, of in sums.items():
        lines.append(f"{crate:20}" + "".join(f"{of[kind]:14.1f}" for kind in KINDS) + f"{sum(of.values()):8.1f}")
    whole = {kind: sum(of[kind] for of in sums.values()) for kind in KINDS}
    lines.append(f"{'all':20}" + "".join(f"{whole[kind]:14.1f}" for kind in KINDS) + f"{sum(whole.values()):8.1f}")
    return "\n".join(lines)


def edits_of(rows, number):
    """The wrong bodies that took longest, so many of them."""
    tries = [(taken, crate, place) for crate, kind, place, taken in rows if kind == "wrong bodies" and place.endswith(".edit")]
    return "\n".join(f"{taken:8.1f} s  {crate} {place}" for taken, crate, place in sorted(tries, reverse=True)[:number])


def gate_words():
    """The words that run the gate from nothing."""
    said = subprocess.run(["rt", "help"], capture_output=True, text=True, check=False)
    return ["rt", "ci", *(["--anew"] if "--anew" in said.stdout + said.stderr else [])]


def rows_in(path):
    """The rows of a file that --log wrote."""
    with open(path, encoding="utf-8") as file:
        rows = [line.rstrip("\n").split("\t") for line in file]
    return [(crate, kind, place, float(taken)) for crate, kind, taken, place in rows]


def main():
    """Runs or watches the gate, or reads what was logged, and prints the table."""
    parser = argparse.ArgumentParser(description=__doc__, formatter_class=argparse.RawDescriptionHelpFormatter)
    parser.add_argument("--watch", type=int, metavar="PID")
    parser.add_argument("--log", metavar="FILE")
    parser.add_argument("--read", nargs="+", metavar="FILE")
    parser.add_argument("--edits", type=int, default=0, metavar="N")
    parser.add_argument("--markdown", action="store_true")
    parser.add_argument("--shares", action="store_true")
    asked = parser.parse_args()
    table = markdown_of if asked.markdown else shares_of if asked.shares else table_of
    if asked.read:
        rows = [row for path in asked.read for row in rows_in(path)]
        print(table(rows), *[edits_of(rows, asked.edits)] * bool(asked.edits), sep="\n")
        return
    began, status = time.monotonic(), 0
    if asked.watch:
        rows = watch(asked.watch, lambda: stat_of(asked.watch) is None)
    else:
        with subprocess.Popen(gate_words(), cwd=TOP) as gate:
            rows = watch(gate.pid, lambda: gate.poll() is not None)
            status = gate.wait()
    if asked.log:
        with open(asked.log, "w", encoding="utf-8") as file:
            file.writelines(f"{crate}\t{kind}\t{taken:.2f}\t{place}\n" for crate, kind, place, taken in rows)
    print(table(rows), *[edits_of(rows, asked.edits)] * bool(asked.edits), sep="\n")
    print(f"{(time.monotonic() - began) / 60:.1f} minutes by the clock", file=sys.stderr)
    sys.exit(status)


if __name__ == "__main__":
    main()
