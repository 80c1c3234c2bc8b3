#!/usr/bin/env python3
"""Times the publication server, `rpkipub`, on many objects, of 16 octets each.

    bench/server.py [COUNT ..]

Two shapes: `one`, a delta that publishes all of them; and `each`, a delta for each of them. A query for the list follows, and each reply is
counted. The queries are made by tools/cases/signed_messages.py, in a temporary folder that is removed. Printed are, for 1000 and 10000
objects if no COUNT is given:

- status, seconds: the program's exit status, and the best of three runs with its start;
- each: microseconds for each object;
- times: the seconds over those of the count before;
- peak MB: the most memory that the program held, in millions of octets;
- octets: how much of it each object took, beyond what a run without objects takes."""
import os
import subprocess
import sys
import tempfile

from measuring import TOP, best_of_three

sys.path.insert(0, os.path.join(TOP, "tools", "cases"))
import line_cases  # noqa: E402

PROGRAM = os.path.join(TOP, "crates", "rpkipub", "out", "rpkipub")
WORDS = [str(line_cases.MOMENT), line_cases.BASE, line_cases.KEY]


def change(number):
    """An element that publishes an object, by its number."""
    return line_cases.publish(f"f{number}.roa", number.to_bytes(16, "big"))


def one(count):
    """All objects in one delta"""
    return [line_cases.query(*map(change, range(count)))]


def each(count):
    """A delta for each object"""
    return [line_cases.query(change(number)) for number in range(count)]


def put(path, lines):
    """Writes lines to a file, and behind them a question for the objects."""
    with open(path, "w", encoding="ascii") as target:
        target.writelines(line + "\n" for line in [*lines, line_cases.query("<list/>")])


def replies(path):
    """How many lines the program answers."""
    with open(path, "rb") as source:
        return subprocess.run([PROGRAM, *WORDS], stdin=source, capture_output=True, check=False).stdout.count(b"\n")


def main():
    """Times all shapes and counts, and prints them."""
    counts = [int(word) for word in sys.argv[1:]] or [1000, 10000]
    if not os.path.exists(PROGRAM):
        subprocess.run([os.path.join(TOP, "rpkipub"), "--version"], stdout=subprocess.DEVNULL, check=False)
    print(f"{'shape':<5} {'objects':>8} {'status':>6} {'seconds':>8} {'each':>8} {'times':>6} {'peak MB':>8} {'octets':>7}")
    with tempfile.TemporaryDirectory() as folder:
        path = os.path.join(folder, "input")
        put(path, [])
        least = best_of_three(path, PROGRAM, *WORDS)[2]
        for shape in one, each:
            before = None
            for count in counts:
                lines = shape(count)
                put(path, lines)
                if replies(path) != len(lines) + 1:
                    sys.exit(f"{shape.__name__} {count}: not each line is answered")
                seconds, status, peak = best_of_three(path, PROGRAM, *WORDS)
                grown = f"{seconds / before:.2f}" if before else "-"
                print(f"{shape.__name__:<5} {count:>8} {status:>6} {seconds:>8.3f} {seconds / count * 1e6:>8.1f} {grown:>6} "
                      f"{peak / 1e6:>8.1f} {max(0, peak - least) / count:>7.0f}", flush=True)
                before = seconds


if __name__ == "__main__":
    main()
