#!/usr/bin/env python3
"""Counts what `rpkica receive` and `rpkica create` run on deltas of 1 MB of text (2^20 octets), in instructions, by valgrind's callgrind,
and beside them what Python runs to read the same text with xml.etree and to decode the base64 in it. Seconds differ with whatever else a
machine does; these counts are the same each time.

    bench/instructions.py

The shapes and inputs are those of `publication.py`. Printed are, in instructions for each octet of text:

- all: what the program runs, with its start;
- sha2, base64, hex: what of it are functions of these crates, or functions of rpki_ca that do nothing but call them. A function that the
  compiler put into another one counts for that;
- rest: the others;
- python: what Python runs, less what it runs on a message without an object."""
import collections
import os
import re
import subprocess
import sys
import tempfile

from measuring import PROGRAM, build_program
from publication import COMMANDS, PYTHON, delta, large, put, small

CRATES = (("sha2", "sha2::"), ("base64", "base64::"), ("hex", "hex::"), ("hex", "rpki_ca::hexadecimal::"))


def instructions(folder, words, path):
    """How many instructions the words run over a file as standard input, by function."""
    counts = os.path.join(folder, "counts")
    with open(path, "rb") as source:
        subprocess.run(["valgrind", "--tool=callgrind", f"--callgrind-out-file={counts}", *words],
                       stdin=source, stdout=subprocess.DEVNULL, stderr=subprocess.DEVNULL, check=True)
    told = subprocess.run(["callgrind_annotate", "--threshold=100", "--auto=no", counts], capture_output=True, text=True, check=True)
    found = collections.Counter()
    for count, name in re.findall(r"^\s*([\d,]+) \([^)]*\)\s+[^:\s]*:(\S+)", told.stdout, re.M):
        found[name] += int(count.replace(",", ""))
    return found


def of_crates(found):
    """The sums of the crates, and of the others as `rest`."""
    sums = collections.Counter()
    for name, count in found.items():
        sums[next((crate for crate, front in CRATES if name.startswith(front)), "rest")] += count
    return sums


def python_instructions(folder, path):
    """How many instructions Python takes for a text."""
    return sum(instructions(folder, [sys.executable, "-c", PYTHON, path], os.devnull).values())


def main():
    """Counts for all shapes, and prints them."""
    build_program()
    columns = ("all", "sha2", "base64", "hex", "rest", "python")
    print(f"{'command':<8} {'shape':<6} {'objects':>8}" + "".join(f"{column:>9}" for column in columns))
    with tempfile.TemporaryDirectory() as folder:
        path, plain = os.path.join(folder, "input"), os.path.join(folder, "text")
        put(plain, delta(small, 0)[0])
        start = python_instructions(folder, plain)
        for shape in small, large:
            text, objects = delta(shape, 2**20)
            put(plain, text)
            python = python_instructions(folder, plain) - start
            for spelled, words in COMMANDS:
                put(path, spelled(text))
                sums = of_crates(instructions(folder, [PROGRAM, *words], path))
                row = [sum(sums.values()), *(sums[column] for column in columns[1:-1]), python]
                cells = "".join(f"{count / len(text):>9.1f}" for count in row)
                print(f"{words[0]:<8} {shape.__name__:<6} {objects:>8}{cells}", flush=True)


if __name__ == "__main__":
    main()
