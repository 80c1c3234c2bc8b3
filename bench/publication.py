#!/usr/bin/env python3
"""Times `rpkica receive` and `rpkica create` on deltas of 1, 4 and 16 MB of text (1 MB is 2^20 octets), and beside them, in the same run,
what Python takes to read the same text with xml.etree and to decode the base64 in it.

    bench/publication.py [MB ..]

Two shapes: `small`, very many objects of 48 octets, of which each third is published, takes another one's place or is withdrawn; and
`large`, few objects of 192 KB. `create` reads the text, `receive` the hexadecimal of a signed message with it, made by
tools/cases/signed_messages.py; both write it anew, and what they write is compared with it. The inputs are made in a temporary folder and
removed. Printed are:

- objects: how many there are;
- status, seconds: the program's exit status, and the best of three runs with its start;
- MB/s: millions of octets of the text a second;
- times: the seconds over those of the size before, four times as small;
- peak MB, each: the most memory that the program held, in millions of octets; and what it is more than on a message without an object,
  for each octet of input, the input itself among it;
- python s, ratio: the best of three times that Python takes, without its start and the reading of the file; and the program's seconds
  over that, so below 1 where the program is the faster one;
- allocs: how often memory was taken for each object more, by valgrind on two inputs of some 100 and 200 KB; `-` where there is none."""
import os
import re
import shutil
import subprocess
import sys
import tempfile

from layers import digest, many, uri
from measuring import PROGRAM, TOP, best_of_three, build_program
from receive import ONE_KEY

sys.path.insert(0, os.path.join(TOP, "tools", "cases"))
import signed_messages as messages  # noqa: E402

CREATE = ["create", "publication", str(messages.NOW)]
FRONT = b'<msg xmlns="http://www.hactrn.net/uris/rpki/publication-spec/" version="4" type="query"'

PYTHON = """
import base64, os, sys, time
import xml.etree.ElementTree as etree
with open(sys.argv[1], "rb") as source:
    octets = source.read()
start = time.perf_counter()
length = sum(len(base64.b64decode(element.text or "")) for element in etree.fromstring(octets))
print(time.perf_counter() - start, flush=True)
os._exit(0)
"""


def small(number):
    """A change of one object of 48 octets"""
    if number % 3 == 2:
        return b'<withdraw tag="%d" uri="%s" hash="%s"/>' % (number, uri(number), digest(number))
    old = b' hash="%s"' % digest(number) if number % 3 else b""
    return b'<publish tag="%d" uri="%s"%s>%s</publish>' % (number, uri(number), old, b"MIIF" * 16)


def large(number):
    """An object of 192 KB, which is 256 KB of text"""
    return b'<publish tag="%d" uri="%s">%s</publish>' % (number, uri(number), b"MIIF" * 2**16)


def delta(shape, size):
    """A query of as many changes as make this size, as it is written, and how many they are"""
    changes = many(shape, size) if size else []
    return FRONT + (b">" + b"".join(changes) + b"</msg>" if changes else b"/>"), len(changes)


def created(text):
    """What `create` reads of a text: the text."""
    return text


def received(text):
    """What `receive` reads of a text: a signed message with it, in hexadecimal."""
    return messages.message(content=text).hex().encode()


COMMANDS = (received, ONE_KEY), (created, CREATE)


def put(path, octets):
    """Writes octets to a file; how many they are."""
    with open(path, "wb") as target:
        target.write(octets)
    return len(octets)


def is_written(path, words, text):
    """Whether the program writes the text anew, by itself or in a signed message"""
    with open(path, "rb") as source:
        line = subprocess.run([PROGRAM, *words], stdin=source, capture_output=True, check=False).stdout
    return line == text + b"\n" or messages.octet_string(text).hex().encode() in line


def python_time(path, program=PYTHON):
    """What Python takes for its program, as seconds, or None where it has no xml.etree"""
    times = []
    for _ in range(3):
        done = subprocess.run([sys.executable, "-c", program, path], capture_output=True, text=True, check=False)
        if done.returncode != 0:
            return None
        times.append(float(done.stdout))
    return min(times)


def allocations(path, words):
    """How often memory is taken, or None where there is no valgrind"""
    if shutil.which("valgrind") is None:
        return None
    with open(path, "rb") as source:
        done = subprocess.run(["valgrind", PROGRAM, *words], stdin=source, capture_output=True, text=True, check=False)
    found = re.search(r"total heap usage: ([\d,]+) allocs", done.stderr)
    return int(found.group(1).replace(",", "")) if found else None


def allocations_of_one(path, spelled, words, shape):
    """How often memory is taken for each object more, as a text"""
    counts = []
    for size in 100_000, 200_000:
        # Of the large ones this many are one and two.
        text, objects = delta(shape, size if shape is small else size * 2)
        put(path, spelled(text))
        counts.append((allocations(path, words), objects))
    (first, fewer), (second, more) = counts
    return "-" if first is None or second is None else f"{(second - first) / (more - fewer):.2f}"


def least_peak(path, spelled, words):
    """The most memory that the program holds on a message without an object"""
    put(path, spelled(delta(small, 0)[0]))
    return best_of_three(path, PROGRAM, *words)[2]


def rows(folder, spelled, words, shape, sizes):
    """Measures a command on a shape, and prints a row for each size."""
    path, plain = os.path.join(folder, "input"), os.path.join(folder, "text")
    least, one = least_peak(path, spelled, words), allocations_of_one(path, spelled, words, shape)
    before = None
    for size in sizes:
        text, objects = delta(shape, size * 2**20)
        put(plain, text)
        length = put(path, spelled(text))
        if not is_written(path, words, text):
            sys.exit(f"{words[0]} {shape.__name__}: another text is written")
        seconds, status, peak = best_of_three(path, PROGRAM, *words)
        taken = python_time(plain)
        grown = f"{seconds / before:.2f}" if before else "-"
        compared = ("-", "-") if taken is None else (f"{taken:.3f}", f"{seconds / taken:.2f}")
        print(f"{words[0]:<8} {shape.__name__:<6} {size:>4} {objects:>8} {status:>6} {seconds:>8.3f} {len(text) / seconds / 1e6:>8.1f} "
              f"{grown:>6} {peak / 1e6:>8.1f} {max(0, peak - least) / length:>6.2f} {compared[0]:>8} {compared[1]:>6} {one:>7}", flush=True)
        before = seconds


def main():
    """Measures both commands on both shapes."""
    sizes = [int(word) for word in sys.argv[1:]] or [1, 4, 16]
    build_program()
    print(f"{'command':<8} {'shape':<6} {'MB':>4} {'objects':>8} {'status':>6} {'seconds':>8} {'MB/s':>8} {'times':>6} {'peak MB':>8} "
          f"{'each':>6} {'python s':>8} {'ratio':>6} {'allocs':>7}")
    with tempfile.TemporaryDirectory() as folder:
        for spelled, words in COMMANDS:
            for shape in small, large:
                rows(folder, spelled, words, shape, sizes)


if __name__ == "__main__":
    main()
