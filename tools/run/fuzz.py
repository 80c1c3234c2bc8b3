#!/usr/bin/env python3
"""Runs rpkica on broken inputs, and asks what holds of every input.

    tools/run/fuzz.py [--count N] [--seed N] [--jobs N] [--program FILE] [--keep FOLDER]

An input is made of a stored case of crates/test_run: octets of it are changed, cut out, repeated or put in, lengths are changed, or its
front is joined with the end of another case's. What is in hexadecimal is broken before it is spelled, and now and then behind that.

Of each it is asked that the program ends with a status of its table, within ten seconds; that it writes one line, which is that
status's (with 0 any line, and of `content` any octets and a line feed); and that it answers the same where the input comes in pieces. With
memory to spare and streams that don't fail, 10, 11 and 12 never come. Where one is not so, the words and the input are kept.

Each input follows from the seed and its number alone, so that a run can be made again. It prints how many inputs were tried, how often
each status came, and how many were wrong, and ends with 1 where one was.
"""

import argparse
import collections
import fcntl
import multiprocessing
import pathlib
import random
import struct
import subprocess
import sys
import termios

sys.path.insert(0, str(pathlib.Path(__file__).resolve().parents[1] / "cases"))
from stored_cases import octets_of  # noqa: E402

ROOT = pathlib.Path(__file__).resolve().parents[2]
CASES = ROOT / "crates" / "test_run" / "data" / "cases.txt"
PROGRAM = ROOT / "crates" / "rpkica" / "out" / "rpkica"
SECONDS = 10

# The lines of each status but 0.
LINES = {
    2: [b"Usage"],
    3: [b"Hex"],
    4: [b"CmsDecode"],
    5: [b"XmlError", b"CertSyntax", b"InvalidCsrSyntax", b"InvalidTaCertEncoding", b"InvalidTaCert"],
    6: [b"Validation %d" % n for n in range(1, 15)],
    7: [b"KeyNotFound", b"IncompatibleKey", b"KeyReused", b"Signer"],
    8: [b"Moment"],
    9: [b"TooLong"],
}

# Octets that stand for something in DER or in XML.
TELLING = bytes([0, 1, 2, 4, 6, 5, 0x1F, 0x30, 0x31, 0x7F, 0x80, 0x81, 0x82, 0x84, 0x88, 0xA0, 0xA1, 0xFF]) + b"<>&;'\"/= \n:"


def cases():
    """The words and the input of each stored case of `run`."""
    found = []
    for line in CASES.read_text().splitlines():
        fields = line.split(" ")
        if len(fields) > 4 and fields[1].isdigit():
            words = [bytes.fromhex(word[1:]) if word.startswith("#") else word.encode() for word in fields[4:]]
            if all(word and b"\0" not in word for word in words):
                found.append((words, octets_of(fields[3])))
    return found


def is_spelled(words):
    """Whether the input of these words is hexadecimal."""
    return words[0] in (b"content", b"receive")


def unspelled(octets):
    """What the digits spell, if they do."""
    try:
        return bytes.fromhex(octets.strip().decode("ascii"))
    except ValueError:
        return None


def broken(chance, octets, other):
    """The octets after one change."""
    octets = bytearray(octets)
    at = chance.randrange(len(octets) + 1)
    length = min(chance.choice([1, 1, 2, 4, 16, 64, 1024]), len(octets) - at)
    kind = chance.randrange(8)
    if kind == 0 and at < len(octets):
        octets[at] ^= 1 << chance.randrange(8)
    elif kind == 1 and at < len(octets):
        octets[at] = chance.choice(TELLING)
    elif kind == 2:
        del octets[at : at + length]
    elif kind == 3:
        octets[at:at] = octets[at : at + length] * chance.choice([1, 2, 100])
    elif kind == 4:
        octets[at:at] = bytes(chance.choice(TELLING) for _ in range(chance.choice([1, 2, 8])))
    elif kind == 5 and at < len(octets):
        octets[at] = (octets[at] + chance.choice([-1, 1])) % 256
    elif kind == 6:
        octets[at:] = other[chance.randrange(len(other) + 1) :]
    else:
        begin = chance.randrange(len(other) + 1)
        octets[at : at + length] = other[begin : begin + chance.choice([1, 8, 64, 512])]
    return bytes(octets)


def made(stored, seed, number):
    """The words and the input with this number, and where it is cut into pieces."""
    chance = random.Random(f"{seed}/{number}")
    words, octets = chance.choice(stored)
    other = chance.choice(stored)[1]
    spelled = unspelled(octets) if is_spelled(words) else None
    if spelled is not None and chance.randrange(16):
        other = unspelled(other) or other
        for _ in range(chance.choice([1, 1, 1, 2, 3, 8])):
            spelled = broken(chance, spelled, other)
        octets = spelled.hex().encode()
        if not chance.randrange(16):
            octets = broken(chance, octets, octets)
    else:
        for _ in range(chance.choice([1, 1, 1, 2, 3, 8])):
            octets = broken(chance, octets, other)
    cuts = sorted(chance.randrange(len(octets) + 1) for _ in range(chance.choice([1, 2, 8])))
    return words, octets, cuts


def wait_until_read(child):
    """Waits until the program has taken all that was written to it, or has ended."""
    while struct.unpack("i", fcntl.ioctl(child.stdin, termios.FIONREAD, b"\0\0\0\0"))[0] and child.poll() is None:
        pass


def answer(program, words, pieces):
    """The status and what is written, where the input comes in these pieces: each when the one before it was taken."""
    command = [str(program), *(word.decode("utf-8", "surrogateescape") for word in words)]
    child = subprocess.Popen(command, stdin=subprocess.PIPE, stdout=subprocess.PIPE, stderr=subprocess.DEVNULL, bufsize=0)
    try:
        try:
            for piece in pieces[:-1]:
                child.stdin.write(piece)
                wait_until_read(child)
        except BrokenPipeError:
            pass
        written, _ = child.communicate(pieces[-1], timeout=SECONDS)
    except subprocess.TimeoutExpired:
        child.kill()
        child.communicate()
        return None, b""
    return child.returncode, written


def fault(words, whole, parts):
    """What is wrong with the two answers; None where nothing is."""
    status, written = whole
    if status is None or parts[0] is None:
        return "no end"
    if whole != parts:
        return "another answer in pieces"
    if status == 0:
        lines = written.count(b"\n")
        fits = written.endswith(b"\n") and (lines == 1 or words[0] in (b"content", b"receive", b"setup"))
        return None if fits else "no line"
    if status not in LINES:
        return f"status {status}"
    return None if written.endswith(b"\n") and written[:-1] in LINES[status] else "another line than the status's"


def tried(job):
    """What came of every input of a job: how often each status came, and what was wrong."""
    program, seed, first, last = job
    stored = cases()
    statuses, wrong = collections.Counter(), []
    for number in range(first, last):
        words, octets, cuts = made(stored, seed, number)
        whole = answer(program, words, [octets])
        pieces = [octets[a:b] for a, b in zip([0, *cuts], [*cuts, len(octets)])]
        parts = answer(program, words, pieces)
        statuses[whole[0]] += 1
        is_wrong = fault(words, whole, parts)
        if is_wrong:
            wrong.append((number, is_wrong, words, octets))
    return statuses, wrong


def kept(folder, number, words, octets):
    """Keeps an input and its words in a folder."""
    folder.mkdir(parents=True, exist_ok=True)
    (folder / f"{number}.words").write_bytes(b"\n".join(words) + b"\n")
    (folder / f"{number}.in").write_bytes(octets)


def main():
    """Breaks stored cases and runs the program on them, in several processes."""
    parser = argparse.ArgumentParser(description=__doc__, formatter_class=argparse.RawDescriptionHelpFormatter)
    parser.add_argument("--count", type=int, default=10000)
    parser.add_argument("--seed", type=int, default=1)
    parser.add_argument("--jobs", type=int, default=multiprocessing.cpu_count())
    parser.add_argument("--program", type=pathlib.Path, default=PROGRAM)
    parser.add_argument("--keep", type=pathlib.Path)
    told = parser.parse_args()
    if not told.program.exists():
        sys.exit(f"{told.program} is not there: ./rpkica builds it")
    step = 500
    jobs = [(told.program, told.seed, first, min(first + step, told.count)) for first in range(0, told.count, step)]
    statuses, faults = collections.Counter(), 0
    with multiprocessing.Pool(told.jobs) as pool:
        for counted, wrong in pool.imap_unordered(tried, jobs):
            statuses += counted
            faults += len(wrong)
            for number, what, words, octets in wrong:
                print(f"input {number} of seed {told.seed}: {what}: {b' '.join(words)[:100]!r}, {len(octets)} octets", flush=True)
                if told.keep:
                    kept(told.keep, number, words, octets)
    ended = ", ".join(f"{status} {count}" for status, count in sorted(statuses.items(), key=str))
    print(f"{told.count} inputs, {faults} wrong; statuses: {ended}")
    sys.exit(1 if faults else 0)


if __name__ == "__main__":
    main()
