#!/usr/bin/env python3
"""Runs the programs that answer line by line on many lines, and says what they took.

    bench/lines.py [COUNT]

Each input is made in a temporary folder and removed. Printed are the lines of the input, its octets, the seconds (the best of three
runs, with the program's start), the microseconds for each line, and the most memory that was held, in millions of octets; behind them
how the seconds grow where there are ten times as many lines, which is 10 where each costs the same.

- `rpkiarch batch` and `explain` on an archive of as many messages as an input may hold, and on a tenth of it;
- `rpkiarch batch` on COUNT messages, 100000 if it isn't said, split by lines over four processes, as docs/PROGRAMS.md shows it: the archive
  is larger than one input may be. Over the largest that is not, the four have to write the lines of one: if they don't, this ends with 1;
- `rpkiguard` on messages of as many peers, each under a key of its own, and on a tenth of it; and on COUNT lines without a message
  behind the state of COUNT peers."""
import os
import re
import subprocess
import sys
import tempfile
import time

from measuring import TOP, best_of_three, build_program, program_path

sys.path.insert(0, os.path.join(TOP, "tools", "cases"))
import signed_messages as messages  # noqa: E402

NOW = messages.NOW
LIMIT = 2**26
PROCESSES = 4
ARCHIVE, GUARD = program_path("rpkiarch"), program_path("rpkiguard")


def key(seed):
    """The toy key 0 of this seed, in hexadecimal."""
    return messages.seq(messages.seq(messages.RSA, messages.NULL), messages.bits(messages.key_bits(seed, 0))).hex()


def archive(count):
    """So many lines with a good message each, in turn of ten peers."""
    of_peers = [f"publication {NOW} {key(seed)} {messages.message(seed=seed).hex()}\n".encode() for seed in range(1, 11)]
    return b"".join(of_peers[place % 10] for place in range(count))


def of_peers(count):
    """A message of each of so many peers, behind an empty state."""
    return b"-\n" + b"".join(f"{key(seed)} {messages.message(seed=seed).hex()}\n".encode() for seed in range(1, count + 1))


def with_state(count):
    """A state of so many peers, and as many lines whose octets are no message, each of another of them."""
    peers = [key(seed) for seed in range(1, count + 1)]
    return "".join([*(f"{peer} {NOW}\n" for peer in peers), "-\n", *(f"{peer} 00\n" for peer in reversed(peers))]).encode()


def timed(folder, name, lines, octets, *words):
    """Prints what a run took, and gives its seconds."""
    path = os.path.join(folder, "input")
    with open(path, "wb") as file:
        file.write(octets)
    seconds, status, peak = best_of_three(path, *words)
    if status:
        sys.exit(f"{name}: status {status}")
    print(f"{name:34} {lines:8} {len(octets):10} {seconds:8.3f} s {seconds / lines * 1e6:8.1f} us {peak / 1e6:8.1f} MB", flush=True)
    return seconds


def growth(folder, name, most, made, *words):
    """Runs it on a tenth and on all."""
    few = timed(folder, name, most // 10, made(most // 10), *words)
    all_of_them = timed(folder, name, most, made(most), *words)
    print(f"{name:34} {all_of_them / few:8.1f} times the seconds for ten times the lines", flush=True)


def split(folder, octets):
    """What four processes write of an archive that is split by lines, and their seconds."""
    path = os.path.join(folder, "archive")
    with open(path, "wb") as file:
        file.write(octets)
    commands = f"""split -n l/{PROCESSES} archive part.
        ls part.?? | xargs -P {PROCESSES} -I PART sh -c '{ARCHIVE} batch < PART > PART.out'"""
    start = time.perf_counter()
    subprocess.run(["sh", "-c", commands], cwd=folder, check=True)
    seconds = time.perf_counter() - start
    written = b""
    for name in sorted(os.listdir(folder)):
        if name.endswith(".out"):
            with open(os.path.join(folder, name), "rb") as file:
                written += file.read()
        if name.startswith("part."):
            os.remove(os.path.join(folder, name))
    return written, seconds


def verdicts(written):
    """The lines without the totals, and the sums of these."""
    lines = written.splitlines()
    totals = [re.fullmatch(rb"total ([0-9]+) accepted ([0-9]+)", line) for line in lines]
    sums = [sum(int(total[field]) for total in totals if total) for field in (1, 2)]
    return [line for line, total in zip(lines, totals) if not total], sums


def main():
    """Times both programs, in one process and in four, and prints it."""
    count = int(sys.argv[1]) if len(sys.argv) > 1 else 100000
    for program in ("rpkiarch", "rpkiguard"):
        build_program(program)
    most = LIMIT // len(archive(10)) * 10
    with tempfile.TemporaryDirectory() as folder:
        for word in ("batch", "explain"):
            growth(folder, f"rpkiarch {word}", most, archive, ARCHIVE, word)
        octets = archive(most)
        one = subprocess.run([ARCHIVE, "batch"], input=octets, stdout=subprocess.PIPE, check=True).stdout
        four, seconds = split(folder, octets)
        same = verdicts(four) == verdicts(one)
        print(f"{PROCESSES} processes on {most} lines: {seconds:.3f} s, {'the lines of one' if same else 'OTHER LINES'}", flush=True)
        written, seconds = split(folder, archive(count))
        lines, sums = verdicts(written)
        print(f"{PROCESSES} processes on {count} lines: {seconds:.3f} s, {len(lines)} verdicts, {sums[1]} accepted", flush=True)
        growth(folder, "rpkiguard, a message a peer", most, of_peers, GUARD, str(NOW))
        growth(folder, "rpkiguard, a state of as many", count, with_state, GUARD, str(NOW))
    return 0 if same and sums == [count, count] and len(lines) == count else 1


if __name__ == "__main__":
    sys.exit(main())
