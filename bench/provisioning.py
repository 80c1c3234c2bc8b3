#!/usr/bin/env python3
"""Times `rpkica receive` and `rpkica create` on list responses of 1, 4 and 16 MB of text (1 MB is 2^20 octets), and beside them, in the
same run, what Python takes to read the same text with xml.etree and to decode the base64 in it.

    bench/provisioning.py [MB ..]

Two shapes of one class: `small`, very many certificates of some 300 octets; and `large`, few of 192 KB, each with one long extension.
`create` reads the text, `receive` the hexadecimal of a signed message with it, made by tools/cases/signed_messages.py; both write it anew,
and what they write is compared with it. The inputs are made in a temporary folder and removed. Printed are:

- certs: how many certificates there are, the issuer's not among them;
- status, seconds: the program's exit status, and the best of three runs with its start;
- MB/s: millions of octets of the text a second;
- times: the seconds over those of the size before, four times as small;
- peak MB, each: the most memory that the program held, in millions of octets; and what it is more than on a message without a class, for
  each octet of input, the input itself among it;
- python s, ratio: the best of three times that Python takes, without its start and the reading of the file; and the program's seconds over
  that, so below 1 where the program is the faster one;
- allocs: how often memory was taken for each certificate more, by valgrind on two inputs of some 100 and 200 KB (of the large ones, one and
  two certificates); `-` where there is none."""
import base64
import os
import sys
import tempfile

from layers import many
from measuring import PROGRAM, TOP, best_of_three, build_program
from publication import allocations, created, is_written, put, python_time, received

sys.path.insert(0, os.path.join(TOP, "tools", "cases"))
import certificate_cases as certificates  # noqa: E402
import provisioning_cases as cases  # noqa: E402
import resource_certificates  # noqa: E402
import signed_messages as messages  # noqa: E402

KEY = messages.seq(messages.seq(messages.RSA, messages.NULL), messages.bits(messages.key_bits(1, 0))).hex()
COMMANDS = (
    (received, ["receive", "provisioning", str(messages.NOW), KEY]), (created, ["create", "provisioning", str(messages.NOW)]))

PYTHON = """
import base64, os, sys, time
import xml.etree.ElementTree as etree
with open(sys.argv[1], "rb") as source:
    octets = source.read()
start = time.perf_counter()
length = sum(len(base64.b64decode(element.text or "")) for element in etree.fromstring(octets).iter())
print(time.perf_counter() - start, flush=True)
os._exit(0)
"""


def certificate(number, size):
    """A certificate for a key of its own with an extension of this size, as the element in which it stands"""
    extension = certificates.extension(resource_certificates.UNKNOWN, b"e" * size)
    octets = resource_certificates.certificate_of(
        key=number, serial=messages.integer(number), spelled_bits=messages.bits(bytes(32)), extensions=[extension])
    return cases.certificate(octets, cases.HERE + b"%d" % number)


def small(number):
    """One of some 300 octets"""
    return certificate(number, 24)


# The large ones are one certificate, at places of its own.
LARGE = base64.b64encode(resource_certificates.certificate_of(
    extensions=[certificates.extension(resource_certificates.UNKNOWN, b"e" * (3 * 2**16 - 300))]))


def large(number):
    """One of 192 KB, which is 256 KB of text"""
    return cases.element(b"certificate", LARGE, cert_url=cases.HERE + b"%d" % number)


def response(shape, size):
    """A list response of as many certificates as make this size, as it is written, and how many they are"""
    found = many(shape, size) if size else []
    return cases.root(b"list_response", *([cases.class_of(*found, cases.issuer())] if found else [])), len(found)


def allocations_of_one(path, spelled, words, shape):
    """How often memory is taken for each certificate more, as a text"""
    counts = []
    for size in 100_000, 200_000:
        text, number = response(shape, size if shape is small else size * 2)
        put(path, spelled(text))
        counts.append((allocations(path, words), number))
    (first, fewer), (second, more) = counts
    return "-" if first is None or second is None else f"{(second - first) / (more - fewer):.2f}"


def least_peak(path, spelled, words):
    """The most memory that the program holds on a message without a class"""
    put(path, spelled(response(small, 0)[0]))
    return best_of_three(path, PROGRAM, *words)[2]


def rows(folder, spelled, words, shape, sizes):
    """Measures a command on a shape, and prints a row for each size."""
    path, plain = os.path.join(folder, "input"), os.path.join(folder, "text")
    least, one = least_peak(path, spelled, words), allocations_of_one(path, spelled, words, shape)
    before = None
    for size in sizes:
        text, number = response(shape, size * 2**20)
        put(plain, text)
        length = put(path, spelled(text))
        if not is_written(path, words, text):
            sys.exit(f"{words[0]} {shape.__name__}: another text is written")
        seconds, status, peak = best_of_three(path, PROGRAM, *words)
        taken = python_time(plain, PYTHON)
        grown = f"{seconds / before:.2f}" if before else "-"
        compared = ("-", "-") if taken is None else (f"{taken:.3f}", f"{seconds / taken:.2f}")
        print(f"{words[0]:<8} {shape.__name__:<6} {size:>4} {number:>8} {status:>6} {seconds:>8.3f} {len(text) / seconds / 1e6:>8.1f} "
              f"{grown:>6} {peak / 1e6:>8.1f} {max(0, peak - least) / length:>6.2f} {compared[0]:>8} {compared[1]:>6} {one:>7}", flush=True)
        before = seconds


def main():
    """Measures both commands on both shapes."""
    sizes = [int(word) for word in sys.argv[1:]] or [1, 4, 16]
    build_program()
    print(f"{'command':<8} {'shape':<6} {'MB':>4} {'certs':>8} {'status':>6} {'seconds':>8} {'MB/s':>8} {'times':>6} {'peak MB':>8} "
          f"{'each':>6} {'python s':>8} {'ratio':>6} {'allocs':>7}")
    with tempfile.TemporaryDirectory() as folder:
        for spelled, words in COMMANDS:
            for shape in small, large:
                rows(folder, spelled, words, shape, sizes)


if __name__ == "__main__":
    main()
