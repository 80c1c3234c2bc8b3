#!/usr/bin/env python3
"""Times `rpkica create` on texts of 1, 4 and 16 MB (1 MB is 2^20 octets), and beside it, in the same run and on the same octets, what
`openssl cms -sign` and hashing alone take.

    bench/create.py [MB ..]

A text is the query `list` with that much in front of it: white space (`white`), or one comment (`comment`); `create` reads it all, and
signs the small text that the query is written as, which is what it hashes. Or it is a query that changes very many small objects
(`delta`, as in bench/publication.py), as it is written, so that all of it is hashed. OpenSSL takes the octets as they are, hashes them
all and writes them all. It signs with RSA, under a key and a certificate of its own, which are made in a temporary folder with the texts
and removed; the program signs with the toy scheme. Printed are, for each shape and size:

- status, seconds, MB/s, peak MB: the program's exit status, the best of three runs with its start, millions of octets of the text a
  second, and the most memory that it held, in millions of octets;
- openssl s, openssl MB: the seconds and the memory of `openssl cms -sign`, or `-` where openssl is not there;
- hash s: what hashlib takes for the SHA-256 of the same octets, the best of three times, without the start of Python;
- ratio: the program's seconds over those of hashing alone."""
import hashlib
import os
import shutil
import subprocess
import sys
import tempfile
import time

from measuring import PROGRAM, TOP, best_of_three, build_program
from publication import delta as changes
from publication import small

sys.path.insert(0, os.path.join(TOP, "tools", "cases"))
import signed_messages as messages  # noqa: E402

CREATE = "create", "publication", str(messages.NOW)


def white(size):
    """A query with white space in front."""
    return b" " * (size - len(messages.QUERY)) + messages.QUERY


def comment(size):
    """A query with a comment in front."""
    return b"<!--" + b"x" * (size - len(messages.QUERY) - 7) + b"-->" + messages.QUERY


def delta(size):
    """A delta with small objects."""
    return changes(small, size)[0]


def openssl_words(folder):
    """The words that sign with a new key, or None where there is no openssl."""
    openssl = shutil.which("openssl")
    if not openssl:
        return None
    key, certificate = os.path.join(folder, "key.pem"), os.path.join(folder, "certificate.pem")
    subprocess.run([openssl, "req", "-x509", "-newkey", "rsa:2048", "-nodes", "-keyout", key, "-out", certificate, "-subj", "/CN=bench",
                    "-days", "2"], stdin=subprocess.DEVNULL, capture_output=True, check=True)
    words = "cms -sign -binary -nodetach -keyid -md sha256 -outform DER -signer".split()
    return [openssl, *words, certificate, "-inkey", key]


def openssl_columns(path, words):
    """The seconds and the memory that signing takes, as two texts"""
    if words is None:
        return "-", "-"
    seconds, status, peak = best_of_three(path, *words)
    return (f"{seconds:.3f}", f"{peak / 1e6:.1f}") if status == 0 else (f"status {status}", "-")


def hashing_time(octets):
    """The seconds that hashing takes, the best of three."""
    times = []
    for _ in range(3):
        start = time.perf_counter()
        hashlib.sha256(octets).digest()
        times.append(time.perf_counter() - start)
    return min(times)


def main():
    """Times all shapes and sizes, and prints them."""
    sizes = [int(word) for word in sys.argv[1:]] or [1, 4, 16]
    build_program()
    print(f"{'shape':<8} {'MB':>4} {'status':>6} {'seconds':>8} {'MB/s':>8} {'peak MB':>8} {'openssl s':>9} {'openssl MB':>10} "
          f"{'hash s':>7} {'ratio':>6}")
    with tempfile.TemporaryDirectory() as folder:
        signing, path = openssl_words(folder), os.path.join(folder, "text")
        for shape in (white, comment, delta):
            for size in sizes:
                text = shape(size * 2**20)
                with open(path, "wb") as target:
                    target.write(text)
                seconds, status, peak = best_of_three(path, PROGRAM, *CREATE)
                signed, held = openssl_columns(path, signing)
                hashed = hashing_time(text)
                print(f"{shape.__name__:<8} {size:>4} {status:>6} {seconds:>8.3f} {len(text) / seconds / 1e6:>8.1f} {peak / 1e6:>8.1f} "
                      f"{signed:>9} {held:>10} {hashed:>7.3f} {seconds / hashed:>6.2f}", flush=True)


if __name__ == "__main__":
    main()
