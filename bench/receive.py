#!/usr/bin/env python3
"""Times `rpkica receive` on signed messages of 1, 4 and 16 MB of hexadecimal, and beside it what `openssl cms -cmsout -noout` takes to
parse the same octets, where openssl is there. It prints seconds, input bytes a second and peak memory under one key, and the seconds
under eight keys of which the last is the right one: what they are more is what the checks under seven keys cost, since the message
is read once.

    bench/receive.py [MB ..]

Three shapes, made by tools/cases/signed_messages.py: a query whose content has a long comment; the same content in segments of 8 octets, in
BER; and a query whose CRL lists very many certificates. Each passes all checks. OpenSSL parses and prints nothing; it validates nothing.
The inputs are made in a temporary folder and removed."""
import os
import shutil
import sys
import tempfile

from measuring import PROGRAM, TOP, best_of_three, build_program, shown_time

sys.path.insert(0, os.path.join(TOP, "tools", "cases"))
import signed_messages as messages  # noqa: E402


def words(*numbers):
    """The words of `receive` under the keys with these numbers, of seed 1; the messages are those of number 0."""
    algorithm = messages.seq(messages.RSA, messages.NULL)
    keys = (messages.seq(algorithm, messages.bits(messages.key_bits(1, number))).hex() for number in numbers)
    return ["receive", "publication", str(messages.NOW), *keys]


ONE_KEY, EIGHT_KEYS = words(0), words(*range(1, 8), 0)


def with_comment(size):
    """A query with a long comment."""
    return messages.QUERY.replace(b"<list/>", b"<!--" + b"x" * size + b"--><list/>")


def comment(size):
    """A message with such a query."""
    return messages.message(content=with_comment(size - 1000))


def segments(size):
    """The same with its content in segments of 8 octets."""
    def pieces(content):
        parts = (content[i:i + 8] for i in range(0, len(content), 8))
        return messages.value(0x24, b"".join(map(messages.octet_string, parts)))
    return messages.message(content=with_comment((size - 1000) * 8 // 10), content_string=pieces)


def revoked(size):
    """A message whose CRL lists very many certificates."""
    return messages.message(entries=range(1 << 32, (1 << 32) + (size - 1000) // 24))


def parse_time(path):
    """The time that OpenSSL takes to parse a message, or `-`."""
    openssl = shutil.which("openssl")
    if not openssl:
        return "-"
    return shown_time(path, openssl, "cms", "-cmsout", "-noout", "-inform", "DER")


def main():
    """Times all shapes and sizes, and prints them."""
    sizes = [int(word) for word in sys.argv[1:]] or [1, 4, 16]
    build_program()
    print(f"{'shape':<9} {'MB':>4} {'status':>6} {'seconds':>8} {'MB/s':>8} {'peak MB':>8} {'8 keys':>9} {'openssl':>9}")
    with tempfile.TemporaryDirectory() as folder:
        path, octets = os.path.join(folder, "input"), os.path.join(folder, "octets")
        for shape in (comment, segments, revoked):
            for size in sizes:
                message = shape(size * 2**20 // 2)
                with open(octets, "wb") as target:
                    target.write(message)
                with open(path, "w", encoding="ascii") as target:
                    target.write(message.hex())
                seconds, status, peak = best_of_three(path, PROGRAM, *ONE_KEY)
                length = 2 * len(message)
                print(f"{shape.__name__:<9} {size:>4} {status:>6} {seconds:>8.3f} {length / seconds / 1e6:>8.1f} "
                      f"{peak / 1e6:>8.1f} {shown_time(path, PROGRAM, *EIGHT_KEYS):>9} {parse_time(octets):>9}")


if __name__ == "__main__":
    main()
