#!/usr/bin/env python3
"""Times `rpkica content` on inputs of 1, 4, 16 and 64 MB of hexadecimal, and prints seconds, input bytes a second and peak memory.

    bench/content.py [MB ..]

Three shapes, each with the certificate and the CRL of the stored example: one message with a large content; the same content in
many segments; and a content of one octet inside very many segments, one in another, of indefinite length. The inputs are made in
a temporary folder and removed."""
import hashlib
import os
import sys
import tempfile

from measuring import PROGRAM, TOP, best_of_three, build_program


def length(n):
    """A length in its shortest form."""
    if n < 0x80:
        return bytes([n])
    octets = n.to_bytes((n.bit_length() + 7) // 8, "big")
    return bytes([0x80 + len(octets)]) + octets


def value(identifier, *parts):
    """A value under a tag."""
    content = b"".join(parts)
    return bytes([identifier]) + length(len(content)) + content


def oid(text):
    """An object identifier, of these contents in hexadecimal."""
    return value(0x06, bytes.fromhex(text))


SHA256 = value(0x30, oid("608648016503040201"))
RSA = value(0x30, oid("2a864886f70d010101"), value(0x05))
XML = oid("2a864886f70d010910011c")
with open(os.path.join(TOP, "examples", "content.hex"), encoding="ascii") as stored:
    EXAMPLE = bytes.fromhex(stored.read().strip())
CERTIFICATE, CRL = EXAMPLE[64:219], EXAMPLE[221:298]


def message(content, octet_string=None):
    """A message by the grammar; its signatures and key identifiers are without meaning."""
    digest = value(0x04, hashlib.sha256(content).digest())
    attributes = value(0xA0, value(0x30, oid("2a864886f70d010903"), value(0x31, XML)),
                       value(0x30, oid("2a864886f70d010904"), value(0x31, digest)))
    signer = value(0x30, value(0x02, b"\x03"), value(0x80, bytes(20)), SHA256, attributes, RSA, value(0x04, b"\x00"))
    encapsulated = value(0x30, XML, value(0xA0, octet_string or value(0x04, content)))
    data = value(0x30, value(0x02, b"\x03"), value(0x31, SHA256), encapsulated, value(0xA0, CERTIFICATE),
                 value(0xA1, CRL), value(0x31, signer))
    return value(0x30, oid("2a864886f70d010702"), value(0xA0, data))


def nested(size):
    """SEQUENCEs inside one another, of about this many octets in all"""
    headers, inner = [], 0
    while inner < size:
        header = b"\x30" + length(inner)
        headers.append(header)
        inner += len(header)
    return b"".join(reversed(headers))


def large(size):
    """A message with one long content."""
    return message(b"x" * (size - 500))


def segmented(size):
    """A message whose content stands in short segments."""
    piece = value(0x04, b"x" * 8)
    count = (size - 500) // len(piece)
    return message(b"x" * (8 * count), octet_string=value(0x24, piece * count))


def deep(size):
    """A message whose content stands many levels down."""
    levels = (size - 500) // 4
    return message(b"a", octet_string=b"\x24\x80" * levels + value(0x04, b"a") + bytes(2 * levels))


def main():
    """Times all shapes and sizes, and prints them."""
    sizes = [int(word) for word in sys.argv[1:]] or [1, 4, 16, 64]
    build_program()
    print(f"{'shape':<10} {'MB':>4} {'status':>6} {'seconds':>8} {'MB/s':>8} {'peak MB':>8} {'bytes/byte':>10}")
    with tempfile.TemporaryDirectory() as folder:
        for shape in (large, segmented, deep):
            for size in sizes:
                path = os.path.join(folder, "input")
                text = shape(size * 2**20 // 2).hex()
                with open(path, "w", encoding="ascii") as target:
                    target.write(text)
                seconds, status, peak = best_of_three(path, PROGRAM, "content")
                print(f"{shape.__name__:<10} {size:>4} {status:>6} {seconds:>8.3f} {len(text) / seconds / 1e6:>8.1f} "
                      f"{peak / 1e6:>8.1f} {(peak - 32e6) / len(text):>10.2f}")


if __name__ == "__main__":
    main()
