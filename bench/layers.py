#!/usr/bin/env python3
"""Times the layers of the library alone, by the program crates/bench_layers, on inputs that are made in a temporary folder.

    bench/layers.py [document|tree|walk ..]

`document` reads an XML document, `tree` reads a BER value with all that is in it, `walk` goes through it with a cursor, into
each SEQUENCE and each constructed OCTET STRING. Printed are, for each shape and size (1 MB is 2^20 octets):

- seconds: the best of three runs of the whole program, with its start and the reading of standard input;
- MB/s: millions of octets of input a second;
- peak MB: the most memory that the program held, in millions of octets, the input among it. It shows no less than the
  measuring process holds when it starts the program, some 14;
- each: the memory that was held besides the input and besides what the program holds on a short input, in octets for each
  octet of input;
- etree s: the best of three times that xml.etree.ElementTree.fromstring takes on the same octets, without the start of
  Python and the reading of the file; `refused` where it doesn't give an element;
- ratio: the program's seconds over those of xml.etree, so below 1 where the program is the faster one;
- allocs: how often memory was taken, and how often for each element, by valgrind on an input of 100000 octets, with what
  the program's start takes.

The last three are left out where Python has no xml.etree or the machine no valgrind."""
import importlib
import os
import re
import shutil
import subprocess
import sys
import tempfile

from content import nested, value
from measuring import TOP, best_of_three

PROGRAM = os.path.join(TOP, "crates", "bench_layers", "out", "bench_layers")

ETREE = """
import sys, time
import xml.etree.ElementTree as etree
octets = open(sys.argv[1], "rb").read()
start = time.perf_counter()
root = etree.fromstring(octets)
print(time.perf_counter() - start, flush=True)
import os
os._exit(0)
"""

# ---- documents: each shape gives the octets, and how many elements they hold


def many(piece, size):
    """As many pieces, made from a number, as fit into the size"""
    pieces, total = [], 0
    while total < size:
        pieces.append(piece(len(pieces)))
        total += len(pieces[-1])
    return pieces


def small_elements(size):
    """Many elements without anything in them."""
    count = size // 4 - 2
    return b"<a>" + b"<b/>" * count + b"</a>", count + 1


def list_elements(size):
    """Many elements `list`."""
    count = size // 7 - 1
    return b"<a>" + b"<list/>" * count + b"</a>", count + 1


def empty_elements(size):
    """Many elements with a start and an end."""
    count = size // 7 - 1
    return b"<b>" + b"<a></a>" * count + b"</b>", count + 1


def elements_with_attributes(size):
    """Many elements with an attribute."""
    count = size // 9 - 1
    return b"<a>" + b"<a b=''/>" * count + b"</a>", count + 1


def elements_with_texts(size):
    """Many elements with a text."""
    count = size // 8 - 1
    return b"<a>" + b"<a>x</a>" * count + b"</a>", count + 1


def comments(size):
    """Many comments."""
    return b"<a>" + b"<!---->" * (size // 7 - 1) + b"</a>", 1


def one_name(size):
    """One element with a long name."""
    return b"<" + b"a" * (size - 3) + b"/>", 1


def message(kind, pieces):
    """A message of the publication protocol, of as many pieces as fit into the size"""
    def made(size):
        front = b'<msg xmlns="http://www.hactrn.net/uris/rpki/publication-spec/" version="4" type="%s">' % kind
        inside = many(pieces, size - len(front))
        return front + b"".join(inside) + b"</msg>", len(inside) + 1
    return made


def uri(number):
    """A URI, by its number."""
    return b"rsync://rpki.example.net/repository/some-handle/0/%040x.roa" % (number * 2654435761)


def digest(number):
    """A digest, by its number."""
    return b"%064x" % (number * 0x9e3779b97f4a7c15)


def publish(number):
    """An object of 1500 octets that takes another one's place"""
    return b'<publish tag="%d" uri="%s" hash="%s">%s</publish>\n' % (number, uri(number), digest(number), b"MIIF" * 500)


def listed(number):
    """An element that lists an object, by its number."""
    return b'<list uri="%s" hash="%s"/>\n' % (uri(number), digest(number))


delta_of_objects = message(b"query", publish)
delta_of_objects.__name__ = "delta_of_objects"
list_reply = message(b"reply", listed)
list_reply.__name__ = "list_reply"


def deep_elements(size):
    """Elements within each other."""
    count = size // 7
    return b"<a>" * count + b"</a>" * count, count


def open_elements(size):
    """Elements that are never closed, so no document"""
    return b"<a>" * (size // 3), size // 3


def open_lists(size):
    """Elements `list` within each other, none of which ends."""
    return b"<list>" * (size // 6), size // 6


def open_elements_with_attributes(size):
    """Elements with an attribute within each other, none of which ends."""
    return b"<a b=''>" * (size // 8), size // 8


def open_elements_with_entities(size):
    """Elements with an entity within each other, none of which ends."""
    return b"<a>&lt;" * (size // 7), size // 7


def open_values_with_entities(size):
    """Each element has a value and a text with octets of their own: no other shape is known to take more for an octet"""
    return b"<a b='&lt;'>&lt;" * (size // 16), size // 16


def elements_with_namespaces(size):
    """Many elements with a namespace."""
    count = size // 14 - 1
    return b"<a>" + b"<a xmlns='x'/>" * count + b"</a>", count + 1


def elements_with_entities(size):
    """Many elements with an entity."""
    count = size // 11 - 1
    return b"<a>" + b"<a>&lt;</a>" * count + b"</a>", count + 1


def values_with_entities(size):
    """Many elements whose attribute has an entity."""
    count = size // 13 - 1
    return b"<a>" + b"<a b='&lt;'/>" * count + b"</a>", count + 1


def long_text(size):
    """One element with a long text."""
    return b"<a>" + b"x" * (size - 7) + b"</a>", 1


def text_of_entities(size):
    """One element with many entities."""
    return b"<a>" + b"&lt;" * (size // 4 - 2) + b"</a>", 1


def text_in_parts(size):
    """One element whose text is in many parts."""
    return b"<a>" + b"x<?i?>" * (size // 6 - 2) + b"</a>", 1


def attributes(size):
    """One element with many attributes."""
    return b"<a" + b"".join(many(lambda i: b" b%d=''" % i, size - 4)) + b"/>", 1


def long_name(size):
    """Half of it a name, half of it attributes"""
    return b"<" + b"a" * (size // 2) + b"".join(many(lambda i: b" b%d=''" % i, size // 2)) + b"/>", 1


def declarations(size):
    """One element with many namespaces."""
    return b"<p:a" + b"".join(many(lambda i: b" xmlns:b%d='x'" % i, size - 20)) + b" xmlns:p='x'/>", 1


# ---- values


def large_content(size):
    """One value with long contents."""
    return value(0x30, value(0x04, b"x" * (size - 12)))


def many_segments(size):
    """A string of many short segments."""
    return b"\x24\x80" + value(0x04, b"x" * 8) * ((size - 4) // 10) + b"\0\0"


def small_values(size):
    """Many small values."""
    return value(0x30, b"\x02\x01\x05" * ((size - 6) // 3))


def indefinite_levels(size):
    """Values within each other, of indefinite lengths."""
    return b"\x30\x80" * (size // 4) + b"\0\0" * (size // 4)


DOCUMENTS = [(shape, [1, 4, 16]) for shape in (small_elements, deep_elements, long_text, text_of_entities, text_in_parts)]
DOCUMENTS += [(shape, [1, 24]) for shape in (
    list_elements, empty_elements, elements_with_attributes, elements_with_texts, comments, one_name, open_elements, open_lists,
    open_elements_with_attributes, elements_with_entities, values_with_entities, open_elements_with_entities, open_values_with_entities,
    elements_with_namespaces)]
# some 10000 objects each
DOCUMENTS += [(delta_of_objects, [22]), (list_reply, [2])]
DOCUMENTS += [(attributes, [1, 4, 16, 32]), (declarations, [1, 4, 16]), (long_name, [1, 4, 16])]
VALUES = [(large_content, [1, 4, 16]), (many_segments, [1, 4, 16]), (nested, [1, 4, 16]), (indefinite_levels, [4e6 / 2**20]),
          (small_values, [16])]


def program_seconds(path, layer):
    """The seconds and the most memory that the program takes."""
    seconds, status, peak = best_of_three(path, PROGRAM, layer)
    if status != 0:
        sys.exit(f"layers {layer}: status {status}")
    return seconds, peak


def etree_columns(path, seconds):
    """What xml.etree takes, and the program's seconds over that, as two texts"""
    try:
        importlib.import_module("xml.etree.ElementTree")
    except ImportError:
        return "-", "-"
    times = []
    for _ in range(3):
        done = subprocess.run([sys.executable, "-c", ETREE, path], capture_output=True, text=True, check=False)
        if done.returncode != 0:
            return "refused", "-"
        times.append(float(done.stdout))
    return f"{min(times):.3f}", f"{seconds / min(times):.2f}"


def allocations(path, shape):
    """How often memory is taken on a small input, in all and for each element, as a text"""
    if shutil.which("valgrind") is None:
        return "-"
    octets, elements = shape(100000)
    with open(path, "wb") as target:
        target.write(octets)
    with open(path, "rb") as source:
        done = subprocess.run(["valgrind", PROGRAM, "document"], stdin=source, capture_output=True, text=True, check=False)
    found = re.search(r"total heap usage: ([\d,]+) allocs", done.stderr)
    if found is None:
        return "-"
    count = int(found.group(1).replace(",", ""))
    return f"{count} ({count / elements:.4f})"


def answer(path, layer):
    """What the program says."""
    with open(path, "rb") as source:
        return subprocess.run([PROGRAM, layer], stdin=source, capture_output=True, text=True, check=True).stdout.strip()


def least_peak(folder, layer):
    """The most memory that the program holds on a short input"""
    path = os.path.join(folder, "short")
    with open(path, "wb") as target:
        target.write(b"<a/>" if layer == "document" else value(0x04, b""))
    return program_seconds(path, layer)[1]


def row(folder, layer, shape, size, least):
    """Measures one layer, shape and size, and prints it."""
    made = shape(int(size * 2**20))
    octets = made[0] if layer == "document" else made
    path = os.path.join(folder, "input")
    with open(path, "wb") as target:
        target.write(octets)
    said = answer(path, layer)
    seconds, peak = program_seconds(path, layer)
    rate, each = len(octets) / seconds / 1e6, max(0, peak - least - len(octets)) / len(octets)
    line = f"{layer:<9} {shape.__name__:<18} {size:>5.1f} {said:<16} {seconds:>8.3f} {rate:>8.1f} {peak / 1e6:>8.1f} {each:>6.1f}"
    if layer == "document":
        taken, ratio = etree_columns(path, seconds)
        line += f" {taken:>8} {ratio:>6}"
        if size == 1:
            line += f" {allocations(path, shape):>16}"
    print(line, flush=True)


def main():
    """Measures the layers that are asked for."""
    layers = sys.argv[1:] or ["document", "tree", "walk"]
    if not os.path.exists(PROGRAM):
        subprocess.run(["rt", "run"], cwd=os.path.join(TOP, "crates", "bench_layers"), stdout=subprocess.DEVNULL, check=False)
    print(f"{'layer':<9} {'shape':<18} {'MB':>5} {'answer':<16} {'seconds':>8} {'MB/s':>8} {'peak MB':>8} {'each':>6} {'etree s':>8} "
          f"{'ratio':>6} {'allocs':>16}")
    with tempfile.TemporaryDirectory() as folder:
        for layer in layers:
            least = least_peak(folder, layer)
            for shape, sizes in DOCUMENTS if layer == "document" else VALUES:
                for size in sizes:
                    row(folder, layer, shape, size, least)


if __name__ == "__main__":
    main()
