#!/usr/bin/env python3
"""Runs the cases of crates/test_growth with each of their growths refused in turn, outside of the gate.

    tools/run/refused_growth.py [NAME ..]
    tools/run/refused_growth.py --rpkica [NAME ..]
    tools/run/refused_growth.py --write

The first form takes each case, or those with these names, and refuses its first growth, then its second, and so on until it ends without
a refusal. What each run before that has to find is that memory is wanted, and that what was lent is as before; the program says so by the
status 1 and an error, and by status 0 and a line that the case ended wrong. With --rpkica the cases that are commands are run by the
program rpkica: each run before the last has to end with status 12 and the line OutOfMemory alone.

Printed are, for each case, how many growths were refused and the seconds. The program has to be built (`rt run` in its folder), and a C
compiler there: tools/run/refused_growth.c, which refuses the growth, stands between the program and the C library. A run that ends
otherwise is shown, and this ends with 1.

With --write it writes crates/test_growth/stdin and stdout: the cases that the gate runs, with nothing refused. The inputs and lines of
`run` are made by the formats and by the toy rules alone.
"""

import base64
import os
import pathlib
import subprocess
import sys
import tempfile
import time

sys.path.insert(0, str(pathlib.Path(__file__).resolve().parents[1] / "cases"))
from run_cases import (  # noqa: E402
    MOMENT, NOW, QUERY, ROOTS, certificate, create, created, message, own_anchor, receive, setup_message, updown,
)

TOP = pathlib.Path(__file__).resolve().parents[2]
CRATE = TOP / "crates" / "test_growth"
PROGRAM = CRATE / "out" / "test_growth"
RPKICA = TOP / "crates" / "rpkica" / "out" / "rpkica"
CALLS = "changes", "objects", "errors", "values", "elements", "words", "levels", "segments", "request", "classes", "delta"
MOST, SECONDS = 100000, 60


def commands():
    """Commands, each with its words, its input and its line."""
    yield "receive-list", receive(), message(content=QUERY).hex().encode(), QUERY
    yield "create-list", create(), QUERY, created(QUERY, NOW).hex().encode()
    listed = updown(b"list")
    yield "receive-updown", receive(kind="provisioning"), message(content=listed).hex().encode(), listed
    anchor = base64.b64encode(certificate(own_anchor(NOW, NOW + 60)))
    for parts in ROOTS:
        text = setup_message(*parts, anchor)
        yield parts[0].decode(), ("setup", parts[0].decode(), MOMENT), text, text


def lines():
    """The lines of the cases."""
    for name, words, given, line in commands():
        yield " ".join((name, "run", given.hex(), (line + b"\n").hex(), *words))
    for call in CALLS:
        yield f"{call} {call}"


def write():
    """Writes the cases and what the program prints of them."""
    cases = list(lines())
    (CRATE / "stdin").write_text("".join(line + "\n" for line in cases))
    (CRATE / "stdout").write_text("".join(f"{name_of(line)} came to its end\n" for line in cases))


def name_of(line):
    """The name of a case."""
    return line.split(" ")[0]


def programs():
    """The name of each case, its program and words, its input, what it has to answer, and what to each growth that is refused."""
    for line in lines():
        yield name_of(line), [str(PROGRAM)], line.encode() + b"\n", (0, f"{name_of(line)} came to its end\n".encode()), (1, b"")


def commands_of_rpkica():
    """The program's commands, with their inputs and what they answer with memory and without."""
    for name, words, given, line in commands():
        yield name, [str(RPKICA), *words], given, (0, line + b"\n"), (12, b"OutOfMemory\n")


def answer(library, number, words, given):
    """The status and what is written where the growth of this number is refused."""
    surroundings = {**os.environ, "LD_PRELOAD": library, "REFUSED": str(number)}
    run = subprocess.run(
        words, input=given, stdout=subprocess.PIPE, stderr=subprocess.DEVNULL, env=surroundings, timeout=SECONDS, check=False)
    return run.returncode, run.stdout


def is_right(library, name, words, given, whole, wanting):
    """Whether each run of a case ends as it should."""
    start = time.perf_counter()
    for number in range(1, MOST):
        found = answer(library, number, words, given)
        if found != wanting:
            break
    seconds = time.perf_counter() - start
    fault = "" if found == whole else f"  ended otherwise: {found[0]} {found[1][:100]}"
    print(f"{name:22} {number - 1:6} refused {seconds:8.1f} seconds{fault}", flush=True)
    return not fault


def main():
    """Refuses each growth of the cases that are asked for, in turn."""
    asked = sys.argv[1:]
    if asked == ["--write"]:
        write()
        return
    cases = commands_of_rpkica() if asked[:1] == ["--rpkica"] else programs()
    names = [name for name in asked if name != "--rpkica"]
    with tempfile.TemporaryDirectory() as folder:
        library = os.path.join(folder, "refused_growth.so")
        source = TOP / "tools" / "run" / "refused_growth.c"
        subprocess.run(["cc", "-O1", "-shared", "-fPIC", "-o", library, str(source), "-ldl"], check=True)
        good = [is_right(library, *case) for case in cases if not names or case[0] in names]
    sys.exit(0 if all(good) else 1)


if __name__ == "__main__":
    main()
