#!/usr/bin/env python3
"""Counts the tree: lines, crates, wrong bodies, stored cases and tests; and reads its limits and bounds.

    tools/tree/figures.py

Printed are, for each crate, the lines of src/, specs/ and proofs/, how many wrong bodies it has (`must-fail/*.edit`), how many stored
cases (lines of data/cases.txt; of test_growth, of stdin) and how many functions with `#[test]`; then the same of all crates, of the
library (rpki_*), and of the others. Lines are those of the files, empty ones and comments among them. Behind that stands how many of the
stored cases of test_external there are of each kind, and each limit and bound of LIMITS below, as its source or its clause has it.
tools/tree/documents.py compares with all these what the documents say."""

import collections
import re
import sys

from sources import CRATES, crates_in_order

Figures = collections.namedtuple("Figures", "src specs proofs wrong cases tests")


def lines_of(folder, ending):
    """How many lines the files of a folder have."""
    return sum(len(file.read_text(encoding="utf-8").splitlines()) for file in folder.rglob(f"*{ending}")) if folder.exists() else 0


def cases_of(crate):
    """How many stored cases a crate has."""
    file = CRATES / crate / ("stdin" if crate == "test_growth" else "data/cases.txt")
    return len(file.read_text(encoding="utf-8", errors="replace").splitlines()) if file.exists() else 0


def tests_of(crate):
    """How many tests a crate has."""
    files = (CRATES / crate / "src").rglob("*.rt")
    return sum(len(re.findall(r"^\s*#\[test\]", file.read_text(encoding="utf-8"), re.MULTILINE)) for file in files)


def figures_of(crate):
    """The figures of a crate."""
    folder = CRATES / crate
    return Figures(
        lines_of(folder / "src", ".rt"),
        lines_of(folder / "specs", ".antt"),
        lines_of(folder / "proofs", ".antt"),
        len(list((folder / "must-fail").glob("*.edit"))),
        cases_of(crate),
        tests_of(crate),
    )


def kinds_of_cases(crate):
    """How many stored cases of a crate there are of each kind, which is the second word of a line."""
    lines = (CRATES / crate / "data" / "cases.txt").read_text(encoding="utf-8").splitlines()
    return collections.Counter(line.split(" ")[1] for line in lines)


# What is limited or bounded: the file of a crate that says so, and a pattern whose groups are the numbers. Where a pattern is found more
# than once, it has to say the same each time.
TICKS = r"≤ steps\.old \+ (\d+) \* length octets\.now \+ (\d+) \}"
TEXTS = r"length \(text_of m\) ≤ (\d+) \* length octets \+ (\d+) \}"
LIMITS = {
    "powers of input": ("rpki_common/specs/Limits.antt", r"most_input = 2 \^ (\d+)"),
    "powers of a content": ("rpki_common/specs/Limits.antt", r"most_content = 2 \^ (\d+)"),
    "powers of a key": ("rpki_common/specs/Limits.antt", r"most_key = 2 \^ (\d+)"),
    "octets of a message": ("rpki_xmltext/src/transfer.rt", r"const MOST_OCTETS: u64 = (0x[\d_a-f]+);"),
    "seconds of a window": ("rpki_common/specs/Limits.antt", r"window_seconds = (\d+)"),
    "moments with a window": ("rpki_sigmsg/src/window.rt", r"seconds < ([\d_]+) \|\| seconds > ([\d_]+)"),
    "last moment": ("rpki_base/src/time.rt", r"seconds > ([\d_]+) "),
    "elements that are made": ("rpki_common/specs/Limits.antt", r"most_elements = (\d+)"),
    "keys": ("rpki_common/specs/Limits.antt", r"most_keys = (\d+)"),
    "octets of a base": ("rpki_upserver/src/class.rt", r"const MOST_OCTETS: usize = ([\d_]+);"),
    "ticks of an envelope": ("rpki_publication/src/cms.rt", TICKS),
    "ticks of certificates and requests": ("rpki_provisioning/src/message.rt", TICKS),
    "ticks of both": ("rpki_provisioning/src/cms.rt", TICKS),
    "texts that were read": ("rpki_provisioning/src/law.rt", TEXTS),
    "texts of publication that were read": ("rpki_publication/src/law.rt", TEXTS),
    "small deltas": ("rpki_publication/src/law.rt", r"≤ (\d+) \+ (\d+) \* length changes \}"),
    "small changes": ("rpki_publication/specs/Change.antt", r"length tag ≤ (\d+)\)"),
    "printed sets": ("rpki_sets/src/laws.rt", r"≤ (\d+) \* length text"),
    "attributes in pairs": ("rpki_xml/src/distinct.rt", r"const FEW: usize = (\d+);"),
    "growth of what is open": ("rpki_xml/src/stack.rt", r"places\.len\(\) / (\d+)"),
    "growth of what is read": ("rpki_text/src/reading.rt", r"out\.len\(\) / (\d+)"),
    "octets of a tag": ("rpki_der/src/tag.rt", r"octets: \[u8; (\d+)\],"),
}


def limit(name):
    """The numbers of a limit, in the order of the pattern's groups."""
    file, pattern = LIMITS[name]
    found = re.findall(pattern, (CRATES / file).read_text(encoding="utf-8"))
    numbers = {tuple(int(group.replace("_", ""), 0) for group in ([one] if isinstance(one, str) else one)) for one in found}
    if len(numbers) != 1:
        sys.exit(f"{file}: {pattern} gives {sorted(numbers) or 'nothing'}")
    return list(numbers.pop())


def all_figures():
    """The figures of each crate, lowest first."""
    return {crate: figures_of(crate) for crate in crates_in_order()}


def sum_of(figures):
    """The sum of figures."""
    return Figures(*map(sum, zip(*figures)))


def main():
    """Prints all figures, and the limits."""
    found = all_figures()
    library = [crate for crate in found if crate.startswith("rpki_")]
    others = [crate for crate in found if crate not in library]
    sums = {
        f"all, {len(found)} crates": sum_of(found.values()),
        f"library, {len(library)} crates": sum_of(found[crate] for crate in library),
        f"others, {len(others)} crates": sum_of(found[crate] for crate in others),
    }
    print(f"{'':22}" + "".join(f"{name:>8}" for name in Figures._fields))
    for name, figures in [*found.items(), *sums.items()]:
        print(f"{name:22}" + "".join(f"{number:8}" for number in figures))
    print("test_external: " + ", ".join(f"{number} {kind}" for kind, number in sorted(kinds_of_cases("test_external").items())))
    for name in LIMITS:
        print(f"{name}: " + ", ".join(map(str, limit(name))))
    return 0


if __name__ == "__main__":
    sys.exit(main())
