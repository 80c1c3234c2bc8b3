#!/usr/bin/env python3
"""Says whether what the documents quote stands in the files that it is quoted from.

    tools/tree/quotations.py

A quotation is a block of code behind a line `<!-- FILE -->`. White space makes no difference, and a line of the block that is `..`
alone leaves something out. The exit status is 0 where every quotation stands in its file, else 1."""
import pathlib
import re
import sys

TOP = pathlib.Path(__file__).resolve().parents[2]
DOCUMENTS = [*sorted(TOP.glob("*.md")), *sorted((TOP / "docs").glob("*.md"))]
QUOTATION = re.compile(r"^<!-- (\S+) -->\n```\w*\n(.*?)^```$", re.MULTILINE | re.DOTALL)


def in_one_line(text):
    """A text with one blank for each white space."""
    return " ".join(text.split())


def missing(quoted, text):
    """The first part of what is quoted that does not stand in the text behind the parts before it, if any."""
    place = 0
    for part in re.split(r"^\s*\.\.$", quoted, flags=re.MULTILINE):
        found = text.find(in_one_line(part), place)
        if found < 0:
            return part
        place = found + len(in_one_line(part))
    return None


def main():
    """Looks at all quotations, and prints those that don't stand."""
    count, wrong = 0, 0
    for document in DOCUMENTS:
        for name, quoted in QUOTATION.findall(document.read_text(encoding="utf-8")):
            count += 1
            part = missing(quoted, in_one_line((TOP / name).read_text(encoding="utf-8")))
            if part is not None:
                wrong += 1
                print(f"{document.relative_to(TOP)}: this does not stand in {name}:\n{part}")
    print(f"{count} quotations, {wrong} wrong")
    return 1 if wrong or not count else 0


if __name__ == "__main__":
    sys.exit(main())
