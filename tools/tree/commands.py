#!/usr/bin/env python3
"""Runs the commands of README.md and docs/, and says whether they write what is shown.

    tools/tree/commands.py [--list | --programs DIR] [DOCUMENT ..]

A block of code that is marked `sh` is one of two kinds:

- Where a line begins with `$ `, each such line is a command, and what stands up to the next one is what it writes: first to standard
  output, then to standard error. `...` stands for what is left out: alone in a line for any lines, at a line's end for the rest of it. A
  last line `[N]` says that the exit status is N; else it has to be 0.
- Where none does, the block is a script: its exit status has to be 0, and what it writes is not looked at.

A command goes on in the next line where its line ends in a backslash, `&&` or `|`.

The commands of a document run one after the other, in a folder of their own that has `examples/`, `tools/`, `bindings/`, `include/`,
`out/c/` and the programs, so what one writes the next may read, and nothing is left in the tree. Programs are tried without proofs
(`RPKI_UNPROVED=1`; tools/run/trial.py), or are those of DIR, as DIR/rpkica or DIR/rpkica/out/rpkica. `out/c/` is what `make` makes, or
where the shared object lies that CALMIZSED_LIBRARY names; `./calmizsed` needs it, and packages of the Python that runs this script. A
command that needs what is not there is skipped, and so are those that prove something, and those that read what a skipped one would have
written. `--list` shows all commands, and runs none.

A line is written for each command, and the last line counts them. The exit status is 1 where one differs, 2 where the words are wrong, or
else 0."""

from __future__ import annotations

import argparse
import collections
import difflib
import importlib.util
import os
import pathlib
import re
import shutil
import subprocess
import sys
import tempfile
from typing import Iterator, NamedTuple, Optional

TOP = pathlib.Path(__file__).resolve().parents[2]
PROGRAMS = ("rpkica", "rpkiguard", "rpkiarch", "rpkipub", "rpkiup", "rpkikeys")
LIBRARY = pathlib.Path(os.environ.get("CALMIZSED_LIBRARY") or TOP / "out" / "c" / "libcalmizsed.so.0")
SECONDS = 1200
NO_LIBRARY = "make has made no library in out/c"
LEFT_OUT = "..."
BLOCK = re.compile(r"^( *)```sh\n(.*?)^\1```$", re.MULTILINE | re.DOTALL)
STATUS = re.compile(r"\[(\d+)\]")
# Where a word is a command's name: in front of it a command begins, and assignments may stand there.
BEGINS = r"(?:do|then|while|if)\b"
NAME = re.compile(rf"(?:^|[|;&(']|\b{BEGINS})\s*((?:[A-Z_]+=\S+\s+)*)(?!{BEGINS})([\w./][\w./-]*)", re.MULTILINE)
# Words of the shell that no file stands for.
SHELL = {"read", "done", "cd", "export", "fi"}
WRITTEN = re.compile(r"(?:>|\s-o(?:ut)?\s)\s*([\w.-]+)")
OF_TRIAL = re.compile(r"\w+: a trial: ")
# What is not run, and why.
PROVES = {"rt": "it proves", "make": "it proves", "tools/proofs/answers.py": "it writes proofs", "tools/run/build_crates.py": "it proves"}


class Command(NamedTuple):
    """A command of a document; `shown` is None for a script, of which nothing is shown."""

    document: str
    line: int
    text: str
    shown: Optional[list[str]]
    status: int

    def place(self) -> str:
        """Where it stands."""
        return f"{self.document}:{self.line}"

    def first_line(self) -> str:
        """How it begins."""
        return self.text.split("\n")[0]


class Wrong(Exception):
    """The words, or a block, are not as they have to be."""


# ---- documents


def goes_on(line: str) -> bool:
    """Whether a command goes on behind this line of it."""
    return line.endswith(("\\", "&&", "|"))


def commands_of(document: str, first: int, lines: list[str]) -> Iterator[Command]:
    """The commands of a block, whose first line has this number."""
    if not any(line.startswith("$ ") for line in lines):
        yield Command(document, first, "\n".join(lines), None, 0)
        return
    place = 0
    while place < len(lines):
        start = place
        if not lines[place].startswith("$ "):
            raise Wrong(f"{document}:{first + place}: what is shown stands in front of a command")
        text = [lines[place][2:]]
        while goes_on(text[-1]) and place + 1 < len(lines):
            place += 1
            text.append(lines[place])
        place += 1
        shown = []
        while place < len(lines) and not lines[place].startswith("$ "):
            shown.append(lines[place])
            place += 1
        said = STATUS.fullmatch(shown[-1]) if shown else None
        yield Command(document, first + start, "\n".join(text), shown[:-1] if said else shown, int(said[1]) if said else 0)


def commands_in(document: str, text: str) -> list[Command]:
    """The commands of a document."""
    found: list[Command] = []
    for match in BLOCK.finditer(text):
        lines = [line.removeprefix(match[1]) for line in match[2].splitlines()]
        found += commands_of(document, text.count("\n", 0, match.start()) + 2, lines)
    return found


def fits_line(shown: str, line: str) -> bool:
    """Whether a line is as it is shown."""
    return line.startswith(shown[: -len(LEFT_OUT)]) if shown.endswith(LEFT_OUT) else line == shown


def fits(shown: list[str], lines: list[str]) -> bool:
    """Whether lines are as they are shown."""
    if not shown:
        return not lines
    if shown[0] == LEFT_OUT:
        return any(fits(shown[1:], lines[count:]) for count in range(len(lines) + 1))
    return bool(lines) and fits_line(shown[0], lines[0]) and fits(shown[1:], lines[1:])


# ---- running


def names_in(text: str) -> list[str]:
    """The names of the commands that a text calls."""
    whole = text.replace("\\\n", " ")
    found = [name for _, name in NAME.findall(whole) if name not in SHELL]
    return found + [name for name in re.findall(r"\s(\./[\w-]+)", whole) if name not in found]


def without(*packages: str) -> Optional[str]:
    """Says which of these packages of Python is not there, if one isn't, by the name that Debian has for it."""
    for name in packages:
        if not importlib.util.find_spec(name):
            return f"there is no python3-{name.replace('_', '-')}"
    return None


class Runner:
    """Runs the commands of one document."""

    def __init__(self, folder: pathlib.Path, programs: Optional[pathlib.Path]) -> None:
        self.folder = folder
        self.programs = programs
        self.missing: set[str] = set()  # files that a skipped command would have written
        for name in ("examples", "tools", "calmizsed", "bindings", "include"):
            (folder / name).symlink_to(TOP / name)
        (folder / "out").mkdir()
        (folder / "out" / "c").symlink_to(LIBRARY.parent)
        for name in PROGRAMS:
            there = self.program(name)
            if there is not None:
                (folder / name).symlink_to(there)
        self.environment = dict(os.environ, LC_ALL="C.UTF-8", PYTHON=sys.executable)
        self.environment.pop("RPKI_UNPROVED", None)
        if programs is None:
            self.environment["RPKI_UNPROVED"] = "1"

    def program(self, name: str) -> Optional[pathlib.Path]:
        """The file of a program, if there is one."""
        if self.programs is None:
            return TOP / name
        for file in (self.programs / name, self.programs / name / "out" / name):
            if file.is_file():
                return file.resolve()
        return None

    def lacks(self, name: str) -> Optional[str]:
        """Why a command of this name is not run, if it isn't."""
        if name in PROVES:
            return PROVES[name]
        if name == "./calmizsed":
            if not LIBRARY.exists():
                return NO_LIBRARY
            return without("cryptography")
        program = name.removeprefix("./")
        if program in PROGRAMS:
            if self.programs is None:
                return None if shutil.which("rt") else "there is no rt for a trial"
            return None if self.program(program) else f"there is no {program} in {self.programs}"
        if "/" in name:
            return None if (self.folder / name).exists() else f"there is no {name}"
        return None if shutil.which(name) else f"there is no {name}"

    def reason(self, command: Command) -> Optional[str]:
        """Why a command is skipped, if it is."""
        made = set(WRITTEN.findall(command.text))
        for name in names_in(command.text):
            why = None if name.removeprefix("./") in made else self.lacks(name)
            if why is not None:
                return why
        if "out/c/" in command.text and not LIBRARY.exists():
            return NO_LIBRARY
        if "./calmizsed serve" in command.text and (why := without("sqlalchemy", "waitress", "prometheus_client")):
            return why
        if self.programs is not None and "RPKI_UNPROVED" in command.text:
            return "it is a trial"
        read = set(re.findall(r"[\w.-]+", WRITTEN.sub("", command.text))) - made
        lost = sorted(self.missing & read)
        return f"{lost[0]} comes of a command that was skipped" if lost else None

    def written(self, command: Command) -> tuple[int, list[str]]:
        """The exit status of a command, and what it writes."""
        words = ["sh", "-c", command.text] if command.shown is not None else ["sh", "-e", "-c", command.text]
        try:
            ended = subprocess.run(words, cwd=self.folder, env=self.environment, stdin=subprocess.DEVNULL, stdout=subprocess.PIPE,
                                   stderr=subprocess.PIPE, timeout=SECONDS)
        except subprocess.TimeoutExpired:
            return -1, [f"it took more than {SECONDS} seconds"]
        said = [line for line in ended.stderr.decode("utf-8", "replace").splitlines()
                if "RPKI_UNPROVED" in command.text or not OF_TRIAL.match(line)]
        return ended.returncode, ended.stdout.decode("utf-8", "replace").splitlines() + said

    def look_at(self, command: Command) -> tuple[str, str]:
        """What came of a command, in a word, and more of it."""
        why = self.reason(command)
        if why is not None:
            self.missing |= set(WRITTEN.findall(command.text))
            return "skipped", why
        status, lines = self.written(command)
        self.missing -= set(WRITTEN.findall(command.text))
        if status != command.status:
            return "differs", "\n".join([f"the status is {status}, and not {command.status}", *lines])
        if command.shown is not None and not fits(command.shown, lines):
            return "differs", "\n".join(difflib.unified_diff(command.shown, lines, "shown", "written", lineterm=""))
        return "same", ""


def documents(names: list[str]) -> dict[str, str]:
    """The texts of these documents, or of all."""
    found = [TOP / "README.md", *sorted((TOP / "docs").glob("*.md"))]
    texts = {str(file.relative_to(TOP)): file.read_text(encoding="utf-8") for file in found}
    for name in names:
        if name not in texts:
            raise Wrong(f"there is no document {name}")
    return {name: text for name, text in texts.items() if not names or name in names}


def run_all(texts: dict[str, str], programs: Optional[pathlib.Path]) -> int:
    """Runs the commands of documents, and says what came of each: the exit status."""
    counts: collections.Counter[str] = collections.Counter()
    reasons: collections.Counter[str] = collections.Counter()
    for name, text in texts.items():
        with tempfile.TemporaryDirectory() as folder:
            runner = Runner(pathlib.Path(folder), programs)
            for command in commands_in(name, text):
                what, more = runner.look_at(command)
                counts[what] += 1
                reasons[more] += what == "skipped"
                print(f"{command.place()}: {what}" + (f": {more}" if more else ""), flush=True)
    why = "; ".join(f"{count}: {reason}" for reason, count in sorted(reasons.items()) if count)
    print(f"{sum(counts.values())} commands, {counts['same']} as shown, "
          f"{counts['differs']} differ, {counts['skipped']} skipped" + (f" ({why})" if why else ""))
    return 1 if counts["differs"] else 0


def list_all(texts: dict[str, str]) -> int:
    """Shows the commands of documents: the exit status."""
    for name, text in texts.items():
        for command in commands_in(name, text):
            shown = "a script" if command.shown is None else f"{len(command.shown)} lines shown"
            print(f"{command.place()}: {command.first_line()} [{shown}]")
    return 0


def main(words: Optional[list[str]] = None) -> int:
    """Lists or runs the commands."""
    parser = argparse.ArgumentParser(prog="commands.py", description="Runs the commands of README.md and docs/.")
    parser.add_argument("documents", nargs="*", metavar="DOCUMENT")
    how = parser.add_mutually_exclusive_group()
    how.add_argument("--list", action="store_true", help="show all commands, and run none")
    how.add_argument("--programs", type=pathlib.Path, metavar="DIR", help="where built programs are; else they are tried without proofs")
    given = parser.parse_args(words)
    try:
        texts = documents(given.documents)
        if given.programs is not None and not given.programs.is_dir():
            raise Wrong(f"there is no folder {given.programs}")
        return list_all(texts) if given.list else run_all(texts, given.programs)
    except Wrong as error:
        print(f"commands.py: {error}", file=sys.stderr)
        return 2


if __name__ == "__main__":
    sys.exit(main())
