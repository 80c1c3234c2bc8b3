#!/usr/bin/env python3
"""Says whether the scripts of tools/ and bench/ are kept as ruff.toml and tools/README.md say.

    tools/tree/scripts.py

Asked is, and what is not so is printed:

- that no line is longer than ruff.toml says, and none ends in white space;
- that each module, class and function has a docstring, but for special methods, tests, and functions within functions;
- that no function has more than MOST_OF_FUNCTION lines;
- that no two modules have one name, and none has that of a module of the standard library or of a package in KNOWN;
- that a file can be called exactly where it begins with `#!`, and then does nothing when it is imported;
- that tools/README.md has one row for each file of a folder, under the folder's name, and for nothing else.

Names that are unused or unknown, and how lines are laid out, are what `ruff check` finds, or where there is no ruff `flake8 tools bench`
(.flake8). The exit status is 0 where all is so, else 1."""

import ast
import os
import re
import sys

from sources import TOP

FOLDERS = ("tools", "tools/cases", "tools/tree", "tools/proofs", "tools/run", "bench")
README = TOP / "tools" / "README.md"
MOST_OF_FUNCTION = 64
# Packages that many machines have, and modules that older Pythons had.
KNOWN = {"attr", "build", "certifi", "cryptography", "lxml", "packaging", "pytest", "requests", "sets", "tests", "yaml"}


def files_of(folder):
    """The files of a folder, by their names."""
    return sorted(file for file in (TOP / folder).iterdir() if file.is_file())


def modules():
    """All files of Python."""
    return [file for folder in FOLDERS for file in files_of(folder) if file.suffix == ".py"]


def most_of_line():
    """How long a line may be."""
    return int(re.search(r"^line-length = (\d+)$", (TOP / "ruff.toml").read_text(encoding="utf-8"), re.MULTILINE)[1])


def of_lines(text, most):
    """What is wrong of the lines of a file."""
    for number, line in enumerate(text.splitlines(), 1):
        if len(line) > most:
            yield f"{number}: the line has {len(line)} characters"
        if line != line.rstrip():
            yield f"{number}: the line ends in white space"


def needs_docstring(name):
    """Whether what has this name needs a docstring: it is no special method and no test."""
    return not name.startswith(("_", "test_"))


def of_definitions(node):
    """What is wrong of the functions and classes in a module or a class."""
    for part in ast.iter_child_nodes(node):
        if isinstance(part, (ast.FunctionDef, ast.ClassDef)):
            if needs_docstring(part.name) and not ast.get_docstring(part):
                yield f"{part.lineno}: {part.name} has no docstring"
            if isinstance(part, ast.FunctionDef) and part.end_lineno - part.lineno >= MOST_OF_FUNCTION:
                yield f"{part.lineno}: {part.name} has {part.end_lineno - part.lineno + 1} lines"
            if isinstance(part, ast.ClassDef):
                yield from of_definitions(part)


def is_quiet(tree):
    """Whether importing a module does nothing but define: what stands at its top is no bare call but that of `sys.path`."""
    calls = [part.value for part in tree.body if isinstance(part, ast.Expr) and isinstance(part.value, ast.Call)]
    return all(ast.unparse(call.func).startswith("sys.path.") for call in calls)


def of_module(file, most):
    """What is wrong of a module."""
    text = file.read_text(encoding="utf-8")
    tree = ast.parse(text)
    yield from of_lines(text, most)
    if not ast.get_docstring(tree):
        yield "1: the module has no docstring"
    yield from of_definitions(tree)
    if text.startswith("#!") != os.access(file, os.X_OK):
        yield "1: it can be called, or begins with #!, and not the other"
    if not is_quiet(tree):
        yield "1: it does something when it is imported"


def of_names(found):
    """What is wrong of the modules' names."""
    taken = {*KNOWN, *getattr(sys, "stdlib_module_names", ())}
    for file in found:
        if file.stem in taken:
            yield f"{file.relative_to(TOP)}: there is another module of this name"
        taken.add(file.stem)


def of_readme():
    """What is wrong of the rows in tools/README.md."""
    text = README.read_text(encoding="utf-8")
    sections = re.split(r"^## (\w+):", text, flags=re.MULTILINE)
    for folder, section in zip(["", *sections[1::2]], sections[::2]):
        said = re.findall(r"^\| `([^`]+)`", section, re.MULTILINE)
        there = [file.name for file in files_of(f"tools/{folder}") if file != README]
        for name in sorted({*said, *there}):
            if said.count(name) != 1 or name not in there:
                yield f"tools/README.md: {name} is no file of tools/{folder}, or has not one row there"


def main():
    """Looks at all scripts, and prints what is wrong."""
    found, most = modules(), most_of_line()
    wrong = [f"{file.relative_to(TOP)}:{what}" for file in found for what in of_module(file, most)]
    wrong += [*of_names(found), *of_readme()]
    for line in wrong:
        print(line)
    print(f"{len(found)} scripts, {len(wrong)} wrong")
    return 1 if wrong else 0


if __name__ == "__main__":
    sys.exit(main())
