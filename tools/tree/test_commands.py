#!/usr/bin/env python3
"""Tests tools/tree/commands.py, which runs the commands of the documents, with programs that are small scripts.

    tools/tree/test_commands.py [NAME ..]

It takes a few seconds, and needs no toolchain."""

from __future__ import annotations

import contextlib
import io
import pathlib
import shutil
import tempfile
import textwrap
import unittest
from unittest import mock

import commands

# A program that writes its words and its input, and one line to standard error; `fail` ends with 6.
PROGRAM = """\
#!/bin/sh
echo "words: $*"
cat
echo "said" >&2
[ "$1" != fail ] || exit 6
"""


def block(text: str) -> str:
    """A document with one block."""
    return f"# Title\n\n```sh\n{textwrap.dedent(text).strip()}\n```\n\nMore.\n"


class Reading(unittest.TestCase):
    """What the commands of a document are."""

    def commands(self, text: str) -> list[commands.Command]:
        """The commands of a document."""
        return commands.commands_in("x.md", text)

    def test_block_without_a_mark_is_a_script(self) -> None:
        found = self.commands(block("echo a\necho b"))
        self.assertEqual([commands.Command("x.md", 4, "echo a\necho b", None, 0)], found)

    def test_marked_lines_are_commands_with_what_is_shown(self) -> None:
        found = self.commands(block("$ echo a\na\n$ false\n[1]\n$ true"))
        self.assertEqual([(4, "echo a", ["a"], 0), (6, "false", [], 1), (8, "true", [], 0)], [tuple(c)[1:] for c in found])

    def test_command_goes_on_where_its_line_says_so(self) -> None:
        found = self.commands(block("$ echo a |\n    cat &&\n    echo \\\n    b\na\nb"))
        self.assertEqual(["echo a |\n    cat &&\n    echo \\\n    b"], [c.text for c in found])
        self.assertEqual(["a", "b"], found[0].shown)

    def test_other_blocks_are_passed_over(self) -> None:
        self.assertEqual([], self.commands("```\n$ echo a\n```\n\n```rust\n$ echo b\n```\n"))

    def test_indented_block(self) -> None:
        found = self.commands("- An item:\n\n  ```sh\n  $ echo a\n  a\n  ```\n")
        self.assertEqual([("echo a", ["a"])], [(c.text, c.shown) for c in found])

    def test_output_before_a_command_is_wrong(self) -> None:
        with self.assertRaises(commands.Wrong):
            self.commands(block("a\n$ echo a"))


class Comparing(unittest.TestCase):
    """Whether what is written is as it is shown."""

    def test_lines(self) -> None:
        for shown, lines, fits in (
                ("", "", True), ("", "a", False), ("a", "", False), ("a", "a", True), ("a", "b", False), ("a ...", "a", True),
                ("a ...", "a b c", True), ("... c", "a b c", True), ("... b", "a b c", False), ("a ... c", "a c", True),
                ("ab...", "abc", True), ("ab...", "ac", False), ("...", "", True)):
            with self.subTest(shown=shown, lines=lines):
                self.assertEqual(fits, commands.fits(shown.split(), lines.split()))


class Running(unittest.TestCase):
    """What comes of commands."""

    def setUp(self) -> None:
        """A folder with one program."""
        folder = tempfile.TemporaryDirectory()
        self.addCleanup(folder.cleanup)
        self.programs = pathlib.Path(folder.name)
        (self.programs / "rpkica").write_text(PROGRAM, encoding="ascii")
        (self.programs / "rpkica").chmod(0o755)

    def run_of(self, text: str) -> tuple[int, str]:
        """The exit status for a document, and what is written."""
        out = io.StringIO()
        with contextlib.redirect_stdout(out):
            status = commands.run_all({"x.md": text}, self.programs)
        return status, out.getvalue()

    def last(self, text: str) -> str:
        """The last line that is written for a document."""
        return self.run_of(text)[1].splitlines()[-1]

    def test_same_output_and_status(self) -> None:
        status, said = self.run_of(block("""
            $ ./rpkica content < examples/query-list.xml
            words: content
            <msg...
            said
            $ echo in | ./rpkica fail me
            words: fail me
            in
            said
            [6]"""))
        self.assertEqual((0, "2 commands, 2 as shown, 0 differ, 0 skipped"), (status, said.splitlines()[-1]))

    def test_other_output_differs(self) -> None:
        status, said = self.run_of(block("$ echo a\nb"))
        self.assertEqual(1, status)
        self.assertIn("x.md:4: differs", said)
        self.assertIn("-b\n+a", said)

    def test_other_status_differs(self) -> None:
        self.assertEqual(1, self.run_of(block("$ false"))[0])
        self.assertEqual(1, self.run_of(block("$ true\n[1]"))[0])
        self.assertEqual(1, self.run_of(block("false\necho b"))[0])

    def test_script_is_run_and_its_output_is_not_looked_at(self) -> None:
        self.assertEqual(0, self.run_of(block("echo a\necho b >&2"))[0])

    def test_files_last_for_the_document_and_not_beyond(self) -> None:
        self.assertEqual(0, self.run_of(block("echo a > file") + block("$ cat file\na"))[0])
        self.assertFalse((commands.TOP / "file").exists())
        self.assertEqual(1, self.run_of(block("$ cat file\na"))[0])

    def test_what_proves_is_skipped(self) -> None:
        status, said = self.run_of(block("$ rt ci\n..."))
        self.assertEqual((0, "1 commands, 0 as shown, 0 differ, 1 skipped (1: it proves)"), (status, said.splitlines()[-1]))

    def test_missing_programs_are_skipped(self) -> None:
        self.assertIn(f"there is no rpkiarch in {self.programs}", self.last(block("$ echo a | ./rpkiarch batch\n...")))
        self.assertIn("there is no no-such-program", self.last(block("no-such-program a")))
        self.assertIn(f"there is no rpkikeys in {self.programs}", self.last(block("$ ./rpkikeys inspect < a\n...")))
        self.assertIn("there is no tools/none.py", self.last(block("tools/none.py a")))

    def test_library_that_is_not_made(self) -> None:
        with mock.patch("commands.LIBRARY", self.programs / "none"):
            self.assertIn("make has made no library in out/c", self.last(block("$ ./calmizsed --version\n...")))
        with mock.patch("commands.LIBRARY", self.programs / "rpkica"), mock.patch("importlib.util.find_spec", return_value=None):
            self.assertIn("there is no python3-cryptography", self.last(block("$ ./calmizsed --version\n...")))
        self.assertIn("it proves", self.last(block("make && cc -o a a.c\n./a")))

    def test_program_that_the_command_makes(self) -> None:
        made = "printf '#!/bin/sh\\necho made' > one && chmod +x one && ./one"
        self.assertEqual(0, self.run_of(block(f"$ {made}\nmade"))[0])
        with mock.patch("commands.LIBRARY", self.programs / "none"):
            compiled = "$ cc -o one one.c out/c/libcalmizsed.a && ./one\n...\n$ ./one\n..."
            self.assertIn("2 skipped (1: make has made no library in out/c; 1: there is no ./one)", self.last(block(compiled)))

    def test_trial_needs_rt(self) -> None:
        self.assertIn("it is a trial", self.last(block("$ RPKI_UNPROVED=1 ./rpkica content\n...")))
        out = io.StringIO()
        with mock.patch("commands.shutil.which", return_value=None), contextlib.redirect_stdout(out):
            commands.run_all({"x.md": block("$ ./rpkica content < examples/query-list.hex\n...")}, None)
        self.assertIn("there is no rt for a trial", out.getvalue())

    def test_what_reads_a_skipped_output_is_skipped(self) -> None:
        said = self.last(block("$ rt x > made.der\n$ cat made.der\n...\n$ echo a > made.der\n$ cat made.der\na"))
        self.assertIn("2 as shown, 0 differ, 2 skipped (1: it proves; 1: made.der comes of a command that was skipped)", said)

    def test_programs_in_folders_of_their_crates(self) -> None:
        (self.programs / "rpkiup" / "out").mkdir(parents=True)
        shutil.copy(self.programs / "rpkica", self.programs / "rpkiup" / "out" / "rpkiup")
        self.assertEqual(0, self.run_of(block("$ ./rpkiup a < examples/query-list.xml\nwords: a\n...\nsaid"))[0])

    def test_names_of_commands(self) -> None:
        self.assertEqual(["split", "ls", "xargs", "./rpkiarch", "cat"], commands.names_in(
            "split -n l/4 a part. &&\n    ls part.?? | xargs -P 4 -I PART sh -c './rpkiarch batch < PART > PART.out' && cat part.??.out"))
        self.assertEqual(["./rpkipub", "echo", "./rpkica"], commands.names_in(
            './rpkipub 17 rsync://localhost/ca/ \\\n    30 < a.txt |\n    while read -r reply; do echo "$reply" | ./rpkica content; done'))
        self.assertEqual(["./rpkica"], commands.names_in("RPKI_UNPROVED=1 ./rpkica content < a"))
        self.assertEqual(["ls", "xargs", "./rpkica"], commands.names_in("ls a/* | xargs -n 1 ./rpkica receive"))
        self.assertEqual(["./rpkica", "openssl"], commands.names_in("./rpkica create --sign-command 'openssl dgst -sign a.pem' -o a.der"))


class Words(unittest.TestCase):
    """The words of the script."""

    def test_lists_all_documents(self) -> None:
        out = io.StringIO()
        with contextlib.redirect_stdout(out):
            self.assertEqual(0, commands.main(["--list"]))
        for name in ("README.md:", "docs/PROGRAMS.md:", "docs/INSPECTING.md:"):
            self.assertIn(name, out.getvalue())

    def test_unknown_document_and_folder(self) -> None:
        with contextlib.redirect_stderr(io.StringIO()):
            self.assertEqual(2, commands.main(["--list", "none.md"]))
            self.assertEqual(2, commands.main(["--programs", "/no/such/folder"]))


if __name__ == "__main__":
    unittest.main()
