#!/usr/bin/env python3
"""Writes proofs/M/F/Answers.antt of a counted straight reader:

    answers.py CRATE MODULE FUNCTION SPEC GRAMMAR STEP..     writes the file; its head says by which call
    answers.py --again [FILE..]                              writes the files (or all that have such a head) anew from their heads
    answers.py --check [FILE..]                              says which of them --again would change; exits with 1 if any

A straight reader enters a constructed value, takes its fields in their order, leaves, and gives what it took. FUNCTION is f or
T.f, with :CLAUSE where its contract has named clauses. GRAMMAR, of specs/SPEC.antt, is what its clause cites, or `-` where nothing
is to be unfolded; further words to unfold stand behind it, joined by '+'. A word of another file has its module in front, but for
`wrapped` of rpki_der; SPEC is `-` where no word is of it. Modules are named without `Rattle.`.

The first STEP is the `enter_counted`, or `-` where the caller entered; the last is the `leave_counted`, or
    &REST            a call that reads what is left and leaves; &1REST where it is of cost 1 and the reader is of a greater one,
    >REST            such a call whose answer is given on as it is, behind no field or one.
A STEP is the name of a step as the check prints it, with
    :CLAUSE          where the call's contract has named clauses (contents:value),
    @[SOURCES=]WORD  where the field's grammar depends on the mode; WORD is the grammar as a function of the mode, in parentheses
                     where it is no single name, and SOURCES say where its names are imported from: MODULE.NAME or
                     MODULE.{NAME,NAME}, joined by '+',
    ?                in front, where the call's contract is a TakesPartCounted (a field that is not one value),
    !                in front, where it is no field but a `?` that wants memory,
    =                in front, where it is no field but a call whose contract, an equation, rewrites what `returns` is about
                     (=new-signed, =in_ok-slice),
    +CLAUSE:N@SOURCES=LEMMA   no field but a further clause of the reader: LEMMA with N blanks, where it entered, what the fields
                     said, and where it left."""
import pathlib
import re
import shlex
import sys
import textwrap

WIDTH = 200
CRATES = pathlib.Path(__file__).resolve().parents[2] / "crates"
HEAD = "-- by tools/proofs/answers.py "
MORE = "--     "
BLANKS = {
    "Counting": dict(takes_err=9, takes_within=11, refuses_inside=10, refuses_within=3, reads_first=13, stops_later=12, stops_first=8,
                     reads_part=14, stops_behind=13, stops_part=9, reads_done=6, stops_done=6, stops_memory=5),
    "Leftovers": dict(takes_rest_err=10, takes_all_rest=12, takes_within_rest=17, reads_bind=10, stops_bind=8, reads_slower=7,
                      stops_slower=6),
    "Modes": dict(takes_in=6, refuses_in=5, part_in=6, refuses_part_in=5, reads_in=6, stops_in=5, rest_in=7),
}
# where a line that is too long is broken first, and then: before a lemma of the chain, and before what is lifted to a mode
GAPS = [r" (?=\(\w+_(?:within|inside|first|later|part|behind|bind|memory|done) )", r" (?=\(\w+_(?:in|slower) _)"]


def filled(text, first="", later=" " * 4, end=""):
    """The lines of a text, none longer than WIDTH where blanks allow it."""
    return textwrap.wrap(text, WIDTH - len(end), initial_indent=first, subsequent_indent=later, break_long_words=False,
                         break_on_hyphens=False)


def laid(line):
    """The lines of a definition; none ends in an operator, since what stands behind it is held to it by a hard space."""
    lines = [line.replace("∙ ", "∙\xa0")]
    for gap in GAPS:
        broken = [re.sub(gap, "\n    ", line) if len(line) > WIDTH else line for line in lines]
        lines = "\n".join(broken).split("\n")
    return [part.replace("\xa0", " ") for line in lines for part in filled(line)]


class Reader:
    """A straight reader, as the words of a call name it, and the file of its answers."""

    def __init__(self, crate, module, function, spec, grammar, *steps):
        self.call = (crate, module, function, spec, grammar, *steps)
        self.imports = {"std.proofs.Common": {"refl"}}
        function, _, clause = function.partition(":")
        self.place = f"{crate}.proofs.{module}.{function}"
        self.path = CRATES / self.place.replace(".", "/") / "Answers.antt"
        self.clause = f"-clause-{clause}" if clause else ""
        self.words = []
        for word in filter(lambda word: word != "-", grammar.split("+")):
            home, _, word = word.rpartition(".")
            home = home or ("rpki_der.specs.Grammar" if word == "wrapped" else f"{crate}.specs.{spec}")
            self.uses(home, word)
            self.words.append(word)
        enter, *steps = [self.parsed(s) for s in steps]
        self.enter = None if enter["name"] == "-" else enter
        self.equations = [f"c.{s['name']}.ensures" for s in steps if s["kind"] == "="]
        self.further = [s for s in steps if s["kind"] == "+"]
        *self.steps, self.leave = [s for s in steps if s["kind"] not in ("=", "+")]
        self.fields = [s for s in self.steps if s["kind"] != "!"]

    def parsed(self, step):
        """The parts of a STEP; the names that its word needs are imported."""
        kind, body, _, word = re.fullmatch(r"(&1|[?!&>=+]?)([^@]*)(@(.*))?", step).groups()
        sources, _, word = (word or "").rpartition("=")
        for source in filter(None, sources.split("+")):
            home, names = source.rsplit(".", 1)
            self.uses(home, *names.strip("{}").split(","))
        name, _, clause = body.partition(":")
        return dict(kind=kind, name=name, clause=clause, word=word)

    def uses(self, home, *names):
        """Notes that these names of a module are imported."""
        self.imports.setdefault(home, set()).update(names)

    def lemma(self, name, start=""):
        """A lemma with its blanks, which is imported."""
        home, count = next((home, names[name]) for home, names in BLANKS.items() if name in names)
        self.uses(f"rpki_der.proofs.{home}", name)
        return name + start + " _" * count

    def cite(self, kind, step, clause=None):
        """What the contract of a step's call says, by its clause or by this one."""
        clause = clause or step["clause"]
        return f"c.{kind}{step['name']}.ensures" + (f".{clause}" if clause else "")

    def cites(self, kind, step, *clauses):
        """The same by several clauses."""
        return " ".join(self.cite(kind, step, clause) for clause in clauses)

    def entered(self):
        """That the value was entered."""
        return f"refl {self.cites('in_ok-', self.enter, 'place', 'ticks')}"

    def mode_before(self, fields):
        """That the mode before what follows these fields is the mode where the reading began."""
        modes = [self.cite("in_ok-", f) + ".takes.mode" for f in reversed(fields)] + [self.cite("in_ok-", self.enter, "place") + ".mode"]
        if len(modes) == 1:
            return modes[0]
        self.uses("std.proofs.Common", "◌∙◌")
        return f"({' ∙ '.join(modes)})"

    def lifted(self, kind, lemma, step, before):
        """What a call said, lifted where the step's grammar depends on the mode."""
        if not step["word"]:
            return self.cite(kind, step)
        start = (" _" if lemma in ("takes_in", "refuses_in") else " _ _") + " " + step["word"]
        return f"({self.lemma(lemma, start)} {self.mode_before(before)} {self.cite(kind, step)})"

    def took(self, i):
        """That the field with this number was taken."""
        return self.lifted("in_ok-", "part_in" if self.fields[i]["kind"] else "takes_in", self.fields[i], self.fields[:i])

    def chain(self, count, last, whole, first, other):
        """The lemma `whole`, of the entering, around one lemma a field around `last`."""
        for i in reversed(range(count)):
            last = f"{self.lemma(other if self.fields[i]['kind'] else first)} refl {self.took(i)} ({last})"
        return f"{self.lemma(whole)} {self.entered()} ({last})" if self.enter else last

    def rest(self, kind, word):
        """What the call said that reads what is left."""
        said = self.lifted(kind, f"{word}_in", self.leave, self.fields)
        return f"({self.lemma(word + '_slower', ' _ 1')} refl {said})" if self.leave["kind"] == "&1" else said

    def answer(self, name, term, unfolding=True):
        """Adds the answer to a goal."""
        unfold = [f"unfolding {' '.join(self.words)}"] if self.words and unfolding else []
        self.out += ["", f"pub {name} : goal.{name}", *unfold, *laid(f"{name} g c = {term}")]

    def exit(self, step, term):
        """Adds the answer to the goal of a step that refuses."""
        name = step["name"]
        residual = f"c.from_residual-in_err-{name}" if self.out else "c.from_residual"
        err = self.lemma("takes_err" if self.enter else "takes_rest_err")
        self.answer(f"returns-in_err-{name}{self.clause}", f"{err} {residual}.ensures.1 ({term})")

    def refusals(self):
        """Adds the answers to the goals of all steps that refuse."""
        stops = ("refuses_inside", "stops_later", "stops_behind")
        if self.enter:
            said = self.cites("in_err-", self.enter, "place", "ticks")
            self.exit(self.enter, f"{self.lemma('refuses_within')} c.args.cursor.now _ _ _ {said}")
        count = 0
        for step in self.steps:
            if step["kind"] == "!":
                self.exit(step, self.chain(count, f"{self.lemma('stops_memory')} refl", *stops))
                continue
            lift, stop = ("refuses_part_in", "stops_part") if step["kind"] else ("refuses_in", "stops_first")
            said = self.lifted("in_err-", lift, step, self.fields[:count])
            self.exit(step, self.chain(count, f"{self.lemma(stop)} refl {said}", *stops))
            count += 1
        if self.leave["kind"] == "":
            last = f"{self.lemma('stops_done')} {self.cites('in_err-', self.leave, 'place', 'refused')}"
            self.exit(self.leave, self.chain(count, last, *stops))
        elif self.leave["kind"] != ">":
            last = f"{self.lemma('stops_bind')} {self.rest('in_err-', 'stops')}"
            self.exit(self.leave, self.chain(count, last, *stops))

    def returns(self):
        """The answer to the goal of what is returned."""
        if self.leave["kind"] == ">":
            rest = self.lifted("", "rest_in", self.leave, self.fields)
            if self.fields:
                return f"{self.lemma('takes_within_rest')} refl {self.entered()} {self.took(0)} {rest}"
            return f"{self.lemma('takes_all_rest')} {self.entered()} {rest}"
        if self.leave["kind"]:
            last = f"{self.lemma('reads_bind')} {self.rest('in_ok-', 'reads')} refl"
        else:
            last = f"{self.lemma('reads_done')} refl {self.cites('in_ok-', self.leave, 'place', 'ticks')}"
        term = self.chain(len(self.fields), last, "takes_within", "reads_first", "reads_part")
        by = self.equations[0] if len(self.equations) == 1 else f"({', '.join(self.equations)})"
        return f"rw {by} ({term})" if self.equations else term

    def text(self):
        """The text of the file."""
        self.out = []
        self.refusals()
        self.answer(f"returns{self.clause}", self.returns())
        for step in self.further:
            places = [self.cite("in_ok-", s, "place") for s in (self.enter, self.leave)]
            said = " ".join([places[0], *[self.cite("in_ok-", f) for f in self.fields], places[1]])
            self.answer(f"returns-clause-{step['name']}", f"{step['word']}{' _' * int(step['clause'])} {said}", False)
        head = filled(shlex.join(self.call), HEAD, MORE)
        for home, names in sorted(self.imports.items(), key=lambda i: (i[0] != "std.proofs.Common", i[0])):
            start = f"use Rattle.{home}.{{"
            head += [line.rstrip(",") + "}" for line in filled(", ".join(sorted(names)), start, start, "}")]
        return "\n".join([*head, f"use Rattle.{self.place}.Goals as goal", *self.out, ""])

    def write(self):
        """Writes the file."""
        self.path.parent.mkdir(parents=True, exist_ok=True)
        self.path.write_text(self.text(), encoding="utf-8")


def reader_of(path):
    """The reader that a file's head names."""
    call = re.match(rf"{HEAD}(.*\n(?:{MORE}.*\n)*)", path.read_text(encoding="utf-8"))
    reader = call and Reader(*shlex.split(call[1].replace("\n" + MORE, " ")))
    if not reader or path.resolve() != reader.path:
        sys.exit(f"{path}: its head names no call of this script that writes it")
    return reader


def differing(names):
    """The readers of these files, or of all that have such a head, whose files aren't what would be written."""
    found = sorted(CRATES.glob("*/proofs/**/Answers.antt"))
    paths = [pathlib.Path(name) for name in names] or [path for path in found if path.read_text(encoding="utf-8").startswith(HEAD)]
    return [reader for reader in map(reader_of, paths) if reader.path.read_text(encoding="utf-8") != reader.text()]


def main():
    """Writes the file that the words name, or looks at those that were written."""
    if sys.argv[1:2] in (["--again"], ["--check"]):
        differ = differing(sys.argv[2:])
        for reader in differ:
            print(reader.path.relative_to(CRATES.parent))
            if sys.argv[1] == "--again":
                reader.write()
        return 1 if differ and sys.argv[1] == "--check" else 0
    if len(sys.argv) < 8:
        sys.exit(__doc__)
    Reader(*sys.argv[1:]).write()
    return 0


if __name__ == "__main__":
    sys.exit(main())
