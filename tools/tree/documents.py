#!/usr/bin/env python3
"""Says whether README.md, the other documents beside it and docs/ speak of what is there.

    tools/tree/documents.py

Asked is, and what is not so is printed:

- that each name in backquotes stands in the tree: a path leads to a file; `A::b` is a function or a variant of a type A; an option is one
  of the program or script that it stands behind; any other name is a word of the sources (comments left out), of a script, of bindings/
  or of a file's name, or one of ELSEWHERE below, with where it comes from. Words in capitals stand for something, and so do single letters.
- that what the tables of promises in docs/PROMISES.md and the table of laws in docs/READING.md name as clauses are functions, types or
  clauses of the crate of that row; that a clause stands behind a function that has it; and that each crate of the library has promises,
  but for UNPROMISED below;
- that the definitions that are listed behind the name of a crate's specs/ are files there, and that the head of each specs/Lib.antt names
  each file of its folder;
- that the commands in docs/PROGRAMS.md, and the statuses with their lines there and in README, are those of rpki_ca, and in the help of
  rpkica, and that README's checks are those of docs/PROGRAMS.md; that the examples which a help names are there, that the line of `make` in
  docs/PROGRAMS.md is its stored case's, that the lines which README shows of a trial are written so, that stored cases answer what README
  says of the message of OpenSSL, and that the names of the package for Python alone are those with which it raises errors;
- that docs/ARCHITECTURE.md has each crate of crates.txt, lowest first, and says of none that it stands on a crate which it doesn't use;
  that the crates that are trusted, by docs/PROMISES.md and by README, are those that are used;
- that a number that NUMBERS below knows is what is counted, that a number in front of what figures.py counts is one of its counts, and that
  any other number above fourteen, and any power of two, is one that is counted, or one of SAID below, with where it comes from;
- that no line but of a table, a link or a block of code has more than 140 characters, and no name in backquotes goes over a line's end;
- that README is short and plain: at most 250 lines, 30 words a sentence and 15 words a cell, and no word of PLAIN below.

The first column of docs/DIFFERENCES.md speaks of the Rust crate, and is left out; tools/tree/quotations.py looks at blocks of code. The
exit status is 0 where all is so, else 1."""

import pathlib
import re
import sys

from figures import LIMITS, all_figures, kinds_of_cases, limit, sum_of
from sources import CRATES, TOP, Tree, crates_in_order, definitions

sys.path.insert(0, str(pathlib.Path(__file__).resolve().parents[1] / "cases"))
from stored_cases import SIZES  # noqa: E402

MOST = 140
# Of README: lines, words of a sentence, words of a cell.
MOST_LINES, MOST_WORDS, MOST_OF_CELL = 250, 30, 15
# Words that README does without, and what it says.
PLAIN = {
    "octets?": "bytes",
    "moments?": "time",
    "believed": "accepted",
    "exactly where": "exactly when",
    "behind": "after",
    "anew": "again",
    "want of memory": "out of memory",
    "is none": "is not a",
}
# Crates of the library of which nothing is promised but that they are safe.
UNPROMISED = {"rpki_vectors"}
README = TOP / "README.md"
PROMISES, PROGRAMS = TOP / "docs" / "PROMISES.md", TOP / "docs" / "PROGRAMS.md"
DOCUMENTS = [*sorted(TOP.glob("*.md")), *sorted((TOP / "docs").glob("*.md"))]
# Where scripts stand.
FOLDERS = ("tools", "tools/cases", "tools/tree", "tools/proofs", "tools/run", "bench")
# Where the command calmizsed stands, which has names and options too.
COMMAND = tuple(f"bindings/python/src/calmizsed{folder}" for folder in ("", "/command", "/server"))
FENCE = re.compile(r"^ *```.*?^ *```$", re.MULTILINE | re.DOTALL)
SPAN = re.compile(r"`([^`\n]+)`")
NAME = re.compile(r"[A-Za-z_][\w']*")
PATH = re.compile(r"(?:[\w.-]+/)+[\w.-]*|[\w-]+\.(?:rt|antt|py|md|txt|hex|xml|edit|sh|c)\b")
OF_TYPE = re.compile(r"([A-Za-z_]\w*(?:::[A-Za-z_]\w*)*)::([A-Za-z_]\w*)")

# Names that are not the tree's, and where they come from.
ELSEWHERE = {
    "OpenSSL prints": "eContent notBefore notAfter Nov GMT X509v3 Authority Subject lastUpdate nextUpdate signerInfos signedAttrs "
    "subjectKeyIdentifier messageDigest signingTime certificates crls cont d",
    "the standards": "sid cA thisUpdate",
    "programs": "openssl cms asn1parse xxd sha256sum pkcs11-tool rt ci make pip cargo parallel pipe",
    "the toolchain": "rattle kit logic dac8208d650f15bf Lts antt goal Goals Given the_type",
    "the surroundings": "RT_JOBS LD_PRELOAD kernel.sched_autogroup_enabled nice malloc ipaddress",
    "the Rust crate": "bcder chrono rpki crypto compat validate_ta validate_ee BufRead IntoSource src/ca/ "
    "src/crypto/signer.rs",
    "examples of texts": "cars roa",
    "the data folder of a server": "rrdp/ tree/ tree/current notification.xml database.sqlite server.json trial/data/rrdp "
    "trial/data/tree/current",
}
BEYOND = {name: place for place, names in ELSEWHERE.items() for name in names.split()}

# What `rt` is told.
RT = {
    "ci": {"--anew"},
    "check": {"--jobs", "--only", "--start"},
    "try": {"--test"},
    "lib": set(),
    "run": set(),
    "must-fail": set(),
    "plant": set(),
    "fmt": set(),
    "tidy": set(),
    "doc": set(),
    "lemma": set(),
    "version": set(),
}
# Parts of paths that stand for something.
STANDS_FOR = {"x", "X", "f", "T", "Y", "name", "NAME", "out", ".."}

WORDS = {word: number for number, word in enumerate("no one two three four five six seven eight nine ten eleven twelve".split())}
WORDS |= {"thirteen": 13, "fourteen": 14, "twenty": 20}


def number_of(text):
    """The number that digits or a word name."""
    return WORDS[text.lower()] if text.lower() in WORDS else int(text.replace(",", ""))


# ---- what is counted


def octets_of(name):
    """The octets of an example in hexadecimal."""
    return bytes.fromhex((TOP / "examples" / name).read_text(encoding="ascii").strip())


def values_in(octets):
    """How many values there are in DER, and where the last one begins and ends."""
    count, place, last = 0, 0, (0, 0)
    while place < len(octets):
        start, constructed, length, place = place, octets[place] & 0x20, octets[place + 1], place + 2
        if length > 127:
            size = length - 128
            length = int.from_bytes(octets[place:place + size], "big")
            place += size
        count, last = count + 1, (start, place + length - 1)
        place += 0 if constructed else length
    return count, *last


def source(crate, name):
    """The text of a source of a crate."""
    return (CRATES / crate / "src" / name).read_text(encoding="utf-8")


def variants(tree, crate, name):
    """The variants of a public type of a crate."""
    return tree.exports(crate)[(name,)].variants


def refusals():
    """The status of each refusal."""
    return {name: int(number) for name, number in re.findall(r"Refusal::(\w+)(?:\(_\))? => (\d+),", source("rpki_ca", "refusals.rt"))}


def keys_refusals():
    """The status of each refusal of rpkikeys."""
    own = re.findall(r"KeysRefusal::(\w+)(?: { \.\. })? => (\d+),", source("rpki_external", "keys_refusal.rt"))
    return refusals() | {name: int(number) for name, number in own}


def checks_in_help():
    """The numbers of the checks in rpkica's help."""
    return re.findall(r"^ {4,5}(\d+)  \S", source("rpkica", "main.rt").partition("The checks of receive")[2], re.MULTILINE)


def counts(tree):
    """What is counted, by the names in NUMBERS."""
    count, first, last = values_in(octets_of("query-list.hex"))
    ee = re.search(r"^ee_checks [^=]*=(.*?)\[\]", (CRATES / "rpki_idcert/specs/Checks.antt").read_text(encoding="utf-8"), re.M | re.S)
    made = re.findall(r"pub fn err_\d+", source("rpki_updown", "not_performed_response.rt"))
    cases = kinds_of_cases("test_external")
    margin, keys, now = limit("seconds of a window")[0], limit("keys")[0], moment_of_examples()
    return {name: limit(name) for name in LIMITS} | {
        "values": [count],
        "signature": [first, last],
        "checks": [len(checks_in_help())],
        "end entity": [ee[1].count("∷")],
        "setup": [len(variants(tree, "rpki_ca", "SetupKind"))],
        "kinds": [len(variants(tree, "rpki_updown", "PayloadType"))],
        "refused": [len(made)],
        "status 7": [sum(status == 7 for status in refusals().values())],
        "programs": [sum((TOP / name).is_file() and name.startswith("rpki") and name != "rpkica" for name in crates_in_order())],
        "examples": [now],
        "validity": [now - margin, now + margin],
        "window": [margin, margin],
        "window of make": [margin, now, margin],
        "questions": [1 + keys * (1 + 2)],
        "overlong": [2 * 2 ** limit("powers of a key")[0]],
        "of run_keys": [cases["keys"] + cases["whole"]],
        "of receive": [cases["toy"]],
        "sizes": list(SIZES),
        "changes": limit("small deltas")[::-1],
        "two ticks": limit("ticks of both") + limit("ticks of an envelope"),
    }


def moment_of_examples():
    """The moment of the examples, by the script that makes their messages."""
    return int(re.search(r"^NOW = (\d+)", (TOP / "tools" / "cases" / "signed_messages.py").read_text(encoding="utf-8"), re.MULTILINE)[1])


# A pattern, whose groups are numbers, and what is counted.
NUMBERS = [
    (r"(\w+) values\. At depth|the message's (\w+) values|last of the (\w+) values", "values"),
    (r"in the octets (\d+) to (\d+), counted from 0", "signature"),
    (r"\b(\w+) checks(?: of each|, whether| that fails| fails?\b| under|;)|[Tt]he (fourteen) checks", "checks"),
    (r"the (\w+) checks of `validate_ee_at`", "end entity"),
    (r"[Tt]he (\w+) setup messages|(\w+) of the four messages|one of (\w+) messages and a moment|[Tt]he (\w+) messages by\b", "setup"),
    (r"exactly where it is one of (\w+), and what", "kinds"),
    (r"`new`, and (\w+) calls that may want memory", "refused"),
    (r"\*\*(\w+) refusals share status 7\*\*", "status 7"),
    (r"(\w+) further programs", "programs"),
    (r"one to (\w+) (?:such )?(?:keys|KEYs|of them)|There are one to (\w+)\b", "keys"),
    (r"with two CRLs under eight KEYs it has (\d+)", "questions"),
    (r"[Ff]rom (\d+) seconds before (?:the moment|it|MOMENT|the given time|the time at which it was made) to (\d+) seconds", "window"),
    (r"at each second from (\d+) before the moment to (\d+) after", "window"),
    (r"at each second from (\d+) before (\d+) to (\d+) after", "window of make"),
    (r"below (\d+) or above (\d+)", "moments with a window"),
    (r"up to (253\d+)", "last moment"),
    (r"(\d+) and (\d+): `receive` answers", "validity"),
    (r"COUNT elements, at most (\d+)|a number up to (\d+)|`make` with up to (\d+) elements", "elements that are made"),
    (r"no directory or has more than (\d+) octets", "octets of a base"),
    (r"at most (\d+)n \+ (\d+) times for n octets, and (\d+)n \+\s(\d+) times", "two ticks"),
    (r"`decode_slice_counted` ticks at most (\d+)n \+ (\d+) times|(\d+)n \+ (\d+) for the n octets", "ticks of certificates and requests"),
    (r"(?:at most|longer than) (\d+) (?:octets for each octet read|times what was read), and (\d+)", "texts that were read"),
    (r"(?:at most|longer than) (\d+) (?:octets for each octet read|times what was read), and (\d+)", "texts of publication that were read"),
    (r"at most (\d+) octets for each change, and (\d+) more", "changes"),
    (r"base64 texts have at most (\d+) octets", "small changes"),
    (r"at most (\d+) octets for each of the text", "printed sets"),
    (r"ordered set of names once there are more than (\w+)", "attributes in pairs"),
    (r"`Tag` holds up to (\w+) octets", "octets of a tag"),
    (r"with signatures of 0 to (\d+)", "overlong"),
    (r"(\d+) are of `run_keys`", "of run_keys"),
    (r"(\d+) are those of the command `receive`", "of receive"),
    (r"with parts of (\d+), (\d+), (\d+), (\d+), (\d+) and (\d+) octets", "sizes"),
]
# Numbers above fourteen that are not counted, and where they come from; and powers of two.
SAID = {
    "OpenSSL prints": "22 2023",
    "the standards": "20 60 256 2001",
    "years": "1970 9999",
    "bits of numbers, and of RSA keys": "32 2048 4096",
    "the statuses of refusals, which are compared in statuses": "14 15",
    "the statuses of the library alone, in crates/rpki_c/specs/HandingOver.antt": "16 17",
    "days of an anchor, and bits of a key, by the command calmizsed": "365 2048",
    "of a word on Linux": "131071",
    "minutes that a gate is to take at most": "320",
    "dates of what was measured": "2026 30",
    "the status of a trial that can't be made, by tools/run/trial.py": "125",
    "the status of an interrupted program": "130",
    "the mode of a file": "0600",
    "of a first run and a trial, by bench/first_run.py, and for its crates by the table in CONTRIBUTING.md": "30 40 46 71 82",
    "instructions an octet, by bench/instructions.py": "22 48 49 82 88 97 142 147",
}
OUTSIDE = {int(number): place for place, numbers in SAID.items() for number in numbers.split()}
POWERS = {32: "numbers in 32 bits", 63: "longer than memory", 64: "counts"}
NUMERAL = re.compile(r"(?<![\w^.:/-])(\d[\d,]*)(?![\w])(?!\.\d)")
POWER = re.compile(r"\b2\^(\d+)")
REFERENCE = re.compile(
    r"RFC \d+(?:, (?:(?:section|appendix) )?[\dA-Z][\d.]*)*|X\.690, [\d.]+|`[^`\n]*`|\b[0-9A-F]{2}(?: [0-9A-F]{2}){3} \.\."
)
SHOWN = re.compile(r"\b([0-9A-F]{2}(?: [0-9A-F]{2}){3}) \.\.")
# Words behind a number that figures.py counts, and which of its counts the number may be.
COUNTED = re.compile(
    r"\b(\d[\d,]*|" + "|".join(WORDS) + r") (crates|wrong bodies|stored cases|tests|lines of (?:code|definitions|proofs))\b(?! of a time)"
)


# ---- names


def scripts():
    """The files of the folders of scripts, and of the command calmizsed."""
    return [file for folder in (*FOLDERS, *COMMAND) for file in sorted((TOP / folder).glob("*")) if file.is_file()]


def library_files():
    """The files of the library for C, outside of crates/, and of what stands on it."""
    found = [TOP / "Makefile", TOP / "calmizsed", *sorted((TOP / "include").glob("*.h"))]
    return found + [file for file in sorted((TOP / "bindings").rglob("*")) if file.is_file() and "target" not in file.parts
                    and file.suffix in ("", ".py", ".rs", ".c", ".toml")]


class Names:
    """The names that stand in the tree."""

    def __init__(self):
        self.tree = Tree()
        self.words = set(BEYOND) | set(crates_in_order()) | {used for all_used in crates_in_order().values() for used in all_used}
        self.of_crate = {}
        self.clauses = {}  # of each crate, of each name of a function: the names of its clauses
        self.functions = {}  # of each name of a type: the names of its functions, variants and fields
        for name in self.tree.crates:
            self.add_crate(name)
        for file in [*scripts(), *library_files(), TOP / ".ci" / "run", *(TOP / name for name in ("rpkica", "rpkiguard"))]:
            if file.is_file():
                self.words |= set(NAME.findall(file.read_text(encoding="utf-8", errors="replace")))
        for file in TOP.rglob("*"):
            if not {".git", "out", "target", "__pycache__"} & set(file.relative_to(TOP).parts):
                self.words |= set(NAME.findall(file.name))

    def add_crate(self, name):
        """Adds the names of a crate."""
        folder, found = CRATES / name, set()
        self.clauses[name] = {}
        for file in [file for part in ("src", "specs", "proofs") for file in (folder / part).rglob("*.*t")]:
            text = file.read_text(encoding="utf-8")
            text = re.sub(r"//[^\n]*" if file.suffix == ".rt" else r"--[^\n]*", "", text)
            self.words |= set(NAME.findall(text))
        for module in self.tree.crates[name].modules.values():
            for item in module.items:
                self.add_item(item, found)
                for function in [item] if item.kind == "fn" else item.functions:
                    self.clauses[name].setdefault(function.name, set()).update(clause.name for clause in function.clauses)
            found |= set(module.names)
        for implementation in self.tree.crates[name].implementations:
            target = implementation.target.head[-1]
            self.functions.setdefault(target, set()).update(function.name for function in implementation.functions)
        for file in (folder / "specs").rglob("*.antt"):
            found |= {definition.name for definition in definitions(file, name)[1]}
        found |= {path[-1] for path in self.tree.exports(name)}
        self.of_crate[name] = found

    def add_item(self, item, found):
        """Adds the names of an item, and what it has."""
        found.add(item.name)
        found.update(item.variants)
        inside = [item] if item.kind == "fn" else item.functions
        for function in inside:
            found.add(function.name)
            found.update(clause.name for clause in function.clauses)
            if function.name == "eq":
                found.add("==")
        if any("PartialEq" in attribute for attribute in item.attributes):
            found.add("==")
        if item.kind == "impl" and item.trait is not None:
            found.add(item.trait.head[-1])
        of_type = self.functions.setdefault(item.name, set())
        of_type.update(item.variants, item.fields, item.ghosts, (function.name for function in item.functions))
        if item.kind == "alias":
            self.functions[item.name] = self.functions.setdefault(item.target.head[-1], set())


class Looker:
    """Looks at documents, and gathers what is wrong."""

    def __init__(self):
        self.names = Names()
        self.wrong = []
        self.promised = set()  # the crates that have rows in docs/PROMISES.md

    def say(self, document, line, what):
        """Adds what is wrong at a line."""
        self.wrong.append(f"{document.relative_to(TOP)}:{line}: {what}")

    # ---- a document

    def document(self, document):
        """Looks at a document."""
        text = document.read_text(encoding="utf-8")
        blocks = set()
        for match in FENCE.finditer(text):
            first = text.count("\n", 0, match.start()) + 1
            blocks.update(range(first, first + match[0].count("\n") + 1))
        crate = None
        for number, line in enumerate(text.splitlines(), 1):
            self.paths(document, number, line)
            if number in blocks:
                continue
            is_row = line.startswith("|")
            if len(line) > MOST and not is_row and not line.startswith(("<!--", "- [", "[")):
                self.say(document, number, f"the line has {len(line)} characters")
            if line.count("`") % 2:
                self.say(document, number, "a name in backquotes goes over the end of the line")
            asked = line
            if document.name == "DIFFERENCES.md" and is_row:
                asked = line.split("|", 2)[2]
            for span in SPAN.findall(asked):
                self.span(document, number, span)
            if is_row:
                crate = self.row(document, number, line, crate)
        self.lists(document, text)
        self.numbers(document, text)

    def paths(self, document, number, line):
        """What leads to a file of the tree has to be there."""
        for path in re.findall(r"(?<![\w/.-])(?:\./)?((?:crates|tools|docs|examples|bench|bindings|include|\.ci)/[\w./-]*\w)", line):
            if not (TOP / path).exists() and not set(re.split(r"[/.]", path)) & STANDS_FOR:
                self.say(document, number, f"{path} is not there")
        for path in re.findall(r"\]\(([^)#]+)\)", line):
            if "://" not in path and not (document.parent / path).exists():
                self.say(document, number, f"{path} is not there")

    def row(self, document, number, line, crate):
        """The names of clauses in a row of a table of promises, or of that of laws."""
        cells = [cell.strip() for cell in re.split(r"(?<!\\)\|", line)[1:-1]]
        if len(cells) != 3:
            return crate
        if document == PROMISES:
            crate = cells[0] if cells[0] in self.names.of_crate else crate if cells[0] == "" else None
            crates = [crate, *re.findall(r"\((rpki_\w+)\)", cells[2])] if crate else []
            asked = cells[2] if crate else ""
            self.promised.add(crate)
        else:
            crates = re.findall(r"\b(rpki_\w+)", cells[0] + cells[1])
            asked = cells[1] if crates and document.name == "READING.md" else ""
        for span in SPAN.findall(asked):
            if span.startswith("_"):
                continue
            name = re.sub(r"\(.*", "", span).split("::")[-1].split(" ")[0]
            if not any(name in self.names.of_crate.get(one, ()) for one in crates):
                self.say(document, number, f"`{span}` is no function, type or clause of {' or '.join(crates)}")
        for part in asked.split(";") if document == PROMISES else []:
            self.clause_of_function(document, number, crates, part)
        return crate

    def clause_of_function(self, document, number, crates, part):
        """Where a part of a cell names functions, the clauses in it are theirs."""
        named = [re.sub(r"\(.*", "", span).split("::")[-1].split(" ")[0] for span in SPAN.findall(part)]
        functions = [self.names.clauses[one] for one in crates]
        known = set().union(*(found[name] for name in named for found in functions if name in found))
        for name in named if known else []:
            is_clause = any(name in clauses for found in functions for clauses in found.values())
            if is_clause and name not in known and not any(name in found for found in functions):
                self.say(document, number, f"`{name}` is a clause of none of the functions beside it")

    def span(self, document, number, span):
        """A name in backquotes."""
        if span.startswith(("<", "-->", "'", '"', "&", "_", "..")) or "://" in span or span in BEYOND:
            return
        words = span.split()
        if words[0] == "rt" and len(words) > 1:
            self.options(document, number, span, RT.get(words[1]), words[2:])
            return
        if words[0].removeprefix("./").startswith(("tools/", "rpki")) and len(words) > 1:
            self.command(document, number, span, words)
            return
        if words[0].startswith("--"):
            known = set().union(*RT.values()) | set(re.findall(r"--[a-z]+(?:-[a-z]+)*", self.words_of_scripts()))
            self.options(document, number, span, known, words)
            return
        if PATH.fullmatch(span.rstrip("/")) or PATH.fullmatch(span):
            self.path(document, number, span)
            return
        for owner, name in OF_TYPE.findall(span):
            owner = owner.split("::")[-1]
            here = self.names.functions.get(owner)
            if here is not None and name not in here and name not in self.names.functions:
                self.say(document, number, f"`{span}`: {owner} has no {name}")
            elif owner in self.names.of_crate and name not in self.names.of_crate[owner]:
                self.say(document, number, f"`{span}`: {owner} has no {name}")
            elif here is None and owner not in self.names.words:
                self.say(document, number, f"`{span}`: there is no {owner}")
        for name in NAME.findall(span):
            if name not in self.names.words and len(name) > 1 and not name.isupper():
                self.say(document, number, f"`{span}`: {name} stands nowhere")

    def words_of_scripts(self):
        """The texts of all scripts, and of the programs' help."""
        files = [file for file in [*scripts(), *library_files()] if file.suffix == ".py" or file.name == "check"]
        files += [*CRATES.glob("*/src/main.rt"), CRATES / "command_line/src/lib.rt"]
        return "\n".join(file.read_text(encoding="utf-8") for file in files)

    def options(self, document, number, span, known, words):
        """Options have to be known."""
        if known is None:
            self.say(document, number, f"`{span}`: rt has no such command")
            return
        for word in words:
            if word.startswith("--") and word not in known:
                self.say(document, number, f"`{span}`: there is no option {word}")

    def command(self, document, number, span, words):
        """A program or script of the tree, with its words."""
        file = TOP / words[0].removeprefix("./")
        name = file.name
        if not file.exists():
            self.say(document, number, f"`{span}`: {words[0]} is not there")
            return
        files = [file]
        if not file.suffix:
            files = [source for crate in (name, "command_line", "rpki_ca") for source in (CRATES / crate / "src").glob("*.rt")]
        text = "\n".join(source.read_text(encoding="utf-8") for source in files)
        for word in words[1:]:
            if re.fullmatch(r"--[a-z]+|[a-z_]+", word) and word not in re.findall(r"--[a-z]+|[a-z_]+", text):
                self.say(document, number, f"`{span}`: {name} doesn't know {word}")

    def path(self, document, number, span):
        """A path has to lead to a file, from the top or from one of the folders."""
        parts = span.rstrip("/").split("/")
        stems = {part.split(".")[0] for part in parts}
        if stems & STANDS_FOR or (TOP / span).exists():
            return
        if any((TOP / folder / span).exists() for folder in (*FOLDERS, "docs", "examples", "crates")):
            return
        if any(True for folder in ("", "src", "specs", "proofs") for _ in CRATES.glob(str(pathlib.PurePath("*", folder, span)))):
            return
        if parts[0] in self.names.of_crate and (CRATES / span).exists():
            return
        self.say(document, number, f"`{span}` is not there")

    def lists(self, document, text):
        """Definitions that are listed behind a crate's name, or behind its specs/."""
        flat = re.sub(r"\s+", " ", text)
        for crate, names in re.findall(r"`crates/(\w+)/specs/` \(([^)]*)\)", flat):
            self.files(document, crate, names)

    def files(self, document, crate, names):
        """Definitions have to be files of a crate."""
        for name in re.findall(r"\b[A-Z]\w+", names):
            if not list((CRATES / crate / "specs").rglob(f"{name}.antt")):
                self.say(document, 0, f"{crate} has no specs/{name}.antt")

    def numbers(self, document, text):
        """Numbers have to be those that are counted."""
        flat = re.sub(r"(?<=\S)\n(?=\S)", " ", text)
        known = counts(self.names.tree)
        for pattern, what in NUMBERS:
            for match in re.finditer(pattern, flat):
                given = [number_of(group) for group in match.groups() if group and (group.lower() in WORDS or group[0].isdigit())]
                if given and given != known[what]:
                    self.say(document, line_of(text, match[0]), f"{match[0]!r}: counted are {known[what]}")
        self.uncounted(document, text, known)
        figures = all_figures()
        for match in COUNTED.finditer(flat):
            number, what = number_of(match[1]), match[2]
            if number > 2 and number not in allowed(figures, what):
                self.say(document, line_of(text, match[0]), f"{match[0]!r} is no count of tools/tree/figures.py")

    def uncounted(self, document, text, known):
        """Numbers above fourteen and powers of two that nothing counts."""
        counted = {number for numbers in known.values() for number in numbers}
        counted |= {number for found in all_figures().values() for number in found}
        powers = {number for name in LIMITS if name.startswith("powers") for number in known[name]}
        rest = FENCE.sub(lambda match: "\n" * match[0].count("\n"), text)
        rest = REFERENCE.sub(lambda match: "RFC" + "\n" * match[0].count("\n"), rest)
        for match in SHOWN.finditer(text):
            if bytes.fromhex(match[1]) not in octets_of("query-list.hex"):
                self.say(document, line_of(text, match[0]), f"{match[1]} doesn't stand in examples/query-list.hex")
        for number, line in enumerate(rest.splitlines(), 1):
            for match in NUMERAL.finditer(line):
                value = int(match[1].replace(",", ""))
                if value > 14 and value not in counted and value not in OUTSIDE:
                    self.say(document, number, f"{match[1]} is counted by nothing")
            for match in POWER.finditer(line):
                if int(match[1]) not in powers and int(match[1]) not in POWERS:
                    self.say(document, number, f"2^{match[1]} is no limit that tools/tree/figures.py reads")


def line_of(text, part):
    """The line in which a part of a text stands."""
    place = text.find(part.split("\n")[0].split(" ")[0])
    words = part.split()
    for number, line in enumerate(text.splitlines(), 1):
        if all(word in line for word in words[:2]):
            return number
    return text.count("\n", 0, place) + 1


def allowed(figures, what):
    """The numbers that may stand in front of what is counted: of a crate, of the library, of the others, of all."""
    library = [found for crate, found in figures.items() if crate.startswith("rpki_")]
    sums = [*figures.values(), sum_of(figures.values()), sum_of(library), sum_of([f for f in figures.values() if f not in library])]
    if what == "crates":
        return {len(figures), len(library), len(figures) - len(library)}
    field = {"wrong bodies": "wrong", "stored cases": "cases", "tests": "tests", "lines of code": "src", "lines of definitions": "specs"}
    return {getattr(found, field.get(what, "proofs")) for found in sums}


# ---- tables


def cells_of(row):
    """The cells of a row."""
    return [cell.strip() for cell in re.split(r"(?<!\\)\|", row)[1:-1]]


def statuses(looker):
    """The tables of statuses in README and docs/PROGRAMS.md."""
    of_ca, _, of_keys = PROGRAMS.read_text(encoding="utf-8").partition("## Under real keys")
    of_keys, _, of_package = of_keys.partition("## With the library for C")
    without = "KeyNotFound", "Signer"
    keys = {name: status for name, status in keys_refusals().items() if name not in without}
    for document, text, here in (
            (README, README.read_text(encoding="utf-8"), refusals()), (PROGRAMS, of_ca, refusals()), (PROGRAMS, of_keys, keys)):
        rows = re.findall(r"^\| ([\d, ]+) \| ((?:`[A-Z][\w ]+`(?:, )?)+) \|", text, re.MULTILINE)
        told = {name: int(status) for status, names in rows for name in re.findall(r"`(\w+)", names)}
        for name in sorted(set(told) | set(here)):
            if told.get(name) != here.get(name) and not (text is of_keys and name in ("ReadFault", "OutOfMemory")):
                looker.say(document, 0, f"status of {name}: {told.get(name)} in the table, {here.get(name)} in the code")
    names_of_package(looker, of_package)
    program = source("rpkica", "main.rt")
    for name, status in refusals().items():
        if not re.search(rf"^ *{status}  (?:[\w, ]*\b)?{name}\b|^        (?:[\w, ]*\b)?{name}\b", program, re.MULTILINE):
            looker.say(PROGRAMS, 0, f"the help of rpkica doesn't have {status} {name}")


def names_of_package(looker, text):
    """The names that docs/PROGRAMS.md gives the package for Python are those with which it raises errors, but for the library's."""
    files = sorted((TOP / "bindings" / "python" / "src").rglob("*.py"))
    source_text = "\n".join(file.read_text(encoding="utf-8") for file in files).replace("WRITE_FAULT,", "11,")
    here = set(re.findall(r'raise \w+\("([A-Z]\w+)", (\d+),', source_text))
    here |= {(name, "2") for name in re.findall(r'return .*_base64\(.*"(\w+)"\)', source_text)}
    rows = re.findall(r"^\| ([\d, ]+) \| ((?:`[A-Z]\w+`(?:, )?)+) \|", text, re.MULTILINE)
    told = {(name, status) for statuses, names in rows for name in re.findall(r"`(\w+)", names) for status in statuses.split(", ")}
    known = {(name, str(status)) for name, status in keys_refusals().items()}
    for name, status in sorted((here - known) ^ (told - known)):
        looker.say(PROGRAMS, 0, f"{name} with status {status} is told of the package, or raised, and not the other")


def checks(looker):
    """The checks are numbered as in the help of rpkica, and README's rows are those of docs/PROGRAMS.md without the standards' sections."""
    found = {}
    for document in (README, PROGRAMS):
        text = document.read_text(encoding="utf-8")
        found[document] = [cells_of(row) for row in re.findall(r"^\| \d+ \| .* \| (?:inspection|verification) \|.*$", text, re.MULTILINE)]
        if [cells[0] for cells in found[document]] != checks_in_help():
            looker.say(document, 0, "the checks are not numbered as in the help of rpkica")
    for short, whole in zip(found[README], found[PROGRAMS]):
        if short != whole[:3] + whole[4:]:
            looker.say(README, 0, f"check {short[0]} is another than in docs/PROGRAMS.md")


def summary(looker):
    """The line of `make` that docs/PROGRAMS.md shows is the one of its stored case."""
    cases = (CRATES / "test_run" / "data" / "cases.txt").read_text(encoding="utf-8")
    shown = re.findall(r"`make (\d+) (\d+)` writes\s+`([^`]*)\.\.`", PROGRAMS.read_text(encoding="utf-8"))
    if not shown:
        looker.say(PROGRAMS, 0, "no line of make is shown")
    for count, seed, line in shown:
        if not re.search(rf"^make-{count}-{seed} 0 {line.encode().hex()}", cases, re.MULTILINE):
            looker.say(PROGRAMS, 0, f"make {count} {seed} is stored with another line than {line}")


def trial(looker):
    """What README shows of a trial is the content of the example, and the line that tools/run/trial.py writes."""
    text = README.read_text(encoding="utf-8")
    for line in re.findall(r"^<msg .*$", text, re.MULTILINE) or ["no line of XML"]:
        if line.encode() not in octets_of("query-list.hex"):
            looker.say(README, line_of(text, line), f"{line} is not the content of examples/query-list.hex")
    said = re.search(r'print\(f"([^"]*a trial[^"]*)"', (TOP / "tools" / "run" / "trial.py").read_text(encoding="utf-8"))
    if said is None or said[1].replace("{program}", "rpkica") not in text.splitlines():
        looker.say(README, 0, "it shows another line of a trial than tools/run/trial.py writes")


def real_message(looker):
    """The times at which README receives the message of OpenSSL are those of stored cases, with what README says of them."""
    query, key = ((TOP / "examples" / name).read_text(encoding="ascii").strip() for name in ("rsa-query.hex", "rsa-key.hex"))
    cases = (CRATES / "test_external" / "data" / "cases.txt").read_text(encoding="utf-8").splitlines()
    digest = re.search(r"receive publication (?:.*\n){1}\s+([0-9a-f]{64})", source("rpkikeys", "main.rt"))[1]
    shown = re.findall(r"examples/rsa-query\.der --key examples/rsa-issuer-public\.pem --at (\d+)", README.read_text(encoding="utf-8"))
    for at, answer in zip(shown, ("0 ", "6 'Validation|20350a ")):
        end = f"{query} receive publication {at} #2d {digest} 111 {key}"
        if not any(re.match(rf"\S+ keys {re.escape(answer)}", case) and case.endswith(end) for case in cases):
            looker.say(README, line_of(README.read_text(encoding="utf-8"), f"--at {at}"), f"no stored case answers {answer}at {at}")
    if len(shown) != 2:
        looker.say(README, 0, f"{len(shown)} times at which the message of OpenSSL is received, and not two")


def commands(looker):
    """The table of rpkica's words in docs/PROGRAMS.md has each command, and no other."""
    table = PROGRAMS.read_text(encoding="utf-8").partition("| Words | Input |")[2].partition("\n\n")[0]
    told = set(re.findall(r"^\| `(\w+)", table, re.MULTILINE))
    here = set(re.findall(r'^verb_word \S+ = codes "(\w+)"', (CRATES / "rpki_ca/specs/Command.antt").read_text(encoding="utf-8"), re.M))
    for name in sorted(told ^ here):
        looker.say(PROGRAMS, 0, f"{name} is a row of the table of words, or a command, and not the other")


def keys_commands(looker):
    """So has that of rpkikeys, and its help too."""
    words = (CRATES / "rpki_external/specs/Words.antt").read_text(encoding="utf-8")
    found = re.findall(r'IsOneWord words \d+ \(codes "(\w+)"\)()|AreTwoWords words \d+ \(codes "(\w+)"\) \(codes "(\w+)"\)', words)
    found += re.findall(r'verb_is : HasWord words 0 \(codes "(\w+)"\)(?:\n +pub thing_is : HasWord words 1 \(codes "(\w+)"\))?', words)
    here = {" ".join(filter(None, names)) for names in found}
    verbs = {name.split(" ")[0] for name in here if " " in name}
    table = PROGRAMS.read_text(encoding="utf-8").partition("## Under real keys")[2].partition("###")[0]
    row = r"^(?:\| `|    rpkikeys )(\w+)(?: (\w+))?"
    for where, text in (PROGRAMS, table), (CRATES / "rpkikeys/src/main.rt", source("rpkikeys", "main.rt")):
        told = {f"{verb} {thing}" if verb in verbs else verb for verb, thing in re.findall(row, text, re.MULTILINE)}
        for name in sorted(told ^ here):
            looker.say(where, 0, f"{name} is told of rpkikeys, or a command, and not the other")


def helps(looker):
    """What the programs' help names: examples that are there, and refusals under their statuses."""
    known = keys_refusals()
    for file in sorted(CRATES.glob("*/src/main.rt")):
        text = file.read_text(encoding="utf-8").partition("const HELP")[2].partition('";')[0]
        for path in re.findall(r"\bexamples/[\w.-]*\w", text):
            if not (TOP / path).exists():
                looker.say(file, 0, f"{path} is not there")
        for status, names in re.findall(r"^ +(\d+)  ([A-Z]\w+(?:, [A-Z]\w+)*)", text.partition("exit status is")[2], re.MULTILINE):
            for name in names.split(", "):
                if name in known and known[name] != int(status):
                    looker.say(file, 0, f"the help says {status} {name}, and rpki_ca {known[name]}")


def crates(looker):
    """The table of crates in docs/ARCHITECTURE.md, and the crates that are trusted, by docs/PROMISES.md and README."""
    document = TOP / "docs" / "ARCHITECTURE.md"
    uses, named, last = crates_in_order(), set(), []
    for number, line in enumerate(document.read_text(encoding="utf-8").splitlines(), 1):
        cells = [cell.strip() for cell in line.split("|")[1:-1]]
        if len(cells) != 3 or cells[0] in ("Crate", "---"):
            continue
        last = re.split(r", ", cells[0]) if cells[0] else last
        named |= set(last)
        for name in re.findall(r"\w+", re.sub(r"\bor\b|\bits tests on\b", "", cells[2])):
            if name not in uses:
                looker.say(document, number, f"there is no crate {name}")
            elif name not in named:
                looker.say(document, number, f"{name} stands below {' and '.join(last)}")
            elif not any(name in uses.get(crate, ()) for crate in last):
                looker.say(document, number, f"{' and '.join(last)} doesn't use {name}")
    for name in sorted(set(uses) ^ named):
        looker.say(document, 0, f"{name} is no row of the table, or no crate")
    used = {name for all_used in uses.values() for name in all_used if name not in uses}
    for trusting, start, end in ((PROMISES, "those of the crates", r"\), the C library"), (README, "what is stated of the crates", ";")):
        text = trusting.read_text(encoding="utf-8")
        trusted = re.search(rf"{start} (.*?){end}", text, re.DOTALL)
        listed = set(SPAN.findall(trusted[1])) if trusted else set()
        for name in sorted(listed ^ used):
            looker.say(trusting, line_of(text, start), f"{name} is trusted, or used, and not the other")


def promises(looker):
    """Each crate of the library has rows in docs/PROMISES.md."""
    library = {name for name in crates_in_order() if name.startswith("rpki_")} - UNPROMISED
    for name in sorted(library - looker.promised):
        looker.say(PROMISES, 0, f"{name} has no row")


# ---- README


def sentences(text):
    """The sentences of what is no table and no code, and the line of each paragraph."""
    text = FENCE.sub(lambda match: "\n" * match[0].count("\n"), text)
    paragraph, first = [], 0
    for number, line in enumerate([*text.splitlines(), ""], 1):
        line = re.sub(r"^> ?", "", line)
        ends = not line.strip() or line.startswith(("|", "#", "<!--", "- "))
        if ends and paragraph:
            for sentence in re.split(r"(?<=[.!?])[*)]*\s+", " ".join(paragraph)):
                yield first, sentence
            paragraph = []
        if line.strip() and not line.startswith(("|", "#", "<!--")):
            first = first if paragraph else number
            paragraph.append(line.removeprefix("- ").strip())


def words_in(text):
    """The words of a text; what is no word is left out, and so is where a link leads."""
    return [word for word in re.sub(r"\]\([^)]*\)", "]", text).split() if re.search(r"\w", word)]


def plain(looker):
    """README is short and plain."""
    text = README.read_text(encoding="utf-8")
    if len(text.splitlines()) > MOST_LINES:
        looker.say(README, 0, f"it has {len(text.splitlines())} lines")
    for number, sentence in sentences(text):
        if len(words_in(sentence)) > MOST_WORDS:
            looker.say(README, number, f"a sentence of {len(words_in(sentence))} words: {sentence[:50]}..")
    for number, line in enumerate(text.splitlines(), 1):
        for cell in cells_of(line) if line.startswith("|") else []:
            if len(words_in(cell)) > MOST_OF_CELL:
                looker.say(README, number, f"a cell of {len(words_in(cell))} words: {cell[:50]}..")
    without = SPAN.sub("`", FENCE.sub(lambda match: "\n" * match[0].count("\n"), text))
    for number, line in enumerate(without.splitlines(), 1):
        for word, better in PLAIN.items():
            if re.search(rf"\b{word}\b", line):
                looker.say(README, number, f"it has `{word}`; say {better}")


def definition_files(looker):
    """The head of each specs/Lib.antt names each file of its folder."""
    for file in sorted(CRATES.glob("*/specs/Lib.antt")):
        text = file.read_text(encoding="utf-8")
        said = set(re.findall(r"\w+", " ".join(re.findall(r"^--(.*)", text, re.MULTILINE))))
        modules = set(re.findall(r"^pub mod (\w+)", text, re.MULTILINE))
        there = {other.stem for other in file.parent.glob("*.antt")} - {"Lib"}
        for name in sorted(modules ^ there):
            looker.say(file, 0, f"{name} is a module or a file, and not the other")
        for name in sorted(modules - said) if "all of these" not in text else []:
            looker.say(file, 1, f"the lines at the head don't name {name}")


def main():
    """Looks at all documents, and prints what is wrong."""
    looker = Looker()
    for document in DOCUMENTS:
        looker.document(document)
    statuses(looker)
    checks(looker)
    summary(looker)
    trial(looker)
    real_message(looker)
    commands(looker)
    keys_commands(looker)
    helps(looker)
    crates(looker)
    promises(looker)
    plain(looker)
    definition_files(looker)
    for line in looker.wrong:
        print(line)
    print(f"{len(DOCUMENTS)} documents, {len(looker.wrong)} wrong")
    return 1 if looker.wrong else 0


if __name__ == "__main__":
    sys.exit(main())
