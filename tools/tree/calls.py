#!/usr/bin/env python3
"""Says of each public call of the library crates whether a test compares what it answers, and which clauses say when it refuses.

    tools/tree/calls.py [--missing] [CRATE ..]

Printed are, for each crate, its public calls: the public functions that its lib.rt hands out, those of the types that it hands out, those
that its traits ask for and their implementations, and `fmt` of what can be printed. Where no crate is named, it is rpki_* but for those
that are for tests alone. Laws, which do nothing, are left out, and so are equality, order, hash and From, and the calls for C, which
bindings/check makes. At the end stands what is missing; with --missing that alone. The exit status is 0 where nothing is missing, else 1.

Of each call it is said

- whether it takes memory: `alloc` where an allocator is handed in; `kept` where none is, and its error has OutOfMemory, or is the value
  that was handed in; `-` else. A call that takes memory has to be tested, and so does what can be printed.
- whether it is tested, and how often it stands in tests. Tests are the crates whose program the gate runs and compares (those with a file
  `stdout`) and functions with `#[test]`. A call is counted where it stands in a function that main, a test or an implementation of a trait
  leads to; not in an arm for a text that no stored case of the crate has; and not where its answer is dropped, by a semicolon behind it,
  by `_`, or in a name that is never read, unless there is no answer but that it succeeded. So 'tested' means that the call is made and
  its answer goes on, in a program whose lines are compared. That the answer gets as far as a comparison isn't looked at.
- of a generic call, at which types tests use it, as far as they are seen; `inferred` where they are not.
- of each refusal, the clauses that say when it comes: those that name the variant, by themselves or by a definition that they cite, and
  else, behind `others`, those that speak of the answer by more than what an Ok or a Some holds. OutOfMemory is free, and left out.

Behind what is missing stands `through`, with the calls that are tested and lead to it, or that none does. What is called is told by types,
as tools/tree/callers.py infers them; a call that its name alone tells is marked `by name`, and one that nothing tells is shown at the end,
and not counted. Whether a clause is strong enough is not seen here: a wrong body shows that."""

import argparse
import collections
import re
import sys

from callers import Bodies, Index, derives_display, words_of_cases
from sources import CRATES, TOP, Item, Tree, definitions, merged

FREE = {"OutOfMemory", "AllocError", "AllocFailed"}
LEFT_OUT = {"Model", "Drop", "PartialEq", "Eq", "PartialOrd", "Ord", "Hash", "From", "Clone", "Copy", "Debug", "Default", "Error"}
OF_SUCCESS = re.compile(r"\b(?:(?:IfOk|OnOk|IfSome|OnSome)\s+result\b(?!\.)(?!\s*↔)|(?:IsOk|IsSome)\s+result\s*→)")
UNCHANGED = re.compile(r"\s*OnErr result\s*\(?\s*(\w+)\.new(?:\.\w+)? ≡ \1\.old(?:\.\w+)?\s*\)?\s*")
WORDS = re.compile(r"[A-Za-z_][\w']*(?:\.[A-Za-z_][\w']*)*")

Call = collections.namedtuple("Call", "crate name function type")


# ---- the public calls


def libraries(tree):
    """The crates rpki_* but for those that docs/ARCHITECTURE.md says are for tests alone."""
    text = (TOP / "docs" / "ARCHITECTURE.md").read_text(encoding="utf-8")
    for_tests = set(re.findall(r"^\| (\w+) \| for tests alone", text, re.MULTILINE))
    return [name for name in tree.crates if name.startswith("rpki_") and name not in for_tests]


def is_law(function):
    """Whether a function does nothing: it answers nothing, and is lent nothing to change."""
    return function.result is None and not function.changes


def calls_of(tree, index, crate):
    """The public calls of a crate."""
    found, seen = [], set()
    for path, item in tree.exports(crate).items():
        if item.module.crate != crate or id(item) in seen:
            continue
        seen.add(id(item))
        name = "::".join(path)
        if item.kind == "fn" and not is_law(item) and not item.is_export:
            found.append(Call(crate, name, item, None))
        elif item.kind == "trait":
            found += [Call(crate, f"{name}::{function.name}", function, item) for function in item.functions]
        elif item.kind in ("struct", "enum"):
            found += calls_of_type(index, crate, name, item)
    return found


def calls_of_type(index, crate, name, item):
    """The public calls of a type of a crate."""
    found = [Call(crate, f"{name} as Display::fmt", item, item)] if derives_display(item) else []
    for implementation in index.of_type[id(item)]:
        if implementation.module.crate != crate:
            continue
        trait = implementation.trait.head[-1] if implementation.trait else None
        if trait in LEFT_OUT:
            continue
        for function in implementation.functions:
            if is_law(function):
                continue
            if trait or function.public:
                of_trait = f" as {trait}" if trait else ""
                found.append(Call(crate, f"{name}{of_trait}::{function.name}", function, item))
    return found


def error_of(tree, function):
    """The written type of a call's error, and the item that it is, if it is one."""
    if function.result is None or function.result.head[-1] != "Result" or len(function.result.args) < 2:
        return None, None
    written = function.result.args[1]
    if written.head in ("()", "[]"):
        return written, None
    item = tree.find(function.module, written.head)
    if isinstance(item, Item) and item.kind == "alias":
        item = tree.find(item.module, item.target.head)
    return written, item if isinstance(item, Item) else None


def is_handed_back(function, written):
    """Whether the error is what was handed in: then want of memory is the only refusal."""
    handed_in = {type_.head for _, type_ in function.parameters}
    if function.takes_self:
        handed_in.add(("Self",))
        if function.owner is not None and function.owner.target is not None:
            handed_in.add(function.owner.target.head)
    return written.head in handed_in or (written.head == "()" and any(part.head in handed_in for part in written.args))


def memory_of(tree, function):
    """`alloc`, `kept` or `-`."""
    if any(type_.head == ("Global",) for _, type_ in function.parameters):
        return "alloc"
    written, item = error_of(tree, function)
    if written is None:
        return "-"
    wants = written.head[-1] in FREE or (item is not None and "OutOfMemory" in item.variants)
    return "kept" if wants or is_handed_back(function, written) else "-"


# ---- tests


def crates_of_tests(tree):
    """The crates whose programs are compared or that have tests, and those for tests that they use."""
    found = []
    for name, crate in tree.crates.items():
        items = [item for module in crate.modules.values() for item in module.items]
        if (crate.folder / "stdout").exists() or any("test" in item.attributes for item in items):
            found.append(name)
    helpers = {used for name in found for used in tree.uses[name] if used in tree.crates and not used.startswith("rpki_")}
    return [*found, *sorted(helpers - set(found))]


class Tests:
    """What the tests of all crates call."""

    def __init__(self, tree, index):
        self.tree, self.faults, self.unknown = tree, [], []
        uses = []
        for name in crates_of_tests(tree):
            crate = tree.crates[name]
            bodies = Bodies(index, name, words_of_cases(crate.folder))
            found = bodies.run()
            uses += found
            self.faults += [f"not read: {fault}" for fault in bodies.faults]
            self.unknown += [f"{name}: {call} in {file}, line {line}" for call, file, line in bodies.unknown]
        self.uses = collections.defaultdict(list)
        for use in uses:
            self.uses[id(use.function)].append(use)
        self.live = self.reached(uses)

    def reached(self, uses):
        """The functions that main, a test or an implementation of a trait leads to."""
        live = {id(use.inside) for use in uses if self.is_root(use.inside)}
        called = collections.defaultdict(list)
        for use in uses:
            if use.is_reached:
                called[id(use.inside)].append(id(use.function))
        new = list(live)
        while new:
            for function in called[new.pop()]:
                if function not in live:
                    live.add(function)
                    new.append(function)
        return live

    @staticmethod
    def is_root(function):
        """Whether a function counts by itself: main, a test, or one that a trait asks for."""
        owner = function.owner
        is_of_trait = owner is not None and (owner.trait is not None or owner.kind == "trait")
        return is_of_trait or function.name == "main" or "test" in function.attributes

    def counted(self, function):
        """The uses of a function that count, and why the others don't."""
        good, reasons = [], collections.Counter()
        for use in self.uses[id(function)]:
            if not use.is_reached:
                reasons["for a text that no stored case has"] += 1
            elif id(use.inside) not in self.live:
                reasons["in a function that nothing calls"] += 1
            elif use.is_dropped and not answers_nothing(function):
                reasons["with its answer dropped"] += 1
            else:
                good.append(use)
        return good, reasons

    def is_concrete(self, use, depth=0):
        """Whether the types of a use are known where it stands, or where a function is used in which it stands."""
        types = [*use.at.values(), *(use.on.args if use.on else ()), use.on]
        if not any(has_parameter(type_) for type_ in types):
            return True
        if self.is_root(use.inside) or depth > 5:
            return True
        return any(self.is_concrete(outer, depth + 1) for outer in self.uses[id(use.inside)])

    def is_at(self, use, type_, wanted, depth=0):
        """Whether this type, where the use stands, is the wanted one; a parameter is what the function in which it stands is used at."""
        if type_ is None or type_.head is wanted:
            return type_ is not None
        if depth > 5 or not isinstance(type_.head, str) or not type_.head.startswith("?"):
            return False
        outer = self.uses[id(use.inside)]
        return any(self.is_at(it, it.at.get(type_.head[1:]), wanted, depth + 1) for it in outer)


def has_parameter(type_):
    """Whether a type parameter stands in a type."""
    if type_ is None:
        return False
    return (isinstance(type_.head, str) and type_.head.startswith("?")) or any(has_parameter(part) for part in type_.args)


def answers_nothing(function):
    """Whether a call answers nothing but that it succeeded."""
    result = function.result
    if result is None or result.head == "()":
        return result is None or not result.args
    return result.head[-1] in ("Result", "Option") and bool(result.args) and result.args[0].head == "()" and not result.args[0].args


def spelled(type_):
    """A type, as it is printed."""
    if type_ is None:
        return "_"
    head = type_.head.name if isinstance(type_.head, Item) else type_.head
    arguments = [spelled(part) for part in type_.args]
    if head == "()":
        return "(" + ", ".join(arguments) + ")"
    if head == "[]":
        return f"[{arguments[0]}]"
    return head + (f"<{', '.join(arguments)}>" if arguments else "")


def parameters_of(function):
    """The names of a function's type parameters, those of its implementation first."""
    owner = function.owner
    inherited = owner.generics if owner is not None else []
    return [parameter.name for parameter in [*inherited, *function.generics]]


def types_of(use):
    """At which types a generic call is used, as far as they are seen."""
    if use.on is not None and use.on.args:
        own = [parameter.name for parameter in use.function.generics]
        known = [spelled(use.on), *(spelled(use.at[name]) for name in own if use.at.get(name) is not None)]
    else:
        known = [spelled(use.at[name]) for name in parameters_of(use.function) if use.at.get(name) is not None]
    if use.on is not None and use.function.owner is not None and use.function.owner.kind == "trait":
        known.append(spelled(use.on))
    return [name for name in known if "?" not in name]


# ---- clauses


class Definitions:
    """The definitions of specs/ of all crates."""

    def __init__(self, tree):
        self.files = {}
        for crate in tree.crates:
            folder = CRATES / crate / "specs"
            for file in sorted(folder.rglob("*.antt")) if folder.exists() else []:
                imports, found = definitions(file, crate)
                path = (crate, *file.relative_to(folder).with_suffix("").parts)
                self.files[path] = imports, merged(found)

    def find(self, words, imports, here):
        """The path of what a name stands for: that of a file with the definition's name, or that of a type's variant."""
        if len(words) == 1 and here is not None and words[0] in self.files[here][1]:
            return here, words[0]
        if words[0] not in imports:
            return None, words
        path = (*imports[words[0]], *words[1:])
        if path[:1] != ("Rattle",) or len(path) < 4 or path[2] != "specs":
            return None, path
        inside = (path[1], *path[3:-1])
        if inside in self.files and path[-1] in self.files[inside][1]:
            return inside, path[-1]
        return None, path

    def named(self, text, imports, here, error, module, tree, seen, depth=0):
        """The variants of an error that a clause or a definition names, by itself or by those that it cites."""
        found = set()
        for name in set(WORDS.findall(text)):
            words = tuple(name.split("."))
            file, rest = self.find(words, imports, here)
            if file is None:
                variant = rest[-1]
                if variant in error.variants and self.is_of(error, rest, words, module, tree):
                    found.add(variant)
                continue
            key = (file, rest)
            if key in seen or depth > 8:
                continue
            seen.add(key)
            inner_imports, inner = self.files[file]
            definition = inner[rest]
            if self.may_speak(definition, error):
                found |= self.named(definition.text, inner_imports, file, error, None, tree, seen, depth + 1)
        return found

    @staticmethod
    def is_of(error, path, words, module, tree):
        """Whether a path leads to a variant of this error."""
        if "TheVariants" in path:
            place = path.index("TheVariants")
            return path[place - 1] == error.name and path[1] == error.module.crate
        if len(path) > 3 and path[-2] == error.name and path[1] == error.module.crate:
            return True
        if module is not None and len(words) > 1:
            return tree.find(module, words[:-1]) is error
        return False

    @staticmethod
    def may_speak(definition, error):
        """Whether a definition is of a type that can speak of this error."""
        words = set(re.findall(r"[A-Za-z_]\w*", definition.type))
        return bool(words & {error.name, "Result", "E", "Cause"}) or any(word.endswith("Error") for word in words)


def clauses_of(tree, call):
    """The clauses of a call, and of the trait that asks for it."""
    function = call.function
    found = [(clause, function.module) for clause in function.clauses if clause.kind == "ensures"]
    for asked in asked_for(tree, function):
        found += [(clause, asked.module) for clause in asked.clauses if clause.kind == "ensures"]
    return found


def speaks_of_all(clause):
    """Whether a clause speaks of the answer by more than what an Ok or a Some holds."""
    if UNCHANGED.fullmatch(clause.text):
        return False
    return re.search(r"\bresult\b", OF_SUCCESS.sub("", clause.text)) is not None


def speaks_of_none(clause):
    """Whether a clause says when an Ok holds nothing: by that word, or by all of the answer."""
    return speaks_of_all(clause) or re.search(r"\b(?:None|IsNone|IfNone)\b|≡", clause.text) is not None


def name_of(clause):
    """The name of a clause."""
    return clause.name or "unnamed"


def is_of_std(tree, function):
    """Whether a trait of std asks for a function: what it answers is said there."""
    owner = function.owner
    return owner is not None and owner.trait is not None and tree.find(owner.module, owner.trait.head) is None


def refusals_of(tree, defined, call):
    """Each refusal of a call, with the names of the clauses that say when it comes."""
    function = call.function
    if function.result is None or is_of_std(tree, function):
        return []
    kind = function.result.head[-1]
    clauses = clauses_of(tree, call)
    general = [name_of(clause) for clause, _ in clauses if speaks_of_all(clause)]
    if kind == "Option":
        return [("None", general)]
    found = []
    if kind == "Result" and function.result.args and function.result.args[0].head == ("Option",):
        found.append(("None", [name_of(clause) for clause, _ in clauses if speaks_of_none(clause)]))
    written, item = error_of(tree, function)
    if written is None or written.head[-1] in FREE or is_handed_back(function, written):
        return found
    if item is None or not item.variants:
        return [*found, (written.head[-1], general)]
    named, others = collections.defaultdict(list), []
    for clause, module in clauses:
        for variant in defined.named(clause.text, module.ghost_uses, None, item, module, tree, set()):
            named[variant].append(name_of(clause))
    for variant in item.variants:
        if variant in FREE:
            continue
        if named[variant] or not general:
            found.append((variant, named[variant]))
        else:
            others.append(variant)
    return [*found, (f"others ({', '.join(others)})", general)] if others else found


# ---- the table


class Table:
    """What is said of all calls, and what is missing."""

    def __init__(self):
        self.tree = Tree()
        self.index = Index(self.tree)
        self.tests = Tests(self.tree, self.index)
        self.defined = Definitions(self.tree)
        self.missing = []
        self.callers = collections.defaultdict(list)
        for name in self.tree.crates:
            if name.startswith("rpki_"):
                for use in Bodies(self.index, name, None).run():
                    self.callers[id(use.function)].append(use.inside)

    def crate(self, name):
        """The lines of a crate's calls."""
        for call in calls_of(self.tree, self.index, name):
            yield from self.lines(call)

    def uses_of(self, call):
        """The uses that count of a call; of one that a trait asks for, those of its implementations too."""
        good, reasons = self.tests.counted(call.function)
        if call.type is not None and call.type.kind == "trait":
            for crate in self.tree.crates.values():
                for implementation in crate.implementations:
                    if implementation.trait and self.tree.find(implementation.module, implementation.trait.head) is call.type:
                        for function in implementation.functions:
                            if function.name == call.function.name:
                                good = good + self.tests.counted(function)[0]
        for asked in asked_for(self.tree, call.function):
            good = good + [use for use in self.tests.counted(asked)[0] if self.tests.is_at(use, use.on, call.type)]
        return good, reasons

    def lines(self, call):
        """The line of a call, and one for each of its refusals."""
        memory = memory_of(self.tree, call.function)
        good, reasons = self.uses_of(call)
        told = f"{len(good)} in tests" if good else "no test"
        if good and all(use.by_name for use in good):
            told += ", by name"
        parts = [told]
        is_generic = bool(parameters_of(call.function)) and not is_of_std(self.tree, call.function)
        if is_generic:
            concrete = [use for use in good if self.tests.is_concrete(use)]
            names = sorted({name for use in concrete for name in types_of(use)})
            parts.append("at " + (", ".join(names) or "inferred") if concrete else "at no type")
        self.look(call, memory, good, reasons, is_generic and parts[-1] == "at no type")
        yield "  ".join((f"  {call.name}".ljust(52), memory.ljust(5), *parts))
        for refusal, clauses in refusals_of(self.tree, self.defined, call):
            if not clauses:
                self.missing.append(f"{call.crate} {call.name}: no clause says when {refusal} comes")
            yield f"      {refusal}: {', '.join(dict.fromkeys(clauses)) or 'no clause'}"

    def look(self, call, memory, good, reasons, is_unused):
        """Adds what is missing of the tests of a call."""
        why = "".join(f"; called {count} times {reason}" for reason, count in sorted(reasons.items()))
        if not good and memory != "-":
            self.missing.append(f"{call.crate} {call.name}: it takes memory, and no test compares its answer{why}{self.through(call)}")
        elif not good and call.name.endswith(" as Display::fmt"):
            self.missing.append(f"{call.crate} {call.name}: no test prints it{why}{self.through(call)}")
        elif is_unused:
            self.missing.append(f"{call.crate} {call.name}: it is generic, and no test uses it at a type{why}{self.through(call)}")

    def through(self, call):
        """By which calls that are tested it is called, if by any."""
        seen, new, found = {id(call.function)}, [call.function], []
        while new:
            for outer in self.outer(new.pop()):
                if id(outer) in seen:
                    continue
                seen.add(id(outer))
                if self.tests.counted(outer)[0]:
                    found.append(title(outer))
                else:
                    new.append(outer)
        names = sorted(set(found))
        if not names:
            return "; nothing that is tested calls it"
        more = f" and {len(names) - 2} more" if len(names) > 2 else ""
        return f"; through {', '.join(names[:2])}{more}"

    def outer(self, function):
        """The functions of the library that call a function; of an implementation, those that call what the trait asks for."""
        found = list(self.callers[id(function)])
        for asked in asked_for(self.tree, function):
            found += self.callers[id(asked)]
        return found


def asked_for(tree, function):
    """What a trait asks for, of which a function is an implementation."""
    owner = function.owner
    trait = tree.find(owner.module, owner.trait.head) if owner is not None and owner.trait is not None else None
    if not isinstance(trait, Item) or trait.kind != "trait":
        return []
    return [asked for asked in trait.functions if asked.name == function.name]


def title(function):
    """The name of a function with that of its type."""
    owner = function.owner
    if owner is None:
        return function.name
    return f"{owner.target.head[-1] if owner.target is not None else owner.name}::{function.name}"


def main():
    """Prints the table of the crates that are asked for, and what is missing."""
    parser = argparse.ArgumentParser(description=__doc__, formatter_class=argparse.RawDescriptionHelpFormatter)
    parser.add_argument("--missing", action="store_true")
    parser.add_argument("crates", nargs="*", metavar="CRATE")
    told = parser.parse_args()
    table = Table()
    for name in told.crates:
        if name not in table.tree.crates:
            parser.error(f"there is no crate {name}")
    for name in told.crates or libraries(table.tree):
        lines = list(table.crate(name))
        if not told.missing:
            calls = [line for line in lines if not line.startswith("      ")]
            print(f"{name}: {len(calls)} public calls, {sum('  no test' in line for line in calls)} of them in no test")
            print("\n".join(lines) + "\n")
    for line in table.tests.faults:
        print(line)
    for line in table.tests.unknown if not told.missing else []:
        print(f"of no known type, and so not counted: {line}")
    for line in table.missing:
        print(f"missing: {line}")
    print(f"{len(table.missing)} missing")
    return 1 if table.missing or table.tests.faults else 0


if __name__ == "__main__":
    sys.exit(main())
