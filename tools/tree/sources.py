"""How the sources of the crates are read, for the scripts that look at them: the items of .rt files, the definitions of .antt files, and
which names a crate hands out. It knows as much of the grammar as these scripts need, and stops at what it doesn't know."""

import collections
import pathlib
import re

TOP = pathlib.Path(__file__).resolve().parents[2]
CRATES = TOP / "crates"

TOKEN = re.compile(
    r"""(?P<space>\s+|//[^\n]*)
    |(?P<text>b?r\#*".*?"\#*|b?"(?:\\.|[^"\\])*"|b?'(?:\\(?:x[0-9a-fA-F]{2}|u\{[^}]*\}|.)|[^'\\])')
    |(?P<lifetime>'[A-Za-z_]\w*)
    |(?P<number>\d[\w]*(?:\.\d[\w]*)?)
    |(?P<word>[A-Za-z_]\w*)
    |(?P<sign>::|->|=>|==|!=|<=|&&|\|\||\.\.=|\.\.|\+=|-=|\*=|/=|\|=|&=|\^=|.)""",
    re.VERBOSE | re.DOTALL,
)
CLAUSE = re.compile(r"(?P<kind>ensures|requires)\s*(?P<name>\w*)\s*\{")
GHOST = re.compile(r"ghost\s+(?P<name>\w+)\s*[:=]\s*\{")
GHOST_USE = re.compile(r"ghost\s+use\s+(?P<path>[^;]*);")

Token = collections.namedtuple("Token", "kind text line")
Type = collections.namedtuple("Type", "head args")  # head: a path as a list of words, or "()", "[]"; references are left out
Clause = collections.namedtuple("Clause", "kind name text")
Parameter = collections.namedtuple("Parameter", "name type bounds")


class Item:
    """A function, a type, a trait, a constant, an alias or an implementation, with what of it is asked for."""

    def __init__(self, kind, name, module, line, public):
        self.kind, self.name, self.module, self.line, self.public = kind, name, module, line, public
        self.generics = []  # parameters: name and the paths of their bounds
        self.parameters = []  # of a function: a pattern's tokens and a type
        self.result = None
        self.clauses = []
        self.body = None  # tokens
        self.fields = {}  # of a struct
        self.variants = {}  # of an enum: the types of its parts
        self.target = None  # the type of an alias or an implementation
        self.trait = None  # of an implementation
        self.functions = []
        self.ghosts = []  # names of what is said of a trait or an implementation
        self.owner = None  # of a function in an implementation or a trait
        self.types = {}  # associated types
        self.attributes = []
        self.takes_self = False
        self.changes = False  # whether a function is lent something to change
        self.is_export = False  # whether it is a function for C


class Module:
    """A module: its items, and what names stand for in it."""

    def __init__(self, crate, path):
        self.crate, self.path = crate, path
        self.file = None
        self.names = {}  # items and modules
        self.uses = {}  # a name: the path that it stands for
        self.globs = []
        self.public_uses = {}
        self.public_modules = set()
        self.items = []
        self.ghost_uses = {}


class Unknown(Exception):
    """What stands here is no grammar that is known."""


def tokens_of(text):
    """The tokens of a .rt file. Clauses and ghost lines are one token each."""
    found, place, line = [], 0, 1
    while place < len(text):
        if text[place] in "erg" and (place == 0 or not (text[place - 1].isalnum() or text[place - 1] in "_.")):
            ghost = GHOST_USE.match(text, place)
            if ghost:
                found.append(Token("ghost_use", ghost["path"], line))
                line += text.count("\n", place, ghost.end())
                place = ghost.end()
                continue
            clause = CLAUSE.match(text, place) or GHOST.match(text, place)
            if clause:
                end = behind_brace(text, clause.end())
                kind = clause.groupdict().get("kind") or "ghost"
                found.append(Token(kind, (clause["name"], text[clause.end() : end - 1]), line))
                line += text.count("\n", place, end)
                place = end
                continue
        match = TOKEN.match(text, place)
        if match.lastgroup != "space":
            found.append(Token(match.lastgroup, match[0], line))
        line += match[0].count("\n")
        place = match.end()
    return found


def behind_brace(text, place):
    """The place behind the brace that closes the one in front of this place."""
    depth = 1
    for match in re.compile(r"--[^\n]*|//[^\n]*|\"(?:\\.|[^\"\\])*\"|[{}]").finditer(text, place):
        depth += {"{": 1, "}": -1}.get(match[0], 0)
        if not depth:
            return match.end()
    raise Unknown("no closing brace")


class Reader:
    """Goes over tokens."""

    def __init__(self, tokens):
        self.tokens, self.place = tokens, 0

    def peek(self, ahead=0):
        """The text of a token ahead, or None behind the end."""
        at = self.place + ahead
        return self.tokens[at].text if at < len(self.tokens) else None

    def kind(self, ahead=0):
        """The kind of a token ahead, or None behind the end."""
        at = self.place + ahead
        return self.tokens[at].kind if at < len(self.tokens) else None

    def line(self):
        """The line of the next token, or of the last."""
        return self.tokens[min(self.place, len(self.tokens) - 1)].line if self.tokens else 0

    def take(self):
        """The text of the next token, which is passed."""
        token = self.tokens[self.place]
        self.place += 1
        return token.text

    def took(self, *texts):
        """Whether these stand next; then they are passed."""
        if all(self.peek(n) == text for n, text in enumerate(texts)):
            self.place += len(texts)
            return True
        return False

    def need(self, text):
        """Passes a token, which has to stand next."""
        if not self.took(text):
            near = " ".join(str(token.text) for token in self.tokens[self.place : self.place + 8])
            raise Unknown(f"line {self.line()}: {text} is missing before {near}")

    def at_end(self):
        """Whether all tokens are passed."""
        return self.place >= len(self.tokens)

    def between(self, opening, closing):
        """The tokens between two brackets, the first of which stands next."""
        self.need(opening)
        start, depth = self.place, 1
        pairs = {opening: 1, closing: -1}
        while depth:
            depth += pairs.get(self.take(), 0)
        return self.tokens[start : self.place - 1]

    def type(self):
        """A type; references, lifetimes and `mut` are left out."""
        while self.peek() in ("&", "&&", "mut", "dyn", "impl") or self.kind() == "lifetime":
            self.take()
        if self.took("("):
            parts = []
            while not self.took(")"):
                parts.append(self.type())
                self.took(",")
            return parts[0] if len(parts) == 1 else Type("()", tuple(parts))
        if self.took("["):
            part = self.type()
            while not self.took("]"):
                self.take()
            return Type("[]", (part,))
        words, arguments = [], ()
        while True:
            if self.kind() != "word":
                raise Unknown(f"line {self.line()}: no type before {self.peek()}")
            words.append(self.take())
            if self.peek() == "<" or (self.peek() == "::" and self.peek(1) == "<"):
                self.took("::")
                arguments = self.arguments()
            if not (self.peek() == "::" and self.kind(1) == "word"):
                return Type(tuple(words), arguments)
            self.take()

    def arguments(self):
        """The types between angles; lifetimes are left out."""
        self.need("<")
        found = []
        while not self.took(">"):
            if self.kind() == "lifetime" or self.kind() == "number":
                self.take()
            elif self.kind() == "word" and self.peek(1) == "=":
                self.place += 2
                self.type()
            else:
                found.append(self.type())
            self.took(",")
        return tuple(found)

    def generics(self):
        """The type parameters between angles, if there are any."""
        found = []
        if not self.took("<"):
            return found
        while not self.took(">"):
            if self.kind() == "lifetime":
                self.take()
                if self.took(":"):
                    self.take()
            else:
                self.took("const")
                if self.kind() != "word":
                    raise Unknown(f"line {self.line()}: no type parameter before {self.peek()}")
                name, bounds = self.take(), []
                if self.took(":"):
                    bounds = self.bounds()
                if self.took("="):
                    self.type()
                found.append(Parameter(name, None, bounds))
            self.took(",")
        return found

    def bounds(self):
        """The traits behind a colon."""
        found = []
        while True:
            if self.kind() == "lifetime":
                self.take()
            else:
                self.took("?")
                found.append(self.type())
            if not self.took("+"):
                return found


def use_paths(reader, front=()):
    """The paths of a `use`, each with the name that it gets."""
    words = list(front)
    while True:
        if reader.took("{"):
            found = []
            while not reader.took("}"):
                found += use_paths(reader, words)
                reader.took(",")
            return found
        if reader.took("*"):
            return [("*", tuple(words))]
        words.append(reader.take())
        if reader.took("as"):
            return [(reader.take(), tuple(words))]
        if not reader.took("::"):
            last = words[-1]
            if last == "self":
                return [(words[-2], tuple(words[:-1]))]
            return [(last, tuple(words))]


class Crate:
    """A crate, and what its sources say."""

    def __init__(self, name):
        self.name = name
        self.folder = CRATES / name
        self.modules = {}
        self.implementations = []
        self.root = None

    def read(self):
        """Reads the sources, from lib.rt or main.rt on."""
        source = self.folder / "src"
        first = source / ("lib.rt" if (source / "lib.rt").exists() else "main.rt")
        self.root = self.module((), first)
        return self

    def module(self, path, file):
        """Reads a module from its file."""
        made = Module(self.name, path)
        made.file = file
        self.modules[path] = made
        reader = Reader(tokens_of(file.read_text(encoding="utf-8")))
        self.items(reader, made)
        return made

    def items(self, reader, module):
        """Reads items to the end."""
        while not reader.at_end():
            self.item(reader, module)

    def item(self, reader, module):
        """Reads an item, a `use` or a `mod`."""
        attributes = []
        while reader.peek() == "#":
            reader.take()
            reader.took("!")
            attributes.append(" ".join(str(token.text) for token in reader.between("[", "]")))
        if reader.at_end():
            return
        if reader.kind() == "ghost_use":
            add_ghost_use(module.ghost_uses, reader.take())
            return
        line, public = reader.line(), False
        if reader.took("pub"):
            public = True
            if reader.peek() == "(":
                reader.between("(", ")")
                public = False
        if reader.took("mod"):
            self.child(reader, module, public)
        elif reader.took("use"):
            for name, path in use_paths(reader):
                if name == "*":
                    module.globs.append(path)
                    if public:
                        raise Unknown(f"{module.file}: line {line}: all names of another module are handed out")
                else:
                    module.uses[name] = path
                    if public:
                        module.public_uses[name] = path
            reader.need(";")
        else:
            found = self.declared(reader, module, line, public)
            found.attributes = attributes
            module.items.append(found)
            if found.kind == "impl":
                self.implementations.append(found)
            else:
                module.names[found.name] = found

    def child(self, reader, module, public):
        """Reads a `mod`."""
        name = reader.take()
        if public:
            module.public_modules.add(name)
        reader.need(";")
        folder = module.file.parent if module.file.stem in ("lib", "main") else module.file.parent / module.file.stem
        module.names[name] = self.module((*module.path, name), folder / f"{name}.rt")

    def declared(self, reader, module, line, public):
        """An item, whose first word stands next."""
        reader.took("unsafe")
        word = reader.take()
        is_export = word == "extern"
        if is_export:
            reader.take()
            word = reader.take()
        if word == "fn":
            found = function(reader, module, line, public)
            found.is_export = is_export
            return found
        if word == "struct":
            return struct(reader, module, line, public)
        if word == "enum":
            return enum(reader, module, line, public)
        if word in ("const", "static"):
            found = Item("const", reader.take(), module, line, public)
            reader.need(":")
            found.result = reader.type()
            skip_to(reader, ";")
            return found
        if word == "type":
            found = Item("alias", reader.take(), module, line, public)
            found.generics = reader.generics()
            reader.need("=")
            found.target = reader.type()
            reader.need(";")
            return found
        if word == "trait":
            found = Item("trait", reader.take(), module, line, public)
            found.generics = reader.generics()
            if reader.took(":"):
                found.bounds = reader.bounds()
            members(reader, found, module)
            return found
        if word == "impl":
            return implementation(reader, module, line)
        raise Unknown(f"{module.file}: line {line}: no item begins with {word}")


def skip_to(reader, end):
    """Passes all up to a token that stands in no brackets."""
    depth = 0
    while True:
        text = reader.take()
        depth += {"(": 1, "[": 1, "{": 1, ")": -1, "]": -1, "}": -1}.get(text, 0) if isinstance(text, str) else 0
        if not depth and text == end:
            return


def function(reader, module, line, public):
    """A function, behind its `fn`."""
    found = Item("fn", reader.take(), module, line, public)
    found.generics = reader.generics()
    inside = Reader(reader.between("(", ")"))
    found.changes = any(token.text == "mut" and number and is_lent(inside.tokens, number) for number, token in enumerate(inside.tokens))
    while not inside.at_end():
        pattern = []
        while inside.peek() not in (":", ",") and not inside.at_end():
            pattern.append(inside.tokens[inside.place])
            inside.take()
        if inside.took(":"):
            found.parameters.append((pattern, inside.type()))
        elif any(token.text == "self" for token in pattern):
            found.takes_self = True
        inside.took(",")
    if reader.took("->"):
        found.result = reader.type()
    if reader.took("where"):
        while reader.kind() not in ("ensures", "requires") and reader.peek() not in ("{", ";"):
            reader.take()
    while reader.kind() in ("ensures", "requires", "ghost"):
        token = reader.tokens[reader.place]
        found.clauses.append(Clause(token.kind, *token.text))
        reader.take()
        reader.took(",")
    if not reader.took(";"):
        found.body = reader.between("{", "}")
    return found


def is_lent(tokens, place):
    """Whether the `mut` at this place stands behind a reference."""
    before = tokens[place - 1]
    return before.text == "&" or (before.kind == "lifetime" and place > 1 and tokens[place - 2].text == "&")


def struct(reader, module, line, public):
    """A struct, behind its `struct`."""
    found = Item("struct", reader.take(), module, line, public)
    found.generics = reader.generics()
    if reader.took(";"):
        return found
    if reader.peek() == "(":
        inside = Reader(reader.between("(", ")"))
        number = 0
        while not inside.at_end():
            visibility(inside)
            found.fields[str(number)] = inside.type()
            number += 1
            inside.took(",")
        reader.took(";")
        return found
    fields(Reader(reader.between("{", "}")), found.fields)
    return found


def fields(inside, into):
    """Reads fields with names."""
    while not inside.at_end():
        if inside.kind() == "ghost":
            inside.take()
            inside.took(",")
            continue
        visibility(inside)
        name = inside.take()
        inside.need(":")
        into[name] = inside.type()
        inside.took(",")


def visibility(inside):
    """Passes attributes, and who may see a field; whether all may."""
    while inside.peek() == "#":
        inside.take()
        inside.between("[", "]")
    if inside.took("pub"):
        if inside.peek() == "(":
            inside.between("(", ")")
            return False
        return True
    return False


def enum(reader, module, line, public):
    """An enum, behind its `enum`."""
    found = Item("enum", reader.take(), module, line, public)
    found.generics = reader.generics()
    inside = Reader(reader.between("{", "}"))
    while not inside.at_end():
        visibility(inside)
        name, parts = inside.take(), {}
        if inside.peek() == "(":
            part = Reader(inside.between("(", ")"))
            while not part.at_end():
                visibility(part)
                parts[str(len(parts))] = part.type()
                part.took(",")
        elif inside.peek() == "{":
            fields(Reader(inside.between("{", "}")), parts)
        elif inside.took("="):
            while inside.peek() not in (",", None):
                inside.take()
        found.variants[name] = parts
        inside.took(",")
    return found


def implementation(reader, module, line):
    """An implementation, behind its `impl`."""
    found = Item("impl", "", module, line, False)
    found.generics = reader.generics()
    reader.took("!")
    found.target = reader.type()
    if reader.took("for"):
        found.trait, found.target = found.target, reader.type()
    members(reader, found, module)
    return found


def members(reader, owner, module):
    """The functions and types in the braces of a trait or of an implementation."""
    if reader.took(";"):
        return
    inside = Reader(reader.between("{", "}"))
    while not inside.at_end():
        if inside.kind() in ("ghost", "ghost_use"):
            if inside.kind() == "ghost":
                owner.ghosts.append(inside.peek()[0])
            inside.take()
            inside.took(";")
            continue
        while inside.peek() == "#":
            inside.take()
            inside.between("[", "]")
        line = inside.line()
        public = visibility(inside)
        inside.took("unsafe")
        word = inside.take()
        if word == "const" and inside.peek() == "fn":
            word = inside.take()
        if word == "fn":
            made = function(inside, module, line, public)
            made.owner = owner
            owner.functions.append(made)
        elif word == "type":
            name = inside.take()
            if inside.took(":"):
                inside.bounds()
            if inside.took("="):
                owner.types[name] = inside.type()
            inside.need(";")
        elif word == "const":
            inside.take()
            skip_to(inside, ";")
        else:
            raise Unknown(f"{module.file}: line {line}: {word} in an implementation")


def add_ghost_use(into, text):
    """Adds the names of a `ghost use`, or of a `use` of a .antt file: each with its path."""
    text = " ".join(text.split())
    match = re.fullmatch(r"([\w.]+?)\.\{(.*)\}(?: as (\w+))?", text)
    if match:
        for part in match[2].split(","):
            words = part.split(" as ")
            into[words[-1].strip()] = (*match[1].split("."), words[0].strip())
        return
    path, _, name = text.partition(" as ")
    into[name or path.split(".")[-1]] = tuple(path.split("."))


# ---- all crates


def crates_in_order():
    """The crates of crates.txt, lowest first, each with the crates that it uses."""
    found = {}
    for line in (TOP / "crates.txt").read_text(encoding="utf-8").splitlines():
        if line and not line.startswith("#"):
            name, _, used = line.partition(":")
            found[name.split()[0]] = used.split()
    return found


class Tree:
    """All crates, and what names stand for in them."""

    def __init__(self):
        self.uses = crates_in_order()
        self.crates = {name: Crate(name).read() for name in self.uses}

    def find(self, module, path, depth=0):
        """The item or module that a path stands for in a module, if it is one of these crates."""
        if not path or depth > 20:
            return None
        first, rest = path[0], path[1:]
        crate = self.crates[module.crate]
        if first == "crate":
            start = crate.root
        elif first == "self":
            start = module
        elif first == "super":
            start = crate.modules[module.path[:-1]]
        elif first in module.names:
            start = module.names[first]
        elif first in module.uses and module.uses[first] != path:
            return self.find(module, (*module.uses[first], *rest), depth + 1)
        elif first in self.crates:
            start = self.crates[first].root
        else:
            for glob in module.globs:
                inside = self.find(module, glob, depth + 1)
                if isinstance(inside, Module):
                    found = self.find(inside, path, depth + 1)
                    if found:
                        return found
            return None
        if not rest:
            return start
        return self.find(start, rest, depth + 1) if isinstance(start, Module) else None

    def exports(self, crate):
        """The public names of a crate, each with the item that it stands for; names behind a public module with the module."""
        found = {}
        self.exported(self.crates[crate].root, (), found, set())
        return found

    def exported(self, module, front, found, seen):
        """Adds the public names of a module, with what stands in front of them."""
        if module.path in seen:
            return
        seen.add(module.path)
        for name, path in module.public_uses.items():
            item = self.find(module, path)
            if isinstance(item, Item):
                found[(*front, name)] = item
            elif isinstance(item, Module):
                self.exported(item, (*front, name), found, seen)
        for item in module.items:
            if item.public and item.kind != "impl":
                found[(*front, item.name)] = item
        for name in module.public_modules:
            self.exported(module.names[name], (*front, name), found, seen)


# ---- definitions


Definition = collections.namedtuple("Definition", "name crate file type text")
HEAD = re.compile(r"(?:(?:abbrev|unfoldable|pub|record|data)\s+)*(?P<name>[\w◌][^\s:({=]*)")


def without_comments(text):
    """A text without its comments."""
    return re.sub(r"--[^\n]*", "", text)


def definitions(file, crate):
    """The imports and the definitions of a .antt file. A definition goes from its type to the line that begins with another name."""
    text = without_comments(file.read_text(encoding="utf-8"))
    imports, pieces = {}, []
    for use in re.findall(r"^use ([^\n]*(?:\n[ \t]+[^\n]*)*)", text, re.MULTILINE):
        add_ghost_use(imports, use)
    for line in text.splitlines():
        begins = HEAD.match(line) if line[:1].strip() else None
        if begins and (not pieces or pieces[-1][0] != begins["name"]):
            pieces.append((begins["name"], []))
        if line.strip() and pieces:
            pieces[-1][1].append(line)
    found = []
    for name, lines in pieces:
        if name != "use" and not lines[0].startswith(("pub mod ", "syntax ")):
            body = "\n".join(lines)
            is_record = re.match(r"(?:pub\s+)?record\b", lines[0]) is not None
            type_ = body.split("where")[0] if is_record else body.split(f"\n{name} ")[0].split(f"\n{name}\n")[0]
            found.append(Definition(name, crate, file, type_, body))
    return imports, found


def merged(found):
    """Definitions by name; what a file says of a name in several pieces is one."""
    by_name = {}
    for definition in found:
        if definition.name in by_name:
            first = by_name[definition.name]
            by_name[definition.name] = first._replace(text=first.text + "\n" + definition.text)
        else:
            by_name[definition.name] = definition
    return by_name
