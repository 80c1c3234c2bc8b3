"""Which functions of the crates the bodies of a crate call, for tools/tree/calls.py.

A body is gone through once, from its first expression to its last, with the types of its names as far as signatures, fields, patterns and
the commonest calls of std tell them. A call of a method is attributed to a function by the type of what it is called on; where that isn't
known, by its name, if one type alone of the crates that are in reach has a method of this name."""

import collections
import re

from sources import Item, Reader, Type, Unknown

Known = collections.namedtuple("Known", "head args")  # head: an Item, or a name of std, or "?T" for a type parameter
BOOLEAN, NUMBER, TEXT, OCTET = (Known(name, ()) for name in ("bool", "usize", "str", "u8"))
OCTETS = Known("[]", (OCTET,))
UNIT = Known("()", ())

LEVELS = [
    ("=", "+=", "-=", "*=", "/=", "|=", "&=", "^="),
    ("..", "..="),
    ("||",),
    ("&&",),
    ("==", "!=", "<", ">", "<=", ">="),
    ("|",),
    ("^",),
    ("&",),
    ("<<", ">>"),
    ("+", "-"),
    ("*", "/", "%"),
]
LEVEL = {sign: level for level, signs in enumerate(LEVELS) for sign in signs}
SAME = set(
    "as_ref as_mut copied cloned take as_deref by_ref unwrap_or_else iter iter_mut into_iter skip rev filter chain peekable take_while "
    "skip_while step_by as_slice as_mut_slice into_boxed_slice or or_else".split()
)
FIRST = {"first", "last", "get", "next", "pop", "nth", "find", "get_mut", "first_mut", "last_mut", "next_back", "min", "max"}
TEXTS = {"split", "lines", "split_whitespace", "split_terminator", "rsplit", "splitn"}


class Use:
    """A call of a function of these crates."""

    def __init__(self, function, on, at, place, inside, is_reached, by_name):
        self.function, self.on, self.at, self.place, self.inside = function, on, at, place, inside
        self.is_reached, self.by_name = is_reached, by_name
        self.is_dropped = False


class Name:
    """A name in a body: its type, and the call that gave its value."""

    def __init__(self, type_, call=None):
        self.type, self.call, self.is_read = type_, call, False


class Index:
    """The functions of each type and trait of all crates."""

    def __init__(self, tree):
        self.tree = tree
        self.of_type = collections.defaultdict(list)
        self.by_name = collections.defaultdict(list)
        for crate in tree.crates.values():
            for implementation in crate.implementations:
                target = self.known(implementation.module, implementation.target, {p.name: None for p in implementation.generics}, None)
                if target and isinstance(target.head, Item):
                    self.of_type[id(target.head)].append(implementation)
                    for function in implementation.functions:
                        self.by_name[function.name].append((crate.name, target.head, function))

    def known(self, module, written, generics, own):
        """What a written type is, as far as it is known."""
        if written.head in ("()", "[]"):
            return Known(written.head, tuple(self.known(module, part, generics, own) for part in written.args))
        words = written.head
        if len(words) == 1 and words[0] in generics:
            return generics[words[0]]
        if words == ("Self",):
            return own
        arguments = tuple(self.known(module, part, generics, own) for part in written.args)
        if words[0] in generics or words[0] in ("Self", "_"):
            if words[0] == "Self" and own and isinstance(own.head, Item):
                return self.associated(own, words[-1])
            if generics.get(words[0]):
                return self.associated(generics[words[0]], words[-1])
            return None
        item = self.tree.find(module, words)
        if isinstance(item, Item):
            if item.kind == "alias":
                inner = {p.name: a for p, a in zip(item.generics, arguments)}
                return self.known(item.module, item.target, {p.name: inner.get(p.name) for p in item.generics}, own)
            return Known(item, arguments)
        return Known(words[-1], arguments)

    def associated(self, type_, name):
        """The associated type of this name of a type."""
        if isinstance(type_.head, Item):
            for implementation in self.of_type[id(type_.head)]:
                if name in implementation.types:
                    return self.known(implementation.module, implementation.types[name], {}, type_)
        return None

    def functions(self, type_, name):
        """The functions of this name of a type, those of its own first; with what its parameters are there."""
        found = []
        for implementation in self.of_type[id(type_.head)]:
            for function in implementation.functions:
                if function.name == name:
                    given = {}
                    fits = self.fit(implementation.module, implementation.target, type_, {p.name for p in implementation.generics}, given)
                    found.append((not fits, implementation.trait is not None, function, given))
        found.sort(key=lambda one: one[:2])
        return [(function, given) for _, _, function, given in found]

    def fit(self, module, written, type_, parameters, given):
        """Whether a written type can be this one; what its parameters then are is put into `given`."""
        if type_ is None or written is None:
            return True
        if written.head not in ("()", "[]") and len(written.head) == 1 and written.head[0] in parameters:
            given.setdefault(written.head[0], type_)
            return True
        if isinstance(type_.head, str) and type_.head.startswith("?"):
            return True
        here = self.known(module, written, {name: None for name in parameters}, None)
        if here is None:
            return True
        if here.head != type_.head and not (isinstance(here.head, Item) and here.head is type_.head):
            return {here.head, type_.head} <= {"[]", "Vec", "Box"} or not isinstance(here.head, Item)
        return all(self.fit(module, part, argument, parameters, given) for part, argument in zip(written.args, type_.args))

    def trait_functions(self, trait, name, depth=0):
        """The functions of this name that a trait asks for, or one of those that it stands on."""
        if not isinstance(trait, Item) or trait.kind != "trait" or depth > 5:
            return []
        found = [function for function in trait.functions if function.name == name]
        for bound in getattr(trait, "bounds", []):
            found += self.trait_functions(self.tree.find(trait.module, bound.head), name, depth + 1)
        return found


class Bodies:
    """Goes through the bodies of a crate."""

    def __init__(self, index, crate, words):
        self.index, self.tree, self.crate = index, index.tree, index.tree.crates[crate]
        self.words = words  # those of the stored cases; None where there are none
        self.uses = []
        self.unknown = []
        self.faults = []
        reach = {crate, *self.tree.uses[crate]}
        self.reach = {name for name in reach if name in self.tree.crates}

    def run(self):
        """Goes through all bodies; the uses in them."""
        for module in self.crate.modules.values():
            for item in module.items:
                if item.kind == "fn":
                    self.body(module, item, None)
                elif item.kind == "impl":
                    generics = {p.name: Known("?" + p.name, ()) for p in item.generics}
                    own = self.index.known(module, item.target, generics, None)
                    for function in item.functions:
                        self.body(module, function, own, item)
        return self.uses

    def body(self, module, function, own, implementation=None):
        """Goes through the body of a function."""
        self.module, self.function, self.own = module, function, own
        self.bounds = {p.name: p.bounds for p in function.generics}
        if implementation:
            self.bounds.update({p.name: p.bounds for p in implementation.generics})
        self.generics = {name: Known("?" + name, ()) for name in self.bounds}
        self.scopes = [{}]
        self.hidden = 0
        self.receiver = None  # the name that was read last, if nothing stands behind it yet
        if function.takes_self:
            self.scopes[0]["self"] = Name(own)
        for pattern, type_ in function.parameters:
            self.reader = Reader(pattern)
            self.pattern(self.known(type_), None)
        self.reader = Reader(function.body)
        try:
            self.statements()
        except (Unknown, IndexError) as fault:
            self.faults.append(f"{module.file}: {function.name}: {fault}")

    def known(self, written):
        """What a written type is, in this body."""
        return self.index.known(self.module, written, self.generics, self.own)

    # ---- names

    def bind(self, name, type_, call):
        """Binds a name."""
        self.scopes[-1][name] = Name(type_, call)

    def looked_up(self, name):
        """What a name stands for, which is read by that."""
        for scope in reversed(self.scopes):
            if name in scope:
                scope[name].is_read = True
                return scope[name]
        return None

    def leave(self):
        """Leaves the innermost scope; the calls whose names weren't read there are dropped."""
        for name, bound in self.scopes.pop().items():
            if bound.call and (not bound.is_read or name.startswith("_")):
                bound.call.is_dropped = True

    # ---- statements

    def statements(self):
        """Statements up to the end or a closing brace; what the last expression is."""
        self.scopes.append({})
        last = (UNIT, None)
        while not self.reader.at_end() and self.reader.peek() != "}":
            last = self.statement()
        self.leave()
        return last

    def statement(self):
        """One statement."""
        reader = self.reader
        if reader.took("let"):
            return self.let()
        if reader.peek() in ("const", "use", "fn", "struct", "static"):
            raise Unknown(f"line {reader.line()}: an item in a body")
        value = self.expression(0, True)
        if reader.took(";"):
            drop(value[1])
            return UNIT, None
        return value

    def let(self):
        """A `let`, behind its first word."""
        reader = self.reader
        start = reader.place
        depth = 0
        while True:  # the pattern is gone through when the type of the value is known
            text = reader.peek()
            if not depth and text in (":", "=", ";"):
                break
            depth += {"(": 1, "[": 1, "{": 1, ")": -1, "]": -1, "}": -1}.get(text, 0)
            reader.take()
        pattern = reader.tokens[start : reader.place]
        type_ = self.known(reader.type()) if reader.took(":") else None
        call = None
        if reader.took("="):
            value, call = self.expression(0, True)
            type_ = type_ or value
            if reader.took("else"):
                reader.need("{")
                self.statements()
                reader.need("}")
        reader.need(";")
        self.bind_pattern(pattern, type_, call)
        return UNIT, None

    def bind_pattern(self, tokens, type_, call):
        """Binds the names of a pattern to the parts of a type."""
        outer, self.reader = self.reader, Reader(tokens)
        while self.reader.took("mut"):
            pass
        if len(tokens) == 1 and tokens[0].text == "_" and call:
            drop(call)
        self.pattern(type_, call)
        self.reader = outer

    # ---- patterns

    def pattern(self, type_, call):
        """Goes through a pattern, and binds its names; whether no stored case has the text that it asks for."""
        reader, absent = self.reader, []
        reader.took("|")
        while True:
            absent.append(self.one_pattern(type_, call))
            if not reader.took("|"):
                return all(absent)

    def one_pattern(self, type_, call):
        """One pattern, without `|`; whether no stored case has its text."""
        reader = self.reader
        while reader.took("&") or reader.took("&&") or reader.took("mut") or reader.took("ref"):
            pass
        if reader.kind() == "text":
            text = reader.take()
            if reader.peek() in ("..=", ".."):
                reader.take()
                if reader.kind() in ("text", "number"):
                    reader.take()
            return self.words is not None and text.startswith('"') and text.strip('"') not in self.words and len(text) > 3
        if reader.took("-") or reader.kind() == "number" or reader.peek() in ("..", "..="):
            while reader.kind() in ("number",) or reader.peek() in ("..", "..=", "-"):
                reader.take()
            return False
        if reader.took("("):
            parts, number = (type_.args if type_ and type_.head == "()" else ()), 0
            while not reader.took(")"):
                if reader.took(".."):
                    reader.took(",")
                    continue
                self.pattern(parts[number] if number < len(parts) else None, call)
                number += 1
                reader.took(",")
            return False
        if reader.took("["):
            inner = type_.args[0] if type_ and type_.args else None
            while not reader.took("]"):
                self.pattern(inner, call)
                reader.took(",")
            return False
        return self.path_pattern(type_, call)

    def path_pattern(self, type_, call):
        """A pattern that begins with a word: a name, a constant, a variant or a struct."""
        reader = self.reader
        words = [reader.take()]
        while reader.peek() == "::":
            reader.take()
            words.append(reader.take())
        if len(words) == 1 and reader.peek() not in ("(", "{") and is_name(words[0]):
            self.bind(words[0], type_, call)
            if reader.took("@"):
                reader.need("..")
            return False
        if words == ["_"]:
            return False
        parts = self.parts(tuple(words), type_)
        if reader.took("("):
            number = 0
            while not reader.took(")"):
                self.pattern(parts.get(str(number)), call)
                number += 1
                reader.took(",")
        elif reader.took("{"):
            while not reader.took("}"):
                if reader.took(".."):
                    continue
                while reader.took("ref") or reader.took("mut"):
                    pass
                name = reader.take()
                if reader.took(":"):
                    self.pattern(parts.get(name), call)
                else:
                    self.bind(name, parts.get(name), call)
                reader.took(",")
        return False

    def parts(self, words, type_):
        """The types of the parts of a variant or a struct."""
        if words[-1] in ("Ok", "Some", "Err") and len(words) == 1:
            place = 1 if words[-1] == "Err" else 0
            if type_ and type_.head in ("Result", "Option") and len(type_.args) > place:
                return {"0": type_.args[place]}
            return {}
        item, variant = self.tree.find(self.module, words), None
        if not isinstance(item, Item):
            item, variant = self.tree.find(self.module, words[:-1]), words[-1]
        if words[0] == "Self" and self.own and isinstance(self.own.head, Item):
            item, variant = self.own.head, words[-1] if len(words) > 1 else None
        if not isinstance(item, Item):
            return {}
        written = item.variants.get(variant, {}) if variant else item.fields
        given = {p.name: None for p in item.generics}
        if type_ and type_.head is item:
            given.update({p.name: a for p, a in zip(item.generics, type_.args)})
        return {name: self.index.known(item.module, part, given, None) for name, part in written.items()}

    # ---- expressions: each gives its type, and the call whose value it is

    def expression(self, level, struct):
        """An expression of signs that bind as this level or closer; `struct` says whether a struct may be put together in it."""
        reader = self.reader
        if reader.peek() in ("..", "..=") and level <= 1:
            reader.take()
            if reader.peek() not in (")", "]", "}", ",", ";", "{", None):
                self.expression(2, struct)
            return Known("Range", ()), None
        begins_block = reader.peek() in ("if", "match", "loop", "while", "for", "unsafe", "{") or reader.kind() == "lifetime"
        left = self.unary(struct)
        if begins_block and level == 0 and reader.peek() not in (".", "?"):
            return left
        while True:
            sign = reader.peek()
            if sign in ("<", ">") and reader.peek(1) == sign and reader.kind() == "sign":
                sign += sign
            if sign == ">" and reader.peek(1) == "=":
                sign = ">="
            if sign == "as":
                reader.take()
                left = self.known(reader.type()), None
                continue
            here = LEVEL.get(sign) if reader.kind() == "sign" else None
            if here is None or here < level:
                return left
            for _ in range(2 if sign in ("<<", ">>", ">=") else 1):
                reader.take()
            if sign in ("..", "..="):
                if reader.peek() not in (")", "]", "}", ",", ";", "{", None):
                    self.expression(here + 1, struct)
                left = Known("Range", ()), None
            elif here == 0:
                self.expression(0, struct)
                left = UNIT, None
            else:
                self.expression(here + 1, struct)
                left = (BOOLEAN if here in (2, 3, 4) else left[0]), None

    def unary(self, struct):
        """An expression with the signs in front of it."""
        reader = self.reader
        if reader.peek() in ("&", "*", "-", "!", "&&") and reader.kind() == "sign":
            sign = reader.take()
            reader.took("mut")
            value = self.unary(struct)
            return (BOOLEAN, value[1]) if sign == "!" else value
        return self.postfix(self.primary(struct))

    def postfix(self, value):
        """What stands behind an expression: `?`, fields, calls, places."""
        reader = self.reader
        while True:
            if reader.took("?"):
                type_ = value[0]
                inner = type_.args[0] if type_ and type_.head in ("Result", "Option") and type_.args else None
                value = inner, value[1]
            elif reader.peek() == ".":
                reader.take()
                name = reader.take()
                turbofish = ()
                if reader.peek() == "::":
                    reader.take()
                    turbofish = tuple(self.known(part) for part in reader.arguments())
                if reader.peek() == "(":
                    value = self.method(value, name, turbofish)
                else:
                    value = self.field(value[0], name), value[1]
            elif reader.peek() == "(":
                self.arguments(None)
                value = None, None
            elif reader.peek() == "[":
                inside = Reader(reader.between("[", "]"))
                outer, self.reader = self.reader, inside
                index = self.expression(0, True)[0]
                self.reader = outer
                type_ = value[0]
                if index and index.head == "Range":
                    continue
                value = (type_.args[0] if type_ and type_.args and type_.head in ("[]", "Vec") else None), value[1]
            else:
                return value

    def field(self, type_, name):
        """The type of a field."""
        if type_ is None:
            return None
        if type_.head == "Box" and type_.args:
            return self.field(type_.args[0], name)
        if type_.head == "()" and name.isdigit():
            return type_.args[int(name)] if int(name) < len(type_.args) else None
        if isinstance(type_.head, Item) and name in type_.head.fields:
            given = {p.name: None for p in type_.head.generics}
            given.update({p.name: a for p, a in zip(type_.head.generics, type_.args)})
            return self.index.known(type_.head.module, type_.head.fields[name], given, None)
        return None

    def arguments(self, hints):
        """The types of arguments in round brackets."""
        reader, found = self.reader, []
        reader.need("(")
        while not reader.took(")"):
            hint = hints[len(found)] if hints and len(found) < len(hints) else None
            found.append(self.argument(hint))
            reader.took(",")
        return found

    def argument(self, hint):
        """The type of one argument."""
        if self.reader.peek() in ("|", "||", "move"):
            return self.closure(hint)
        return self.expression(0, True)[0]

    def closure(self, types):
        """A closure; its type is that of what it gives. The types of its parameters are handed in, as far as they are known."""
        reader = self.reader
        reader.took("move")
        self.scopes.append({})
        if not reader.took("||"):
            reader.need("|")
            number = 0
            while not reader.took("|"):
                type_ = types[number] if isinstance(types, list) and number < len(types) else None
                self.one_pattern(type_, None)
                if reader.took(":"):
                    reader.type()
                number += 1
                reader.took(",")
        value = self.expression(0, True)[0]
        self.leave()
        return Known("closure", (value,))

    def method(self, value, name, turbofish):
        """A call of a method."""
        type_, call = value
        line = self.reader.line()
        receiver, self.receiver = self.receiver, None
        inner = type_
        while inner and inner.head == "Box" and inner.args:
            inner = inner.args[0]
        if inner and isinstance(inner.head, Item):
            found = self.index.functions(inner, name)
            if found:
                function, given = found[0]
                return self.called(function, inner, given, turbofish, line, False)
            derived = self.derived(inner, name)
            if derived:
                self.arguments(None)
                return derived
        if inner and isinstance(inner.head, str) and inner.head.startswith("?"):
            for bound in self.bounds.get(inner.head[1:], []):
                for function in self.index.trait_functions(self.tree.find(self.module, bound.head), name):
                    return self.called(function, inner, {}, turbofish, line, False)
        if inner is None or isinstance(inner.head, Item):
            found = [(head, function) for crate, head, function in self.index.by_name[name] if crate in self.reach and function.takes_self]
            if inner is None and found and len({id(head) for head, _ in found}) == 1 and name not in SAME | FIRST | TEXTS:
                head, function = found[0]
                return self.called(function, Known(head, ()), {}, turbofish, line, True)
            if inner is None and found:
                self.unknown.append((name, self.module.file.name, line))
        return self.of_std(type_, name, turbofish, receiver), call

    def derived(self, type_, name):
        """What a derived method gives; None where it isn't one."""
        if name == "to_string":
            self.shown(type_, self.reader.line())
            return Known("Result", (Known("String", ()), None)), None
        if name in ("clone", "eq", "cmp", "hash", "fmt"):
            return (type_ if name == "clone" else BOOLEAN), None
        return None

    def of_std(self, type_, name, turbofish, receiver):
        """What a call of std gives, as far as it is known. A list is one of what is pushed to it first."""
        head = type_.head if type_ else None
        inner = type_.args[0] if type_ and type_.args else None
        given = self.arguments([[inner]] * 3)
        last = given[-1].args[0] if given and given[-1] and given[-1].head == "closure" else None
        if name == "push" and head == "Vec" and inner is None and receiver is not None and given:
            receiver.type = Known("Vec", (given[-1],))
        if head in ("Option", "Result"):
            other = type_.args[1] if len(type_.args) > 1 else None
            if name in ("unwrap_or", "unwrap_or_default", "unwrap_or_else", "unwrap", "expect"):
                return inner
            if name == "ok":
                return Known("Option", (inner,))
            if name == "err":
                return Known("Option", (other,))
            if name == "ok_or":
                return Known("Result", (inner, given[0] if given else None))
            if name == "map_err":
                return Known("Result", (inner, last))
            if name in ("and_then", "map_or", "map_or_else"):
                return last
        if name in ("len", "count"):
            return NUMBER
        if name.startswith(("is_", "contains", "starts_with", "ends_with")) or name in ("all", "any", "eq"):
            return BOOLEAN
        if name in ("as_str", "trim", "trim_end", "trim_start"):
            return TEXT
        if name in ("as_bytes", "to_be_bytes"):
            return OCTETS
        if name == "parse":
            return Known("Result", (turbofish[0] if turbofish else None, None))
        if name in TEXTS and head in ("str", "String", "Text"):
            return Known("Iter", (TEXT,))
        if name in TEXTS | {"chunks", "windows"}:
            return Known("Iter", (type_,))
        if name in ("strip_prefix", "strip_suffix"):
            return Known("Option", (type_,))
        if name == "split_once":
            return Known("Option", (Known("()", (TEXT, TEXT)),))
        if name == "split_at":
            return Known("()", (type_, type_))
        if name == "to_vec":
            return Known("Result", (type_, None))
        if head in ("[]", "Vec", "Iter"):
            if name in FIRST:
                return Known("Option", (inner,))
            if name == "enumerate":
                return Known("Iter", (Known("()", (NUMBER, inner)),))
            if name == "zip":
                other = given[0].args[0] if given and given[0] and given[0].args else None
                return Known("Iter", (Known("()", (inner, other)),))
            if name == "split_first":
                return Known("Option", (Known("()", (inner, type_)),))
        if name in SAME:
            return type_
        return None

    def called(self, function, on, given, turbofish, line, by_name):
        """A call of a function of these crates, whose arguments stand next if a bracket does."""
        given = dict(given)
        given.update({p.name: t for p, t in zip(function.generics, turbofish)})
        owner = function.owner
        parameters = {p.name for p in function.generics} | ({p.name for p in owner.generics} if owner else set())
        use = Use(function, on, given, (self.module.file, line), self.function, not self.hidden, by_name)
        self.uses.append(use)
        if self.reader.peek() == "(":
            types = self.arguments(None)
            if on is not None and function.takes_self and len(types) > len(function.parameters):
                if types[0] is not None and isinstance(on.head, Item) and on.head.kind == "trait":
                    use.on = types[0]
                types = types[1:]
            for (_, written), type_ in zip(function.parameters, types):
                if type_ is not None and type_.head != "closure":
                    self.index.fit(function.module, written, type_, parameters, given)
            self.printed(function, given)
        full = {name: given.get(name) for name in parameters}
        return self.index.known(function.module, function.result, full, on) if function.result else UNIT, use

    def printed(self, function, given):
        """A value of a type parameter that has to be Display is taken as printed."""
        owner = function.owner
        for parameter in [*function.generics, *(owner.generics if owner else [])]:
            if any(bound.head[-1] == "Display" for bound in parameter.bounds):
                self.shown(given.get(parameter.name), self.reader.line())

    def shown(self, type_, line):
        """Notes that a value of this type is printed."""
        if type_ and isinstance(type_.head, Item):
            for function, given in self.index.functions(type_, "fmt"):
                if function.owner.trait and function.owner.trait.head[-1] == "Display":
                    self.uses.append(Use(function, type_, given, (self.module.file, line), self.function, not self.hidden, False))
            if derives_display(type_.head):
                self.uses.append(Use(type_.head, type_, {}, (self.module.file, line), self.function, not self.hidden, False))

    # ---- primary expressions

    def primary(self, struct):
        """An expression without signs round it."""
        reader = self.reader
        self.receiver = None
        text, kind = reader.peek(), reader.kind()
        if kind == "text":
            reader.take()
            return (OCTETS if text.startswith("b\"") else OCTET if text.startswith("b'") else TEXT), None
        if kind == "number":
            reader.take()
            return NUMBER, None
        if kind == "lifetime":
            reader.take()
            reader.took(":")
            return self.primary(struct)
        if text == "(":
            return self.tuple()
        if text == "[":
            return self.array()
        if text == "{":
            reader.take()
            value = self.statements()
            reader.need("}")
            return value
        if text == "unsafe":
            reader.take()
            return self.primary(struct)
        if text == "if":
            return self.condition()
        if text == "match":
            return self.match()
        if text in ("loop", "while", "for"):
            return self.loop()
        if text in ("return", "break", "continue"):
            reader.take()
            if reader.peek() not in (";", "}", ",", ")", None):
                self.expression(0, struct)
            return Known("!", ()), None
        if text in ("true", "false"):
            reader.take()
            return BOOLEAN, None
        if kind == "word" and reader.peek(1) == "!" and reader.peek(2) in ("(", "[", "{"):
            return self.macro()
        if kind == "word" or text == "<":
            return self.path(struct)
        raise Unknown(f"line {reader.line()}: no expression begins with {text}")

    def tuple(self):
        """What stands in round brackets."""
        reader = self.reader
        reader.need("(")
        found, comma, call = [], False, None
        while not reader.took(")"):
            type_, call = self.expression(0, True)
            found.append(type_)
            comma = reader.took(",")
        return (found[0], call) if len(found) == 1 and not comma else (Known("()", tuple(found)), None)

    def array(self):
        """What stands in square brackets."""
        reader = self.reader
        reader.need("[")
        first = None
        while not reader.took("]"):
            type_ = self.expression(0, True)[0]
            first = first or type_
            if not reader.took(","):
                reader.took(";")
        return Known("[]", (first,)), None

    def braces(self):
        """A block."""
        self.reader.need("{")
        value = self.statements()
        self.reader.need("}")
        return value

    def condition(self):
        """An `if`."""
        reader = self.reader
        reader.need("if")
        self.scopes.append({})
        self.test()
        value = self.braces()
        self.leave()
        if reader.took("else"):
            if reader.peek() == "if":
                self.condition()
            else:
                self.braces()
        return value

    def test(self):
        """What is asked, with the patterns in it."""
        reader = self.reader
        while True:
            if reader.took("let"):
                start, depth = reader.place, 0
                while depth or reader.peek() != "=":
                    depth += {"(": 1, "[": 1, "{": 1, ")": -1, "]": -1, "}": -1}.get(reader.peek(), 0)
                    reader.take()
                pattern = reader.tokens[start : reader.place]
                reader.need("=")
                type_, call = self.expression(4, False)
                self.bind_pattern(pattern, type_, call)
            else:
                self.expression(4, False)
            if not (reader.took("&&") or reader.took("||")):
                return

    def match(self):
        """A `match`."""
        reader = self.reader
        reader.need("match")
        type_, call = self.expression(0, False)
        reader.need("{")
        value = (None, None)
        while not reader.took("}"):
            self.scopes.append({})
            absent = self.pattern(type_, call)
            if reader.took("if"):
                self.test()
            reader.need("=>")
            self.hidden += absent
            arm = self.expression(0, True)
            self.hidden -= absent
            reader.took(",")
            self.leave_arm()
            if value[0] is None or value[0].head == "!" or (arm[0] and value[0].head == arm[0].head and None in value[0].args):
                value = arm
        return value[0], None

    def leave_arm(self):
        """What a pattern binds is looked at by the pattern itself."""
        self.scopes.pop()

    def loop(self):
        """A `loop`, `while` or `for`."""
        reader = self.reader
        word = reader.take()
        self.scopes.append({})
        if word == "while":
            self.test()
        elif word == "for":
            start = reader.place
            depth = 0
            while depth or reader.peek() != "in":
                depth += {"(": 1, "[": 1, ")": -1, "]": -1}.get(reader.peek(), 0)
                reader.take()
            pattern = reader.tokens[start : reader.place]
            reader.need("in")
            type_, call = self.expression(0, False)
            self.bind_pattern(pattern, self.item_of(type_), call)
        self.braces()
        self.leave()
        return UNIT, None

    def item_of(self, type_):
        """What a loop over a value gives."""
        if type_ is None:
            return None
        if type_.head in ("[]", "Vec", "Iter", "Option"):
            return type_.args[0] if type_.args else None
        if type_.head == "Range":
            return NUMBER
        if isinstance(type_.head, Item):
            return self.index.associated(type_, "Item")
        return None

    def macro(self):
        """A macro."""
        reader = self.reader
        name = reader.take()
        reader.take()
        opening = reader.peek()
        inside = reader.between(opening, {"(": ")", "[": "]", "{": "}"}[opening])
        outer, self.reader = self.reader, Reader(inside)
        found = []
        if name == "matches":
            type_, call = self.expression(0, True)
            self.reader.need(",")
            self.scopes.append({})
            self.pattern(type_, call)
            if self.reader.took("if"):
                self.test()
            self.scopes.pop()
        else:
            self.reader.took("in")
            while not self.reader.at_end():
                if self.reader.kind() == "text" and name in ("format", "write", "println", "print"):
                    for word in re.findall(r"\{(\w+)", self.reader.peek()):
                        bound, item = self.looked_up(word), self.tree.find(self.module, (word,))
                        type_ = bound.type if bound else Known(item, ()) if isinstance(item, Item) else None
                        self.shown(type_, self.reader.line())
                type_ = self.expression(0, True)[0]
                found.append(type_)
                if name in ("format", "write", "println", "print"):
                    self.shown(type_, self.reader.line())
                if not self.reader.took(","):
                    self.reader.took(";")
        self.reader = outer
        if name == "format":
            return Known("Result", (Known("String", ()), None)), None
        if name in ("matches",):
            return BOOLEAN, None
        if name == "vec":
            return Known("Result", (Known("Vec", (found[-1] if found else None,)), None)), None
        if name == "unreachable":
            return Known("!", ()), None
        return Known("Result", (UNIT, None)), None

    def path(self, struct):
        """An expression that begins with a path."""
        reader = self.reader
        line = reader.line()
        words, given = [], []
        if reader.took("<"):
            type_ = reader.type()
            if reader.took("as"):
                reader.type()
            reader.need(">")
            words, given = [*type_.head], [None] * len(type_.head)
            given[-1] = type_.args
        else:
            words.append(reader.take())
            given.append(None)
        while reader.peek() == "::":
            reader.take()
            if reader.peek() == "<":
                given[-1] = reader.arguments()
            else:
                words.append(reader.take())
                given.append(None)
        words = tuple(words)
        if len(words) == 1:
            bound = self.looked_up(words[0])
            if bound:
                if reader.peek() == "(":
                    self.arguments(None)
                    return (bound.type.args[0] if bound.type and bound.type.head == "closure" else None), None
                self.receiver = bound
                return bound.type, bound.call
        if len(words) == 1 and words[0] in ("Ok", "Some", "Err", "None"):
            return self.wrapped(words[0])
        item = self.tree.find(self.module, words)
        turbofish = tuple(self.known(part) for part in given[-1] or ())
        if isinstance(item, Item):
            return self.named(item, turbofish, struct, line)
        if len(words) > 1:
            return self.member(words, given, turbofish, struct, line)
        return self.beyond(words)

    def wrapped(self, word):
        """`Ok`, `Err`, `Some` or `None`, with what they hold."""
        if self.reader.peek() != "(":
            return Known("Option" if word == "None" else "Result", (None, None)), None
        self.reader.need("(")
        type_, call = self.expression(0, True) if self.reader.peek() != ")" else (UNIT, None)
        self.reader.took(",")
        self.reader.need(")")
        if word == "Some":
            return Known("Option", (type_,)), call
        return Known("Result", (type_, None) if word == "Ok" else (None, type_)), call

    def named(self, item, turbofish, struct, line):
        """A function, a constant, or a struct that is put together."""
        if item.kind == "fn":
            return self.called(item, None, {}, turbofish, line, False)
        if item.kind == "const":
            return self.index.known(item.module, item.result, {}, None), None
        type_ = Known(item, turbofish)
        self.literal(type_, struct)
        return type_, None

    def literal(self, type_, struct):
        """What stands behind the name of a struct or variant."""
        reader = self.reader
        if reader.peek() == "(":
            self.arguments(None)
        elif reader.peek() == "{" and struct:
            reader.take()
            while not reader.took("}"):
                if reader.took(".."):
                    self.expression(0, True)
                    continue
                name = reader.take()
                if reader.took(":"):
                    self.expression(0, True)
                else:
                    self.looked_up(name)
                reader.took(",")

    def member(self, words, given, turbofish, struct, line):
        """A variant, or a function of a type or a trait."""
        owner = None
        if words[0] == "Self" and len(words) == 2:
            owner = self.own
        elif words[0] in self.generics and len(words) == 2:
            owner = self.generics[words[0]]
            for bound in self.bounds[words[0]]:
                for function in self.index.trait_functions(self.tree.find(self.module, bound.head), words[-1]):
                    return self.called(function, owner, {}, turbofish, line, False)
        else:
            item = self.tree.find(self.module, words[:-1])
            if isinstance(item, Item) and item.kind in ("struct", "enum", "alias", "trait"):
                owner = self.index.known(self.module, Type(words[:-1], given[-2] or ()), self.generics, self.own)
        if owner is None or not isinstance(owner.head, Item):
            return self.beyond(words)
        if words[-1] in owner.head.variants:
            self.literal(owner, struct)
            return owner, None
        if owner.head.kind == "trait":
            found = [(function, {}) for function in self.index.trait_functions(owner.head, words[-1])]
        else:
            found = self.index.functions(owner, words[-1])
        if found:
            function, inside = found[0]
            type_, use = self.called(function, owner, inside, turbofish, line, False)
            return type_, use
        return None, None

    def beyond(self, words):
        """What is of std or of another crate."""
        if self.reader.peek() == "(":
            given = self.arguments(None)
        else:
            given = []
        if words[-1] in ("from_utf8", "read_to_string") or words[-2:] == ("hex", "encode"):
            return Known("Result", (TEXT, None)), None
        if words[-2:] == ("env", "args"):
            return Known("Result", (Known("Iter", (TEXT,)), None)), None
        if words[0] == "Vec":
            return Known("Vec", (None,)), None
        if words[0] == "Box" and words[-1] == "new":
            return Known("Result", (given[-1] if given else None, None)), None
        return None, None


def is_name(word):
    """Whether a word in a pattern is a name that is bound, and no constant."""
    return word != "_" and (word[0].islower() or word[0] == "_") and word not in ("true", "false")


def derives_display(item):
    """Whether a type's Display is derived with its Error: then the type stands for the function."""
    return any(re.search(r"^derive \(.*\bError\b", attribute) for attribute in item.attributes)


def drop(call):
    """Nothing looks at what this call gave."""
    if call is not None:
        call.is_dropped = True


def words_of_cases(folder):
    """The words in the stored cases of a crate, and the parts of each before and behind a `_`; None where it has none."""
    files = [*folder.glob("data/*"), *folder.glob("stdin"), *folder.glob("args")]
    if not files:
        return None
    words = set()
    for file in files:
        words.update(re.findall(r"[A-Za-z_][\w-]*|\d+", file.read_text(encoding="utf-8", errors="replace")))
    parts = set()
    for word in words:
        pieces = word.split("_")
        for place in range(1, len(pieces)):
            parts.update(("_".join(pieces[:place]), "_".join(pieces[place:])))
    return words | parts
