#!/usr/bin/env python3
"""Writes the documents that crates/test_documents reads: its data/cases.txt, and the stdout beside it.

    tools/cases/document_cases.py

A line is `NAME DOCUMENT ELEMENT`: the octets, and the one spelling of the element that they are a document of (no declaration, no
added white space, its own namespace as `xmlns`, `"` round values, entities for `&` `<` `>` and in values both quotes), or `-` where
they are no document. Octets are given in parts, joined by commas: `HEX`; `COUNT*HEX`, these octets so often in a row;
`COUNT#HEX/HEX`, each number below COUNT in decimal between these octets.

Or a line is `NAME DOCUMENT STEP..`, with the steps of tools/cases/stored_cases.py, which go from the element on:

    root                      name, local name, namespace or `none`, text, and the names of the attributes and of the children
    name local text           one field
    namespace                 one field, or none
    named,LOCAL empty childless textless          whether it is so
    attributes                the name and the value of each
    required,LOCAL            the attribute's value; malformed where there is none, or more than one
    optional,LOCAL            the same, or no field where there is none
    number,LOCAL              the same, by the rule that it is a number below 256
    only,LOCAL/LOCAL          ok where all attributes have these local names
    given,LOCAL/VALUE         ok where the attribute has this value, or there is none
    with_attribute,NAME/VALUE what is written of an element `a` with this attribute, and with no `absent`
    pass enter                the name of the child that comes next, which is passed, or is where the steps go on
    texts                     the texts of the children that are not passed
    the_one at_most_one no_more none_left first_named,LOCAL        what is told of these children
    tag_in                    the element's tag, or no field
    base64_of,TEXT handle_of,TEXT rsync_of,TEXT https_of,TEXT      the octets, or the text; malformed where it is none
    cloned,TEXT none_cloned   a copy of a text that is there, and of none
    sent,TEXT                 what a sink of 65535 octets got; malformed where they are more
    write_attribute,NAME/TEXT write_optional,.. write_absent,.. write_inside,.. write_base64,.. write_end,NAME write_text,/TEXT
                              what is printed; write_base64: of the text's octets

What a document is stands here a second time, as a tokenizer over regular expressions; no expected spelling comes from the program
under test. Whether a row of the tables is a document is said by the table that it stands in, and compared.
"""

import base64
import pathlib
import re

from stored_cases import DONE, MALFORMED, NOTHING, step
from text_cases import BASE64, HANDLE, HTTPS, RSYNC, Refused, octets_of_base64

CRATE = pathlib.Path(__file__).resolve().parents[2] / "crates" / "test_documents"
SIZES = [127, 128, 255, 256, 65535, 65536]

# ---- what a document is

SPACE = rb"[\t\n\r ]*"
NAME = rb"[A-Za-z_][A-Za-z0-9_.-]*(?::[A-Za-z0-9_.-]+)?(?![A-Za-z0-9_.:-])"
START = re.compile(rb"<(%s)((?:[\t\n\r ]+%s%s=%s(?:\"[^\"<]*\"|'[^'<]*'))*)%s(/?)>" % (NAME, NAME, SPACE, SPACE, SPACE))
ATTRIBUTE = re.compile(rb"[\t\n\r ]+(%s)%s=%s(?:\"([^\"<]*)\"|'([^'<]*)')" % (NAME, SPACE, SPACE))
END = re.compile(rb"</(%s)%s>" % (NAME, SPACE))
PASSED = re.compile(rb"<!--.*?-->|<\?.*?\?>", re.DOTALL)
RUN = re.compile(rb"[^<]+")
OCTETS = re.compile(rb"[\t\n\r\x20-\x7e]*")
ENTITIES = {b"amp": b"&", b"lt": b"<", b"gt": b">", b"quot": b'"', b"apos": b"'"}
WHITE = b"\t\n\r "


class NoDocument(Exception):
    """The octets are no document"""


def resolved(text):
    """A text, with its entities as characters"""
    if re.search(rb"&(?!(?:amp|lt|gt|quot|apos);)", text):
        raise NoDocument
    return re.sub(rb"&(\w+);", lambda found: ENTITIES[found.group(1)], text)


def escaped(text, entities):
    """A text with the entities of these characters."""
    for character, name in entities:
        text = text.replace(character, b"&%s;" % name)
    return text


def spelled_text(text):
    """A text as an element spells it."""
    return escaped(text, [(b"&", b"amp"), (b"<", b"lt"), (b">", b"gt")])


def spelled_attribute(name, value):
    """An attribute as an element spells it."""
    return b' %s="%s"' % (name, escaped(spelled_text(value), [(b'"', b"quot"), (b"'", b"apos")]))


def spelled_start(name, attributes):
    """A start without its end, and its attributes by the element's own declarations"""
    names = [attribute for attribute, _ in attributes]
    if len(set(names)) < len(names):
        raise NoDocument
    declared = dict(attributes)
    prefix, colon, _ = name.partition(b":")
    namespace = declared.get(b"xmlns:" + prefix if colon else b"xmlns", b"")
    handed_on = [(n, v) for n, v in attributes if n != b"xmlns" and not n.startswith(b"xmlns:")]
    own = [(b"xmlns", namespace)] if namespace else []
    return b"<" + name + b"".join(spelled_attribute(n, v) for n, v in own + handed_on)


class Open:
    """An open element, or the document itself"""

    def __init__(self, name, start):
        self.name, self.start, self.texts, self.children = name, start, [], []

    def closed(self):
        """The spelling of the element, now that its end has been read."""
        text = b"".join(self.texts)
        if self.children and text.strip(WHITE):
            raise NoDocument
        inside = b"".join(self.children) or spelled_text(text.strip(WHITE))
        return self.start + (b">" + inside + b"</" + self.name + b">" if inside else b"/>")


def piece(octets, at, opens):
    """One piece, and where it ends"""
    if found := RUN.match(octets, at):
        opens[-1].texts.append(resolved(found.group()))
    elif found := PASSED.match(octets, at):
        pass
    elif found := END.match(octets, at):
        if len(opens) < 2 or opens[-1].name != found.group(1):
            raise NoDocument
        done = opens.pop().closed()
        opens[-1].children.append(done)
    elif found := START.match(octets, at):
        attributes = [(n, resolved(v + w)) for n, v, w in ATTRIBUTE.findall(found.group(2))]
        opens.append(Open(found.group(1), spelled_start(found.group(1), attributes)))
        if found.group(3):
            done = opens.pop().closed()
            opens[-1].children.append(done)
    else:
        raise NoDocument
    return found.end()


def element_of(octets):
    """The spelling of the element that the octets are a document of, or None"""
    opens, at = [Open(b"", b"")], 0
    try:
        if not OCTETS.fullmatch(octets):
            return None
        while at < len(octets):
            at = piece(octets, at, opens)
        if len(opens) > 1 or len(opens[0].children) != 1 or b"".join(opens[0].texts).strip(WHITE):
            return None
        return opens[0].children[0]
    except NoDocument:
        return None


# ---- tables

LAWFUL = [
    # One element, with pieces round it that are passed over.
    b"<a/>",
    b"<a></a>",
    b" \t\r\n<a/> \t\r\n",
    b"<?xml version='1.0' encoding='utf-8'?><a/>",
    b"<!-- before --><a/><!-- behind -->",
    b"<?i <a> -->?><a/><?j?>",
    b"<a/><!-- <b/> -- -> > -->",
    b"<!----><a/>",
    b"<!--->--><a/>",
    b"<??><a/>",
    b"<a/><?xml version='1.0'?>",
    # Names.
    b"<_/>",
    b"<Z9-_./>",
    b"<p:a/>",
    b"<p:-/>",
    b"<a></a >",
    # Attributes, in both quotes, with white space round the `=`.
    b"<a b=\"1\"/>",
    b"<a b='1'/>",
    b"<a b \t= \r\n'1' />",
    b"<a\nb='1'\tc='2'></a>",
    b"<a b='\"' c=\"'\"/>",
    b"<a b='>'/>",
    b"<a b=''/>",
    b"<a b='1' p:b='2' q:b='3'/>",
    # Namespaces.
    b"<a xmlns='urn:x'/>",
    b"<a xmlns=''/>",
    b"<p:a xmlns:p='urn:x'/>",
    b"<p:a xmlns:p=''/>",
    b"<p:a xmlns='urn:x'/>",
    b"<a xmlns='urn:x' xmlns:p='urn:y' xmlns:q='urn:z'/>",
    # Content.
    b"<a>x</a>",
    b"<a>></a>",
    b"<a>]]></a>",
    b"<a>\"'</a>",
    b"<a>&amp;&lt;&gt;&quot;&apos;</a>",
    b"<a b='&amp;&lt;&gt;&quot;&apos;'/>",
    b"<a>x<!-- c -->y<?i?>z</a>",
    b"<a> <b/> <!-- c --> <?i?> <b></b> </a>",
    b"<a><b><c>x</c></b><b>y</b></a>",
    b"<a><!----></a>",
    b"<a><??></a>",
    b"<a> \t\r\n</a>",
    b"<a>~</a>",
    b"<a b=\"1&amp;2\" c=\"&lt;&apos;&quot;&gt;\" e=\"\"><f/><g>x &lt; y &gt; z &amp; \"'</g></a>",
    b"<a b=\"1&amp;2\"> x &lt; y </a>",
]

UNLAWFUL = [
    # Not exactly one element.
    b"",
    b" ",
    b"<!-- c -->",
    b"<a/><a/>",
    b"<a/>x",
    b"x<a/>",
    b"<a/>&amp;",
    b"<a></a></a>",
    b"<a>",
    b"<a><b></a>",
    b"<a></b>",
    b"<a></A>",
    b"<p:a></a>",
    b"</a>",
    b"<a",
    b"<a/",
    b"<a></a",
    b"<",
    b"< a/>",
    b"<a></ a>",
    b"<a / >",
    # `<!` begins a comment and nothing else, and comments and instructions end.
    b"<!DOCTYPE a><a/>",
    b"<a><![CDATA[x]]></a>",
    b"<! ><a/>",
    b"<!-><a/>",
    b"<!--><a/>",
    b"<!-- <a/>",
    b"<a/><!-- --",
    b"<a><!-- </a>",
    b"<a>x<!-</a>",
    b"<?><a/>",
    b"<? <a/>",
    b"<a/><?i",
    b"<a><?i </a>",
    b"<a <!-- c --> b='1'/>",
    b"<a <?i?>/>",
    # An octet that no document has.
    b"<a>\x7f</a>",
    b"<a>\xc3\xa9</a>",
    b"<a b='\x00'/>",
    b"<!-- \x0b --><a/>",
    # Names.
    b"<1/>",
    b"<-/>",
    b"<:a/>",
    b"<a:/>",
    b"<a:b:c/>",
    b"<a+/>",
    b"<a 1='x'/>",
    # Attributes.
    b"<a b/>",
    b"<a b=/>",
    b"<a b=1/>",
    b"<a b='1/>",
    b"<a b='1\"/>",
    b"<a b='<'/>",
    b"<a b='1'c='2'/>",
    b"<ab='1'/>",
    b"<a b='1' b='2'/>",
    b"<a b='1' c='2' b='1'></a>",
    b"<a xmlns='urn:x' xmlns='urn:x'/>",
    b"<a></a b='1'>",
    # Entities.
    b"<a>&</a>",
    b"<a>& amp;</a>",
    b"<a>&amp</a>",
    b"<a>&AMP;</a>",
    b"<a>&nbsp;</a>",
    b"<a>&#65;</a>",
    b"<a>&#x41;</a>",
    b"<a b='&'/>",
    b"<a b='&#65;'/>",
    # A text beside a child.
    b"<a>x<b/></a>",
    b"<a><b/>x</a>",
    b"<a><b/>&amp;</a>",
    b"<a>x<!-- c --><b/></a>",
    # An attribute twice, in the other quotes.
    b'<a b="1" b="2"/>',
]


# ---- what is asked of elements: the document, and the steps

A_C_D = b"<p:a xmlns:p='urn:x' q:b='1&amp;2'> <c/><d > x &lt; y<?i?> </d ></p:a>"
ASKED_FOR = b"<a b=' 1 ' p:c='2' q:c='3' xmlns='urn:x'/>"
NUMBERS = b"<a b='12' c='x' d='256'/>"
CHILDREN = b"<a><b/><c><d/></c></a>"
TEXTS = b"<a><b>1</b><c>2</c><d/></a>"

ASKED = [
    ("root", A_C_D, step("root", "p:a", "a", "urn:x", "", "q:b", "c", "d")),
    ("root-without", b"<a>x</a>", step("root", "a", "a", "none", "x")),
    ("element", A_C_D, step("name", "p:a"), step("local", "a"), step("text", ""), step("namespace", "urn:x"),
        step("attributes", "q:b", "1&2"), step("named", True, argument="a"), step("named", False, argument="p:a"),
        step("empty", False), step("childless", False), step("textless", True)),
    ("first-child", A_C_D, step("first_named", True, argument="c"), step("first_named", False, argument="d"), step("enter", "c"),
        step("named", True, argument="c"), step("empty", True), step("childless", True), step("textless", True),
        step("attributes", NOTHING), step("namespace", NOTHING), step("none_left", True), step("first_named", False, argument="c")),
    ("second-child", A_C_D, step("pass", "c"), step("first_named", True, argument="d"), step("none_left", False),
        step("enter", "d"), step("text", "x < y"), step("textless", False), step("childless", True), step("empty", False)),
    ("children-passed", A_C_D, step("pass", "c"), step("pass", "d"), step("none_left", True), step("pass", NOTHING),
        step("enter", MALFORMED)),
    ("attribute-and-text", b"<a b=\"1&amp;2\"> x &lt; y </a>", step("attributes", "b", "1&2"), step("text", "x < y")),
    ("required", ASKED_FOR, step("required", " 1 ", argument="b"), step("required", MALFORMED, argument="d"),
        step("required", MALFORMED, argument="c")),
    ("optional", ASKED_FOR, step("optional", " 1 ", argument="b"), step("optional", NOTHING, argument="d"),
        step("optional", MALFORMED, argument="c")),
    ("only", ASKED_FOR, step("only", DONE, argument="c/b"), step("only", MALFORMED, argument="c")),
    ("given", ASKED_FOR, step("given", DONE, argument="b/ 1 "), step("given", DONE, argument="d/1"),
        step("given", MALFORMED, argument="b/1"), step("given", MALFORMED, argument="c/2")),
    ("number", NUMBERS, step("number", 12, argument="b"), step("number", MALFORMED, argument="c"),
        step("number", MALFORMED, argument="d"), step("number", NOTHING, argument="e")),
    ("the-one", CHILDREN, step("the_one", MALFORMED), step("pass", "b"), step("the_one", "c"), step("pass", "c"),
        step("the_one", MALFORMED)),
    ("at-most-one", CHILDREN, step("at_most_one", MALFORMED), step("pass", "b"), step("at_most_one", "c"), step("pass", "c"),
        step("at_most_one", NOTHING)),
    ("no-more", CHILDREN, step("no_more", MALFORMED), step("pass", "b"), step("no_more", MALFORMED), step("pass", "c"),
        step("no_more", DONE)),
    ("child-with-none", CHILDREN, step("enter", "b"), step("the_one", MALFORMED), step("at_most_one", NOTHING),
        step("no_more", DONE)),
    ("child-with-one", CHILDREN, step("pass", "b"), step("enter", "c"), step("the_one", "d"), step("at_most_one", "d"),
        step("no_more", MALFORMED)),
    ("texts", TEXTS, step("texts", "1", "2", ""), step("pass", "b"), step("texts", "2", "")),
    ("textless", TEXTS, step("enter", "b"), step("textless", False)),
    ("with-attribute", b"<a/>", step("with_attribute", '<a e=""/>', argument="e/"),
        step("with_attribute", '<a e="&lt;"/>', argument="e/<")),
]


# ---- texts of an element, and its parts as they are printed

PRINTED = ["", "a", "<&>\"'", "a b", "a/b", "&amp;", "\u00e9", "\u20ac\U0001f600", " x\n"]
TAGS = {
    b"<a tag='1'/>": ["1"], b"<a tag=''/>": [""], b"<a tag=' &lt; '/>": [" < "], b"<a p:tag='1'/>": ["1"], b"<a/>": [NOTHING],
    b"<a tags='1'/>": [NOTHING], b"<a p:tag='1' q:tag='2'/>": [MALFORMED], b"<a tag='1' q:tag='1'/>": [MALFORMED],
}


def read_as(call, text, given):
    """A row of what a text in an element is read as."""
    return "<a/>", step(call, MALFORMED if given is None else given, argument=text)


def base64_given(text):
    """The octets of a base64 text, or None where it is none."""
    try:
        return octets_of_base64(text)
    except Refused:
        return None


def printed(call, name, text=""):
    """What a call prints, by the rules of spelling."""
    start, end, octets = name.encode(), f"</{name}>".encode(), text.encode()
    inside = spelled_text(octets) if call != "write_base64" else base64.b64encode(octets)
    return {
        "write_attribute": spelled_attribute(start, octets), "write_optional": spelled_attribute(start, octets), "write_absent": b"",
        "write_end": end, "write_text": inside}.get(call, b">" + inside + end if inside else b"/>")


def part_rows(texts):
    """Rows of parts of elements that are written."""
    for text in texts:
        for call in ("write_attribute", "write_optional", "write_absent", "write_inside", "write_base64"):
            yield "<a/>", step(call, printed(call, "p:a", text), argument=f"p:a/{text}")
        yield "<a/>", step("write_text", printed("write_text", "", text), argument=f"/{text}")


def text_rows():
    """Documents, each with a step."""
    for document, answer in TAGS.items():
        yield document.decode(), step("tag_in", *answer)
    for text in [*BASE64, "", *["A" * n for n in SIZES], *["YWJj" * n for n in SIZES]]:
        yield read_as("base64_of", text, base64_given(text))
    for text in ["Carol", "Carol/1", "", "a\\b", "Carol ", "Ca rol", "-_/", "\u00e9", *["a" * n for n in SIZES]]:
        yield read_as("handle_of", text, text if HANDLE.fullmatch(text) else None)
    for call, rows in (("rsync_of", RSYNC), ("https_of", HTTPS)):
        for text, refusal in [*rows, *[(f"{call[:5]}://localhost/repo/".ljust(n, "a"), n > 65535) for n in SIZES]]:
            yield read_as(call, text, None if refusal else text)
    for text in [*PRINTED, *["a" * n for n in SIZES]]:
        yield read_as("cloned", text, text)
        yield read_as("sent", text, text if len(text.encode()) <= 65535 else None)
    yield "<a/>", step("none_cloned", NOTHING)
    yield from part_rows([*PRINTED, *["a" * n for n in SIZES], *["<" * n for n in SIZES]])
    for n in (1, *SIZES):
        yield "<a/>", step("write_end", f"</{'a' * n}>", argument="a" * n)
        yield "<a/>", step("write_attribute", printed("write_attribute", "a" * n, "x"), argument="a" * n + "/x")
        yield "<a/>", step("write_inside", printed("write_inside", "a" * n, "x"), argument="a" * n + "/x")


def each_octet():
    """Each octet in a text, a value, a comment and an instruction"""
    for octet in range(256):
        for front, back in [(b"<a>", b"</a>"), (b"<a b='", b"'/>"), (b"<!-- ", b" --><a/>"), (b"<? ", b" ?><a/>")]:
            yield front + bytes([octet]) + back


# ---- sizes: the parts of a document, and those of its spelling


def sizes(n):
    """Documents with parts of this size, and the elements that they are."""
    yield "name", ["<", (n, "a"), "/>"], ["<", (n, "a"), "/>"]
    yield "prefix", ["<", (n, "a"), ":b/>"], ["<", (n, "a"), ":b/>"]
    yield "end", ["<", (n, "a"), "><b/></", (n, "a"), " >"], ["<", (n, "a"), "><b/></", (n, "a"), ">"]
    yield "value", ["<a b='", (n, "x"), "'/>"], ['<a b="', (n, "x"), '"/>']
    yield "namespace", ["<a xmlns='", (n, "x"), "'/>"], ['<a xmlns="', (n, "x"), '"/>']
    yield "value-of-entities", ["<a b='", (n, "&lt;"), "'/>"], ['<a b="', (n, "&lt;"), '"/>']
    yield "text", ["<a> ", (n, "x"), "\n</a>"], ["<a>", (n, "x"), "</a>"]
    yield "text-of-entities", ["<a>", (n, "&amp;"), "</a>"], ["<a>", (n, "&amp;"), "</a>"]
    yield "text-in-parts", ["<a>", (n, "x<?i?>"), "</a>"], ["<a>", (n, "x"), "</a>"]
    yield "white-space", ["<a", (n, " "), "b=", (n, "\t"), "''", (n, "\n"), ">", (n, " "), "</a", (n, "\r"), ">"], ['<a b=""/>']
    yield "comment", ["<!--", (n, "-x"), "--><a/>"], ["<a/>"]
    yield "attributes", ["<a", (n, " b", "=''"), "/>"], ["<a", (n, " b", '=""'), "/>"]
    yield "declarations", ["<a", (n, " xmlns:b", "=''"), " xmlns='x'/>"], ['<a xmlns="x"/>']
    yield "twice", ["<a", (n, " b", "=''"), " b0=''/>"], None
    yield "children", ["<a>", (n, "<b/> "), "</a>"], ["<a>", (n, "<b/>"), "</a>"]
    yield "texts", ["<a>", (n, "<b>x</b>"), "</a>"], ["<a>", (n, "<b>x</b>"), "</a>"]
    yield "levels", [(n, "<a>"), (n, "</a>")], [(n - 1, "<a>"), "<a/>", (n - 1, "</a>")]
    yield "levels-not-closed", [(n, "<a>"), (n - 1, "</a>")], None


def expanded(parts):
    """The octets of parts, some of which are repeated or numbered."""
    out = []
    for part in parts:
        if isinstance(part, str):
            out.append(part)
        elif len(part) == 2:
            out.append(part[0] * part[1])
        else:
            out += [f"{part[1]}{number}{part[2]}" for number in range(part[0])]
    return "".join(out).encode()


def given(part):
    """A part, as the cases give it"""
    if isinstance(part, str):
        return part.encode().hex()
    if len(part) == 2:
        return f"{part[0]}*{part[1].encode().hex()}"
    return f"{part[0]}#{part[1].encode().hex()}/{part[2].encode().hex()}"


def compared(name, octets, expected):
    """Ends where this script's own reading is another one"""
    if element_of(octets) != expected:
        raise SystemExit(f"{name}: {octets[:80]} reads as {element_of(octets)}")


# More levels than a reader that called itself at each could go into.
DEEP = 100000


def sized(name, n, document, element):
    """A document, and what it is read as, in parts."""
    return f"{name}-{n}", ",".join(map(given, document)), ",".join(map(given, element)) if element is not None else "-"


def cases():
    """All cases: names, documents, and elements or steps."""
    for kind, table in [("document", LAWFUL), ("no-document", UNLAWFUL)]:
        for number, octets in enumerate(table, 1):
            element = element_of(octets)
            if (element is not None) != (table is LAWFUL):
                raise SystemExit(f"{kind}-{number}: {octets} reads as {element}")
            yield f"{kind}-{number}", octets.hex(), element.hex() if element is not None else "-"
    for name, octets, *steps in ASKED:
        assert element_of(octets) is not None
        yield f"asked-{name}", octets.hex(), *steps
    for number, (document, told) in enumerate(text_rows()):
        yield f"read-{number}", document.encode().hex(), told
    for number, octets in enumerate(each_octet()):
        element = element_of(octets)
        yield f"octet-{number // 4}-{number % 4}", octets.hex(), element.hex() if element is not None else "-"
    for n in SIZES:
        for name, document, element in sizes(n):
            if n <= 256 or name in ("name", "value", "text", "attributes"):
                compared(name, expanded(document), expanded(element) if element is not None else None)
            yield sized(name, n, document, element)
    for name, document, element in sizes(DEEP):
        if name.startswith("levels"):
            yield sized(name, DEEP, document, element)


def main():
    """Writes the cases, and what the program prints."""
    lines = [" ".join(case) for case in cases()]
    (CRATE / "data").mkdir(parents=True, exist_ok=True)
    (CRATE / "data" / "cases.txt").write_text("\n".join(lines) + "\n")
    (CRATE / "stdout").write_text(f"{len(lines)} cases, 0 differ\n")
    print(f"{len(lines)} cases")


if __name__ == "__main__":
    main()
