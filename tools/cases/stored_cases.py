"""How stored cases are spelled, for the scripts that write them: crates/test_stored reads them, and says what the terms are."""

import pathlib
import re

CRATES = pathlib.Path(__file__).resolve().parents[2] / "crates"
SIZES = (127, 128, 255, 256, 65535, 65536)
MALFORMED, NOTHING, DONE = "malformed", "none", "ok"
REPEATED = re.compile(rb"(.{1,24}?)\1{11,}", re.DOTALL)


def terms(octets):
    """Octets in hexadecimal, with what is repeated written once."""
    parts, at = [], 0
    for match in REPEATED.finditer(octets):
        parts += [octets[at:match.start()].hex()] if at < match.start() else []
        parts.append(f"{match[1].hex()}*{len(match[0]) // len(match[1])}")
        at = match.end()
    return "|".join(parts + ([octets[at:].hex()] if at < len(octets) else []))


def repeated(part, n):
    """The term of a part that stands so often, however long it is."""
    return f"{part.hex()}*{n}"


def within(octets, part, *instead):
    """The terms of octets with other terms in the place of a part, which stands in them once."""
    before, behind = octets.split(part)
    return "|".join(filter(None, (terms(before), *instead, terms(behind))))


def octets_of(spelled_terms):
    """The octets that such terms spell, and legible ones behind an apostrophe; `-` spells none."""
    if spelled_terms == "-":
        return b""
    return b"".join(map(octets_of_term, spelled_terms.split("|")))


def octets_of_term(term):
    """The octets that one of them spells."""
    if term.startswith("'"):
        return term[1:].encode()
    digits, _, times = term.partition("*")
    return bytes.fromhex(digits) * int(times or 1)


def line(label, mode, octets, *steps):
    """A line of the cases: a name, a mode, octets, and what calls answer to them."""
    return " ".join([label, mode, terms(octets) or "'", *steps])


def ber_line(label, octets, *steps):
    """The same in the mode that is BER."""
    return line(label, "ber", octets, *steps)


def text(characters):
    """A text, legible where it can be."""
    octets = characters.encode()
    return "'" + characters if re.fullmatch(r"[!-&(-{}~]{1,200}", characters) and not re.search("[;|=]",
        characters) else terms(octets)


def spelled(field):
    """A field: octets, a number, a truth value or a text."""
    if isinstance(field, bool):
        return "01" if field else "00"
    if isinstance(field, int):
        return f"'{field}"
    return text(field) if isinstance(field, str) else terms(field)


def step(call, *fields, argument=None):
    """A call, and what it answers: the word MALFORMED, NOTHING or DONE, or fields."""
    name = call if argument is None else f"{call},{spelled(argument)}"
    word = fields[0] if len(fields) == 1 and fields[0] in (MALFORMED, NOTHING, DONE) else ";".join(map(spelled, fields))
    return f"{name}={word}"


def write(crate, lines):
    """Writes the cases of a crate, and what its program prints."""
    lines = list(lines)
    names = [line.split(" ")[0] for line in lines]
    assert len(names) == len(set(names)), sorted(name for name in set(names) if names.count(name) > 1)
    (CRATES / crate / "data" / "cases.txt").write_text("".join(line + "\n" for line in lines))
    (CRATES / crate / "stdout").write_text(f"{len(lines)} cases, 0 differ\n")
