"""Texts of XML and their elements. Only what the library wrote anew is parsed here, and what is built here goes through it before use."""

from __future__ import annotations

import base64
import datetime
from typing import Mapping, Optional, TypeVar, Union
from xml.etree import ElementTree

from calmizsed import _library
from calmizsed._values import Text, text_of
from calmizsed.errors import OtherMessage

Element = ElementTree.Element
Value = Union[str, bytes, None]
M = TypeVar("M")
REFERENCES = ("\t", "&#09;"), ("\n", "&#10;"), ("\r", "&#13;")  # as ElementTree writes them


def written_anew(call: str, kind: int, text: Text) -> str:
    """The text, as the library writes it anew."""
    return _library.library().call(call, kind, text_of(text)).octets.decode("utf-8")


def parsed(call: str, kind: int, text: Text) -> Element:
    """The root of a text, which the library reads and writes anew before."""
    return root_of(written_anew(call, kind, text))


def root_of(anew: str) -> Element:
    """The root of a text that the library wrote.

    The library writes a line feed or a tab as it is, also in an attribute, where a reader of XML makes a space of it (XML 1.0, 3.3.3). In
    what it writes these stand in attributes and texts alone, so that references can take their place.
    """
    for character, reference in REFERENCES:
        anew = anew.replace(character, reference)
    return ElementTree.fromstring(anew)


def local(element: Element) -> str:
    """The name of an element, without its namespace."""
    return element.tag.rpartition("}")[2]


def required(element: Element, name: str) -> str:
    """An attribute that the library never leaves out."""
    return element.attrib[name]


def child(element: Element, name: str) -> Optional[Element]:
    """The first element of this name in another, if there is one."""
    return next((one for one in element if local(one) == name), None)


def octets_in(element: Element) -> bytes:
    """The octets that an element holds in base64."""
    return base64.b64decode(element.text or "")


def moment_in(word: str) -> datetime.datetime:
    """A moment, as the library writes it in attributes. The year 0 raises ValueError: datetime begins with the year 1."""
    return datetime.datetime.strptime(word, "%Y-%m-%dT%H:%M:%SZ").replace(tzinfo=datetime.timezone.utc)


def moment_word(moment: datetime.datetime) -> str:
    """A moment, as it stands in attributes."""
    if moment.tzinfo is None or moment.utcoffset() is None:
        raise ValueError(f"a moment without a time zone: {moment.isoformat()}")
    return moment.astimezone(datetime.timezone.utc).replace(microsecond=0, tzinfo=None).isoformat() + "Z"


def made(name: str, attributes: Mapping[str, Optional[str]], content: Value = None, *children: Element) -> Element:
    """An element: with the attributes that there are, text, octets in base64, or other elements in it."""
    element = Element(name, {key: value for key, value in attributes.items() if value is not None})
    element.text = base64.b64encode(content).decode("ascii") if isinstance(content, bytes) else content
    element.extend(children)
    return element


def text_in(element: Element) -> str:
    """An element as a text. The library reads no references to characters, and keeps the characters."""
    text = ElementTree.tostring(element, encoding="unicode")
    for character, reference in REFERENCES:
        text = text.replace(reference, character)
    return text


def of_class(wanted: type[M], found: object) -> M:
    """What was found, if it is of the class that was asked for."""
    if isinstance(found, wanted):
        return found
    raise OtherMessage("OtherMessage", 5, f"the message is a {type(found).__name__}, and no {wanted.__name__}")
