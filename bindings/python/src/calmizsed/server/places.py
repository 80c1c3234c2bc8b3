"""Where an rsync URI lies as a file, and which URIs can't lie as files. No other module has a rule of this."""

from __future__ import annotations

from typing import Sequence

from calmizsed.errors import CalmizsedError

MOST_OCTETS_OF_NAME = 255
MOST_OCTETS = 2048  # of a whole place, so that there is room below PATH_MAX for the folder in which the tree stands
NO_NAMES = frozenset(("", ".", ".."))


class NoPlace(CalmizsedError):
    """The URI can't lie as a file: `NoPlace`."""

    def __init__(self, cause: str) -> None:
        super().__init__("NoPlace", 5, cause)


def names_of(base: str, uri: str) -> tuple[str, ...]:
    """The names of the folders below the base's, and of the file in the last of them, where the URI lies."""
    if not uri.startswith(base):
        raise NoPlace(f"{uri} isn't below {base}")
    behind = uri[len(base):]
    names = tuple(behind.split("/"))
    if NO_NAMES.intersection(names):
        raise NoPlace(f"{uri} has a segment that is empty, or is made of dots")
    octets = [len(name.encode("utf-8", "surrogatepass")) for name in names]
    if max(octets) > MOST_OCTETS_OF_NAME or sum(octets) + len(octets) > MOST_OCTETS:
        raise NoPlace(f"{uri} is too long for the name of a file")
    if "\0" in behind:
        raise NoPlace("a URI with a zero octet in it")
    return names


def uri_of(base: str, names: Sequence[str]) -> str:
    """The URI that lies under these names below the base's folder."""
    uri = base + "/".join(names)
    if names_of(base, uri) != tuple(names):
        raise NoPlace(f"the file {'/'.join(names)} has no URI")
    return uri


class Places:
    """The places of URIs that are asked for in ascending order of their octets.

    A URI can't lie in a folder that is the file of another: the shorter one comes first, and has the place.
    """

    def __init__(self, base: str) -> None:
        self.base = base
        self._begun: list[str] = []  # those with a place with which the last one begins: all that begin with them come next to each other

    def names(self, uri: str) -> tuple[str, ...]:
        """Where the URI lies."""
        names = names_of(self.base, uri)
        while self._begun and not uri.startswith(self._begun[-1]):
            self._begun.pop()
        for file in self._begun:
            if uri == file or uri.startswith(file + "/"):
                raise NoPlace(f"{uri} would lie where the file of {file} is")
        self._begun.append(uri)
        return names
