"""Where URIs lie as files, and which can't."""

from __future__ import annotations

import pytest

from calmizsed.server.places import NoPlace, Places, names_of, uri_of

BASE = "rsync://localhost/repo/"


@pytest.mark.parametrize("behind, names", [
    ("a.cer", ("a.cer",)),
    ("ca/0/a.cer", ("ca", "0", "a.cer")),
    ("%2e%2e/a", ("%2e%2e", "a")),  # what is escaped stays so: rsync asks for names as they stand in URIs
    (".a/..b/...", (".a", "..b", "...")),
    ("a" * 255, ("a" * 255,)),
])
def test_place(behind: str, names: tuple[str, ...]) -> None:
    assert names_of(BASE, BASE + behind) == names
    assert uri_of(BASE, names) == BASE + behind


@pytest.mark.parametrize("uri", [
    BASE,
    BASE + "a/",
    BASE + "a//b",
    BASE + "/a",
    BASE + "../a",
    BASE + "a/./b",
    BASE + "a/..",
    BASE + "a" * 256,
    BASE + "/".join(["a" * 200] * 11),
    BASE + "a\0b",
    "rsync://localhost/repository/a",
    "rsync://localhost/repo",
    "rsync://LOCALHOST/repo/a",
])
def test_no_place(uri: str) -> None:
    with pytest.raises(NoPlace) as refused:
        names_of(BASE, uri)
    assert (refused.value.name, refused.value.status) == ("NoPlace", 5)


@pytest.mark.parametrize("names", [("..", "a"), (".",), ("",), ("a/b",), ("a", "b\0")])
def test_no_uri(names: tuple[str, ...]) -> None:
    with pytest.raises(NoPlace):
        uri_of(BASE, names)


def test_file_as_folder() -> None:
    """A file is no folder of another, whatever comes between the two; names that only begin alike don't matter."""
    places, placed, refused = Places(BASE), [], []
    for behind in sorted(["a", "a-b/c", "a.b", "a/b", "a/b/c", "ab/c", "b/c", "b/c-d", "b/c/d", "b/cd"]):
        try:
            places.names(BASE + behind)
            placed.append(behind)
        except NoPlace:
            refused.append(behind)
    assert placed == ["a", "a-b/c", "a.b", "ab/c", "b/c", "b/c-d", "b/cd"]
    assert refused == ["a/b", "a/b/c", "b/c/d"]
