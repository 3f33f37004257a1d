"""The document as a script that makes it anew, with the same ids."""
from __future__ import annotations

from typing import Callable, Iterator, Mapping, Tuple, TypeVar

import macrocells
from documents import Bookmark, Branch, Document, Intervention
from listing import acts_words, view_words

Element = TypeVar("Element", Branch, Bookmark, Intervention)

# Edits that add something of a kind, and those that remove it, where the id of one that was removed has to be passed.
FILLERS: Mapping[str, Tuple[str, str]] = {
    "branch": ("branch 0 0", "unbranch"),
    "bookmark": ("on 0 mark 0 counts", "unmark"),
    "intervention": ("on 0 at 0 set 0 0 0", "drop"),
}


def scripted(document: Document) -> bytes:
    """The script, and how many bytes it has."""
    script = b"".join(_pieces(document))
    return script + b"scripted %d\n" % len(script)


def _pieces(document: Document) -> Iterator[bytes]:
    if document.rule.text is not None:
        yield b"rule\n" + document.rule.text + b"end\n"
    yield b"start mc\n" + macrocells.text_of(document.start, document.rule.name, 0) + b"end\n"
    yield from _edits("branch", document.branches, lambda it: f"branch {it.parent} {it.fork}")
    yield from _edits("bookmark", document.bookmarks, _mark)
    yield from _edits("intervention", document.interventions, _act)


def _mark(it: Bookmark) -> str:
    return f"on {it.branch} mark {it.generation} {view_words(it.view)}"


def _act(it: Intervention) -> str:
    cells = " ".join(f"{cell.x} {cell.y} {cell.state}" for cell in it.cells)
    return f"on {it.branch} {acts_words(it.acts)} set {cells}"


def _edits(kind: str, elements: Mapping[int, Element], edit_of: Callable[[Element], str]) -> Iterator[bytes]:
    """The edits that add these, each with its id."""
    add, remove = FILLERS[kind]
    last = 0
    for id_, element in sorted(elements.items()):
        for passed in range(last + 1, id_):
            yield f"{add}\n{remove} {passed}\n".encode()
        yield f"{edit_of(element)}\n".encode()
        last = id_
