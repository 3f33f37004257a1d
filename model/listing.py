"""What a document has, a line for each branch, intervention and bookmark."""
from __future__ import annotations

from typing import Collection

from documents import Acts, Bookmark, Branch, Document, Every, Intervention
from views import Counts, Macrocell, Rle, View


def listed(document: Document, known: Collection[int]) -> bytes:
    """All of them by rising ids, where the texts of these bookmarks are known, and how many there are."""
    lines = [
        *(_branch_line(id_, it) for id_, it in sorted(document.branches.items())),
        *(_intervention_line(id_, it) for id_, it in sorted(document.interventions.items())),
        *(_bookmark_line(id_, it, id_ in known) for id_, it in sorted(document.bookmarks.items())),
    ]
    return "".join(f"{line}\n" for line in [*lines, f"listed {len(lines)}"]).encode()


def _branch_line(id_: int, branch: Branch) -> str:
    return f"branch {id_} of {branch.parent} at {branch.fork}"


def _intervention_line(id_: int, intervention: Intervention) -> str:
    when = acts_words(intervention.acts)
    return f"intervention {id_} on {intervention.branch} {when} cells {len(intervention.cells)}"


def acts_words(acts: Acts) -> str:
    """When an intervention acts, in the words that add one."""
    if isinstance(acts, Every):
        return f"every {acts.distance} {acts.first} {acts.last}"
    return f"at {acts.first}"


def _bookmark_line(id_: int, bookmark: Bookmark, is_known: bool) -> str:
    where = f"on {bookmark.branch} at {bookmark.generation}"
    return f"bookmark {id_} {where} {view_words(bookmark.view)} {'current' if is_known else 'pending'}"


def view_words(view: View) -> str:
    """A view in the words that `mark` takes."""
    if isinstance(view, Counts):
        return "counts"
    if isinstance(view, Rle):
        return "rle"
    if isinstance(view, Macrocell):
        return "mc"
    return f"window {view.left} {view.top} {view.width} {view.height}"
