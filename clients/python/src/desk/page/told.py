"""The document and what is known of it, as tabs get it. Numbers that may be large are words."""
from __future__ import annotations

from functools import lru_cache
from typing import Dict, List, NamedTuple, Optional, Tuple

from ..colors import Color, colors_of
from ..formats.header import rule_named_by
from ..words import view_words

from .document import Document, File
from .files import states_of
from .looks import Message
from .rule_id import rule_id
from .state_names import state_names


class Known(NamedTuple):
    """What is known of a document: of which bookmarks the texts are, by their ids; and where something is pending."""

    bookmarks: Dict[int, bool]
    pending: int = 0
    cause: Optional[Message] = None
    is_lost: bool = False


@lru_cache(maxsize=4)
def _looks_of(rule: Optional[File]) -> Tuple[int, List[Color], Dict[int, str]]:
    """How many states a rule has, their colors, and their names."""
    states, text = states_of(rule), rule.text if rule else b""
    return states, colors_of(text)[:states], state_names(text)


def told(document: Document, known: Known) -> Message:
    """The document as a tab draws it."""
    states, colors, names = _looks_of(document.rule)
    return {
        "type": "state", "pending": known.pending, "cause": known.cause, "isLost": known.is_lost,
        "colors": colors, "states": states, "names": names,
        "ruleName": rule_named_by(document.rule.text) if document.rule else "", "ruleId": rule_id(document.rule),
        "rule": document.rule.name if document.rule else "", "start": document.start.name if document.start else "",
        "branches": [{"id": it, "parent": value.parent, "generation": str(value.generation)}
                     for it, value in document.branches.items()],
        "interventions": [
            {"id": it, "branch": value.branch, "first": str(value.first), "distance": str(value.distance),
             "last": str(value.last), "cells": len(value.cells)} for it, value in document.interventions.items()],
        "bookmarks": [
            {"id": it, "branch": value.branch, "generation": str(value.generation), "view": view_words(value.view),
             "isCurrent": known.bookmarks[it]} for it, value in document.bookmarks.items()],
    }
