"""A client of the program `desk`: rules and patterns come from files, and answers are values.

    from desk import Desk, Window

    with Desk() as desk:
        desk.rule("examples/wire.rule")
        desk.start("examples/wire.rle")
        print(desk.show(desk.mark(1000, Window(-1, 0, 5, 1))))

This package is no part of what is proved. What the program replies is proved; that the package sends what it is asked
to and understands the replies is tested alone. It needs Python 3.9 and nothing else.
"""
from ._version import VERSION as __version__
from .client import Desk
from .errors import (
    BoardWarning, Ended, Malformed, Pending, Refused, RuleNameWarning, TimedOut, Trouble)
from .formats.files import text_of
from .listing import Bookmark, Branch, Intervention, Listing
from .notebook.curve import Curve
from .notebook.difference import Difference
from .notebook.picture import Picture
from .program import find_program
from .results import BookmarkId, Counts, Polling, Rows, Settling, Shown
from .rules.lifelike import LifeLike, is_same_rule, meaning, rule_text
from .rules.names import NoRule, Reason
from .sweep import Outcome, Show, Soup, sweep
from .transport import Command, Reply, Transport
from .words import Cell, View, Window

__all__ = [
    "BoardWarning", "Bookmark", "BookmarkId", "Branch", "Cell", "Command", "Counts", "Curve", "Desk", "Difference",
    "Ended", "Intervention", "LifeLike", "Listing", "Malformed", "NoRule", "Outcome", "Pending", "Picture", "Polling",
    "Reason", "Refused", "Reply", "Rows", "RuleNameWarning", "Settling", "Show", "Shown", "Soup", "TimedOut",
    "Transport", "Trouble", "View", "Window", "__version__", "find_program", "is_same_rule", "meaning", "rule_text",
    "sweep", "text_of",
]
