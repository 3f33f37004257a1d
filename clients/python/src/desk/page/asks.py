"""All that a tab may ask for, of the session that a message is about."""
from __future__ import annotations

from typing import Callable, Dict

from . import tab_asks
from .edits import ASKED, Answer
from .looks import Message, Tab
from .pair import Pair
from .second_rule import drop_second, take_second
from .session import Session
from .why import why

OfTab = Callable[[Pair, Tab, Message], Message]


def look(pair: Pair, tab: Tab, message: Message) -> Message:
    """Takes what the tab looks at from now on."""
    pair.look(tab, message["looks"])
    return {}


def why_under(pair: Pair, message: Message) -> Answer:
    """Why a cell is so, under the rule that the message says."""
    return why(pair.under(message), message)


def _under(ask: Callable[[Session, Tab, Message], Message]) -> OfTab:
    """The same, under the rule that the message says."""
    return lambda pair, tab, message: ask(pair.under(message), tab, message)


OF_SESSIONS: Dict[str, Callable[[Pair, Message], Answer]] = {
    **ASKED, "why": why_under, "second": take_second, "drop_second": drop_second}
OF_TABS: Dict[str, OfTab] = {"look": look, **{name: _under(ask) for name, ask in tab_asks.OF_TABS.items()}}
