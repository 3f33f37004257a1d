"""Refusals and causes as the page shows them, with what they mean and what to do."""
from __future__ import annotations

from typing import Any, Dict

from ..errors import Refused, Trouble
from ..meanings import CAUSES, Meaning


def explained(trouble: Trouble) -> Dict[str, Any]:
    """A trouble as the page gets it."""
    if not isinstance(trouble, Refused):
        return {"name": type(trouble).__name__, "words": str(trouble)}
    return {"number": trouble.number, "name": trouble.name, "of": trouble.of, "place": trouble.place,
            "line": trouble.line, "means": trouble.means, "do": trouble.remedy, "words": trouble.brief}


def explained_cause(number: int) -> Dict[str, Any]:
    """Why something stays pending, as the page gets it."""
    name, means, remedy = CAUSES.get(number, Meaning())
    return {"number": number, "name": name, "means": means, "do": remedy}
