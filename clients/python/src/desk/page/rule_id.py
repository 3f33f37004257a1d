"""By what tabs know the text of a rule again."""
from __future__ import annotations

import hashlib
from functools import lru_cache
from typing import Optional

from .document import File


@lru_cache(maxsize=4)
def rule_id(rule: Optional[File]) -> str:
    """A word that is another for each text of a rule; empty where there is no rule."""
    return hashlib.sha256(rule.text).hexdigest()[:16] if rule else ""
