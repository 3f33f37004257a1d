"""What comes of a run of a part, and of several runs together."""
from __future__ import annotations

import base64
import json
from dataclasses import asdict, dataclass, field
from typing import List


class Lacking(Exception):
    """What a part can't run without here, in one line."""


@dataclass(frozen=True)
class Difference:
    """What went otherwise than it may, by the seed: why, and the script or document with which it did."""

    seed: int
    why: str
    script: bytes = b""


@dataclass
class Found:
    """What runs found: how many there were, what differed, the slowest in seconds, and memory in bytes at the end."""

    runs: int = 0
    differences: List[Difference] = field(default_factory=list)
    slowest: float = 0.0
    memory: int = 0

    def take(self, other: Found) -> None:
        """Takes what later runs found."""
        self.runs += other.runs
        self.differences += other.differences
        self.slowest = max(self.slowest, other.slowest)
        self.memory = max(self.memory, other.memory)

    def to_json(self) -> str:
        differences = [[it.seed, it.why, base64.b64encode(it.script).decode()] for it in self.differences]
        return json.dumps({**asdict(self), "differences": differences})

    @classmethod
    def from_json(cls, text: str) -> Found:
        told = json.loads(text)
        differences = [Difference(seed, why, base64.b64decode(script)) for seed, why, script in told["differences"]]
        return cls(told["runs"], differences, told["slowest"], told["memory"])
