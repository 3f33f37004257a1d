"""What a soak has done so far, in a folder, so that the next one goes on from there."""
from __future__ import annotations

import hashlib
import json
import os
import subprocess
from dataclasses import asdict, dataclass, field
from pathlib import Path
from typing import Dict, Iterable

from .found import Difference, Found

STATE, DIFFERENCES = "state.json", "differences"


@dataclass
class Done:
    """What was done of a part with the present program: its seeds from the first up to the next one, the seconds that
    they took, and what they found.
    """

    first: int = 0
    next: int = 0
    seconds: float = 0.0
    runs: int = 0
    differences: int = 0
    slowest: float = 0.0
    memory: int = 0
    lacking: str = ""

    def take(self, seeds: int, found: Found) -> None:
        """Takes what a unit found in its seeds."""
        self.next += seeds
        self.runs += found.runs
        self.differences += len(found.differences)
        self.slowest, self.memory = max(self.slowest, found.slowest), max(self.memory, found.memory)


@dataclass
class State:
    """The program, for how many hours it was used, and what was done of each part."""

    program: str
    hours: float = 0.0
    parts: Dict[str, Done] = field(default_factory=dict)


def named(program: str) -> str:
    """The version that a program tells, and a sum of its bytes."""
    done = subprocess.run([program, "--version"], stdout=subprocess.PIPE, text=True, check=True)
    return f"{done.stdout.strip()}, sha256 {hashlib.sha256(Path(program).read_bytes()).hexdigest()[:16]}"


def state_in(folder: Path, program: str, parts: Iterable[str]) -> State:
    """The state to go on from. For another program it counts anew, and the seeds go on."""
    folder.mkdir(parents=True, exist_ok=True)
    name, path = named(program), folder / STATE
    told = json.loads(path.read_text()) if path.exists() else {"program": name}
    found = State(name, told.get("hours", 0.0) if told["program"] == name else 0.0)
    for part in parts:
        done = Done(**told.get("parts", {}).get(part, {}))
        found.parts[part] = done if told["program"] == name else Done(done.next, done.next)
        found.parts[part].lacking = ""
    return found


def keep(folder: Path, state: State) -> None:
    """Writes the state in place of the one before, of which no half is ever there."""
    beside = folder / f"{STATE}.new"
    beside.write_text(json.dumps(asdict(state), indent=1))
    os.replace(beside, folder / STATE)


def keep_difference(folder: Path, part: str, difference: Difference) -> Path:
    """Writes what differed, with its script, and how it is run again. Gives the place of the words."""
    place = folder / DIFFERENCES / f"{part}-{difference.seed}"
    place.parent.mkdir(exist_ok=True)
    place.with_suffix(".script").write_bytes(difference.script)
    words = place.with_suffix(".txt")
    words.write_text(f"{difference.why}\n\nThe script is beside this, and the seed is run again by\n"
                     f"    ./soak.sh --again {part} {difference.seed}\n")
    return words
