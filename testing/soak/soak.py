"""The soak: units of all parts, of which that comes next that has had the least time."""
from __future__ import annotations

import signal
import sys
import time
from pathlib import Path
from typing import List, Optional, Sequence

from .state import State, keep, keep_difference
from .working import Ended, Unit

# A unit has so many seconds, or less where the soak is short: then each part has some units all the same.
MOST_SECONDS, LEAST_SECONDS, UNITS_EACH = 60.0, 1.0, 3
# Seconds between two looks at the units, between two lines that say how far the soak is, and that units under way may
# take when its time is over.
LOOK, TELL, GRACE = 0.1, 600.0, 300.0


class Soak:
    """Units under way, up to a time or until it is told to end."""

    def __init__(self, state: State, folder: Path, program: str, hours: float, jobs: int, parts: Sequence[str]) -> None:
        self.state, self.folder, self.program, self.jobs, self.parts = state, folder, program, jobs, parts
        self.began, self.hours_before = time.monotonic(), state.hours
        self.last = self.began + 3600 * hours
        share = 3600 * hours * jobs / (len(parts) * UNITS_EACH)
        self.unit_seconds = min(MOST_SECONDS, max(LEAST_SECONDS, share))
        self.units: List[Unit] = []
        self.is_stopped = False

    def run(self) -> None:
        """All of it. What is under way when it has to end isn't counted, and comes first the next time."""
        for number in (signal.SIGINT, signal.SIGTERM, signal.SIGHUP):
            signal.signal(number, self.stop)
        told = self.began
        try:
            while not self.is_stopped and self.begin_units() and time.monotonic() < self.last + GRACE:
                time.sleep(LOOK)
                self.collect()
                if time.monotonic() - told > TELL:
                    told = time.monotonic()
                    self.tell()
        finally:
            for unit in self.units:
                unit.end()
            self.note()

    def stop(self, _number: int, _frame: object) -> None:
        self.is_stopped = True

    def begin_units(self) -> bool:
        """Begins as many units as there is room for. Whether any is under way."""
        while len(self.units) < self.jobs and time.monotonic() < self.last:
            name = self.next_part()
            if name is None:
                break
            self.units.append(Unit(name, self.state.parts[name].next, self.unit_seconds, self.program))
        return bool(self.units)

    def next_part(self) -> Optional[str]:
        """The part that has had the least time, of those that have no unit under way."""
        busy = {unit.part for unit in self.units}
        parts = self.state.parts
        free = [(parts[it].seconds, it) for it in self.parts if it not in busy and not parts[it].lacking]
        return min(free)[1] if free else None

    def collect(self) -> None:
        """Takes what the units found that have ended."""
        for unit in list(self.units):
            ended = unit.ended()
            if ended:
                self.units.remove(unit)
                self.take(unit, ended)
                self.note()

    def take(self, unit: Unit, ended: Ended) -> None:
        done = self.state.parts[unit.part]
        done.seconds += unit.seconds
        done.lacking = ended.lacking
        done.take(ended.seeds, ended.found)
        for it in ended.found.differences:
            print(f"{unit.part}, seed {it.seed}: DIFFERS, {keep_difference(self.folder, unit.part, it)}",
                  file=sys.stderr, flush=True)

    def note(self) -> None:
        self.state.hours = self.hours_before + (time.monotonic() - self.began) / 3600
        keep(self.folder, self.state)

    def tell(self) -> None:
        done = self.state.parts.values()
        runs, differences = sum(it.runs for it in done), sum(it.differences for it in done)
        said = f"soak: {self.state.hours:.2f} hours, {runs} runs, {differences} differences"
        print(said, file=sys.stderr, flush=True)
