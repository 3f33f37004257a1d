"""The version and the date of the newest release, which CHANGELOG.md heads, and where else they stand."""
from __future__ import annotations

import dataclasses
import datetime
import email.utils
import re
from pathlib import Path
from typing import Dict, List

from places import ROOT, Lacking

CHANGELOG, DEBIAN_CHANGELOG = "CHANGELOG.md", "debian/changelog"
HEADING = re.compile(r"^## \[(\d+\.\d+\.\d+)\] - (\d{4}-\d\d-\d\d)$", re.M)
# Where the version stands besides, each by what is around it.
ELSEWHERE = {
    "crates/desk_words/src/version.rt": re.compile(r'^pub\(crate\) const VERSION: &str = "(\S+) \(proved\)";$', re.M),
    "clients/python/src/desk/_version.py": re.compile(r'^VERSION = "(\S+)"$', re.M),
    DEBIAN_CHANGELOG: re.compile(r"\Adesk \((\S+)\) "),
}
DEBIAN_DATE = re.compile(r"^ -- .*>  (.*)$", re.M)


@dataclasses.dataclass(frozen=True)
class Release:
    """A version, as 1.0.0, and the day of its release."""

    version: str
    day: datetime.date

    @property
    def epoch(self) -> int:
        """The seconds from 1970 up to that day's beginning in UTC, by which files in packages are dated."""
        return int(datetime.datetime.combine(self.day, datetime.time(), datetime.timezone.utc).timestamp())


def newest(root: Path = ROOT) -> Release:
    """The newest release.

    Lacking: CHANGELOG.md has no heading of a release.
    """
    found = HEADING.search((root / CHANGELOG).read_text(encoding="utf-8"))
    if not found:
        raise Lacking(f"{CHANGELOG} has no heading such as `## [1.0.0] - 2026-01-31`")
    return Release(found[1], datetime.date.fromisoformat(found[2]))


def versions(root: Path = ROOT) -> Dict[str, str]:
    """The version that each of the other places has; empty where it has none."""
    found = {place: pattern.search((root / place).read_text(encoding="utf-8")) for place, pattern in ELSEWHERE.items()}
    return {place: it[1] if it else "" for place, it in found.items()}


def debian_epoch(root: Path = ROOT) -> int:
    """The time of debian/changelog's newest entry, in seconds from 1970 on."""
    found = DEBIAN_DATE.search((root / DEBIAN_CHANGELOG).read_text(encoding="utf-8"))
    if not found:
        raise Lacking(f"{DEBIAN_CHANGELOG} has no line with a date")
    return int(email.utils.parsedate_to_datetime(found[1]).timestamp())


def disagreements(root: Path = ROOT) -> List[str]:
    """What differs from CHANGELOG.md's newest heading, a line for each place."""
    release = newest(root)
    found = [f"{place} has the version {version or 'of no form that is known'}, and {CHANGELOG} {release.version}"
             for place, version in versions(root).items() if version != release.version]
    if debian_epoch(root) != release.epoch:
        found.append(f"{DEBIAN_CHANGELOG} has another date than {CHANGELOG}, the beginning of {release.day} in UTC")
    return found
