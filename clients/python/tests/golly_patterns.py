#!/usr/bin/env python3
"""All pattern files of Golly's package, each run by the desk to a generation and compared with bgolly.

A file's rule is found by the name in its header. The number of live cells at the generation has to be the one that
bgolly prints; where the rule can't be had, why is told. A table counts the files by the kinds of their rules.

    PYTHONPATH=clients/python/src clients/python/tests/golly_patterns.py --files
"""
from __future__ import annotations

import argparse
import re
import subprocess
import sys
from pathlib import Path
from typing import Dict, Iterable, List, NamedTuple, Optional

from desk import Desk, Pending, text_of
from desk.formats import lif, mcell
from desk.formats.pattern import pattern_of
from desk.rules import isotropic
from desk.rules.found import Found, rule_named
from desk.rules.names import AUTOMATA, NoRule, Reason

GOLLY = "/usr/share/golly"
ENDINGS = (".rle", ".mc", ".mcl", ".lif", ".rle.gz", ".mc.gz")
SECONDS = 120.0  # the longest that each program may take for a file
LIFE_LIKE, ISOTROPIC, GENERATIONS, NEUMANN = "Life-like", "isotropic", "Generations", "von Neumann's kind"
OF_FILE, WIREWORLD, OLD = "rule file", "rule file, MCell's pattern", "Life 1.05"
ENGINES = {NEUMANN: "JvN", GENERATIONS: "Generations", OF_FILE: "RuleLoader", WIREWORLD: "RuleLoader"}
EDGES = "bgolly on a plane without edges"


class Row(NamedTuple):
    """What came of a file.

    kind: the kind of its rule or of the file, or why the rule can't be had
    ours, theirs: the live cells at the generation, as the desk and as bgolly count them; None where one doesn't
    note: why the rule can't be had, or in what bgolly wasn't run as Golly would
    """

    path: str
    kind: str
    ours: Optional[int]
    theirs: Optional[int]
    note: str

    @property
    def is_same(self) -> bool:
        """Whether both count as many."""
        return self.ours is not None and self.ours == self.theirs


def files_of(folder: str) -> List[str]:
    """The pattern files below a folder."""
    return sorted(str(it) for it in Path(folder).rglob("*") if it.name.endswith(ENDINGS))


def row_of(path: str, generation: int) -> Row:
    """Runs a pattern file in both programs."""
    text = text_of(path)
    pattern = pattern_of(text, path)
    try:
        found = rule_named(pattern.rule, path)
    except NoRule as fault:
        return Row(path, fault.reason.value, None, None, str(fault))
    kind = kind_of(text, found)
    with Desk() as desk:
        desk.rule_text(found.text, found.path or found.name)
        begun = desk.start_text(pattern.text, path)
        ours = counted(desk, generation)
    theirs, note = counted_by_golly(path, kind, begun, generation), ""
    if ours != theirs and mcell.is_mcell(text):
        # Golly gives MCell's patterns a board, and the pattern may have met its edges.
        theirs, note = counted_by_golly(path, kind, begun, generation, pattern.rule), EDGES
    return Row(path, kind, ours, theirs, note)


def kind_of(text: bytes, found: Found) -> str:
    """The kind of a pattern's rule, or of its file where that is an old one."""
    if lif.is_lif(text):
        return OLD
    if found.name.lower() in AUTOMATA:
        return NEUMANN
    if found.path:
        return WIREWORLD if mcell.is_mcell(text) else OF_FILE
    rule = isotropic.meaning(found.name)
    if rule and rule.states > 2:
        return GENERATIONS
    return LIFE_LIKE if rule and rule.is_totalistic else ISOTROPIC


def counted(desk: Desk, generation: int) -> Optional[int]:
    """The live cells that the desk counts, or None where it has no answer in time."""
    try:
        counts = desk.show(desk.mark(generation, "counts"), timeout=SECONDS)
    except Pending:
        return None
    return sum(counts.values()) if isinstance(counts, dict) else None


def counted_by_golly(path: str, kind: str, begun: int, generation: int, rule: Optional[str] = None) -> Optional[int]:
    """The live cells that bgolly counts, or None where it has no answer in time.

    begun: the generation that the file names, from which bgolly counts on
    rule: one in place of the pattern's
    """
    words = ["bgolly", "-a", ENGINES.get(kind, "HashLife"), "-s", f"{GOLLY}/Rules/", "-M", "1000"]
    words += ["-i", str(generation), "-m", str(begun + generation), *(["-r", rule] if rule else []), path]
    try:
        told = subprocess.run(words, capture_output=True, text=True, timeout=SECONDS, check=False).stdout
    except subprocess.TimeoutExpired:
        return None
    found = re.search(rf"(?m)^{begun + generation:,}: ([0-9,]+)$", told)
    return int(found[1].replace(",", "")) if found else None


def table_of(rows: Iterable[Row]) -> List[str]:
    """A table of Markdown that counts the files by kinds."""
    kinds: Dict[str, List[Row]] = {}
    for row in rows:
        kinds.setdefault(row.kind, []).append(row)
    lines = ["| rule | files | run | as many live cells as bgolly | |", "|---|---|---|---|---|"]
    reasons = {reason.value for reason in Reason}
    for kind in sorted(kinds, key=lambda it: (it in reasons, -len(kinds[it]))):
        of = kinds[kind]
        run, same = sum(row.ours is not None for row in of), sum(row.is_same for row in of)
        alone = sum(row.note == EDGES for row in of)
        note = "can't be had " if kind in reasons else f"{alone} of them beside {EDGES} " if alone else ""
        lines.append(f"| {kind} | {len(of)} | {run} | {same} | {note}|")
    every = [row for of in kinds.values() for row in of]
    run, same = sum(row.ours is not None for row in every), sum(row.is_same for row in every)
    return [*lines, f"| all | {len(every)} | {run} | {same} | |"]


def main() -> int:
    words = argparse.ArgumentParser(description=__doc__, formatter_class=argparse.RawDescriptionHelpFormatter)
    words.add_argument("--folder", default=f"{GOLLY}/Patterns", help="where the patterns are, default %(default)s")
    words.add_argument("--to", type=int, default=64, metavar="G", help="the generation, default %(default)s")
    words.add_argument("--only", default="", metavar="TEXT", help="only files that have this in their path")
    words.add_argument("--files", action="store_true", help="a line for each file before the table")
    said = words.parse_args()
    rows = []
    for path in files_of(said.folder):
        if said.only in path:
            row = row_of(path, said.to)
            rows.append(row)
            if said.files or row.ours != row.theirs:
                print(f"{row.path}: {row.kind}, desk {row.ours}, bgolly {row.theirs} {row.note}", flush=True)
    print("\n".join(table_of(rows)))
    return int(any(row.ours != row.theirs for row in rows))


if __name__ == "__main__":
    sys.exit(main())
