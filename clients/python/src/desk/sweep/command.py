"""The command `sweep`: soups under rules, a row for each, in a file that a broken-off sweep is gone on with."""
from __future__ import annotations

import argparse
import glob
import logging
import os
import re
import signal
import sys
import time
import warnings
from concurrent.futures import Executor
from typing import Any, Dict, Generator, Iterable, Iterator, List, Optional, Sequence, Tuple

from ..console import say
from ..errors import RuleNameWarning, Trouble
from ..formats.files import text_of
from ..rules.found import rule_named
from ..rules.lifelike import meaning, rule_text
from ..standard_output import STANDARD_OUTPUT, print_line
from .census import CASE, COLUMNS, FAILED, Case, Rule, last_pattern, rare, summary, words_of
from .options import options
from .outcome import Outcome
from .results_file import Results
from .schedule import sweep
from .soups import Soup

BROKEN_OFF = 130  # the exit status after Ctrl-C, as shells have it


def rules(named: Sequence[str]) -> List[Rule]:
    """The rules of some words: files, patterns of files, and names of rules. NoRule: there is none of a name."""
    found: Dict[str, Rule] = {}
    for word in named:
        paths = [word] if os.path.exists(word) else sorted(glob.glob(word))
        said = meaning(word)
        if paths:
            found.update((it, Rule(it, text_of(it))) for it in paths)
        elif said:
            found[said.name()] = Rule(said.name(), rule_text(word).encode())
        elif glob.has_magic(word):
            raise Trouble(f"{word}: there is no such file")
        else:
            found[word] = Rule(word, rule_named(None, None, word).text)
    return list(found.values())


def with_progress(found: Iterable[Outcome], count: int) -> Iterator[Outcome]:
    """The same outcomes; standard error tells how many there are, the rate and the time to go."""
    is_screen = sys.stderr.isatty()
    if is_screen:
        try:
            from tqdm import tqdm
        except ImportError:
            pass
        else:
            yield from tqdm(found, total=count, unit=" cases", smoothing=0.1)
            return
    began, told_at, done = time.monotonic(), 0.0, 0
    for done, outcome in enumerate(found, 1):
        yield outcome
        passed = time.monotonic() - began
        if done == count or passed > told_at + (0.2 if is_screen else 5):
            told_at = passed
            text = (f"{done} of {count} cases, {done / max(passed, 1e-6):.1f} a second, "
                    f"about {passed / done * (count - done):.0f} s to go")
            say(text, "" if is_screen and done < count else "\n")


def executor_of(address: Optional[str]) -> Tuple[Optional[Executor], Any]:
    """The executor of a cluster, or none, and what has to be closed in the end."""
    if not address:
        return None, None
    try:
        from distributed import Client
    except ImportError:
        raise Trouble("this Python has no Dask (Debian: python3-distributed, for /usr/bin/python3; else pip install "
                      "distributed)") from None
    # Tasks that were cancelled when one failed would be told of beside its fault.
    for name in ("tornado.application", "distributed"):
        logging.getLogger(name).setLevel(logging.CRITICAL)
    try:
        client = Client(address, timeout=10)
    except (OSError, ValueError, TimeoutError) as fault:
        raise Trouble(f"there is no scheduler at {address}: {fault}") from fault
    return client.get_executor(), client


def kept(folder: str, chosen: Sequence[Case], results: Results, executor: Optional[Executor],
         options: Dict[str, Any]) -> int:
    """Writes the soups of some cases and what they became, and gives how many."""
    os.makedirs(folder, exist_ok=True)
    stems = {it.rule.name: stem(it.rule.name) for it in chosen}
    for done in sweep(last_pattern, chosen, executor, **options):
        case: Case = done.case
        row = dict(zip(results.names, results.rows[case.key()]))
        is_alone = list(stems.values()).count(stems[case.rule.name]) == 1
        name = re.sub(r"[^A-Za-z0-9._-]+", "-", stems[case.rule.name] if is_alone else case.rule.name).strip("-")
        note = "".join(f"#C {it} = {row[it]}\n" for it in (*CASE, "fate", "period"))
        for part, text in (("soup", case.pattern()), (f"at-{case.to}", done.value)):
            if text is None:
                say(f"the soup {case.soup.seed} under {case.rule.name}: {done.why}")
                continue
            path = os.path.join(folder, f"{name}-{case.soup.width}x{case.soup.height}-{case.soup.seed}-{part}.rle")
            with open(path, "w", encoding="utf-8") as file:
                file.write(note + text)
    return len(chosen)


def stem(rule: str) -> str:
    """What files of a rule are called by: its file's name, or its own."""
    return os.path.splitext(os.path.basename(rule))[0] if os.path.exists(rule) else rule


def swept(given: argparse.Namespace) -> int:
    """Runs the cases that have no row yet, and gives the exit status."""
    names = [*CASE, *(name for word in given.show for name in COLUMNS[word]), *FAILED]
    width, height = given.size
    cases = [Case(rule, Soup(seed, width, height, given.density), given.states, given.to, given.show)
             for rule in rules(given.rule) for seed in given.soup]
    options = {"limit": given.limit, "program": given.desk, "squares": given.squares, "jobs": given.jobs}
    with Results(given.out, names, len(CASE), "cause" if given.again else "") as results:
        if results.cut:
            say(f"{given.out}: its last line was cut off, so that case is run again")
        left = [it for it in cases if it.key() not in results.rows]
        if len(left) < len(cases):
            say(f"{len(cases) - len(left)} of {len(cases)} cases are in {given.out} already")
        executor, client = executor_of(given.dask)
        try:
            done = filled(results, sweep(words_of, left, executor, **options), len(left))
            if done < len(left):
                say(f"broken off with {done} of {len(left)} cases{goes_on(given)}")
                return BROKEN_OFF
            rows = [results.rows[it.key()] for it in cases]
            lines = "\n".join(summary(names, rows))
            if given.out == STANDARD_OUTPUT:
                print(lines, file=sys.stderr, flush=True)
            else:
                print_line(lines)
            if given.keep:
                count = kept(given.keep, rare(names, results.rows, cases, given.rare), results, executor, options)
                say(f"{count} {'soup is' if count == 1 else 'soups are'} kept in {given.keep}")
        finally:
            if client:
                client.close()
    return 0


def goes_on(given: argparse.Namespace) -> str:
    """How a sweep that is broken off goes on, if it does."""
    return "" if given.out == STANDARD_OUTPUT else "; the same command goes on"


def filled(results: Results, found: Generator[Outcome, None, None], count: int) -> int:
    """Adds the row of each outcome until all are there or Ctrl-C is pressed, and gives how many."""
    done = 0
    try:
        for outcome in with_progress(found, count):
            shown_words = outcome.value or [""] * (len(results.names) - len(CASE) - len(FAILED))
            results.add([*outcome.case.key(), *shown_words, outcome.cause, outcome.why])
            done += 1
    except KeyboardInterrupt:
        pass
    finally:
        found.close()
    return done


def broken_off(number: int, frame: object) -> None:
    raise KeyboardInterrupt


def main() -> int:
    given = options()
    signal.signal(signal.SIGTERM, broken_off)  # so a batch system ends the programs too
    warnings.simplefilter("ignore", RuleNameWarning)
    try:
        return swept(given)
    except (Trouble, OSError) as fault:
        say(str(fault))
        return 1
    except KeyboardInterrupt:
        say(f"broken off{goes_on(given)}")
        return BROKEN_OFF
