#!/usr/bin/env python3
"""Speed, memory and room that the program could lose in silence, since every reply would still be an allowed one.

    hostile/speed.py [PROGRAM]

A case compares runs of the program by the seconds of the processor that they take, wants its memory to stay below a
bound, wants that one worker does what one should do, or that a large pattern has room. So a busy machine changes
little. A case fails where it does so three times. Each is a line, and the last line counts them.
"""
from __future__ import annotations

import re
import sys
import time
from pathlib import Path
from typing import Callable, Iterable, List

from life import TABLE, later, population, soup, start
from session import Session, Wrong, need, started
from threads import LONG, RULE_30

ROOT = Path(__file__).resolve().parents[1]
LEAST_SECONDS = 0.05
# What happens on a machine beside the program may spoil a run, though seldom several.
TRIES = 3
MB = 1 << 20


def settled(session: Session, script: str, marks: Iterable[int]) -> float:
    """The seconds of the processor in which bookmarks of a start at these generations are settled."""
    session.edit(*_commands(script), *(b"mark %d counts" % it for it in marks))
    before = session.spent()
    session.settle()
    return max(session.spent() - before, LEAST_SECONDS)


def _commands(script: str) -> List[bytes]:
    """The commands of a script that has texts, each with its text."""
    return [it.encode() for it in re.findall(r"(?ms)^(?:(?:rule|start rle|start mc)$.*?^end|set .*?)$", script)]


def spent_on(program: str, script: str, *marks: int, words: Iterable[str] = ()) -> float:
    """The same in a program of its own, with one worker and these options."""
    with started(program, "--workers", "1", *words) as session:
        return settled(session, script, marks)


def of_three_states(script: str) -> str:
    """A script under the same rule that has a third state, for which no small squares are looked up."""
    return script.replace("n_states:2", "n_states:3")


def results_of_any_length_are_kept(program: str) -> None:
    """A leap of 1,023 generations of blinkers in a grid costs about as much as one of 1,024, though its parts have
    other lengths at each level. Where these aren't recalled, each of a million blinkers is computed by itself.
    """
    script = f"{TABLE}start mc\n{grid(13)}end\n"
    odd, even = spent_on(program, script, 1023), spent_on(program, script, 1024)
    need(odd < 5 * even, f"1,023 generations take {odd:.2f} s, and 1,024 take {even:.2f} s")


def grid(level: int) -> str:
    """A blinker in each 8 by 8 cells of a square of a level, as macrocell text."""
    nodes = [f"{it} {it - 3} {it - 3} {it - 3} {it - 3}\n" for it in range(4, level + 1)]
    return "[M2]\n$$$..***$$$$$\n" + "".join(nodes)


def the_next_way_begins_as_far(program: str) -> None:
    """Of a glider each way of 2^45 generations is one leap, but for the first one, so that 400 cost little more."""
    script = TABLE + "set 1 0 1 2 1 1 0 2 1 1 2 1 2 2 1\n"
    far = spent_on(program, script, *(it << 45 for it in range(1, 401)))
    near = spent_on(program, script, *range(1, 401))
    need(far < 10 * near, f"400 ways of 2^45 generations take {far:.2f} s, and of one generation {near:.2f} s")


def squares_are_given_up(program: str) -> None:
    """A soup in which little repeats is followed in a small table: 4,096 generations take 16 MB, and where all squares
    are kept 43. With one worker a run takes the same memory each time.
    """
    with started(program, "--workers", "1") as session:
        settled(session, of_three_states(start(soup(256))), [4096])
        memory = peak_of(session.process.pid)
    need(memory < 28 * MB, f"it took {memory // MB} MB")


def two_million_squares_have_room(program: str) -> None:
    """A leap of a large soup makes more than 1,048,576 squares, which no cause 70 or 71 is to refuse."""
    rows = soup(2048)
    with started(program, "--workers", "1") as session:
        settled(session, of_three_states(start(rows)), [8])
        for _ in range(8):
            rows = later(rows)
        session.expect_text(1, b"1 %d\n" % population(rows))


def small_squares_are_looked_up(program: str) -> None:
    """A soup takes a quarter of the time where an engine may hold so many squares that it has the small ones too."""
    script = start(soup(512))
    few, enough = (spent_on(program, script, 256, words=("--squares", it)) for it in ("262143", "262144"))
    need(enough < 0.6 * few, f"with small squares it takes {enough:.2f} s, and without {few:.2f} s")


def an_engine_is_given_up(program: str) -> None:
    """After 4,096 jobs a worker begins with another engine, whose arena is empty. So a step that was cheap by the
    squares that were kept takes as long as at first.
    """
    with started(program, "--workers", "1", "--facts", "1") as session:
        first = settled(session, RULE_30.decode() + "\nset 0 0 1", [LONG])
        costs = []
        for generation in (LONG - 1, LONG - 2, LONG - 3):
            if len(costs) == 2:
                session.edit(*(b"mark 0 window %d 0 1 1" % it for it in range(4095)))
                session.settle()
            session.edit(b"move 1 %d" % generation)
            before = session.spent()
            session.settle()
            costs.append(session.spent() - before)
    need(costs[1] < first / 3, f"steps by a kept engine took {costs} s, and the first {first:.2f} s")
    need(costs[2] > first / 3, f"a step after 4,096 jobs took {costs[2]:.2f} s, and the first {first:.2f} s")


def one_worker_makes_a_chain(program: str) -> None:
    """Steps that go on from one another are one worker's, also after views that all workers were called for, and where
    the answers are polled for. Each other worker would make the squares anew, or look for jobs in vain.
    """
    with started(program, "--workers", "4") as session:
        session.edit(*_commands(start(soup(512))), *(b"mark 0 window %d 0 1 1" % it for it in range(60)))
        session.settle()
        session.edit(*(b"mark %d window 0 0 1 1" % (4 * it) for it in range(1, 61)))
        settling = shares(session, session.settle)
        session.edit(b"set 0 0 1 1 0 1 2 0 1")
        polling = shares(session, lambda: poll_all(session))
    for shared in settling, polling:
        need(max(shared) > 0.75 * sum(shared), f"the workers took {settling} ticks, and where it is polled {polling}")


def shares(session: Session, act: Callable[[], None]) -> List[int]:
    """How many ticks of the processor each worker takes for something."""
    before = session.ticks()
    act()
    return [ticks - before[name] for name, ticks in session.ticks().items()]


def poll_all(session: Session) -> None:
    """Polls until all bookmarks are current."""
    session.work()
    session.tell(b"poll\n")
    while session.line() != b"polled 0":
        time.sleep(0.0005)
        session.tell(b"poll\n")


def a_settling_that_is_shown_costs_as_much(program: str) -> None:
    """A document that is copied twice a second at most, whatever comes meanwhile. It has 80,000 cells to be copied, and
    4,096 steps.
    """
    cells = " ".join(f"{it} 0 1" for it in range(10000))
    script = TABLE + "set 0 0 1 1 0 1 0 1 1 1 1 1\n"
    hidden, shown = (spent_with(program, script, cells, *words) for words in ((), ("--progress",)))
    need(shown < 4 * hidden, f"it takes {shown:.2f} s where progress is shown, and else {hidden:.2f} s")


def spent_with(program: str, script: str, cells: str, *words: str) -> float:
    """What 4,096 bookmarks cost in a document with eight interventions that never act, of these cells."""
    with started(program, "--workers", "1", *words) as session:
        session.edit(*(f"at {1 << 40} set {cells}".encode() for _ in range(8)))
        return settled(session, script, range(4096))


def marks_cost_what_they_are(program: str) -> None:
    """An edit of many interventions and many bookmarks costs about as much as one of either alone."""
    both, either = moved(program, 1000, 1000), moved(program, 1000, 20) + moved(program, 20, 1000)
    need(both < 4 * either, f"edits of both take {both:.2f} s, and of either {either:.2f} s")


def moved(program: str, interventions: int, bookmarks: int) -> float:
    """What it costs to move a bookmark a thousand times, among so many, where nothing is computed."""
    with started(program, "--workers", "1") as session:
        session.edit(*(b"at 1 set %d 0 1" % it for it in range(interventions)),
                     *(b"mark %d counts" % it for it in range(bookmarks)))
        before = session.spent()
        session.edit(*(b"move 1 %d" % it for it in range(1000)))
        return max(session.spent() - before, LEAST_SECONDS)


def peak_of(process: int) -> int:
    """The most bytes of memory that a process has taken."""
    [found] = re.findall(r"^VmHWM:\s+(\d+) kB$", Path(f"/proc/{process}/status").read_text(), re.M)
    return int(found) << 10


CASES = [results_of_any_length_are_kept, the_next_way_begins_as_far, squares_are_given_up,
         two_million_squares_have_room, small_squares_are_looked_up, an_engine_is_given_up, one_worker_makes_a_chain,
         a_settling_that_is_shown_costs_as_much, marks_cost_what_they_are]


def fault_of(case: Callable[[str], None], program: str) -> str:
    """What a case finds wrong each time that it is tried, or nothing."""
    found = ""
    for _ in range(TRIES):
        try:
            case(program)
            return ""
        except (Wrong, OSError) as wrong:
            found = str(wrong)
    return found


def main() -> int:
    program = str(Path(sys.argv[1] if len(sys.argv) > 1 else ROOT / "crates/desk/out/desk").resolve())
    passed = 0
    for case in CASES:
        name, fault = case.__name__.replace("_", " "), fault_of(case, program)
        print(f"{name}: FAILED, {fault}" if fault else f"{name}: passed", flush=True)
        passed += not fault
    print(f"speed: {passed} passed, {len(CASES) - passed} failed")
    return 0 if passed == len(CASES) else 1


if __name__ == "__main__":
    sys.exit(main())
