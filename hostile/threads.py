#!/usr/bin/env python3
"""The threads of the built program under stress.

    hostile/threads.py [PROGRAM] [--runs 60] [--seed WORD] [--jobs 4]
    hostile/threads.py [PROGRAM] --case WORD

First come cases in which jobs wait for workers that are held: queues that are full, answers that nobody takes, steps
beside views, chains of steps that go from worker to worker, edits and ends in the middle. Then come random scripts with
1 to 8 workers, which are sent in pieces with pauses between them, while a library lets the threads stall by chance
(`stall.c`, made by `cc`), so that workers answer late and in any order. The model of model/ judges the replies.

A run whose threads all sleep for five seconds while a reply is due has lost a wake-up, and is a failure. The last line
counts the cases and the runs.
"""
from __future__ import annotations

import argparse
import concurrent.futures
import os
import socket
import sys
import time
from typing import Callable, Dict, List

from session import Session, Wrong, need, started
from stalls import ROOT, RULE, fault_of, stalling_library

# The rule 30. Little of what it makes of one cell repeats: 4,096 generations take a quarter of a second of the
# processor, twice as many four times as long, and a million minutes.
RULE_30 = (b"rule\n@RULE Thirty\n@TABLE\nn_states:2\nneighborhood:oneDimensional\nsymmetries:none\n"
           b"0,1,0,1\n0,0,1,1\n1,1,0,0\n1,1,1,0\nend")
LONG, ENDLESS = 4096, 1000000
# So many jobs a queue holds, of which steps have one and views another, and so many answers may wait.
QUEUE, ANSWERS = 16, 32
WORKERS = (1, 2, 8)
# A program that ends while workers are at steps takes some milliseconds. One of so many tries has to be quick, since
# a busy machine may put it off.
SECONDS, TRIES = 1, 5

Case = Callable[[str, int], None]  # of a program and a number of workers


# Jobs that wait

class NotHeld(Exception):
    """Workers were not held for so long as a case wants."""


def branches_to(generation: int, count: int) -> List[bytes]:
    """Edits for branches with a bookmark each, all of patterns of their own, since equal steps are computed once."""
    branches = range(1, count + 1)
    return [edit for branch in branches for edit in (
        b"branch 0 0", b"on %d at 0 set %d 0 1" % (branch, 3 * branch), b"on %d mark %d counts" % (branch, generation))]


def hold(session: Session, workers: int, generations: int) -> None:
    """Gives each worker a step of so many generations, in a branch of its own."""
    session.edit(RULE_30, b"set 0 0 1", *branches_to(generations, workers))
    session.poll_until_busy(workers)


def queues_are_full(program: str, workers: int) -> None:
    """All workers are held, longer where that was too short."""
    for generations in (LONG, 2 * LONG, 4 * LONG):
        try:
            with started(program, "--workers", str(workers)) as session:
                hold(session, workers, generations)
                fill_queues(session, workers)
            return
        except NotHeld:
            pass
    raise Wrong("they were never held for long enough")


def fill_queues(session: Session, workers: int) -> None:
    """As many steps and views as there is room for wait while the workers are held, and all of them are answered."""
    session.edit(*(b"mark 0 window %d 0 1 1" % -k for k in range(QUEUE)))
    for branch in range(workers + 1, workers + QUEUE + 1):
        session.edit(b"branch 0 0", b"on %d at 0 set %d 0 1" % (branch, -branch), b"on %d mark 3 counts" % branch)
    session.work()
    session.tell(b"poll\n")
    if session.line() != b"polled %d" % (workers + 2 * QUEUE):
        raise NotHeld
    session.settle()
    for k in range(QUEUE):
        session.expect_text(workers + 1 + k, b"0\n" if k else b"1\n")


def a_view_goes_before_steps(program: str) -> None:
    """A worker that was held takes a view that waits, and not the endless step that waits too."""
    with started(program, "--workers", "1") as session:
        hold(session, 1, 2 * LONG)
        session.edit(b"mark %d counts" % ENDLESS, b"mark 0 window 0 0 1 1")
        session.work()
        session.poll_until(lambda: session.is_known(3), "a view waits for an endless step")
        session.expect_text(3, b"1\n")


def chains_go_on(program: str, workers: int) -> None:
    """Steps of many cells go on from one another while workers are called that find nothing, anew after each edit.

    From one cell there are after t generations as many as 2 to the number of the ones among the binary digits of t.
    """
    cells, last, edits = 64, 40, 12
    with started(program, "--workers", str(workers), "--facts", "1") as session:
        session.edit(RULE, b"set" + b"".join(b" %d 0 1" % (1000 * k) for k in range(cells)),
                     *(b"mark %d counts" % generation for generation in range(1, last + 1)))
        for more in range(edits):
            session.settle()
            for generation in (1, last // 2 + more, last):
                session.expect_text(generation, b"1 %d\n" % ((cells + more) << bin(generation).count("1")))
            session.edit(b"set %d 0 1" % (-1000 * (more + 1)))


def an_engine_serves_on(program: str) -> None:
    """Steps that differ little from one before cost little, since a worker keeps its squares and their results."""
    with started(program, "--workers", "1", "--facts", "1") as session:
        session.edit(RULE_30, b"set 0 0 1", b"mark %d counts" % LONG)
        costs = []
        for generation in range(LONG, LONG - 6, -1):
            session.edit(b"move 1 %d" % generation)
            before = session.spent()
            session.settle()
            costs.append(session.spent() - before)
        need(costs[0] > 0.05, f"the first step took {costs[0]} s, which is too little to be compared")
        need(min(costs[1:]) < costs[0] / 3, f"steps of {LONG} generations and few less took {costs} s")


def let_answers_wait(session: Session) -> None:
    """More jobs are worked than answers may wait, before the first is taken."""
    session.edit(b"set 0 0 1", *(b"mark 0 window %d 0 1 1" % -k for k in range(3 * ANSWERS)))
    for _ in range(30):
        session.work()
        time.sleep(0.003)


def answers_wait(program: str, workers: int) -> None:
    with started(program, "--workers", str(workers)) as session:
        let_answers_wait(session)
        session.settle()
        for k in range(3 * ANSWERS):
            session.expect_text(k + 1, b"0\n" if k else b"1\n")


def edits_free_workers(program: str, workers: int) -> None:
    """Workers stop at endless steps that an edit has made needless, again and again."""
    with started(program, "--workers", str(workers)) as session:
        session.edit(RULE_30, b"set 0 0 1", b"mark 5 counts", *branches_to(ENDLESS, workers))
        for turn in range(3):
            session.poll_until_busy(workers)
            first = 2 + turn * workers
            session.edit(*(b"unmark %d" % bookmark for bookmark in range(first, first + workers)),
                         b"set 0 %d 1" % (turn + 1))
            session.settle()
            # Rows don't feel one another, and of a cell there are nine after five generations.
            session.expect_text(1, b"1 %d\n" % (9 * (turn + 2)))
            session.edit(*(b"on %d mark %d counts" % (branch, ENDLESS) for branch in range(1, workers + 1)))


# Ends in the middle

def endless(session: Session, workers: int) -> None:
    """Each worker is at an endless step, and more of them wait."""
    session.edit(RULE_30, b"set 0 0 1", *branches_to(ENDLESS, workers + QUEUE))
    session.poll_until_busy(workers)


def quits(session: Session) -> None:
    session.expect(b"quit", b"bye")


def input_ends(session: Session) -> None:
    session.process.stdin.close()


def input_ends_within_a_line(session: Session) -> None:
    session.tell(b"mark 3")
    session.process.stdin.close()


def reader_leaves(session: Session) -> None:
    session.process.stdout.close()
    session.tell(b"list\n")


def ends_soon(end: Callable[[Session], None], status: int) -> Case:
    def case(program: str, workers: int) -> None:
        for _ in range(TRIES):
            with started(program, "--workers", str(workers)) as session:
                endless(session, workers)
                begun = time.monotonic()
                end(session)
                session.expect_end(status)
                took = time.monotonic() - begun
            if took < SECONDS:
                return
        raise Wrong(f"it took {took:.1f} s to end")
    return case


def a_read_fails(program: str, workers: int) -> None:
    """A socket whose other end goes away with a byte unread gives what it has, and then an error."""
    ours, theirs = socket.socketpair()
    with theirs, started(program, "--workers", str(workers), stdin=theirs) as session:
        session.tell = ours.sendall
        endless(session, workers)
        theirs.send(b".")
        ours.close()
        session.expect_end(1)


def it_quits_while_answers_wait(program: str, workers: int) -> None:
    with started(program, "--workers", str(workers)) as session:
        let_answers_wait(session)
        quits(session)
        session.expect_end(0)


def each(case: Case, *numbers: int) -> Callable[[str], None]:
    """A case with each of these numbers of workers."""
    def cases(program: str) -> None:
        for workers in numbers or WORKERS:
            try:
                case(program, workers)
            except Wrong as wrong:
                raise Wrong(f"with {workers} workers: {wrong}") from wrong
    return cases


CASES: Dict[str, Callable[[str], None]] = {
    "both queues are full while workers are held": each(queues_are_full, 1, 2),
    "a view goes before an endless step": a_view_goes_before_steps,
    "chains of steps go from worker to worker": each(chains_go_on),
    "an engine serves more than one job": an_engine_serves_on,
    "more answers come than may wait": each(answers_wait),
    "edits free workers of endless steps": each(edits_free_workers),
    "`quit` with endless steps": each(ends_soon(quits, 0)),
    "the input ends with endless steps": each(ends_soon(input_ends, 0)),
    "the input ends within a line, with endless steps": each(ends_soon(input_ends_within_a_line, 0)),
    "the reader of the replies leaves, with endless steps": each(ends_soon(reader_leaves, 1)),
    "a read fails with endless steps": each(a_read_fails),
    "`quit` while answers wait": each(it_quits_while_answers_wait),
}


def main() -> int:
    words = argparse.ArgumentParser(description=__doc__, formatter_class=argparse.RawDescriptionHelpFormatter)
    words.add_argument("program", nargs="?", default=str(ROOT / "crates/desk/out/desk"))
    words.add_argument("--runs", type=int, default=60)
    words.add_argument("--seed", default="1", help="any word, such as the name of a commit")
    words.add_argument("--jobs", type=int, default=4)
    words.add_argument("--case", help="runs the cases alone whose names have this word")
    given = words.parse_args()
    program = os.path.realpath(given.program)
    passed = failed = 0
    for name, case in CASES.items():
        if given.case and given.case not in name:
            continue
        begun = time.monotonic()
        try:
            case(program)
        except (Wrong, OSError) as wrong:
            failed += 1
            print(f"{name}: FAILED, {wrong}", flush=True)
        else:
            passed += 1
            print(f"{name}: passed, {time.monotonic() - begun:.1f} s", flush=True)
    seeds = [] if given.case else [f"{given.seed}/{number}" for number in range(given.runs)]
    with stalling_library() as library, concurrent.futures.ProcessPoolExecutor(given.jobs) as pool:
        faults = pool.map(fault_of, [program] * len(seeds), seeds, [library] * len(seeds))
        for seed, fault in zip(seeds, faults):
            passed, failed = passed + (fault is None), failed + (fault is not None)
            if fault:
                print(f"{seed}: FAILED, {fault}", flush=True)
    if seeds:
        print(f"seed {given.seed}: {len(seeds)} random runs, {'with' if library else 'without'} stalls")
    print(f"threads: {passed} passed, {failed} failed")
    return 1 if failed else 0


if __name__ == "__main__":
    sys.exit(main())
