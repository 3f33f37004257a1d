"""How the cases of a sweep go out to threads, processes or other machines, and come back."""
from __future__ import annotations

import os
from concurrent.futures import FIRST_COMPLETED, CancelledError, Executor, Future, ThreadPoolExecutor, wait
from itertools import count, islice
from typing import Any, Dict, Generator, Iterable, List, Optional, Tuple

from ..errors import Malformed, Trouble
from .outcome import Outcome
from .programs import Settings, programs
from .task import Build, outcomes

# Cases go out together, as many as take about so many seconds, to threads of this process or elsewhere.
NEAR, FAR, TOGETHER = 0.05, 0.5, 256
UNKNOWN_PLACES = 64  # how many tasks are out at once where an executor doesn't tell how many it runs
_numbers = count(1)


def sweep(
    build: Build,
    cases: Iterable[Any],
    executor: Optional[Executor] = None,
    *,
    ordered: bool = False,
    jobs: Optional[int] = None,
    limit: Optional[float] = None,
    program: Optional[str] = None,
    squares: Optional[int] = None,
    workers: Optional[int] = 1,
    facts: Optional[int] = None,
) -> Generator[Outcome, None, None]:
    """The outcome of each case, as they are ready, or in the order of the cases.

    `build(desk, case)` makes the document of a case on an opening document. It gives what it read, or a Show, or a
    list, tuple or dict with Shows in it; these are computed together. A case that is refused, or runs out of time,
    squares or memory, is an Outcome with its cause. Any other exception of `build` ends the sweep, and so does `close`
    of what this gives.

    executor: any of concurrent.futures, Dask's `client.get_executor()` or MPI's pool. `build` and the cases have to
        be picklable then, unless it has threads. Without it there are threads of this process
    jobs: how many programs without an executor, else how many tasks are out at once; by default as many as there are
        processors, or twice as many as the executor has places
    limit: seconds for a case
    program, squares, workers, facts: as for Desk, of each program
    """
    number = 0 if executor else next(_numbers)
    settings = Settings(program, squares, workers, facts, limit, number)
    if jobs is not None and jobs < 1:
        raise Malformed(f"jobs is {jobs}, and has to be 1 or more")
    if executor:
        return _in_order(_swept(build, cases, executor, settings, jobs or places(executor), FAR), ordered)
    return _in_order(_threaded(build, cases, settings, jobs or processors()), ordered)


def processors() -> int:
    """How many processors this process may use."""
    return len(os.sched_getaffinity(0)) if hasattr(os, "sched_getaffinity") else os.cpu_count() or 1


def places(executor: Executor) -> int:
    """How many tasks are out at once with an executor: twice as many as it runs, as far as it tells."""
    known = getattr(executor, "_max_workers", None) or getattr(executor, "num_workers", None)
    ncores = getattr(getattr(executor, "_client", None), "ncores", None)  # Dask's
    if not known and ncores:
        known = sum(ncores().values())
    return 2 * int(known) if known else UNKNOWN_PLACES


Found = Generator[Tuple[int, Outcome], None, None]  # each outcome with the number of its case


def _threaded(build: Build, cases: Iterable[Any], settings: Settings, jobs: int) -> Found:
    """The outcomes by threads of this process, whose programs end with it."""
    executor = ThreadPoolExecutor(jobs, "sweep")
    found = _swept(build, cases, executor, settings, jobs + 1, NEAR)
    try:
        yield from found
    finally:
        found.close()
        programs().end(settings.sweep)
        executor.shutdown()


def _swept(
    build: Build, cases: Iterable[Any], executor: Executor, settings: Settings, out_at_once: int, together: float
) -> Found:
    """The outcomes as they are ready, each with the number of its case."""
    left = enumerate(cases)
    out: Dict[Future[List[Outcome]], List[Tuple[int, Any]]] = {}
    size = 1
    try:
        while True:
            while len(out) < out_at_once:
                part = list(islice(left, size))
                if not part:
                    break
                out[executor.submit(outcomes, build, [case for _, case in part], settings)] = part
            if not out:
                return
            for future in wait(out, return_when=FIRST_COMPLETED)[0]:
                part = out.pop(future)
                found = _found(future, [case for _, case in part])
                seconds = sum(it.seconds for it in found) / len(found)
                size = max(1, min(TOGETHER, 2 * size, int(together / max(seconds, 1e-4))))
                yield from zip((number for number, _ in part), found)
    finally:
        for future in out:
            future.cancel()


def _found(future: Future[List[Outcome]], cases: List[Any]) -> List[Outcome]:
    """What a task gave. Where its worker was killed again and again, that is what came of its cases."""
    try:
        return future.result()
    except CancelledError as fault:
        raise Trouble("the executor cancelled a task, so the sweep ends here") from fault
    except ModuleNotFoundError as fault:
        raise Trouble(f"a worker process lacks the module {fault.name}; for this client's, install clients/python "
                      "there or name clients/python/src in PYTHONPATH") from fault
    except Exception as fault:
        if type(fault).__name__ != "KilledWorker":  # Dask's; others run nothing more after it
            raise
        return [Outcome(it, None, "killed", "the worker process of this task was killed again and again")
                for it in cases]


def _in_order(found: Found, is_ordered: bool) -> Generator[Outcome, None, None]:
    """The outcomes alone, in the order of the numbers if that is wanted."""
    early: Dict[int, Outcome] = {}
    following = 0
    try:
        for number, outcome in found:
            if not is_ordered:
                yield outcome
                continue
            early[number] = outcome
            while following in early:
                yield early.pop(following)
                following += 1
    finally:
        found.close()
