"""Proves and builds the program and the crates below it where sources have changed, and tells on
standard error how far it is.

A crate is proved by the toolchain's `rattle` as soon as the crates below it are, from nothing and over
their statements alone, which is all that it may cite. Crates that don't stand on one another are proved
side by side, those with the longest way up to the program first. Where the rest waits for one crate,
several processes share its proofs, and the other crates give way. What was proved of the same text is kept
beside the program, in its folder `out`.
"""
import asyncio
import contextlib
import dataclasses
import os
import re
import signal
import time

import toolchain
from crates import is_fresh, list_parts
from places import KEPT, OUT, PROGRAM, PROVED, ROOT, tell
from running import alone

TARGET = "x86_64-unknown-linux-gnu"
# Lines that one processor proves in a second: the first guess of the time, and for how many lines it
# counts beside what is measured.
LINES_A_SECOND = 10
GUESSED_LINES = 4000
# More processes than this gain nothing at one crate.
MOST_JOBS = 4
# A crate whose way up to the program is shorter than this part of the longest gives way to the others,
MUCH_LESS_URGENT = 3 / 4
# by so much, as `nice` has it.
NICENESS = 10
# Bytes of memory that are reckoned for a crate, of which all that were measured took less, and for each process.
MEMORY, MORE_MEMORY = 3_000_000_000, 2_000_000_000


def processors():
    return len(os.sched_getaffinity(0))


def free_memory():
    """How many bytes of memory are free."""
    with open("/proc/meminfo", encoding="ascii") as file:
        return 1024 * int(re.search(r"MemAvailable:\s+(\d+)", file.read())[1])


class Progress:
    """What is proved of the lines that are to be proved, and how long the rest takes."""

    def __init__(self, lines):
        self.left, self.done, self.began = dict(lines), 0, time.monotonic()

    def minutes(self):
        guess = GUESSED_LINES / (LINES_A_SECOND * processors())
        speed = (GUESSED_LINES + self.done) / (guess + time.monotonic() - self.began)
        return max(1, round(sum(self.left.values()) / speed / 60))

    def end(self, name):
        """Counts a crate."""
        self.done += self.left.pop(name)


class Refused(Exception):
    """What the toolchain said of a crate that it doesn't prove."""


async def run(*words, folder=ROOT, niceness=0):
    """Runs a command of the toolchain, which ends with this program."""
    how = {"stdin": asyncio.subprocess.DEVNULL, "stdout": asyncio.subprocess.PIPE, "stderr": asyncio.subprocess.STDOUT}
    # In a session of its own it would give way to nobody: Linux shares processors among sessions first.
    process = await asyncio.create_subprocess_exec(*words, cwd=folder, preexec_fn=os.setpgrp, **how)
    try:
        with contextlib.suppress(ProcessLookupError):
            os.setpriority(os.PRIO_PROCESS, process.pid, os.nice(0) + niceness)
        said, _ = await process.communicate()
    finally:
        if process.returncode is None:
            os.killpg(process.pid, signal.SIGTERM)
            await process.wait()
    if process.returncode:
        raise Refused(said.decode(errors="replace"))


def words_for(crate, jobs):
    """The words of the toolchain's command `build` that say what a crate is and stands on."""
    kit = toolchain.folder()
    words = ["--crate-name", crate.name, crate.root_file]
    for name in crate.kit:
        words += ["--extern", f"{name}={kit}/rlibs/{name}.rlib"]
    for used in crate.uses:
        words += ["--extern", f"{used.name}={used.library}"]
    words += ["-L", f"dependency={kit}/rlibs", "-L", f"dependency={KEPT}"]
    words += ["--antt-project", f"{kit}/rattle/logic/antt-project.json", "--logic-built", f"{kit}/logic_built"]
    # It has no foreign code.
    return [*words, "--links", f"{crate.name}=", "--jobs", str(jobs)]


async def prove(crate, share, *words):
    """Proves a crate, and builds of it what these words say."""
    words = "build", *words_for(crate, share.jobs), *words
    await run(f"{toolchain.folder()}/bin/rattle", *words, folder=crate.folder, niceness=share.niceness)
    if crate.sum_now() != crate.sum:
        raise Refused(f"{crate.name} changed while it was proved\n")


async def prove_library(crate, share):
    """Proves a library, and keeps its statements."""
    os.makedirs(KEPT, exist_ok=True)
    with contextlib.suppress(FileNotFoundError):
        os.remove(f"{crate.library}.sum")
    await prove(crate, share, "--statements", "-o", crate.library)
    with open(f"{crate.library}.sum", "w", encoding="ascii") as file:
        file.write(crate.sum)


async def prove_program(crate, share):
    """Proves the program, compiles what was proved, and links it."""
    kit, made = toolchain.folder(), f"{OUT}/{PROGRAM}.o"
    os.makedirs(OUT, exist_ok=True)
    await prove(crate, share, "--toolchain", f"{kit}/toolchain", "--backend", "llvm", "-o", made)
    words = ["--target", TARGET, "--toolchain", f"{kit}/toolchain", "-o", f"{PROVED}.new", made]
    await run(f"{kit}/bin/rattle-link", *words, f"{kit}/c/libos_c.a", f"{kit}/c/liblibc_c.a")
    # A program that runs keeps its file.
    os.replace(f"{PROVED}.new", PROVED)


@dataclasses.dataclass(frozen=True)
class Share:
    """How many processes prove a crate, and by how much they give way to others."""

    jobs: int
    niceness: int = 0


def urgency(crate):
    return crate.urgency


def lanes():
    """How many crates may be proved at a time."""
    return max(1, min(processors(), free_memory() // MEMORY))


def processes():
    """How many processes the free memory holds."""
    return max(1, free_memory() // MORE_MEMORY)


def next_to_prove(waiting, running, room, most):
    """The crates that can be proved now, where so many may be under way, and what each gets of the processors.

    most: how many processes there may be in all, but for one a crate

    Those whose way up to the program is nearly as long as the longest share the processors, with two processes
    each at least. The others give way to them: they have what is left where one process reads what a crate stands
    on or writes what it states, and a second process each where a processor has nothing to do.
    """
    ready = sorted((it for it in waiting if it.below.isdisjoint(waiting | running)), key=urgency, reverse=True)
    under_way = [*running, *ready[: room - len(running)]]
    most_urgent = max(map(urgency, under_way), default=0)
    urgent = [it for it in under_way if urgency(it) > MUCH_LESS_URGENT * most_urgent]
    for crate in under_way[len(running) :]:
        held = max(1, most // len(under_way))
        if crate in urgent:
            yield crate, Share(min(room, MOST_JOBS, max(2, room // len(urgent)), held))
        else:
            yield crate, Share(min(2 if len(under_way) < room else 1, held), NICENESS)


async def prove_all(waiting, progress):
    """Proves crates, each after those below it that are among them."""
    running, tasks, room, most = set(), {}, lanes(), processes()
    try:
        while waiting or running:
            for crate, share in [*next_to_prove(waiting, running, room, most)]:
                how = prove_program if crate.name == PROGRAM else prove_library
                tasks[asyncio.create_task(how(crate, share))] = crate
                running.add(crate)
                waiting.remove(crate)
            ended, _ = await asyncio.wait(tasks, return_when=asyncio.FIRST_COMPLETED)
            for task in ended:
                await task
                crate = tasks.pop(task)
                running.remove(crate)
                progress.end(crate)
                if progress.left:
                    tell(f"{crate.name} is proved; about {progress.minutes()} min to go")
    finally:
        for task in tasks:
            task.cancel()
        await asyncio.gather(*tasks, return_exceptions=True)


async def until_told(work):
    """Waits for work, which ends where this program is told to."""
    asyncio.get_running_loop().add_signal_handler(signal.SIGTERM, asyncio.current_task().cancel)
    await work


def build(needed):
    """Proves and builds the program."""
    began, kept = time.time(), set()
    for crate in needed:
        if kept.issuperset(crate.uses) and crate.is_kept():
            kept.add(crate)
    waiting = {*needed} - kept
    progress = Progress({it: it.line_count for it in waiting})
    tell(f"{len(waiting)} crates are to be proved, which takes about {progress.minutes()} min")
    asyncio.run(until_told(prove_all(waiting, progress)))
    # It is no newer than what changed meanwhile.
    os.utime(PROVED, (began, began))


def make(needed):
    """Sees that the proved program of the present text is there, and gives its place."""
    toolchain.check()
    with alone(OUT, "the program is being proved"):
        if is_fresh(PROVED, needed):
            tell("the program of this text is proved")
        else:
            build(needed)
            tell("the program is proved, and ./desk.sh runs it from now on")
        list_parts(PROVED, needed)
    return PROVED
