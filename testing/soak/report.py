"""The report of a soak, as a table that documents take as it is."""
from __future__ import annotations

from typing import Iterator

from .parts import PARTS
from .state import Done, State

HEAD = ("| part | how many | seeds | differences | slowest | MB at the end |", "|---|---|---|---|---|---|")


def report(state: State, own_memory: int) -> str:
    """What was done with the program, part by part."""
    lines = [f"{state.program}, {state.hours:.2f} hours", "", *HEAD]
    lines += [row(name, done) for name, done in state.parts.items()]
    lines += ["", *left_out(state), f"The soak itself takes {own_memory >> 20} MB."]
    return "\n".join(lines) + "\n"


def row(name: str, done: Done) -> str:
    part = PARTS[name]
    seeds = f"{done.first} to {done.next - 1}" if done.next > done.first else "none"
    slowest = f"{1000 * done.slowest:.0f} ms, {part.timed}" if done.runs else ""
    memory = f"{done.memory / (1 << 20):.0f}" if done.memory else ""
    return f"| {part.what} | {done.runs} {part.a_run} | {seeds} | {done.differences} | {slowest} | {memory} |"


def left_out(state: State) -> Iterator[str]:
    for name, done in state.parts.items():
        if done.lacking:
            yield f"Left out: {PARTS[name].what}, since {done.lacking}."
