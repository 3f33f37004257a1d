"""What was asked for, as far as it is known: on standard output and in files."""
from __future__ import annotations

from typing import Any, Callable, Dict, List, Mapping, NamedTuple, Sequence

from ..client import Desk
from ..colors import Color
from ..console import say
from ..drawing import framed
from ..errors import Trouble
from ..formats.macrocell import Quadtree
from ..picture import MOST_PIXELS
from ..png import write_png
from ..standard_output import print_bytes
from ..words import View, Window
from .asked import Asked
from .output import columns, replaced, write_text
from .texts import counts_text, csv_text, drawing, rle_of, rle_text, window_text

# The text of each kind, made from what its bookmark shows.
TEXTS: Dict[str, Callable[[Any], str]] = {
    "counts": counts_text, "csv": csv_text, "rle": rle_text, "mc": str, "text": drawing, "window": window_text,
}
LEAST_PIXELS, MOST_ZOOM = 512, 16  # of the longer side of a picture, and of a cell


class Given(NamedTuple):
    """What couldn't be given: what isn't known, what is known and can't be shown, and what can't be written."""

    pending: List[str]
    unshown: List[str]
    unwritten: List[str]


def give(desk: Desk, marks: Mapping[View, int], asked: Sequence[Asked], generation: int, colors: List[Color]) -> Given:
    """Shows and writes what is known of what is asked for. What fails is said, and the others are given all the same.

    BrokenPipeError: whoever read standard output has left.
    """
    given, is_titled, between = Given([], [], []), sum(it.is_shown for it in asked) > 1, ""
    for it in asked:
        shown = desk.peek(marks[it.view])
        try:
            if shown is None:
                given.pending.append(it.name)
            elif it.kind == "png":
                draw(it.path, Quadtree(str(shown)), colors)
            elif it.path:
                write_text(it.path, TEXTS[it.kind](shown))
            else:
                text = drawing(str(shown), columns()) if it.kind == "text" else TEXTS[it.kind](shown)
                title = f"{between}{it.name} at generation {generation}\n" if is_titled else ""
                print_bytes((title + text).encode("latin-1"))
                between = "\n"
            if shown and it.kind == "text":
                box = rle_of(str(shown))
                say(f"{it.name}: {box.width} by {box.height} cells from ({box.x}, {box.y})")
        except Trouble as fault:
            given.unshown.append(it.name)
            say(f"{it.name}: {fault}")
        except BrokenPipeError:
            raise
        except OSError as fault:
            given.unwritten.append(it.name)
            say(f"{it.path or 'standard output'}: {fault.strerror or fault}")
    return given


def draw(path: str, pattern: Quadtree, colors: List[Color]) -> None:
    """Draws the bounding box as a PNG, scaled down where it is too large."""
    frame = framed(pattern.box() or Window(0, 0, 1, 1), MOST_PIXELS, MOST_PIXELS)
    zoom = max(1, min(MOST_ZOOM, LEAST_PIXELS // max(frame.w, frame.h)))
    with replaced(path) as new:
        write_png(new, pattern.drawn(frame), colors, zoom)
    scale = f", {frame.step} by {frame.step} cells a pixel" if frame.step > 1 else ""
    say(f"{path}: {frame.w} by {frame.h} from ({frame.x}, {frame.y}){scale}")
