"""How many cells each state has from one generation to another, as a value that a notebook draws by itself."""
from __future__ import annotations

from dataclasses import dataclass
from typing import TYPE_CHECKING, Any, Iterable, List, Optional, Sequence, Union

from ..errors import Malformed, Pending, Trouble
from ..plot import LACK, can_plot, plotted
from ..populations import Row, aligned, generations, states_of, table
from ..words import natural
from .picture import write
from .progress import Watch, watched
from .tables import cells_table

if TYPE_CHECKING:
    from numpy.typing import NDArray

    from ..client import Desk
    from ..results import BookmarkId, Counts

SIZE, DOTS_PER_INCH = (6.0, 3.2), 80  # of a plot in a notebook; the size is in inches


@dataclass(frozen=True, repr=False)
class Curve:
    """How many cells each state has at some generations. A notebook shows it where it is a cell's last value.

    It is drawn where there is matplotlib, and else shown as a table.

    rows: each generation, with a dict from each state that is there to its number of cells
    """

    rows: Sequence[Row]

    @property
    def generations(self) -> List[int]:
        """The generations, rising."""
        return [at for at, _ in self.rows]

    @property
    def states(self) -> List[int]:
        """The states that are ever there."""
        return states_of(self.rows)

    def cells(self, state: Optional[int] = None) -> List[int]:
        """How many cells a state has at each generation, or how many are live where none is given."""
        return [sum(counts.values()) if state is None else counts.get(state, 0) for _, counts in self.rows]

    def as_array(self) -> NDArray[Any]:
        """The table as an array of numpy: a row each generation, which has it and the cells of each of `states`.

        Trouble: there is no numpy.
        """
        try:
            import numpy
        except ImportError:
            raise Trouble("this Python has no numpy, of which the arrays are") from None
        rows = [[at, *(counts.get(it, 0) for it in self.states)] for at, counts in self.rows]
        fits = all(it < 2**63 for row in rows for it in row)
        return numpy.array(rows, numpy.int64 if fits else object).reshape(len(rows), 1 + len(self.states))

    def png(self, title: str = "") -> bytes:
        """The plot as a PNG. Trouble: there is no matplotlib."""
        if not can_plot():
            raise Trouble(f"{LACK}, which draws the plot")
        return plotted(self.rows, title, SIZE, DOTS_PER_INCH)

    def save(self, path: str, title: str = "") -> None:
        """Writes the plot as a PNG to a file. Trouble: there is no matplotlib, or the file can't be written."""
        write(path, self.png(title))

    def _repr_png_(self) -> Optional[bytes]:
        return self.png() if can_plot() else None

    def _repr_html_(self) -> Optional[str]:
        return None if can_plot() else cells_table(table(self.rows))

    def __repr__(self) -> str:
        at = self.generations
        return f"<Curve of {len(at)} generations from {at[0]} to {at[-1]}>" if at else "<Curve of no generations>"

    def __str__(self) -> str:
        return aligned(table(self.rows))


def curve_of(
    desk: Desk, to: Union[int, Iterable[int]], points: int, on: int, progress: Watch
) -> Curve:
    """The curve of a branch, by bookmarks that are removed again. See `Desk.curve`."""
    at = _generations(desk, to, points, on)
    marks: List[BookmarkId[Counts]] = []
    rows: List[Row] = []

    def told(pending: int, of: int) -> None:
        tell(len(at) - len(rows), len(at))

    try:
        with watched(progress) as tell:
            for generation in at:
                marks.append(desk.mark(generation, "counts", on))
                rows.append((generation, desk.show(marks[-1], progress=told)))
    except Pending:
        raise Pending(f"generation {at[len(rows)]} isn't computed, since memory or squares ran out; Desk(squares=..) "
                      "allows more squares, and more points make shorter steps") from None
    finally:
        for mark in marks:
            desk.unmark(mark)
    return Curve(rows)


def _generations(desk: Desk, to: Union[int, Iterable[int]], points: int, on: int) -> List[int]:
    if not isinstance(to, int) and isinstance(to, Iterable):
        return sorted({natural(it, "a generation") for it in to})
    last = natural(to, "the last generation")
    if natural(points, "points") < 2:
        raise Malformed(f"points is {points}, and has to be 2 or more")
    return generations(last, points, _first(desk, on))


def _first(desk: Desk, branch: int) -> int:
    """The generation at which a branch leaves, or 0."""
    return next((it.generation for it in desk.list().branches if it.id == branch), 0)
