"""A running program with its document, whose commands are methods.

    from desk import Desk, Window

    with Desk() as desk:
        desk.rule("examples/wire.rule")
        desk.start("examples/wire.rle")
        print(desk.show(desk.mark(1000, Window(-1, 0, 5, 1))))
"""
from __future__ import annotations

import os
import re
import warnings
from threading import RLock
from typing import TYPE_CHECKING, Any, Callable, Dict, Iterable, List, Literal, Optional, Union, overload

from .accepted import Accepted, Line, edits_of
from .arrays import Cells, States, pattern_of, placed
from .colors import colors_of
from .errors import BoardWarning, Malformed, Pending, Refused, RuleNameWarning, TimedOut, Trouble
from .exchange import Exchange
from .formats.files import text_of
from .formats.header import rule_named_by
from .formats.mcell import is_mcell, wraps
from .listing import Listing, listing_of
from .notebook.curve import Curve, curve_of
from .notebook.difference import Difference, difference_of
from .notebook.picture import Picture, picture_of
from .notebook.progress import Watch, watched
from .notebook.tables import desk_table
from .opening import Keep, Opening
from .polling import polled_until
from .program import command_line
from .refusals import brief, refusal
from .results import BookmarkId, Counts, Polling, Rows, Settling, Shown, Shows, array_of, need_numpy, shown_by
from .rules.found import rule_named
from .rules.names import counting
from .rules.names import is_same
from .sources import Sources
from .transport import Command, Reply, Taken, Transport, nothing_kept
from .words import View, Window, branch_words, cell_words, checked_view, natural, view_of, view_words

if TYPE_CHECKING:
    from numpy.typing import NDArray


class Desk:
    """A running program with its document: a rule, a start, interventions, bookmarks and branches.

    It ends with the `with` block, or by `close`. A call waits for its reply. Where one raises Refused
    nothing is changed, and the desk can be used on.

    A call that is broken off, as by Ctrl-C, is done all the same if its command was sent; `revision` tells of
    an edit. The next call waits until it is done, which takes long only for a large text, and `close` doesn't wait.
    """

    def __init__(
        self,
        program: Optional[str] = None,
        squares: Optional[int] = None,
        workers: Optional[int] = None,
        facts: Optional[int] = None,
        *,
        transport: Optional[Transport] = None,
        polls: bool = True,
    ) -> None:
        """Starts the program: the one named, or the environment's DESK, or the one that is built or installed here.

        squares: how many squares the engine of a worker may hold, 64 to 16,777,216, each of about 48 bytes
        workers: how many threads compute, 1 to 8
        facts: how many results of steps are kept beyond those that the document needs, 1 to 4,096
        transport: what commands go to in place of a program that is started here. Its document has to be the opening
            one, with no rule, start, interventions, bookmarks and branches
        polls: whether `settle` and `show` ask again and again for what they wait for, so that the desk can be used on
            at once where they are broken off. Without it they wait for one reply, which comes a little sooner; that
            counts for thousands of short computations

        Malformed: the program refuses one of the options, or they are given beside a transport.
        Ended: the program ended at once. Trouble: there is none, or it can't be started.
        """
        if transport is None:
            words = command_line(program, squares=squares, workers=workers, facts=facts)
            transport = Exchange.begun(words)
        elif (program, squares, workers, facts) != (None, None, None, None):
            raise Malformed("a transport has its program already, which takes no other options")
        self._transport = transport
        self._polls = polls
        self._views: Dict[int, View] = {}
        self._revision = 0
        self._accepted = Accepted()
        self._sources = Sources()
        self._opening = Opening(self._accepted)
        self._turn = RLock()  # no command of another thread comes between those of a start

    @classmethod
    def open(
        cls,
        path: str,
        program: Optional[str] = None,
        squares: Optional[int] = None,
        workers: Optional[int] = None,
        facts: Optional[int] = None,
    ) -> Desk:
        """Starts a program and makes the document of a script, as `save` writes it.

        Commands of the script that only look are passed over. An edit that is refused ends it.
        """
        edits = list(edits_of(text_of(path), path))
        desk = cls(program, squares, workers, facts)
        try:
            for line in edits:
                desk._make(line, path)
            desk._compare_names()
        except BaseException:
            desk.close()
            raise
        return desk

    def __enter__(self) -> Desk:
        return self

    def __exit__(self, kind: object, fault: object, trace: object) -> None:
        self.close()

    def close(self) -> None:
        """Ends the program, whatever it is at. It stores nothing, so nothing is lost.

        A call after it is a Trouble; to close again does nothing.
        """
        self._transport.close()

    @property
    def process(self) -> int:
        """The number of the program's process."""
        return self._transport.process

    @property
    def revision(self) -> int:
        """The document's. Where a call was broken off, what it does is waited for."""
        with self._turn:
            self._transport.wait()
            self._restore()
            return self._revision

    @property
    def rule_line(self) -> str:
        """A line that says which rule a start brought last, and from where; empty where none did."""
        return self._opening.line

    def rule(self, rule: str) -> None:
        """Takes a rule by the path of its .rule file, or by its name, as B3/S23 or WireWorld.

        NoRule: it can't be had by this name. Trouble: the file can't be read.
        """
        found = rule_named("", None, os.fspath(rule))
        self._edit("rule", found.text, found.path or found.name)
        self._compare_names()

    def rule_text(self, text: Union[str, bytes], name: str = "the rule's text") -> None:
        """Takes the rule of the text of a .rule file. Refusals call it by the name that is given."""
        self._edit("rule", text.encode() if isinstance(text, str) else text, name)
        self._compare_names()

    def lifelike(self, name: str) -> None:
        """Takes a Life-like rule by its name, as B3/S23 or 23/3, or B2/S345/C4 or 345/2/4 for one of Generations.

        A name with letters, as B2-a/S12 or B2/S3c4, is of an isotropic rule, as in Golly.
        """
        self._edit("rule", counting(name).encode(), name)
        self._compare_names()

    def start(self, pattern: Union[str, States], x: int = 0, y: int = 0, rule: Optional[str] = None) -> int:
        """Takes the pattern of an RLE, macrocell, MCell or Life file, and gives the generation that it names.

        The desk counts generations from 0 all the same. Where no rule was given before, the start brings the one that
        the pattern names; `rule_line` says which that is. If it names none, the rule stays that an earlier start
        brought, or it is Life, as in Golly. Rule and start are taken as one: if one is refused both stay as they were.

        The pattern may also be rows of states, as an array of numpy or as lists; then (x, y) is its left and top cell.

        rule: the path or the name of a rule, which the start brings in any case
        NoRule: the rule can't be had. Trouble: a file can't be read.
        """
        if isinstance(pattern, str):
            return self._take_start(text_of(pattern), pattern, pattern, rule)
        return self._take_start(pattern_of(pattern, x, y), "an array", None, rule)

    def start_text(
        self, text: Union[str, bytes], name: str = "the pattern's text", rule: Optional[str] = None
    ) -> int:
        """Takes the pattern of a text, as `start` that of a file. Refusals call it by the name that is given."""
        return self._take_start(text.encode() if isinstance(text, str) else text, name, None, rule)

    def set(self, cells: Cells, x: Optional[int] = None, y: Optional[int] = None) -> None:
        """Sets cells of the start: each is an (x, y, state), and the last mention of one wins.

        Here and in `at`, `every`, `change` and `repeat` the cells may also be rows of states, as an array of numpy or
        as lists. Then x and y are given too: (x, y) is the left and top cell, and each cell of the rows is set.
        """
        self._edit(f"set {cell_words(placed(cells, x, y).cells)}")

    def at(
        self,
        generation: int,
        cells: Cells,
        x: Optional[int] = None,
        y: Optional[int] = None,
        on: Optional[int] = None,
    ) -> int:
        """Adds an intervention, which sets cells at a generation of the branch `on`, and gives its id.

        at(5, cells, 2) is at(5, cells, on=2); x and y are for arrays, as `set` has them.
        """
        put = placed(cells, x, y, on)
        when = f"{branch_words(put.on)}at {natural(generation, 'the generation')}"
        return int(self._edit(f"{when} set {cell_words(put.cells)}")[3])

    def every(
        self,
        distance: int,
        first: int,
        last: int,
        cells: Cells,
        x: Optional[int] = None,
        y: Optional[int] = None,
        on: Optional[int] = None,
    ) -> int:
        """Adds an intervention that sets cells again and again, and gives its id.

        It acts at the generation `first` of the branch `on`, and at each that is `distance` after one
        at which it acts, up to `last`. The other arguments are those of `at`.
        """
        put = placed(cells, x, y, on)
        when = f"{branch_words(put.on)}{_every_words(distance, first, last)}"
        return int(self._edit(f"{when} set {cell_words(put.cells)}")[3])

    def change(
        self, intervention: int, generation: int, cells: Cells, x: Optional[int] = None, y: Optional[int] = None
    ) -> None:
        """Lets an intervention act once, at a generation of its branch, with these cells."""
        which, when = natural(intervention, "the intervention"), natural(generation, "the generation")
        self._edit(f"change {which} {when} set {cell_words(placed(cells, x, y).cells)}")

    def repeat(
        self,
        intervention: int,
        distance: int,
        first: int,
        last: int,
        cells: Cells,
        x: Optional[int] = None,
        y: Optional[int] = None,
    ) -> None:
        """Lets an intervention act again and again, as one of `every` does, with these cells."""
        which, when = natural(intervention, "the intervention"), _every_words(distance, first, last)
        self._edit(f"change {which} {when} set {cell_words(placed(cells, x, y).cells)}")

    def drop(self, intervention: int) -> None:
        """Removes an intervention."""
        self._edit(f"drop {natural(intervention, 'the intervention')}")

    @overload
    def mark(self, generation: int, view: Literal["counts"], on: int = 0) -> BookmarkId[Counts]: ...
    @overload
    def mark(self, generation: int, view: Literal["rle", "mc"], on: int = 0) -> BookmarkId[str]: ...
    @overload
    def mark(self, generation: int, view: Window, on: int = 0) -> BookmarkId[Rows]: ...
    @overload
    def mark(self, generation: int, view: View, on: int = 0) -> BookmarkId[Shown]: ...

    def mark(self, generation: int, view: View, on: int = 0) -> BookmarkId[Shown]:
        """Adds a bookmark of the branch `on`, which shows the view after its own generation's interventions.

        Gives its id. The view is "counts", "rle", "mc" or a Window.
        """
        words, when = view_words(checked_view(view)), natural(generation, "the generation")
        return self._mark(f"{branch_words(on)}mark {when} {words}")

    def move(self, bookmark: int, generation: int) -> None:
        """Moves a bookmark to another generation of its branch."""
        self._edit(f"move {natural(bookmark, 'the bookmark')} {natural(generation, 'the generation')}")

    def unmark(self, bookmark: int) -> None:
        """Removes a bookmark."""
        self._edit(f"unmark {natural(bookmark, 'the bookmark')}")

    def branch(self, parent: int, generation: int) -> int:
        """Adds a branch, which leaves its parent at a generation, and gives its number.

        It begins with the parent's pattern after the interventions of that generation. Branch 0 is there
        from the beginning.
        """
        return int(self._edit(f"branch {natural(parent, 'the parent')} {natural(generation, 'the generation')}")[3])

    def unbranch(self, branch: int) -> None:
        """Removes a branch without interventions and bookmarks, which no other one leaves."""
        self._edit(f"unbranch {natural(branch, 'the branch')}")

    def work(self) -> None:
        """Lets the workers begin with what is pending, and doesn't wait for them."""
        self._ask(Command("work"))

    def poll(self) -> Polling:
        """Takes what the workers have computed and lets them go on, and waits for nobody."""
        words = self._ask(Command("poll")).words
        return Polling(int(words[1]), int(words[2]) if len(words) > 2 else None)

    def settle(self, timeout: Optional[float] = None, progress: Watch = None) -> Settling:
        """Computes the texts of all bookmarks as far as memory and squares reach, and waits for them.

        It polls again and again. So where it is broken off, as by Ctrl-C, the next call is answered at once, and the
        workers go on with what is pending. So they do when a timeout, in seconds, is over.

        progress: a function that is called after each poll with how many bookmarks are pending, and how many there
            are; or True for a bar of tqdm where that is installed, or False for none. By default there is such a bar
            in IPython, as in a notebook, once it has taken a second
        """
        if not self._polls and timeout is None and progress is None:
            words = self._ask(Command("settle")).words
            return Settling(0, 0) if words == ["settled"] else Settling(int(words[1]), int(words[2]))

        ended = self._polled_until(lambda told: not told.pending, timeout, progress)
        return Settling(ended.pending, ended.cause if ended.pending else 0)

    @overload
    def show(
        self,
        bookmark: BookmarkId[Shows],
        timeout: Optional[float] = None,
        as_array: Literal[False] = False,
        progress: Watch = None,
    ) -> Shows: ...

    @overload
    def show(
        self,
        bookmark: int,
        timeout: Optional[float] = None,
        as_array: Literal[False] = False,
        progress: Watch = None,
    ) -> Shown: ...

    @overload
    def show(
        self, bookmark: int, timeout: Optional[float] = None, *, as_array: Literal[True], progress: Watch = None
    ) -> NDArray[Any]: ...

    @overload
    def show(
        self, bookmark: int, timeout: Optional[float], as_array: Literal[True], progress: Watch = None
    ) -> NDArray[Any]: ...

    def show(
        self, bookmark: int, timeout: Optional[float] = None, as_array: bool = False, progress: Watch = None
    ) -> Union[Shown, NDArray[Any]]:
        """What a bookmark shows. Where it isn't known it is computed with what else is pending, and waited for.

        Counts are a dict from each state that is there to its number of cells, a window is a list
        of rows of states, a pattern is its text. It polls, and tells its progress, as `settle` does.

        As arrays of numpy a window has a row for each of its rows, and counts have the rows (state, cells).

        Pending: it couldn't be computed. TimedOut: it wasn't within a timeout, in seconds.
        Trouble: an array is asked for where there is no numpy, or of a text.
        """
        which = self._asked_for(bookmark, as_array)
        waits = not self._polls and timeout is None
        reply = self._known(which, "show") if waits else self._polled(which, timeout, progress)
        if reply is None:
            raise Pending(f"bookmark {which} is pending")
        return self._shown(which, reply, as_array)

    @overload
    def peek(self, bookmark: BookmarkId[Shows], as_array: Literal[False] = False) -> Optional[Shows]: ...
    @overload
    def peek(self, bookmark: int, as_array: Literal[False] = False) -> Optional[Shown]: ...
    @overload
    def peek(self, bookmark: int, as_array: Literal[True]) -> Optional[NDArray[Any]]: ...

    def peek(self, bookmark: int, as_array: bool = False) -> Union[Shown, NDArray[Any], None]:
        """What a bookmark shows as `show` gives it, if that is known now, or None. Nothing is computed for it."""
        which = self._asked_for(bookmark, as_array)
        reply = self._known(which)
        return self._shown(which, reply, as_array) if reply else None

    def picture(self, bookmark: int) -> Picture:
        """A picture of what a bookmark shows, in the colors of the rule, which a notebook draws by itself.

        A window is drawn cell by cell. Of a pattern's text all live cells are in the picture, which is scaled down by a
        power of two where they take more than 1,024 cells a side. It is waited for, as `show` does.

        Malformed: the bookmark shows counts. Pending: it couldn't be computed.
        Trouble: its text says that there are too many cells.
        """
        shown = self.show(bookmark)
        return picture_of(shown, self._window(bookmark), colors_of(self._sources.rule_text))

    def difference(self, first: int, second: int) -> Difference:
        """In which cells two bookmarks differ, as a value that a notebook draws by itself.

        Both are of windows of one size, or both of patterns that take at most 1,024 cells a side together. They are
        waited for, as `show` does.

        Malformed: they aren't of that kind. Pending: one couldn't be computed.
        Trouble: a text says that there are too many cells, or the patterns are too far apart.
        """
        shown, windows = (self.show(first), self.show(second)), (self._window(first), self._window(second))
        return difference_of(shown, windows, colors_of(self._sources.rule_text))

    def curve(
        self,
        to: Union[int, Iterable[int]],
        points: int = 33,
        on: int = 0,
        progress: Watch = None,
    ) -> Curve:
        """How many cells each state has along the branch `on`, as a value that a notebook draws by itself.

        It needs matplotlib to be drawn, and is a table elsewhere. The bookmarks that are added for it are removed
        again.

        to: the last generation, or all generations that are asked for
        points: how many generations from the beginning of the branch to the last one there are, 2 or more
        progress: as for `settle`

        Pending: a generation couldn't be computed. Refused: one comes before the branch, or they are too many.
        """
        return curve_of(self, to, points, on, progress)

    def __repr__(self) -> str:
        return f"<Desk: {self._sources.rule}; {self._sources.start}>"

    def _repr_html_(self) -> Optional[str]:
        try:
            return desk_table(self._sources.rule, self._sources.start, self.list())
        except Trouble:  # it is closed
            return None

    def list(self) -> Listing:
        """The branches, interventions and bookmarks that there are, and which bookmarks are known now."""
        return listing_of(self._ask(Command("list")).text.decode("latin-1"))

    def script(self) -> bytes:
        """A script that makes the document anew, by the edits that were accepted.

        Run in a new program its bookmarks show the same. Its ids are those of this desk, unless this is one of a sweep,
        whose ids don't begin at 1. Edits that later ones made needless may lack, and then the revision is lower. Where
        a call was broken off, what it does is waited for.
        """
        found: List[bytes] = []

        def take(_reply: Optional[Reply] = None) -> None:
            found.append(self._accepted.script())

        with self._turn:
            self._restore()
            if not self._transport.wait(take):
                take()
        return found[0]

    def save(self, path: str) -> None:
        """Writes the script of the document to a file, which `open` takes. No half of one is left there."""
        script, new = self.script(), f"{os.path.realpath(path)}.new"
        try:
            with open(new, "wb") as file:
                file.write(script)
            os.replace(new, os.path.realpath(path))
        except OSError as fault:
            raise Trouble(f"{path}: {fault.strerror or fault}") from fault

    def _asked_for(self, bookmark: int, as_array: bool) -> int:
        """The id of a bookmark that is asked for, which has to be one that a command can have."""
        if as_array:
            need_numpy()
        return natural(bookmark, "the bookmark")

    def _known(self, bookmark: int, by: str = "peek") -> Optional[Reply]:
        """The reply of a bookmark if what it shows is known. By `show` it is waited for."""
        reply = self._ask(Command(f"{by} {bookmark}"))
        return None if reply.words[2] == "pending" else reply

    def _window(self, bookmark: int) -> Optional[Window]:
        """The window that a bookmark shows, if it shows one."""
        view = self._views[bookmark]
        return view if isinstance(view, Window) else None

    def _polled_until(
        self, is_over: Callable[[Polling], bool], timeout: Optional[float], progress: Watch
    ) -> Polling:
        """What the last of many polls told, after which it is over; meanwhile progress is told."""

        def poll() -> Polling:
            told = self.poll()
            tell(told.pending, self._accepted.bookmarks)
            return told

        with watched(progress) as tell:
            return polled_until(is_over, poll, timeout, self._accepted.steps)

    def _polled(self, bookmark: int, timeout: Optional[float], progress: Watch) -> Optional[Reply]:
        """The reply of a bookmark as soon as it is known, or None where it couldn't be computed."""
        reply = self._known(bookmark)

        def is_known(_told: Polling) -> bool:
            nonlocal reply
            reply = self._known(bookmark)
            return reply is not None

        if reply is None:
            ended = self._polled_until(is_known, timeout, progress)
            if reply is None and ended.cause is None:
                raise TimedOut(f"bookmark {bookmark} is pending after {timeout} s")
        return reply

    def _shown(self, bookmark: int, reply: Reply, as_array: bool) -> Union[Shown, NDArray[Any]]:
        """What the text of a bookmark says, by its view."""
        view = self._views[bookmark]
        return array_of(reply.text, view) if as_array else shown_by(reply.text, view)

    def _make(self, line: Line, path: str) -> None:
        """Makes an edit of a script. A refusal has its line there."""
        command = line.command
        try:
            if command.kind == "mark":
                self._mark(command.line)
            else:
                self._edit(command.line, command.text, path)
        except Refused as fault:
            place, said = line.number + (fault.place or 0), fault.line or brief(command.line)
            raise Refused(fault.number, fault.name, place, fault.told, path, said) from None

    def _mark(self, command: str) -> BookmarkId[Shown]:
        def keep(words: List[str]) -> None:
            said = command.split(" ")
            self._views[int(words[3])] = view_of(said[said.index("mark") + 2:])

        return BookmarkId(self._edit(command, keep=keep)[3])

    def _take_start(self, text: bytes, name: str, path: Optional[str], rule: Optional[str]) -> int:
        if is_mcell(text) and wraps(text):
            warnings.warn(f"{name}: its board wraps round, and the plane has no bounds", BoardWarning, 3)
        with self._turn:
            words = self._opening.start(text, name, path, rule, self._send_edit, self._transport.wait)
        self._compare_names(4)
        return int(words[3])

    def _compare_names(self, above: int = 3) -> None:
        rule, start = self._accepted.rule, self._accepted.start
        name = rule_named_by(rule.text or b"") if rule else ""
        named = rule_named_by(start[0].text or b"") if start else ""
        if name and named and not is_same(name, named):
            warnings.warn(f"the pattern names the rule {named}, and the rule is {name}", RuleNameWarning, above)

    def _restore(self) -> None:
        """Gives back what a start took away that failed. It has to come before each command."""
        self._opening.restore(self._send_edit, self._transport.wait)

    def _edit(
        self, command: str, text: Optional[bytes] = None, path: str = "", keep: Optional[Keep] = None
    ) -> List[str]:
        """Sends an edit, and gives the words of its reply once they are kept, if it was accepted."""
        with self._turn:
            self._restore()
            return self._send_edit(Command(command, text), path, keep)

    def _send_edit(self, edit: Command, path: str, keep: Optional[Keep]) -> List[str]:
        def taken(reply: Reply) -> None:
            if reply.words[0] == "ok":
                self._accepted.add(edit, reply.words)
                self._revision = int(reply.words[1])
                self._sources.take(edit.line, edit.text, path)
                if keep:
                    keep(reply.words)

        return self._send(edit, path, taken).words

    def _ask(self, command: Command) -> Reply:
        """Sends a command that edits nothing, and gives the reply."""
        with self._turn:
            self._restore()
            return self._send(command)

    def _send(self, command: Command, path: str = "", taken: Taken = nothing_kept) -> Reply:
        """Sends a command and the text that belongs to it, and gives the reply."""
        if command.text is not None and re.search(rb"(?m)^[ \t]*end[ \t]*\r?$", command.text):
            raise Trouble(f"{path}: a line is just `end`, and would end the text")
        reply = self._transport.ask(command, taken)
        if reply.words[0] == "refused":
            raise refusal(reply.words, command.text, path or f"`{brief(command.line)}`")
        return reply


def _every_words(distance: int, first: int, last: int) -> str:
    numbers = natural(distance, "the distance"), natural(first, "the first"), natural(last, "the last")
    return "every {} {} {}".format(*numbers)
