"""What each refusal and each cause of a pending bookmark means, and what to do about it.

These are the tables of docs/REFUSALS.md as values, since an installed package has no documents. A test compares both.
"""
from __future__ import annotations

from typing import Dict, NamedTuple


class Meaning(NamedTuple):
    """What a number means, and what to do about it, each as part of a sentence; empty where that isn't known."""

    name: str = ""
    means: str = ""
    remedy: str = ""


REFUSALS: Dict[int, Meaning] = {
    1: Meaning(
        "NoRuleLine",
        "the first line that isn't blank is not `@RULE`, one space and a name of visible ASCII characters without `:`",
        "write `@RULE name` first",
    ),
    2: Meaning(
        "NoTable",
        "the file has neither `@TABLE` nor `@TREE`",
        "take the file that has the rule; rules that are built into Golly need a file too",
    ),
    3: Meaning(
        "MissingDescriptor",
        "`n_states`, `neighborhood` and `symmetries` don't all stand before the first `var` or transition line",
        "add what is missing; there are no defaults",
    ),
    4: Meaning(
        "BadStates",
        "`n_states` is no number from 2 to 256",
        "correct it",
    ),
    5: Meaning(
        "BadNeighborhood",
        "the neighbourhood is none of vonNeumann, Moore, hexagonal, oneDimensional",
        "correct it, capitals count; others, as Margolus, have to be emulated by one of these",
    ),
    6: Meaning(
        "BadSymmetry",
        "the neighbourhood has no such symmetry",
        "correct it, or write the lines out under `none`",
    ),
    7: Meaning(
        "BadVariable",
        "a `var` line has no name, no `=`, one brace alone, an empty set, or an unknown name in it",
        "write `var a={0,1}`",
    ),
    8: Meaning(
        "BadTransition",
        "a transition has too few or too many entries or an unknown name, or a descriptor stands a second time",
        "look at what each entry of the line is; remove what follows the last",
    ),
    9: Meaning(
        "StateTooHigh",
        "a state in a set or a transition isn't below `n_states`",
        "correct it, or raise `n_states`",
    ),
    10: Meaning(
        "FreeResult",
        "the result is a variable that is none of the line's inputs",
        "name the variable among the inputs",
    ),
    11: Meaning(
        "TooManyTransitions",
        "the table expands to more than 1,000,000 transitions",
        "bind fewer variables, or write it as `@TREE`",
    ),
    12: Meaning(
        "BadTree",
        "a line of `@TREE` isn't what has to stand there, or lines are missing",
        "make the tree anew by the tool that made it",
    ),
    13: Meaning(
        "NotQuiescent",
        "a cell of state 0 among such cells would change",
        "change the rule: an empty plane has to stay empty",
    ),
    14: Meaning(
        "TreeTooLarge",
        "a table's tree would have more than 1,000,000 nodes",
        "nothing: the table is asked in its place, so no reply tells of it",
    ),
    20: Meaning(
        "NoHeader",
        "the first line that is neither blank nor a comment doesn't begin with `x`",
        "take an RLE file; a macrocell file begins by `start mc`",
    ),
    21: Meaning(
        "BadHeader",
        "the header isn't `x = m, y = n`, with or without `, rule = name`",
        "correct it",
    ),
    22: Meaning(
        "BadRun",
        "a byte of the body is no state, no `$` and no `!`, or a prefix has no letter; comments aren't allowed there",
        "correct it, or move the comment before the header or behind the `!`",
    ),
    23: Meaning(
        "BoundedGrid",
        "the name of the pattern's rule has a `:`, which asks for a bounded grid",
        "remove it, if the unbounded plane will do",
    ),
    24: Meaning(
        "TooManyLive",
        "an RLE text has more than 16,777,216 live cells",
        "save the pattern as macrocell",
    ),
    30: Meaning(
        "NoM2",
        "the first line doesn't begin with `[M2]`",
        "take a macrocell file; an RLE file begins by `start rle`",
    ),
    31: Meaning(
        "BadRow",
        "a line is no node, no 8 by 8 square and no comment, or a state is above 255",
        "save the pattern anew",
    ),
    32: Meaning(
        "BadChild",
        "a quadrant is no earlier node of one level less",
        "save the pattern anew; the file is cut or was edited",
    ),
    33: Meaning(
        "TooDeep",
        "a node's level is above 62",
        "take a smaller pattern",
    ),
    34: Meaning(
        "Timeline",
        "the file holds a timeline (`#FRAME`)",
        "save one pattern of it",
    ),
    40: Meaning(
        "GenerationTooFar",
        "a generation is beyond 2^60 = 1152921504606846976",
        "name a nearer one",
    ),
    41: Meaning(
        "CellOutOfRange",
        "a named cell or one of a start lies outside -2^60 <= x, y < 2^60, or a window or an RLE text's cell outside "
        "-2^61 <= x, y < 2^61",
        "move it",
    ),
    42: Meaning(
        "CellStateTooHigh",
        "a state isn't below the rule's number of states; for a new rule this looks at the start and at all "
        "interventions",
        "give the rule first, then the start; for a new rule with fewer states change these first",
    ),
    43: Meaning(
        "NoSuchIntervention",
        "there is no intervention of this id, or there is none any more",
        "take an id from a reply to `at` or `every`",
    ),
    44: Meaning(
        "NoSuchBookmark",
        "there is no bookmark of this id, or there is none any more",
        "take an id from a reply to `mark`",
    ),
    45: Meaning(
        "TooManyInterventions",
        "there are 4,096 interventions, over all branches",
        "drop some, or put cells of one generation into one",
    ),
    46: Meaning(
        "TooManyBookmarks",
        "there are 4,096 bookmarks, over all branches",
        "remove some",
    ),
    47: Meaning(
        "TooManyCells",
        "one command names more than 10,000 cells",
        "use several commands, or an RLE text",
    ),
    48: Meaning(
        "BadWindow",
        "a window has no cells, or more than 65,536",
        "use several windows, or `mc`",
    ),
    49: Meaning(
        "RevisionSpent",
        "the revision is 2^64 - 1",
        "nothing: no session gets so far",
    ),
    50: Meaning(
        "NoSuchBranch",
        "there is no branch of this number, or there is none any more",
        "take a number from a reply to `branch`; 0 is always there",
    ),
    51: Meaning(
        "BeforeFork",
        "the generation is before the one at which its branch, or the parent of a new branch, leaves its own parent",
        "name a later one, or another branch",
    ),
    52: Meaning(
        "BranchInUse",
        "branch 0 can't be removed, nor one that has an intervention or a bookmark, or that another branch leaves",
        "remove these first",
    ),
    53: Meaning(
        "TooManyBranches",
        "there are 64 branches besides branch 0",
        "remove some that aren't in use",
    ),
    54: Meaning(
        "TooManyMarks",
        "interventions that repeat would act at more than 8,192 generations in all, up to the last bookmark or branch "
        "of their own branch each",
        "let them end earlier, or act less often; or take a nearer bookmark",
    ),
    55: Meaning(
        "BadRepeat",
        "an intervention would repeat at a distance of 0, or end before it begins",
        "write `every K G H` with K above 0 and G not above H",
    ),
    60: Meaning(
        "Stale",
        "an answer came for a job that the document has no use for",
        "nothing: it is part of the desk's bookkeeping, and no reply tells of it",
    ),
    70: Meaning(
        "NoMemory",
        "memory ran out for this command",
        "give a smaller text, end other programs, or begin a new session; as a cause see below",
    ),
    71: Meaning(
        "NoRoom",
        "a macrocell file has more than 16,777,216 nodes",
        "take a smaller pattern; as a cause see below",
    ),
    72: Meaning(
        "Stopped",
        "a job was told to stop",
        "only a cause, see below",
    ),
    73: Meaning(
        "NumbersSpent",
        "all 16,777,216 numbers of jobs were given",
        "only a cause, see below",
    ),
    74: Meaning(
        "NoWorker",
        "a worker's thread was refused at the start",
        "no reply, but exit status 3 and `desk: no worker`: take fewer `--workers`",
    ),
    75: Meaning(
        "NoViewer",
        "a place for a viewer of the board was refused",
        "nothing: no reply tells of it, and how far a settling is isn't shown",
    ),
    80: Meaning(
        "BadCommand",
        "the line is no command, has too few or too many words, or a word that isn't a number where one is due",
        "correct it; `help` lists the commands. Often a text ended too early, or its command was refused for a "
        "wrong word, so that its lines were taken for commands",
    ),
    81: Meaning(
        "NoEnd",
        "the text of the command in this line has no line `end`",
        "add it; where a file doesn't end its last line, an `end` appended to that line is none",
    ),
}
CAUSES: Dict[int, Meaning] = {
    0: Meaning(
        "",
        "none of these: the workers had ended, or a million turns were spent",
        "settle again; if nothing changes, begin a new session",
    ),
    70: Meaning(
        "NoMemory",
        "memory ran out in a step or a text",
        "fewer `--workers` or `--squares`; a new session, since a long one keeps the patterns of old edits; for a "
        "text, a smaller view",
    ),
    71: Meaning(
        "NoRoom",
        "a step from one mark to the next needs more squares than a worker may keep",
        "more `--squares` (each takes about 48 bytes), or marks between: a bookmark `counts` at some generations on "
        "the way makes shorter steps, of which each has all the squares to itself",
    ),
    72: Meaning(
        "Stopped",
        "a job was told to stop",
        "settle again",
    ),
    73: Meaning(
        "NumbersSpent",
        "all 16,777,216 numbers of jobs were given",
        "begin a new session",
    ),
}
