"""The crates that the program is made of, and whether a program was built of their present text."""
import contextlib
import dataclasses
import functools
import hashlib
import itertools
import os

import toolchain
from places import KEPT, PROGRAM, ROOT, parts_of

PARTS = ("proofs", "specs", "src")


@dataclasses.dataclass(eq=False)
class Crate:
    """A crate, the repository's libraries that it uses, and those of the toolchain."""

    name: str
    uses: list["Crate"]
    kit: list[str]
    # How many lines are proved one after another from it up to the program.
    urgency: int = 0

    @property
    def folder(self):
        return f"{ROOT}/crates/{self.name}"

    @property
    def library(self):
        """Where it is built with its proofs, if it is a library."""
        return f"{KEPT}/{self.name}.rlib"

    @property
    def root_file(self):
        """The file that names its modules, from its folder."""
        return f"src/{'main' if self.name == PROGRAM else 'lib'}.rt"

    @functools.cached_property
    def below(self):
        """The repository's libraries below it."""
        return {it for used in self.uses for it in (used, *used.below)}

    def sources(self, parts=PARTS):
        """The folders and files of these parts of it."""
        for folder, folders, files in itertools.chain.from_iterable(os.walk(f"{self.folder}/{it}") for it in parts):
            folders.sort()
            yield folder
            yield from (f"{folder}/{it}" for it in sorted(files) if it.endswith((".rt", ".antt")))

    def texts(self, parts=PARTS):
        """The files of these parts, each by its path in the repository and its bytes."""
        return [(os.path.relpath(it, ROOT), read(it)) for it in self.sources(parts) if os.path.isfile(it)]

    @functools.cached_property
    def line_count(self):
        """How many lines of code, definitions and proofs it has."""
        return sum(text.count(b"\n") for _, text in self.texts())

    @functools.cached_property
    def sum(self):
        """What tells whether a proof of it is still one: its text, those below it, and who proves."""
        return self.sum_now()

    def sum_now(self):
        """The same of the files as they are now."""
        rattle = os.stat(f"{toolchain.folder()}/bin/rattle")
        parts = (self.kit, [it.sum for it in self.uses], self.texts(), rattle.st_size, rattle.st_mtime_ns)
        return hashlib.sha256(repr(parts).encode()).hexdigest()

    def is_kept(self):
        """Whether this text was proved before."""
        with contextlib.suppress(FileNotFoundError):
            return read(f"{self.library}.sum").decode() == self.sum and os.path.isdir(self.library)
        return False


def read(path):
    with open(path, "rb") as file:
        return file.read()


def crates():
    """The program and the repository's libraries that it needs, lowest first."""
    with open(f"{ROOT}/crates.txt", encoding="utf-8") as file:
        rows = [line.split("#")[0].partition(":") for line in file]
    named = {name.strip(): words.split() for name, _, words in rows if name.strip()}
    found = {}

    def need(name):
        if name not in found:
            uses = [need(it) for it in named[name] if it in named]
            found[name] = Crate(name, uses, ["std", *(it for it in named[name] if it not in named)])
        return found[name]

    need(PROGRAM)
    for crate in reversed(found.values()):
        above = [it.urgency for it in found.values() if crate in it.uses]
        crate.urgency = crate.line_count + max(above, default=0)
    return list(found.values())


def is_fresh(program, needed):
    """Whether a program is newer than all that it is built of."""
    if not os.path.isfile(program):
        return False
    built = os.path.getmtime(program)
    paths = itertools.chain([f"{ROOT}/crates.txt"], *(it.sources() for it in needed))
    return all(os.path.getmtime(it) < built for it in paths)


def list_parts(program, needed, parts=PARTS):
    """Writes what a program was built of beside it, from which desk.sh tells whether it is fresh."""
    paths = ["crates.txt", *(f"crates/{it.name}/{part}" for it in needed for part in parts)]
    with open(parts_of(program), "w", encoding="utf-8") as file:
        file.writelines(f"{it}\n" for it in paths if os.path.exists(f"{ROOT}/{it}"))
