"""Many experiments at once: one function makes the document of a case, and a sweep does it for thousands of cases.

    from desk import Show, Window, sweep

    def cut(desk, generation):
        desk.rule("examples/wire.rule")
        desk.start("examples/wire.rle")
        desk.at(generation, [(9, 2, 0)])
        return Show(2000, Window(-1, 0, 5, 1))

    for done in sweep(cut, range(1000)):
        print(done.case, done.value, done.why)

A case begins with the opening document, and its program is used again for the next one. As long as a case tells its
document as the one before in that program did, nothing is sent and what is known stays known: so tell what cases have
in common first, and what differs last. The module `retelling` says why that is right.
"""
from .outcome import Outcome, Show
from .schedule import sweep
from .soups import Soup

__all__ = ["Outcome", "Show", "Soup", "sweep"]
