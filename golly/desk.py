"""Evolves the open pattern by the desk, with interventions, and opens what comes of it as a new layer.

It runs in Golly 4 and later, which has Python 3, by File > Run Script; where Golly has no Python, `desk.lua` beside it
does the same. It takes the package `desk` of the clone that it lies in, or else the installed one. The program is found
as by every client, so the environment's DESK may name it.
"""
import os
import sys
import tempfile

import golly as g

GOAL = """\
To which generation? Now it is {}.
Type it as 1000 or 2^40, or +500 for so many more."""
CHANGES = """\
Interventions, with ; between, or nothing:
24: 9 2 0 (the cell (9, 2) gets state 0 at generation 24)
24: clear (the selected cells get state 0)
24: restore (the selected cells get the states that they have now)"""
IN_RLE = ("QuickLife", "Larger than Life")  # algorithms without macrocell texts
OLDEST = (3, 9)


def package():
    """The module desk.golly of the clone that this script lies in, or the installed one. Golly begins in its folder."""
    here = os.getcwd()
    clone = os.path.join(os.path.dirname(here), "clients", "python", "src")
    before = sys.path
    # This script is called `desk` as well, and is not what is imported.
    sys.path = [clone, *(it for it in before if it not in ("", here))]
    try:
        import desk.golly
        return desk.golly
    except ImportError as fault:
        g.exit(f"desk: there is no package `desk`: run this script from its clone, or install the package ({fault}).")
    finally:
        sys.path = before


def saved(path):
    """Saves the open pattern, as a copy in another layer, since saving forgets what can be undone."""
    keeps = g.setoption("savexrle", 1)
    g.duplicate()
    g.save(path, "rle" if g.getalgo() in IN_RLE else "mc")
    g.dellayer()
    g.setoption("savexrle", keeps)
    with open(path, "rb") as file:
        return file.read()


def opened(found, path):
    """Opens a pattern as a new layer, with the rule, the algorithm and the selection of the present one."""
    rule, algorithm, selected, name = g.getrule(), g.getalgo(), g.getselrect(), g.getname()
    with open(path, "w", encoding="latin-1") as file:
        file.write(found.text)
    g.addlayer()
    g.open(path)
    # QuickLife can't hold what is large. The rule comes second, since a macrocell text may be opened by another one.
    g.setalgo("HashLife" if found.is_macrocell and algorithm == "QuickLife" else algorithm)
    g.setrule(rule)
    g.setgen(str(found.generation))
    g.setname(f"{name} at {found.generation}")
    if selected:
        g.select(selected)
    g.fit()
    g.show(f"desk: generation {found.generation} is in the new layer")


def told(words):
    """Shows how far it is. Golly ends the script here where Escape was pressed."""
    g.show(f"desk: {words}")


def main():
    if sys.version_info < OLDEST:
        g.exit("desk: the package `desk` needs Python {}.{} or later.".format(*OLDEST))
    if g.empty():
        g.exit("desk: there is no pattern.")
    if g.numlayers() == g.maxlayers():
        g.exit("desk: there is no room for a layer; delete one.")
    module = package()
    now = g.getgen()
    goal = g.getstring(GOAL.format(now), "+1000", "desk")
    changes = g.getstring(CHANGES, "", "desk")
    with tempfile.TemporaryDirectory() as folder:
        path = os.path.join(folder, "pattern")
        selected = module.Window(*g.getselrect()) if g.getselrect() else None
        folders = [g.getdir("rules"), os.path.join(g.getdir("app"), "Rules")]
        layer = module.Layer(saved(path), g.getrule(), g.getalgo(), int(now), selected, folders)
        try:
            found = module.evolved(layer, goal, changes, told)
        except (module.Trouble, OSError) as fault:
            g.show("desk: there is no answer")
            g.note(f"desk: {fault}")
            return
        opened(found, path)


main()
