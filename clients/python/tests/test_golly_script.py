"""Tests of the scripts for Golly, and of the module that they are made of. They run with the other tests, or alone by

    python3 -m unittest discover -s clients/python/tests -p test_golly_script.py

The script in Lua runs in Golly itself, on a display of Xvfb. Where either isn't there that is skipped. The script in
Python runs with a module that stands for Golly's, since Debian's Golly has no Python. Where the environment's GOLLY
names one that has, it runs there too.
"""
import contextlib
import os
import re
import runpy
import shutil
import subprocess
import sys
import tempfile
import time
import types
import unittest
from pathlib import Path
from unittest import mock

from desk import Malformed, Refused, Trouble, Window
from desk.golly import Change, Layer, changes_of, evolved, generation_of
from places import EXAMPLES, PROGRAM, ROOT, WITH_PACKAGE

SCRIPTS = ROOT / "golly"
GOLLY = os.environ.get("GOLLY") or shutil.which("golly") or shutil.which("golly", path="/usr/games")
GLIDER = "bo$2bo$3o!\n"
STILL = "B/S012345678"  # nothing is born, and all cells stay


def layer(pattern, rule=STILL, algorithm="QuickLife", generation=0, selection=None, folders=()):
    return Layer(pattern.encode(), rule, algorithm, generation, selection, folders)


def without_package():
    """The environment without the place of the package."""
    return {name: value for name, value in os.environ.items() if name != "PYTHONPATH"}


def quiet(words):
    """Is told how far it is, and says nothing."""


class EvolvedTest(unittest.TestCase):
    def text(self, pattern, to, changes="", **more):
        return evolved(layer(pattern, **more), to, changes, quiet, PROGRAM).text

    def test_generations_in_words(self):
        for words, now, wanted in (
            ("1000", 0, 1000), (" 1,000 ", 999, 1000), ("2^40", 0, 2**40), ("1e6", 0, 10**6), ("+5", 7, 12),
            ("+2^3", 1, 9), ("7", 7, 7),
        ):
            self.assertEqual(generation_of(words, now), wanted)
        for words, now, word in (("", 0, "is no generation"), ("-5", 0, "no generation"), ("x", 0, "no generation"),
                                 ("2^", 0, "no generation"), ("6", 7, "before the present one, which is 7")):
            with self.assertRaisesRegex(Malformed, word):
                generation_of(words, now)

    def test_interventions_in_words(self):
        found = changes_of("24: 9 -2 0 ; +1 : clear; ;2^5:restore;7:1 2 3 4 5 6", 4)
        wanted = [Change(24, [(9, -2, 0)]), Change(5, [], "clear"), Change(32, [], "restore"),
                  Change(7, [(1, 2, 3), (4, 5, 6)])]
        self.assertEqual(found, wanted)
        self.assertEqual(changes_of(" ", 0), [])
        for words in ("24", "24:", "24: 9 2", "24: 9 2 x", "24: clear 1", "clear", "3: 1 1 1"):
            with self.assertRaises(Malformed):
                changes_of(words, 4)

    def test_a_glider_is_where_golly_has_it(self):
        # In four generations it moves down and to the right by a cell.
        found = self.text(f"#CXRLE Pos=-1,-1\nx = 3, y = 3, rule = B3/S23\n{GLIDER}", "+8", rule="B3/S23")
        self.assertEqual(found, f"#CXRLE Pos=1,1 Gen=8\nx = 3, y = 3, rule = B3/S23\n{GLIDER}")
        found = self.text(f"#CXRLE Pos=-1,-1 Gen=100\nx = 3, y = 3, rule = B3/S23\n{GLIDER}", "104", rule="B3/S23",
                          generation=100)
        self.assertEqual(found, f"#CXRLE Pos=0,0 Gen=104\nx = 3, y = 3, rule = B3/S23\n{GLIDER}")

    def test_rows_of_a_macrocell_text_are_those_of_golly(self):
        # Golly has the cell at the left and top of the south-east quadrant of the root at (0, 1).
        text = "[M2] (golly 3.3)\n#R B3/S23\n*$$$$$$$\n4 0 0 0 1\n"
        found = self.text(text, "0", changes="0: 3 5 1", algorithm="HashLife")
        self.assertEqual(found, f"#CXRLE Pos=0,1 Gen=0\nx = 4, y = 5, rule = {STILL}\no4$3bo!\n")

    def test_interventions_act_where_and_when_they_are_said(self):
        start = "#CXRLE Pos=4,4\nx = 2, y = 2\n2o$2o!\n"
        square = Window(5, 4, 2, 2)
        head = f"#CXRLE Pos=4,4 Gen=9\nx = 3, y = 2, rule = {STILL}\n"
        cases = [
            ("", f"#CXRLE Pos=4,4 Gen=9\nx = 2, y = 2, rule = {STILL}\n2o$2o!\n"),
            ("3: 6 5 1", head + "2o$3o!\n"),
            ("3: 6 5 1; 4: clear", f"#CXRLE Pos=4,4 Gen=9\nx = 1, y = 2, rule = {STILL}\no$o!\n"),
            ("3: 6 5 1; 4: clear; 5: restore", f"#CXRLE Pos=4,4 Gen=9\nx = 2, y = 2, rule = {STILL}\n2o$2o!\n"),
            ("4: clear; 5: restore; 5: 6 5 1", head + "2o$3o!\n"),
            ("0: clear; 5: restore", f"#CXRLE Pos=4,4 Gen=9\nx = 2, y = 2, rule = {STILL}\n2o$2o!\n"),
        ]
        for changes, wanted in cases:
            with self.subTest(changes):
                self.assertEqual(self.text(start, "9", changes, selection=square), wanted)

    def test_large_selections_are_set_in_parts(self):
        found = self.text("#CXRLE Pos=0,0\nx = 201, y = 101\n" + "201o$" * 101 + "!", "1", "1: clear",
                          selection=Window(0, 0, 200, 101))
        head, size, *cells = found.splitlines()
        self.assertEqual((head, size), ("#CXRLE Pos=200,0 Gen=1", f"x = 1, y = 101, rule = {STILL}"))
        self.assertEqual("".join(cells), "o$" * 100 + "o!")

    def test_an_empty_answer(self):
        found = self.text("#CXRLE Pos=3,3\nx = 1, y = 1\no!", "2", rule="B3/S23")
        self.assertEqual(found, "#CXRLE Pos=0,1 Gen=2\nx = 0, y = 0, rule = B3/S23\n!\n")

    def test_what_is_too_large_or_too_far_for_rle_is_a_macrocell_text(self):
        full = "\n".join(["[M2]", "1 1 1 1 1", *(f"{it} {it - 1} {it - 1} {it - 1} {it - 1}" for it in range(2, 12))])
        for algorithm, rule in (("HashLife", "B3/S23"), ("RuleLoader", STILL)):
            found = evolved(layer(full, algorithm=algorithm), "2^20", "", quiet, PROGRAM)
            self.assertEqual(found[1:], (True, 2**20))
            wanted = [f"{it} {it - 1} {it - 1} {it - 1} {it - 1}" for it in range(2, 12)]
            self.assertEqual(found.text.splitlines()[1:], [f"#R {rule}", f"#G {2**20}", "1 1 1 1 1", *wanted])
        # A glider is far away after 2^40 generations.
        found = evolved(layer(f"#CXRLE Pos=0,0\nx = 3, y = 3\n{GLIDER}", rule="B3/S23"), "2^40", "", quiet, PROGRAM)
        self.assertTrue(found.is_macrocell)

    def test_rules_are_those_of_files_or_names(self):
        with tempfile.TemporaryDirectory() as folder:
            shutil.copy(EXAMPLES / "wire.rule", Path(folder) / "Wire.rule")
            text = self.text("#CXRLE Pos=0,0\nx = 4, y = 1\n2CBA!", "1", rule="Wire", folders=["/nowhere", folder])
        self.assertEqual(text, "#CXRLE Pos=0,0 Gen=1\nx = 4, y = 1, rule = Wire\n3CB!\n")
        with self.assertRaisesRegex(Trouble, "Larger|R5,C0"):
            self.text("x = 1, y = 1\no!", "1", rule="R5,C0,M1,S34..58,B34..45,NM")

    def test_what_cant_be_done_says_why(self):
        start = "#CXRLE Pos=0,0\nx = 1, y = 1\no!"
        with self.assertRaisesRegex(Malformed, "no cells are selected for `clear`"):
            self.text(start, "1", "1: clear")
        with self.assertRaisesRegex(Malformed, "300 by 300 cells are selected, and `restore` takes up to 65,536"):
            self.text(start, "1", "1: restore", selection=Window(0, 0, 300, 300))
        with self.assertRaisesRegex(Refused, "CellStateTooHigh"):
            self.text(start, "1", "1: 0 0 9")
        with self.assertRaisesRegex(Trouble, "no program /nowhere"):
            evolved(layer(start), "1", "", quiet, "/nowhere")

    def test_it_is_told_how_far_it_is_and_may_be_broken_off(self):
        brain = (EXAMPLES / "brain.rle").read_text(encoding="utf-8")
        told = []

        def stop(words):
            told.append(words)
            if len(told) == 3:
                raise KeyboardInterrupt

        began = time.monotonic()
        with self.assertRaises(KeyboardInterrupt):
            evolved(layer(brain, rule="/2/3"), str(2**40 + 12345), "", stop, PROGRAM)
        self.assertLess(time.monotonic() - began, 10)
        self.assertEqual(told[0], "the desk computes, 0 s (Escape breaks it off)")


class QuestionTest(unittest.TestCase):
    """The module as a program, as the script in Lua calls it."""

    def setUp(self):
        folder = tempfile.TemporaryDirectory()
        self.addCleanup(folder.cleanup)
        self.folder = Path(folder.name)
        (self.folder / "pattern").write_text(f"#CXRLE Pos=5,5\nx = 3, y = 3\n{GLIDER}", encoding="utf-8")
        self.lines = {"pattern": str(self.folder / "pattern"), "rule": "B3/S23", "algorithm": "QuickLife",
                      "generation": "10", "folder": "/nowhere", "to": "+4", "changes": "", "selection": "6 6 9 9"}

    def run_module(self, **lines):
        text = "".join(f"{word} {value}\n" for word, value in {**self.lines, **lines}.items())
        (self.folder / "question").write_text(text, encoding="utf-8")
        run = [sys.executable, "-m", "desk.golly", str(self.folder)]
        places = {**WITH_PACKAGE, "DESK": PROGRAM}
        return subprocess.run(run, env=places, cwd=self.folder, capture_output=True, text=True, timeout=50)

    def test_a_question_is_answered(self):
        run = self.run_module()
        self.assertEqual((run.returncode, run.stdout, run.stderr), (0, "rle 14\n", ""))
        text = (self.folder / "answer").read_text(encoding="utf-8")
        self.assertEqual(text, f"#CXRLE Pos=6,6 Gen=14\nx = 3, y = 3, rule = B3/S23\n{GLIDER}")
        # Of the glider that comes the selected cells are cleared, which are all but the first row and column.
        run = self.run_module(changes="+4: clear", selection="7 7 2 2")
        self.assertEqual(run.stdout, "rle 14\n")
        self.assertEqual((self.folder / "answer").read_text(encoding="utf-8").splitlines()[2], "bo2$o!")

    def test_why_there_is_no_answer(self):
        run = self.run_module(to="9")
        self.assertEqual((run.returncode, run.stdout), (2, "generation 9 lies before the present one, which is 10\n"))
        (self.folder / "stop").touch()
        run = self.run_module()
        self.assertEqual((run.returncode, run.stdout), (2, "it was broken off\n"))


class Exit(Exception):
    """Stands for what ends a script in Golly."""


class Golly(types.ModuleType):
    """Stands for the module that Golly gives to scripts: layers with texts, and answers to the questions."""

    def __init__(self, text, answers, rule="B3/S23", algorithm="QuickLife", selected=()):
        super().__init__("golly")
        self.layers = [{"text": text, "rule": rule, "algorithm": algorithm, "generation": "20", "name": "a.rle",
                        "selected": list(selected)}]
        self.answers, self.asked, self.shown, self.notes, self.options = answers, [], [], [], {"savexrle": 0}
        self.log = []

    @property
    def here(self):
        return self.layers[-1]

    def empty(self):
        return not self.here["text"]

    def numlayers(self):
        return len(self.layers)

    def maxlayers(self):
        return 10

    def getstring(self, prompt, initial, title):
        self.asked.append(prompt)
        return self.answers.pop(0)

    def getgen(self):
        return self.here["generation"]

    def getrule(self):
        return self.here["rule"]

    def getalgo(self):
        return self.here["algorithm"]

    def getname(self):
        return self.here["name"]

    def getselrect(self):
        return list(self.here["selected"])

    def getdir(self, name):
        return {"rules": "/nowhere/Rules/", "app": "/usr/share/golly/"}[name]

    def setoption(self, name, value):
        old, self.options[name] = self.options[name], value
        return old

    def duplicate(self):
        self.layers.append(dict(self.here))

    def dellayer(self):
        self.layers.pop()

    def addlayer(self):
        self.layers.append({**self.here, "text": "", "selected": [], "name": "untitled", "generation": "0"})

    def save(self, path, kind):
        self.log.append((len(self.layers), kind, self.options["savexrle"]))
        Path(path).write_text(self.here["text"], encoding="latin-1")

    def open(self, path):
        text = Path(path).read_text(encoding="latin-1")
        rule = re.search(r"(?m)^#R (.*)$|rule = (.*)$", text)
        self.here.update(text=text, rule=rule[1] or rule[2], algorithm="RuleLoader" if rule[1] else "QuickLife")

    def setalgo(self, name):
        self.here["algorithm"] = name

    def setrule(self, rule):
        self.here["rule"] = rule

    def setgen(self, generation):
        self.here["generation"] = generation

    def setname(self, name):
        self.here["name"] = name

    def select(self, rectangle):
        self.here["selected"] = rectangle

    def fit(self):
        pass

    def show(self, words):
        self.shown.append(words)

    def note(self, words):
        self.notes.append(words)

    def exit(self, words):
        raise Exit(words)


class PythonScriptTest(unittest.TestCase):
    def run_script(self, golly):
        here = os.getcwd()
        os.chdir(SCRIPTS)  # Golly begins there
        try:
            with mock.patch.dict(sys.modules, {"golly": golly}), mock.patch.dict(os.environ, {"DESK": PROGRAM}):
                runpy.run_path("desk.py")
        finally:
            os.chdir(here)
        return golly

    def test_what_comes_is_a_new_layer(self):
        start = f"#CXRLE Pos=0,0 Gen=20\nx = 3, y = 3\n{GLIDER}"
        golly = self.run_script(Golly(start, ["+8", "22: 30 30 1 30 31 1 31 30 1 31 31 1"], selected=(1, 1, 2, 2)))
        self.assertEqual(golly.notes, [])
        wanted = "bo$2bo$3o26$28b2o$28b2o!\n"
        self.assertEqual(golly.here, {
            "text": f"#CXRLE Pos=2,2 Gen=28\nx = 30, y = 30, rule = B3/S23\n{wanted}", "rule": "B3/S23",
            "algorithm": "QuickLife", "generation": "28", "name": "a.rle at 28", "selected": [1, 1, 2, 2]})
        self.assertEqual((len(golly.layers), golly.layers[0]["text"]), (2, start))
        self.assertEqual((golly.log, golly.options), ([(2, "rle", 1)], {"savexrle": 0}))
        self.assertIn("Now it is 20.", golly.asked[0])
        self.assertEqual(golly.shown[-1], "desk: generation 28 is in the new layer")

    def test_large_answers_are_macrocell_texts_under_hashlife(self):
        full = "\n".join(["[M2]", "1 1 1 1 1", *(f"{it} {it - 1} {it - 1} {it - 1} {it - 1}" for it in range(2, 12))])
        golly = self.run_script(Golly(full, ["+1", ""], STILL, "HashLife"))
        self.assertEqual(golly.notes, [])
        self.assertTrue(golly.here["text"].startswith("[M2] (experiment desk)\n#R B3/S23\n"))
        self.assertEqual((golly.here["rule"], golly.here["algorithm"]), (STILL, "HashLife"))
        self.assertEqual(golly.log, [(2, "mc", 1)])

    def test_what_is_wrong_is_said_and_opens_no_layer(self):
        start = f"#CXRLE Pos=0,0\nx = 3, y = 3\n{GLIDER}"
        golly = self.run_script(Golly(start, ["19", ""]))
        self.assertEqual(golly.notes, ["desk: generation 19 lies before the present one, which is 20"])
        self.assertEqual((len(golly.layers), golly.shown[-1]), (1, "desk: there is no answer"))
        with self.assertRaisesRegex(Exit, "there is no pattern"):
            self.run_script(Golly("", []))
        golly = Golly(start, [])
        golly.layers *= 10
        with self.assertRaisesRegex(Exit, "no room for a layer"):
            self.run_script(golly)

    def test_it_finds_the_package_and_not_itself(self):
        program = """
import pathlib, sys, types
golly = types.SimpleNamespace(empty=lambda: False, numlayers=lambda: 1, maxlayers=lambda: 10)
golly.exit = lambda words: sys.exit(words)
golly.getgen = lambda: sys.exit(sys.modules["desk.golly"].__file__)
sys.modules["golly"] = golly
exec(pathlib.Path("desk.py").read_text())
"""

        def said(folder, places):
            run = [sys.executable, "-c", program]
            done = subprocess.run(run, cwd=folder, env=places, capture_output=True, text=True, timeout=50)
            return done.stderr.strip()

        module = str(ROOT / "clients/python/src/desk/golly.py")
        without = without_package()
        self.assertEqual(os.path.realpath(said(SCRIPTS, without)), module)
        with tempfile.TemporaryDirectory() as folder:
            shutil.copy(SCRIPTS / "desk.py", folder)
            self.assertEqual(said(folder, {**without, **WITH_PACKAGE}), module)
            plain = [sys.executable, "-c", "import desk"]
            if subprocess.run(plain, cwd="/", env=without, capture_output=True).returncode:
                self.assertIn("desk: there is no package `desk`: run this script from its", said(folder, without))


@contextlib.contextmanager
def display():
    """A display of Xvfb that is free."""
    reader, writer = os.pipe()
    words = ["Xvfb", "-displayfd", str(writer), "-screen", "0", "1000x700x24", "-nolisten", "tcp"]
    with subprocess.Popen(words, pass_fds=[writer], stderr=subprocess.DEVNULL) as server:
        os.close(writer)
        try:
            with open(reader, encoding="ascii") as found:
                number = found.readline().strip()
            if not number:
                raise unittest.SkipTest("Xvfb doesn't start here")
            yield f":{number}"
        finally:
            server.terminate()


# Runs the script for each case, and compares what it opens with what Golly itself makes of the pattern.
DRIVER = """
local real, g = golly, golly()
local log = io.open("FOLDER/log", "w")
local note

local function script(answers, shows, path)
    note = nil
    golly = function()
        local it = real()
        it.getstring = function() return table.remove(answers, 1) end
        it.note = function(text) note = text end
        if shows then it.show = shows end
        return it
    end
    local went, fault = pcall(dofile, path or "SCRIPTS/desk.lua")
    golly = real
    return went and note or fault
end

local function seen()
    local box = g.getrect()
    local selected = table.concat(g.getselrect(), " ")
    local cells = #box > 0 and table.concat(g.getcells(box), " ") or "none"
    return g.getrule() .. " at " .. g.getgen() .. ", selected " .. selected .. ": " .. cells
end

local function check(name, goal, changes, evolve)
    local before, savexrle = seen(), g.getoption("savexrle")
    local said = script({ goal, changes })
    local layers, found, named = g.numlayers(), seen(), g.getname()
    local algorithm = g.getalgo()
    g.setlayer(0)
    local kept = seen() == before and g.getoption("savexrle") == savexrle
    evolve()
    local wanted = seen()
    local good = not said and layers == 2 and found == wanted and kept
    log:write(name, good and " agrees, " or " DIFFERS, ", algorithm, ", ", named, "\\n")
    if not good then log:write(tostring(said), " ", layers, " ", tostring(kept), "\\n", found, "\\n", wanted, "\\n") end
    log:flush()
    g.setlayer(1)
    g.dellayer()
end

local function pentomino(algorithm)
    g.new("r")
    g.setalgo(algorithm)
    g.setrule("B3/S23")
    g.putcells({ 1,0, 2,0, 0,1, 1,1, 1,2 }, 20, 13)
    g.run(5)
    g.select({ 18, 11, 7, 6 })
    local within = g.getcells({ 18, 11, 7, 6 })
    return function()
        g.run(10)
        g.setcell(24, 9, 1) g.setcell(25, 9, 1) g.setcell(26, 9, 1)
        g.run(10)
        g.clear(0)
        g.run(10)
        g.clear(0)
        g.putcells(within)
        g.run(34)
    end
end

g.setoption("savexrle", 0)
local changes = "+10: 24 9 1 25 9 1 26 9 1; 25: clear; 35: restore"
for _, algorithm in ipairs({ "QuickLife", "HashLife" }) do
    local evolve = pentomino(algorithm)
    check(algorithm, "+64", changes, evolve)
end

g.new("wire")
g.open("EXAMPLES/wire.rle")
g.select({ 9, 2, 1, 1 })
check("RuleLoader", "1,000", "100: clear; 120: restore", function()
    g.run(100) g.clear(0) g.run(20) g.setcell(9, 2, 3) g.run(880)
end)

g.new("brain")
g.setrule("/2/3")
g.putcells({ 0,0, 1,0, 0,1, 1,1, 5,3, 5,4 })
check("Generations", "+30", "7: 0 0 2", function() g.run(7) g.setcell(0, 0, 2) g.run(23) end)

g.new("block")
g.setrule("B/S012345678")
g.select({ -600, -500, 1100, 1000 })
g.randfill(100)
check("many cells", "+3", "2: 2000 7 1", function() g.run(2) g.setcell(2000, 7, 1) g.run(1) end)

g.new("far")
g.setrule("R5,C0,M1,S34..58,B34..45,NM")
g.setcell(0, 0, 1)
local said = script({ "+1", "" })
log:write("foreign ", g.numlayers(), " ", said, "\\n")

g.new("nothing")
log:write("empty ", tostring(script({})), "\\n")

g.new("r")
g.putcells({ 1,0, 2,0, 0,1, 1,1, 1,2 })
said = script({ "+1", "" }, nil, "FOLDER/desk.lua")
log:write("elsewhere ", tostring(said):match("^[^\\n]*"), "\\n")

g.new("brain")
g.open("EXAMPLES/brain.rle")
local shows = 0
script({ "2^40", "" }, function() shows = shows + 1 if shows == 40 then error("Escape", 0) end end)
log:write("end\\n")
log:close()
"""


# The same with the script in Python.
PYTHON_DRIVER = """
import os
import golly as g

log, notes, answers = open("FOLDER/log", "w"), [], []
os.chdir("SCRIPTS")  # Golly itself goes to a script's folder
g.getstring = lambda prompt, initial, title: answers.pop(0)
g.note = notes.append


def script(*words):
    answers[:], notes[:] = words, []
    exec(open("desk.py").read(), {})


def seen():
    box = g.getrect()
    return g.getrule(), g.getgen(), g.getselrect(), g.getcells(box) if box else []


def check(name, goal, changes, evolve):
    before, savexrle = seen(), g.getoption("savexrle")
    script(goal, changes)
    layers, found, named, algorithm = g.numlayers(), seen(), g.getname(), g.getalgo()
    g.setlayer(0)
    kept = seen() == before and g.getoption("savexrle") == savexrle
    evolve()
    good = not notes and layers == 2 and found == seen() and kept
    log.write(f"{name} {'agrees' if good else 'DIFFERS'}, {algorithm}, {named}\\n")
    if not good:
        log.write(f"{notes} {layers} {kept}\\n{found}\\n{seen()}\\n")
    log.flush()
    g.setlayer(1)
    g.dellayer()


g.setoption("savexrle", 0)
for algorithm in ("QuickLife", "HashLife"):
    g.new("r")
    g.setalgo(algorithm)
    g.setrule("B3/S23")
    g.putcells([1, 0, 2, 0, 0, 1, 1, 1, 1, 2], 20, 13)
    g.run(5)
    g.select([18, 11, 7, 6])
    within = g.getcells([18, 11, 7, 6])
    check(algorithm, "+64", "+10: 24 9 1 25 9 1; 25: clear; 35: clear; 35: restore", lambda: (
        g.run(10), g.setcell(24, 9, 1), g.setcell(25, 9, 1), g.run(10), g.clear(0), g.run(10), g.clear(0),
        g.putcells(within), g.run(34)))

g.new("wire")
g.open("EXAMPLES/wire.rle")
g.select([9, 2, 1, 1])
check("RuleLoader", "1,000", "100: clear; 120: restore", lambda: (
    g.run(100), g.clear(0), g.run(20), g.setcell(9, 2, 3), g.run(880)))

g.new("block")
g.setrule("B/S012345678")
g.select([-600, -500, 1100, 1000])
g.randfill(100)
check("many cells", "+3", "2: 2000 7 1", lambda: (g.run(2), g.setcell(2000, 7, 1), g.run(1)))

g.new("brain")
g.open("EXAMPLES/brain.rle")
script("nowhere", "")
log.write(f"{notes} {g.numlayers()}\\n")


def escape(words, shown=[]):
    shown.append(words)
    if len(shown) == 5:
        raise KeyboardInterrupt


g.show = escape
try:
    script("2^40", "")
except KeyboardInterrupt:
    log.write(f"broken off, {g.numlayers()}\\n")
log.write("end\\n")
log.close()
"""


def has_python(golly):
    """Whether a Golly runs scripts in Python, by the name of what it catches their errors with."""
    return b"StderrCatcherForGolly" in Path(golly).read_bytes()


@unittest.skipUnless(GOLLY and shutil.which("Xvfb"), "there is no golly or no Xvfb (Debian: golly, xvfb)")
class InGollyTest(unittest.TestCase):
    def setUp(self):
        folder = tempfile.TemporaryDirectory()
        self.addCleanup(folder.cleanup)
        self.folder = Path(folder.name)

    @contextlib.contextmanager
    def said(self, name, driver):
        """The lines that a script writes which Golly runs; Golly goes on meanwhile."""
        rules = self.folder / ".golly/Rules"
        rules.mkdir(parents=True)
        shutil.copy(EXAMPLES / "wire.rule", rules / "Wire.rule")
        shutil.copy(EXAMPLES / "brain.rule", rules / "Brain.rule")
        for word, path in (("FOLDER", self.folder), ("SCRIPTS", SCRIPTS), ("EXAMPLES", EXAMPLES)):
            driver = driver.replace(word, str(path))
        (self.folder / name).write_text(driver, encoding="utf-8")
        shutil.copy(SCRIPTS / "desk.lua", self.folder)
        log, until = self.folder / "log", time.monotonic() + 120
        with display() as shown:
            places = {**without_package(), "HOME": str(self.folder), "DISPLAY": shown, "DESK": PROGRAM,
                      "DESK_PYTHON": sys.executable, "TMPDIR": str(self.folder)}
            with subprocess.Popen([GOLLY, str(self.folder / name)], env=places, stdout=subprocess.DEVNULL,
                                  stderr=subprocess.DEVNULL) as golly:
                try:
                    while time.monotonic() < until and not (log.exists() and log.read_text().endswith("end\n")):
                        time.sleep(0.1)
                    yield log.read_text().splitlines() if log.exists() else []
                finally:
                    golly.kill()

    def test_the_script_in_lua_opens_what_golly_would_have_come_to(self):
        with self.said("driver.lua", DRIVER) as found:
            ended = self.broken_off()
        self.assertEqual(found[:5] + found[6:], [
            "QuickLife agrees, QuickLife, r at 69",
            "HashLife agrees, HashLife, r at 69",
            "RuleLoader agrees, RuleLoader, wire.rle at 1000",
            "Generations agrees, Generations, brain at 30",
            "many cells agrees, HashLife, block at 3",
            "empty GOLLY: ABORT SCRIPT",
            f"elsewhere {self.elsewhere()}",
            "end",
        ], found)
        self.assertRegex(found[5], "foreign 1 desk: .*R5,C0,M1,S34")
        self.assertEqual(ended, "it was broken off\n")

    def elsewhere(self):
        """What the script says that isn't in its clone."""
        run = [sys.executable, "-c", "import desk"]
        if subprocess.run(run, cwd="/", env=without_package(), capture_output=True).returncode:
            return "desk: `python3`, or what DESK_PYTHON names, can't run the package `desk`. " \
                   "Run this script from its clone, or install the package."
        return "nil"

    def broken_off(self):
        """What the module says whose script was ended."""
        until = time.monotonic() + 20
        while time.monotonic() < until:
            for stop in self.folder.glob("**/stop"):
                if (stop.parent / "ended").exists() and (stop.parent / "ended").read_text().strip():
                    return (stop.parent / "said").read_text()
            time.sleep(0.1)
        return "it goes on"

    @unittest.skipUnless(GOLLY and has_python(GOLLY), "this Golly has no Python, as Debian's; GOLLY names another one")
    def test_the_script_in_python_does_too(self):
        with self.said("driver.py", PYTHON_DRIVER) as found:
            self.assertEqual(found, [
                "QuickLife agrees, QuickLife, r at 69",
                "HashLife agrees, HashLife, r at 69",
                "RuleLoader agrees, RuleLoader, wire.rle at 1000",
                "many cells agrees, HashLife, block at 3",
                "['desk: `nowhere` is no generation; type one as 1000, 2^40, or +500 for so many more'] 1",
                "broken off, 1",
                "end",
            ])


if __name__ == "__main__":
    unittest.main()
