"""What the benches share: how a program is run and measured, and the rules and patterns that several of them take."""
import argparse
import gzip
import os
import random
import shutil
import subprocess
import sys
import tempfile
import time

HERE = os.path.dirname(os.path.realpath(__file__))
PROGRAM = f"{HERE}/../crates/desk/out/desk"
GOLLY = "/usr/share/golly"

LIFE = """@RULE LifeTable
@TABLE
n_states:2
neighborhood:Moore
symmetries:permute
var a={0,1}
var b={0,1}
var c={0,1}
var d={0,1}
var e={0,1}
var f={0,1}
var g={0,1}
var h={0,1}
0,1,1,1,0,0,0,0,0,1
1,1,1,0,0,0,0,0,0,1
1,1,1,1,0,0,0,0,0,1
1,a,b,c,d,e,f,g,h,0
"""

# The rule 30, of whose patterns little repeats.
THIRTY = """@RULE Thirty
@TABLE
n_states:2
neighborhood:oneDimensional
symmetries:none
0,1,0,1
0,0,1,1
1,1,0,0
1,1,1,0
"""


def words_of(doc, golly=False, runs=None):
    """A parser of the words that the benches take: the program, Golly's folder, how many runs there are."""
    words = argparse.ArgumentParser(description=doc, formatter_class=argparse.RawDescriptionHelpFormatter)
    words.add_argument("--desk", type=os.path.abspath, default=os.environ.get("DESK") or PROGRAM)
    if golly:
        words.add_argument("--golly", default=GOLLY)
    if runs:
        words.add_argument("--runs", type=int, default=runs)
    return words


# Linux counts the memory of who starts a program to the program's peak, so one starts it that is small itself.
STARTER = """
import os, sys
child = os.fork()
if not child:
    os.execvp(sys.argv[2], sys.argv[2:])
used = os.wait4(child, 0)[2]
os.write(int(sys.argv[1]), b"%f %d" % (used.ru_utime + used.ru_stime, used.ru_maxrss))
"""


def measured(words, given=None):
    """Processor seconds, peak in MB and output of a program that gets this text. Peaks below 5 MB can't be told."""
    if not shutil.which(words[0]):
        raise SystemExit(f"there is no program {words[0]}")
    with tempfile.TemporaryFile() as said, tempfile.TemporaryFile() as script, tempfile.TemporaryFile() as used:
        script.write((given or "").encode())
        script.seek(0)
        starter = [sys.executable, "-IS", "-c", STARTER, str(used.fileno()), *words]
        subprocess.run(starter, stdin=script, stdout=said, stderr=subprocess.DEVNULL, pass_fds=[used.fileno()], check=True)
        used.seek(0)
        seconds, peak = used.read().split()
        said.seek(0)
        return float(seconds), int(peak) / 1024, said.read().decode(errors="replace")


class Session:
    """A program to which lines are sent while it runs."""

    def __init__(self, program, **options):
        words = [word for name, value in options.items() for word in (f"--{name}", str(value))]
        self.program = subprocess.Popen([program, *words], stdin=subprocess.PIPE, stdout=subprocess.PIPE)

    def __enter__(self):
        return self

    def __exit__(self, kind, _fault, _trace):
        if kind is not None:
            self.program.kill()
        self.program.stdin.close()
        self.program.wait()

    def asked(self, text, *replies):
        """The seconds until replies came that begin so, one for each."""
        begun = time.perf_counter()
        self.program.stdin.write(text.encode())
        self.program.stdin.flush()
        for wanted in replies:
            reply = self.program.stdout.readline().decode()
            if not reply.startswith(wanted):
                raise SystemExit(f"the reply is {reply!r}, not {wanted!r}")
        return time.perf_counter() - begun

    def told(self, text):
        """All that the program writes after this text, until it ends."""
        self.program.stdin.write(text.encode())
        self.program.stdin.flush()
        return self.program.stdout.read().decode()


def text_of(path):
    """A file's text, unpacked where it is packed."""
    opened = gzip.open(path, "rt") if path.endswith(".gz") else open(path, encoding="utf-8")
    with opened as file:
        return file.read()


def taking(rule):
    """The command that takes a rule."""
    return f"rule\n{rule.rstrip()}\nend\n"


def begun(rule, pattern, form="rle"):
    """The commands that take a rule and a start."""
    return f"{taking(rule)}start {form}\n{pattern.rstrip()}\nend\n"


def soup(side, rule="LifeTable", dead="b", live="o", seed=1):
    """A square of cells of which one in three lives, in one of some states, as RLE."""
    chance = random.Random(seed)
    rows = ["".join(chance.choice(live) if chance.random() < 1 / 3 else dead for _ in range(side)) for _ in range(side)]
    return f"x = {side}, y = {side}, rule = {rule}\n" + "$\n".join(rows) + "!\n"
