#!/usr/bin/env python3
"""Times desk beside bgolly, Golly's engine without a window, on the same rules and patterns.

    bench/bench.py [--desk PROGRAM] [--golly FOLDER] [--only WORD] [--more | --leaps | --life | --soups]
                   [--squares N] [--runs COUNT]

bgolly and its patterns come with Debian's package `golly`. The programs run in turn for each pattern, three times
unless COUNT says another number. The table has the least processor seconds of the whole process and the peak of its
memory, start-up included; behind the figure of each algorithm of Golly stands, in parentheses, which part of it desk
took. desk and RuleLoader get the rule from the same file. HashLife and QuickLife have Life built in.

    --more    other patterns of the package, and soups under other rules
    --leaps   patterns whose squares fill a table, worth running with `--squares 4194304`, the program's default, too
    --life    patterns of Life of which much repeats, beside HashLife
    --soups   random starts, of which little repeats, beside each algorithm that has the rule
"""
import math
import os
import re
import sys
import tempfile
from typing import List, NamedTuple, Tuple

from measuring import HERE, LIFE, begun, measured, soup, text_of, words_of

sys.path.insert(0, f"{HERE}/../clients/python/src")

from desk.rules.lifelike import rule_text  # noqa: E402

SQUARES = 16777216
ALGORITHMS = ("RuleLoader", "HashLife", "QuickLife")
LIFE_NAME = "B3/S23"
# Life as a tree, by a name that a file can have.
LIFE_TREE = rule_text(LIFE_NAME).replace(LIFE_NAME, "LifeTree", 1)


class Case(NamedTuple):
    """Patterns of one rule, each for a new program, how far they are followed, and by which algorithms of Golly."""

    name: str
    form: str
    patterns: List[str]
    rule: str
    generations: int
    algorithms: Tuple[str, ...] = ALGORITHMS[:1]


class Took(NamedTuple):
    """What the programs for the patterns of a case took: processor seconds in all, and the highest peak in MB."""

    seconds: float
    peak: float
    is_done: bool


# Other patterns of the package, their rules and how far they are followed.
MORE = [
    ("Loops/Evoloop.rle", "Evoloop", 2**13),
    ("Loops/SDSR-Loop.rle", "SDSR-Loop", 2**13),
    ("Loops/Tempesti-Loop.rle", "Tempesti", 2**14),
    ("Margolus/DLA.rle", "DLA-Margolus-emulated", 2**9),
    ("Margolus/TMGas_largeWithHole.rle", "TMGasMargolus_emulated", 2**9),
    ("Patersons-Worms/worm-1042015.rle", "Worm-1042015", 2**20),
    ("Patersons-Worms/worm-1525115.rle", "Worm-1525115", 2**18),
    ("Self-Rep/Banks/Banks-IV-constructor.rle.gz", "Banks-IV", 2**12),
    ("Self-Rep/Codd/golly-constructor.rle.gz", "Codd", 2**16),
    ("Self-Rep/Codd/decoder-4bit-demo.rle.gz", "Codd", 2**14),
    ("Self-Rep/Devore/Devore-rep.rle", "Devore", 2**16),
    ("Turmites/ComputerArt.rle", "Turmite_180121020081", 2**18),
    ("Turmites/LangtonsAnt_LLRR.rle", "LangtonsAnt_LLRR", 2**18),
]

# Patterns whose squares fill a table, so that the lengths of leaps count.
LEAPS = [
    ("Loops/Evoloop.rle", "Evoloop", 20000),
    ("Margolus/TMGas_largeWithHole.rle", "TMGasMargolus_emulated", 2000),
    ("Turmites/LangtonsAnt_LLRR.rle", "LangtonsAnt_LLRR", 2**20),
    ("Other-Rules/HPP-demo.rle", "HPP", 1000),
]

# Patterns of Life of which much repeats, and how far they are followed.
REPEATING = [
    ("HashLife/gotts-dots.mc", 2**40),
    ("HashLife/metapixel-galaxy.mc.gz", 2**18),
    ("HashLife/jagged.mc", 2**20),
    ("HashLife/hexadecimal.mc.gz", 2**16),
    ("HashLife/metapixel-parity64.mc.gz", 2**15),
    ("Life/Guns/golly-ticker.rle", 2**20),
    ("HashLife/catacryst.mc", 2**24),
    ("Life/Miscellaneous/twinprimes.rle", 2**18),
]


def under(form, text, name):
    """A pattern's text under the rule of this name."""
    if form == "rle":
        return re.sub(r"(?m)^(x *=.*?)(, *rule *=.*)?$", rf"\1, rule = {name}", text, count=1)
    lines = [line for line in text.splitlines() if not line.startswith("#R")]
    return "\n".join([lines[0], f"#R {name}", *lines[1:]]) + "\n"


def as_nodes(desk, text):
    """A macrocell text of two states with a node line for each square, which is all that RuleLoader reads."""
    _, _, said = measured([desk], f"start mc\n{text.rstrip()}\nend\nmark 0 mc\nshow 1\nquit\n")
    lines = said.splitlines()
    return "\n".join(lines[lines.index("[M2] (experiment desk)") : -1]) + "\n"


def first_cases(golly, desk):
    """Loops, a computer of wires, a soup, and a galaxy whose cells are patterns of Life."""
    patterns, rules = f"{golly}/Patterns", f"{golly}/Rules"
    loops = text_of(f"{patterns}/Loops/Langtons-Loops.rle")
    loops_rule = text_of(f"{rules}/Langtons-Loops.rule")
    primes = text_of(f"{patterns}/WireWorld/primes.mc")
    galaxy = as_nodes(desk, text_of(f"{patterns}/HashLife/metapixel-galaxy.mc.gz"))
    return [
        Case("Langton's loops to 2^20", "rle", [loops], loops_rule, 2**20),
        Case("Langton's loops to 2^24", "rle", [loops], loops_rule, 2**24),
        Case("WireWorld primes to 2^22", "mc", [primes], text_of(f"{rules}/WireWorld.rule"), 2**22),
        Case("a soup of 512 by 512 to 2^10", "rle", [soup(512)], LIFE, 2**10),
        Case("metapixel galaxy to 2^18", "mc", [galaxy], LIFE, 2**18),
    ]


def stem(path):
    """The name of a file without its endings."""
    return path.split("/")[-1].split(".")[0]


def of_package(golly, listed):
    """Patterns of the package under rules of the package."""
    patterns, rules = f"{golly}/Patterns", f"{golly}/Rules"
    return [
        Case(f"{stem(path)} to {generations}", "rle", [text_of(f"{patterns}/{path}")], text_of(f"{rules}/{rule}.rule"), generations)
        for path, rule, generations in listed
    ]


def soup_under(golly, side, rule, live, generations):
    """A soup of cells of all live states under a rule of the package."""
    title = re.sub(r"\B([A-Z])", r" \1", rule).replace("Brians", "Brian's")
    text = text_of(f"{golly}/Rules/{rule}.rule")
    return Case(f"a soup of {title}, {side} by {side}, to {generations}", "rle", [soup(side, rule, ".", live)], text, generations)


def more_cases(golly):
    """Other patterns of the package, and soups under other rules."""
    return [*of_package(golly, MORE), soup_under(golly, 256, "BriansBrain", "AB", 512), soup_under(golly, 256, "StarWars", "ABC", 512)]


def life_cases(golly):
    """Patterns of Life of which much repeats."""
    return [
        Case(
            f"{stem(path)} to 2^{generations.bit_length() - 1}",
            "rle" if path.endswith(".rle") else "mc",
            [text_of(f"{golly}/Patterns/{path}")],
            LIFE_TREE,
            generations,
            ("HashLife",),
        )
        for path, generations in REPEATING
    ]


def soup_cases(golly):
    """Soups: two lengths of one of Life, one of Brian's Brain, and many small ones of Life."""
    large, small = [soup(512)], [soup(32, seed=seed) for seed in range(1, 201)]
    return [
        Case("a soup of Life, 512 by 512, to 1024", "rle", large, LIFE_TREE, 1024, ALGORITHMS),
        Case("a soup of Life, 512 by 512, to 2000", "rle", large, LIFE_TREE, 2000, ALGORITHMS),
        soup_under(golly, 300, "BriansBrain", "AB", 1000),
        Case("200 soups of Life, 32 by 32, to 1000", "rle", small, LIFE_TREE, 1000, ALGORITHMS),
    ]


# What each word of the command line asks for.
KINDS = {
    "more": more_cases,
    "leaps": lambda golly: of_package(golly, LEAPS),
    "life": life_cases,
    "soups": soup_cases,
}


def cases(given):
    """The cases that were asked for."""
    if given.kind:
        found = KINDS[given.kind](given.golly)
    else:
        found = first_cases(given.golly, given.desk)
    return [case for case in found if given.only in case.name]


def desk_took(given, case):
    words = [given.desk, "--squares", str(given.squares)]
    runs = [
        measured(words, f"{begun(case.rule, pattern, case.form)}mark {case.generations} counts\nsettle\nshow 1\nquit\n")
        for pattern in case.patterns
    ]
    return took(runs, lambda said: "settled" in said.split() and "refused" not in said)


def golly_took(algorithm, case, room):
    rule = ["-s", f"{room}/"] if algorithm == "RuleLoader" else ["-r", LIFE_NAME]
    words = ["bgolly", "-a", algorithm, *rule, "-q", "-m", str(case.generations), "-i", str(case.generations)]
    runs = [measured([*words, f"{room}/{algorithm}-{number}.{case.form}"]) for number in range(len(case.patterns))]
    return took(runs, lambda said: said.endswith(f"\n{case.generations:,}\n"))


def took(runs, is_done):
    seconds, peaks, said = zip(*runs)
    return Took(sum(seconds), max(peaks), all(map(is_done, said)))


def lay_out(case, room):
    """Writes the files that bgolly reads: the rule, and each pattern under the name by which an algorithm knows it."""
    rule_name = case.rule.split()[1]
    texts = {f"{rule_name}.rule": case.rule}
    for algorithm in case.algorithms:
        name = rule_name if algorithm == "RuleLoader" else LIFE_NAME
        for number, pattern in enumerate(case.patterns):
            texts[f"{algorithm}-{number}.{case.form}"] = under(case.form, pattern, name)
    for name, text in texts.items():
        with open(os.path.join(room, name), "w", encoding="utf-8") as file:
            file.write(text)


def least(runs):
    """The least seconds and the highest peak of several runs."""
    return Took(min(it.seconds for it in runs), max(it.peak for it in runs), all(it.is_done for it in runs))


def cell(value, digits, mine=None):
    """A figure of the table, behind which stands which part of it desk took."""
    return f"{value:.{digits}f}" + (f" ({mine / value:.2f})" if mine is not None else "")


def row(case, desk, beside):
    """The line of the table: desk's figures, and those of each algorithm that ran."""
    cells = []
    for field, digits in (("seconds", 2), ("peak", 0)):
        mine = getattr(desk, field)
        cells.append(cell(mine, digits) if desk.is_done else "not computed")
        for algorithm in ALGORITHMS:
            theirs = beside.get(algorithm)
            if theirs is None:
                cells.append("-")
            elif theirs.is_done:
                cells.append(cell(getattr(theirs, field), digits, mine if desk.is_done else None))
            else:
                cells.append("not computed")
    return f"| {case.name} | {' | '.join(cells)} |"


def mean(numbers):
    """The geometric mean."""
    return math.exp(sum(map(math.log, numbers)) / len(numbers))


def main():
    words = words_of(__doc__, golly=True, runs=3)
    words.add_argument("--only", default="")
    words.add_argument("--squares", type=int, default=SQUARES)
    kind = words.add_mutually_exclusive_group()
    for name in KINDS:
        kind.add_argument(f"--{name}", dest="kind", action="store_const", const=name)
    given = words.parse_args()
    heads = [f"{program} {unit}" for unit in ("s", "MB") for program in ("desk", *ALGORITHMS)]
    print(f"| pattern | {' | '.join(heads)} |")
    print("|---" * (len(heads) + 1) + "|")
    ratios = {algorithm: [] for algorithm in ALGORITHMS}
    for case in cases(given):
        with tempfile.TemporaryDirectory() as room:
            lay_out(case, room)
            runs = [(desk_took(given, case), *(golly_took(it, case, room) for it in case.algorithms)) for _ in range(given.runs)]
        desk, *others = map(least, zip(*runs))
        beside = dict(zip(case.algorithms, others))
        print(row(case, desk, beside), flush=True)
        for algorithm, theirs in beside.items():
            if desk.is_done and theirs.is_done:
                ratios[algorithm].append((desk.seconds / theirs.seconds, desk.peak / theirs.peak))
    for algorithm, parts in ratios.items():
        if parts:
            times, peaks = map(mean, zip(*parts))
            print(f"\nGeometric means of desk's part beside {algorithm}: {times:.2f} of the time, {peaks:.2f} of the memory")
    return 0


if __name__ == "__main__":
    sys.exit(main())
