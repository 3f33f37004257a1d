#!/usr/bin/env python3
"""Times documents whose bookmarks lie evenly along a long evolution, beside bgolly.

    bench/steps.py [--desk PROGRAM] [--golly FOLDER] [--only WORD] [--marks COUNT] [--runs COUNT]

A document gets so many counts bookmarks at even distances and is settled once. bgolly goes as far in
as many increments, and tells the population of each; and once more without a word, so that it counts
nothing. The last column is what it costs to settle once more after an intervention at 0.9 of the way
was changed, in the hundred of the first settling. Each number is the median of the runs, in processor
seconds of the whole process.
"""
import statistics
import sys
import tempfile

from measuring import LIFE, begun, measured, soup, text_of, words_of


def as_history(text):
    """An RLE text of two states as one of LifeHistory."""
    lines = [line for line in text.splitlines() if not line.startswith("#")]
    sizes = lines[0].partition(", rule")[0]
    cells = "\n".join(lines[1:]).replace("b", ".").replace("o", "A")
    return f"{sizes}, rule = LifeHistory\n{cells}\n"


def cases(golly):
    """Name, format, pattern, rule file and generations of each case."""
    patterns, rules = f"{golly}/Patterns", f"{golly}/Rules"
    breeder = as_history(text_of(f"{patterns}/Life/Breeders/rake-breeder.rle"))
    return [
        ("Langton's loops to 2^20", "rle", text_of(f"{patterns}/Loops/Langtons-Loops.rle"), text_of(f"{rules}/Langtons-Loops.rule"), 2**20),
        ("WireWorld primes to 2^20", "mc", text_of(f"{patterns}/WireWorld/primes.mc"), text_of(f"{rules}/WireWorld.rule"), 2**20),
        ("LifeHistory breeder to 2^16", "rle", breeder, text_of(f"{rules}/LifeHistory.rule"), 2**16),
        ("Evoloop to 2^13", "rle", text_of(f"{patterns}/Loops/Evoloop.rle"), text_of(f"{rules}/Evoloop.rule"), 2**13),
        ("a soup of 512 by 512 to 2^10", "rle", soup(512), LIFE, 2**10),
    ]


def script(form, pattern, rule, generations, marks, is_changed):
    """A document with its marks and an intervention, settled, and once more after a change."""
    at = generations * 9 // 10
    lines = [f"at {at} set 1000 1000 1"]
    lines += [f"mark {generations * k // marks} counts" for k in range(1, marks + 1)]
    lines.append("settle")
    if is_changed:
        lines += [f"change 1 {at} set 1001 1000 1", "settle"]
    return begun(rule, pattern, form) + "\n".join([*lines, "quit"]) + "\n"


def seconds_of(desk, text, settlings):
    seconds, peak, said = measured(desk, text)
    if said.split().count("settled") != settlings:
        print(said[-300:], file=sys.stderr)
    return seconds, peak


def main():
    words = words_of(__doc__, golly=True, runs=3)
    words.add_argument("--only", default="")
    words.add_argument("--marks", type=int, default=64)
    given = words.parse_args()
    desk = [given.desk]
    print(f"| pattern, {given.marks} marks | desk s | bgolly s | ratio | without a word s | ratio | desk MB | bgolly MB | changed, in the hundred |")
    print("|---|---|---|---|---|---|---|---|---|")
    with tempfile.TemporaryDirectory() as room:
        for name, form, pattern, rule, generations in cases(given.golly):
            if given.only not in name:
                continue
            for path, text in ((f"{room}/{rule.split()[1]}.rule", rule), (f"{room}/pattern.{form}", pattern)):
                with open(path, "w", encoding="utf-8") as file:
                    file.write(text)
            going = ["-m", str(generations), "-i", str(generations // given.marks), f"{room}/pattern.{form}"]
            golly = ["bgolly", "-a", "RuleLoader", "-s", f"{room}/"]
            rows = []
            for _ in range(given.runs):
                mine, peak = seconds_of(desk, script(form, pattern, rule, generations, given.marks, False), 1)
                both, _ = seconds_of(desk, script(form, pattern, rule, generations, given.marks, True), 2)
                theirs, their_peak, _ = measured([*golly, *going])
                silent, _, _ = measured([*golly, "-q", "-q", *going])
                rows.append((mine, theirs, mine / theirs, silent, mine / silent, peak, their_peak, (both - mine) / mine * 100))
            mine, theirs, ratio, silent, to_silent, peak, their_peak, changed = map(statistics.median, zip(*rows))
            print(f"| {name} | {mine:.2f} | {theirs:.2f} | {ratio:.2f} | {silent:.2f} | {to_silent:.2f} | {peak:.0f} | {their_peak:.0f} | {changed:.0f} |", flush=True)
    return 0


if __name__ == "__main__":
    sys.exit(main())
