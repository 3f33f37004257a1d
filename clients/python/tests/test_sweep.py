"""Tests of sweeps, against the built program. They run with the other tests, or alone by

    python3 -m unittest discover -s clients/python/tests -p test_sweep.py

Those on a Dask cluster take this Python or /usr/bin/python3, whichever has Dask, and are skipped where neither has.
"""
import csv
import os
import signal
import subprocess
import sys
import tempfile
import time
import unittest
from concurrent.futures import ProcessPoolExecutor, ThreadPoolExecutor
from pathlib import Path

from desk import Desk, Malformed, Outcome, Show, Trouble, Window, sweep
from desk.sweep import programs
from desk.sweep.results_file import Results
from desk.sweep.soups import Soup, rle
from places import CLIENTS, EXAMPLES, PROGRAM, WITH_PACKAGE

WIRE = str(EXAMPLES / "wire.rule")
CLUSTER = """\
import sys
from distributed import LocalCluster
if __name__ == "__main__":
    with LocalCluster(n_workers=2, threads_per_worker=1, dashboard_address=None, silence_logs=50) as cluster:
        print(cluster.scheduler_address, *(it.pid for it in cluster.workers.values()), flush=True)
        sys.stdin.read()
"""


def has_dask(python):
    try:
        return subprocess.run([python, "-c", "import distributed"], capture_output=True, timeout=60).returncode == 0
    except OSError:
        return False


DASK_PYTHON = next(filter(has_dask, dict.fromkeys((sys.executable, "/usr/bin/python3"))), None)


def cut(desk, generation):
    """An electron on a wire that is cut at a generation."""
    desk.rule(WIRE)
    desk.start(str(EXAMPLES / "wire.rle"))
    if generation >= 0:
        desk.at(generation, [(12, 2, 0)])
    return {"counts": Show(200), "rows": [Show(generation + 3, Window(9, 1, 6, 3)), "as it is"]}


def cut_alone(generation):
    """The same by the client alone, with a program of its own."""
    with Desk(PROGRAM) as desk:
        wanted = cut(desk, generation)
        shown = [desk.show(desk.mark(*it)) for it in (wanted["counts"], wanted["rows"][0])]
    return {"counts": shown[0], "rows": [shown[1], "as it is"]}


def odd(desk, case):
    """Cases of which some fail in ways of their own."""
    desk.lifelike("B3/S23")
    side = 200 if case in ("squares", "pending") else 48
    desk.start_text(rle(Soup(1, side, side, 0.5), (1,)))
    if case == "refused":
        desk.set([(0, 0, 7)])
    elif case == "malformed":
        desk.set([])
    elif case == "killed":
        os.kill(desk.process, signal.SIGKILL)
    elif case == "long":
        desk.lifelike("B3/S12345")
        return Show(2**40 + 12345)
    elif case == "no file":
        desk.start("/nowhere/at.rle")
    elif case == "huge":
        desk.start_text("x = 9, y = 9\n" + 4_000_000 * "bo" + "!\n")
    elif case == "bug":
        return 1 // 0
    elif case == "pending":
        return desk.show(desk.mark(300, "counts"))
    return Show(300 if case == "squares" else 2)


def slow(desk, case):
    """Cases of which one is shown too late, and one is waited for by the function itself."""
    desk.lifelike("B3/S12345" if case else "B3/S23")
    desk.start_text(rle(Soup(1, 48, 48, 0.5), (1,)))
    if case == "waited for":
        desk.show(desk.mark(2**40 + 12345, "counts"))
    return {"process": desk.process, "cells": Show(2**40 + 12345 if case else 2)}


def processes_of(parent):
    """The programs that a process has started and that still run."""
    found = []
    for path in Path("/proc").glob("[0-9]*/stat"):
        try:
            name, state, above = path.read_text().rpartition(")")[0].split("(", 1)[1], *path.read_text().rpartition(
                ")")[2].split()[:2]
        except OSError:
            continue
        if int(above) == parent and state != "Z" and Path(PROGRAM).name.startswith(name):
            found.append(int(path.parent.name))
    return found


class SweepTest(unittest.TestCase):
    def run_sweep(self, build, cases, *given, **options):
        return list(sweep(build, cases, *given, program=PROGRAM, **options))

    def test_results_are_those_of_single_runs(self):
        cases = list(range(-1, 199))
        found = self.run_sweep(cut, cases, jobs=3)
        self.assertEqual(sorted(it.case for it in found), cases)
        self.assertEqual({it.cause for it in found}, {""})
        values = {it.case: it.value for it in found}
        for case in (-1, 0, 1, 7, 8, 60, 131, 198):
            self.assertEqual(values[case], cut_alone(case), case)
        self.assertGreater(len({str(it) for it in values.values()}), 3)

    def test_the_order_of_the_cases(self):
        cases = [150, 3, 99, 0, 42, 7] * 5
        found = self.run_sweep(cut, iter(cases), ordered=True, jobs=3)
        self.assertEqual([it.case for it in found], cases)
        self.assertEqual(self.run_sweep(cut, []), [])

    def test_a_case_that_fails_is_an_outcome(self):
        wanted = {
            "well": ("", ""), "refused": ("refused", "`set 0 0 7`: refused 42 CellStateTooHigh"),
            "malformed": ("malformed", "there are no cells, and a command names at least one"),
            "killed": ("ended", "the program ended with status -9"),
            "no file": ("trouble", "/nowhere/at.rle: No such file or directory"),
            "long": ("out of time", "it took longer than 1.5 s"),
        }
        cases = [word for it in wanted for word in ("well", it)]
        found = self.run_sweep(odd, cases, jobs=2, limit=1.5)
        self.assertEqual(len(found), len(cases))
        well = next(it.value for it in found if it.case == "well")
        for it in found:
            self.assertEqual((it.cause, it.why), wanted[it.case], it)
            self.assertEqual(it.value, None if it.cause else well)

    def test_a_program_serves_on_after_a_case_that_took_too_long(self):
        for case, is_kept in (("shown late", True), ("waited for", False)):
            first, late, last = self.run_sweep(slow, ["", case, ""], jobs=1, limit=0.7, ordered=True)
            self.assertEqual((late.cause, late.why), ("out of time", "it took longer than 0.7 s"))
            self.assertEqual(first.value["cells"], last.value["cells"])
            self.assertEqual(first.value["process"] == last.value["process"], is_kept, case)

    def test_too_few_squares(self):
        for case in ("squares", "pending"):
            found = self.run_sweep(odd, ["well", case, "well"], jobs=1, squares=4000)
            self.assertEqual([it.cause for it in found], ["", "out of squares", ""], found)

    def test_a_fault_of_the_function_ends_the_sweep(self):
        with self.assertRaises(ZeroDivisionError):
            self.run_sweep(odd, ["well", "bug", "well"])
        with self.assertRaisesRegex(Trouble, "no program /nowhere"):
            list(sweep(odd, ["well"], program="/nowhere"))
        with self.assertRaisesRegex(Trouble, "the program refused its options: invalid value '1'"):
            list(sweep(odd, ["well"], program=PROGRAM, squares=1))
        with self.assertRaisesRegex(Malformed, "jobs is 0"):
            self.run_sweep(odd, ["well"], jobs=0)

    def test_a_sweep_that_is_left_ends_its_programs(self):
        for taken in (0, 1, 5):
            found = sweep(cut, range(1000), program=PROGRAM, jobs=3)
            for _ in range(taken):
                self.assertIsInstance(next(found), Outcome)
            self.assertEqual(len(processes_of(os.getpid())) > 0, taken > 0)
            found.close()
            self.assertEqual(processes_of(os.getpid()), [], taken)
        found = sweep(odd, ["well", "long"], program=PROGRAM, jobs=2)
        self.assertEqual(next(found).case, "well")
        began = time.monotonic()
        found.close()
        self.assertLess(time.monotonic() - began, 10)
        self.assertEqual(processes_of(os.getpid()), [])

    def test_executors_of_the_library(self):
        cases = list(range(0, 120))
        wanted = {it.case: it.value for it in self.run_sweep(cut, cases, jobs=2)}
        before, programs.IDLE = programs.IDLE, 0.3
        try:
            for kind in (ThreadPoolExecutor, ProcessPoolExecutor):
                with kind(2) as executor:
                    found = self.run_sweep(cut, cases, executor)
                    self.assertEqual({it.case: it.value for it in found}, wanted, kind)
        finally:
            programs.IDLE = before
        until = time.monotonic() + 20
        while processes_of(os.getpid()) and time.monotonic() < until:
            time.sleep(0.05)
        self.assertEqual(processes_of(os.getpid()), [], "programs that wait for long are ended")

    def test_programs_are_replaced(self):
        wanted = [it.value for it in self.run_sweep(cut, range(30), ordered=True, jobs=1)]
        for name, few, least in (("MOST_CASES", 4, 8), ("MOST_MEMORY", 1, 30)):
            before, opened = getattr(programs, name), set()
            setattr(programs, name, few)

            def noted(desk, generation):
                opened.add(desk.process)
                return cut(desk, generation)

            try:
                found = self.run_sweep(noted, range(30), ordered=True, jobs=1)
            finally:
                setattr(programs, name, before)
            self.assertEqual([it.value for it in found], wanted)
            self.assertEqual(len(opened), least, name)

    def test_a_program_without_memory_fails_its_case_alone(self):
        with tempfile.TemporaryDirectory() as folder:
            small = Path(folder) / "small"
            small.write_text(f"#!/bin/sh\nulimit -v 120000\nexec {PROGRAM} \"$@\"\n")
            small.chmod(0o755)
            found = list(sweep(odd, ["well", "huge", "well"], program=str(small), jobs=1, ordered=True))
        self.assertEqual([it.cause for it in found], ["", "out of memory", ""], found)


class ResultsTest(unittest.TestCase):
    def setUp(self):
        folder = tempfile.TemporaryDirectory()
        self.addCleanup(folder.cleanup)
        self.path = str(Path(folder.name) / "found.csv")

    def opened(self, again=""):
        return Results(self.path, ["rule", "seed", "cells", "cause"], 2, again)

    def text(self):
        return Path(self.path).read_text(encoding="utf-8")

    def test_a_file_is_gone_on_with_wherever_it_was_cut(self):
        rows = [["a, b", "1", "5", ""], ["a, b", "2", "", "refused"], ['"c"', "1", "7", ""]]
        with self.opened() as results:
            for row in rows:
                results.add(row)
        whole = self.text()
        for size in range(len(whole) + 1):
            Path(self.path).write_text(whole[:size], encoding="utf-8")
            with self.opened() as results:
                done = whole[:size].count("\n")
                self.assertEqual(list(results.rows.values()), rows[:max(0, done - 1)], size)
                for row in rows:
                    if tuple(row[:2]) not in results.rows:
                        results.add(row)
            self.assertEqual(self.text(), whole, size)

    def test_rows_with_a_cause_are_run_again(self):
        with self.opened() as results:
            for row in (["a", 1, 5, ""], ["a", 2, "", "ended"], ["a", 3, 6, ""]):
                results.add(row)
        with self.opened("cause") as results:
            self.assertEqual(list(results.rows), [("a", "1"), ("a", "3")])
            results.add(["a", 2, 8, ""])
        self.assertEqual(self.text(), "rule,seed,cells,cause\na,1,5,\na,3,6,\na,2,8,\n")

    def test_what_is_no_file_of_this_sweep(self):
        cases = [("x,y\n", "its columns are x, y, and this sweep's are rule, seed"),
                 ("rule,seed,cells,cause\na,1\na,2,3,\n", "line 2: it has 2 columns and not 4")]
        for text, told in cases:
            Path(self.path).write_text(text, encoding="utf-8")
            with self.assertRaisesRegex(Trouble, told):
                self.opened()
            self.assertEqual(self.text(), text)
        os.remove(self.path)
        with self.assertRaisesRegex(Trouble, "/dev/null: it is no plain file"):
            Results("/dev/null", ["rule"], 1)
        with self.opened(), self.assertRaisesRegex(Trouble, "another sweep writes"):
            self.opened()
        self.opened().close()


class SweepProgramTest(unittest.TestCase):
    wanted = []

    def setUp(self):
        folder = tempfile.TemporaryDirectory()
        self.addCleanup(folder.cleanup)
        self.folder = Path(folder.name)
        self.many = ("--rule", "B3/S23", WIRE, "--soup", 100, "--size", 16, "--to", 200, "--show", "counts,period")

    def words(self, *words, python=sys.executable, out="found.csv"):
        last = ["--out", str(self.folder / out), "--desk", PROGRAM]
        return [python, "-B", str(CLIENTS / "sweep.py"), *map(str, words), *last]

    def called(self, *words, **options):
        return subprocess.run(self.words(*words, **options), capture_output=True, text=True, timeout=100)

    def rows(self, out="found.csv"):
        with open(self.folder / out, encoding="utf-8", newline="") as file:
            return list(csv.reader(file))

    def reference(self):
        """The rows of the sweep of many cases, in threads, which is run once for all tests."""
        if not self.wanted:
            run = self.called(*self.many, "--jobs", 2, out="reference.csv")
            self.assertEqual(run.returncode, 0, run.stderr)
            self.wanted.extend(sorted(self.rows("reference.csv")[1:]))
            self.assertEqual(len(self.wanted), 200)
        return self.wanted

    def wait_for_rows(self, run, count, out="found.csv"):
        until = time.monotonic() + 60
        path = self.folder / out
        while not path.exists() or path.read_bytes().count(b"\n") <= count:
            self.assertLess(time.monotonic(), until)
            self.assertIsNone(run.poll())
            time.sleep(0.01)

    def cluster(self):
        if not DASK_PYTHON:
            self.skipTest("neither this Python nor /usr/bin/python3 has Dask (Debian: python3-distributed)")
        pipe = subprocess.PIPE
        run = subprocess.Popen([DASK_PYTHON, "-c", CLUSTER], stdin=pipe, stdout=pipe, stderr=subprocess.DEVNULL,
                               env=WITH_PACKAGE, cwd=self.folder, text=True)
        self.addCleanup(run.communicate, timeout=60)
        address, *workers = run.stdout.readline().split()
        return address, list(map(int, workers))

    def test_the_same_file_over_a_dask_cluster_also_if_a_worker_is_killed(self):
        address, workers = self.cluster()
        wanted = self.reference()
        run = self.called(*self.many, "--dask", address, python=DASK_PYTHON)
        self.assertEqual(run.returncode, 0, run.stderr)
        self.assertEqual(sorted(self.rows()[1:]), wanted)
        with subprocess.Popen(self.words(*self.many, "--dask", address, python=DASK_PYTHON, out="killed.csv"),
                              stderr=subprocess.PIPE, stdout=subprocess.DEVNULL, text=True) as run:
            self.wait_for_rows(run, 20, "killed.csv")
            os.kill(workers[0], signal.SIGKILL)
            self.assertEqual((run.communicate(timeout=60), run.returncode)[1], 0)
        self.assertEqual(sorted(self.rows("killed.csv")[1:]), wanted)

    def test_what_is_broken_off_is_gone_on_with(self):
        wanted = self.reference()
        for count, number in ((5, signal.SIGINT), (60, signal.SIGTERM)):
            with subprocess.Popen(self.words(*self.many, "--jobs", 2), stderr=subprocess.PIPE,
                                  stdout=subprocess.DEVNULL, text=True) as run:
                self.wait_for_rows(run, count)
                run.send_signal(number)
                errors = run.communicate(timeout=60)[1]
            self.assertEqual(run.returncode, 130, errors)
            self.assertRegex(errors, r"broken off with \d+ of \d+ cases; the same command goes on\n$")
            path = self.folder / "found.csv"
            self.assertLessEqual(len(self.rows()[1:]), 199)
            path.write_bytes(path.read_bytes()[:-7])  # as if the last row had been written half
        run = self.called(*self.many, "--jobs", 2)
        self.assertEqual(run.returncode, 0, run.stderr)
        self.assertIn("its last line was cut off, so that case is run again", run.stderr)
        self.assertRegex(run.stderr, r"\d+ of 200 cases are in .*found.csv already")
        self.assertRegex(run.stderr, r"\d+ of \d+ cases, [\d.]+ a second, about 0 s to go")
        self.assertEqual(sorted(self.rows()[1:]), wanted)
        self.assertRegex(run.stdout, r"B3/S23: 100 cases\n +\w+ *\d* +\d+ +[\d.]+ % #+\n")

    def test_a_row_can_be_made_again_by_the_client(self):
        run = self.called("--rule", "b36s23", "--soup", "7-7", "--size", "20x12", "--density", 0.4, "--to", 90,
                          "--show", "counts,period,box,curve", "--keep", self.folder / "kept")
        self.assertEqual(run.returncode, 0, run.stderr)
        names, row = self.rows()
        found = dict(zip(names, row))
        self.assertEqual(row[:7], ["B36/S23", "7", "20", "12", "0.4", "all", "90"])
        with Desk(PROGRAM) as desk:
            desk.lifelike("B36/S23")
            desk.start_text(rle(Soup(7, 20, 12, 0.4), (1,)))
            cells = {it: sum(desk.show(desk.mark(it, "counts")).values()) for it in (0, 45, 90)}
            text = desk.show(desk.mark(90, "rle"))
        self.assertEqual((found["population"], found["counts"]), (str(cells[90]), f"1:{cells[90]}"))
        curve = dict(map(int, it.split(":")) for it in found["curve"].split())
        self.assertEqual(({it: curve[it] for it in cells}, len(curve)), (cells, 33))
        self.assertIn(f"x = {found['box width']}, y = {found['box height']}, ", text)
        soup, last = ((self.folder / f"kept/B36-S23-20x12-7-{it}.rle").read_text() for it in ("soup", "at-90"))
        self.assertTrue(soup.endswith(rle(Soup(7, 20, 12, 0.4), (1,))) and last.endswith(text), last)
        self.assertIn(f"#C fate = {found['fate']}\n", soup)
        with Desk(PROGRAM) as desk:  # comments and all
            desk.lifelike("B36/S23")
            desk.start(str(self.folder / "kept/B36-S23-20x12-7-soup.rle"))
            self.assertEqual(desk.show(desk.mark(90, "rle")), text)

    def test_cases_that_fail_are_rows(self):
        bad = self.folder / "bad.rule"
        bad.write_text("@RULE bad\n@TABLE\nn_states:2\nneighborhood:Moore\nsymmetries:none\n0,1\n")
        words = ("--rule", bad, "B3/S23", "--soup", 2, "--size", 16, "--to", 50, "--states", "1")
        run = self.called(*words, "--squares", 100)
        self.assertEqual(run.returncode, 0, run.stderr)
        rows = {tuple(it[:2]): it[7:] for it in self.rows()[1:]}
        self.assertEqual(rows[str(bad), "1"], ["", "", "refused", f"{bad}, line 6: refused 8 BadTransition: `0,1`"])
        self.assertEqual([rows["B3/S23", it][2] for it in "12"], ["out of squares"] * 2)
        bad.write_text("@RULE bad\n@TABLE\nn_states:2\nneighborhood:Moore\nsymmetries:none\n")
        self.assertIn("4 of 4 cases are in", self.called(*words).stderr)
        run = self.called(*words, "--again")
        self.assertEqual(run.returncode, 0, run.stderr)
        self.assertEqual([it[9] for it in self.rows()[1:]], [""] * 4)

    def test_rows_on_standard_output(self):
        words = ("--rule", "B3/S23", "--soup", 5, "--size", 16, "--to", "2^5", "--jobs", 1)
        self.assertEqual(self.called(*words).returncode, 0)
        run = subprocess.run([*self.words(*words), "--out", "-"], cwd=self.folder, capture_output=True, text=True,
                             timeout=100)
        self.assertEqual(run.returncode, 0, run.stderr)
        rows = list(csv.reader(run.stdout.splitlines()))
        self.assertEqual((rows[0], sorted(rows[1:])), (self.rows()[0], sorted(self.rows()[1:])))
        self.assertIn("B3/S23", run.stderr)
        self.assertEqual(os.listdir(self.folder), ["found.csv"])

    def test_words_that_are_wrong(self):
        cases = [
            (("--rule", "no*.rule"), 1, "sweep.py: no*.rule: there is no such file"),
            (("--rule", "B3/S23", "--size", "0"), 2, "take a side of 1 to 4096, as 64"),
            (("--rule", "B3/S23", "--soup", "9-3"), 2, "take a number, as 200, or the first and the last seed"),
            (("--rule", "B3/S23", "--show", "counts,colour"), 2, "take words of counts, period, box, curve"),
            (("--rule", "B3/S23", "--density", "2"), 2, "take a number from 0 to 1"),
            (("--rule", "B3/S23", "--states", "0"), 2, "take `all`, or states"),
            (("--rule", "B3/S23", "--keep", "x"), 2, "--keep needs `period`"),
            (("--rule", "B3/S23", "--to", "2^61"), 2, "take a generation from 0 to 2^60, as 1000"),
            (("--rule", "B3/S23", "--squares", "1"), 1, "the program refused its options: invalid value '1'"),
        ]
        for words, status, told in cases:
            given = {"--soup": "1", "--to": "5", **dict(zip(words[::2], words[1::2]))}
            run = self.called(*(it for pair in given.items() for it in pair))
            self.assertEqual(run.returncode, status, run.stderr)
            self.assertIn(told, " ".join(run.stderr.split()))
        self.assertIn("--rule B3/S23 B36/S23 --soup 200", self.called("--help").stdout)


if __name__ == "__main__":
    unittest.main()
