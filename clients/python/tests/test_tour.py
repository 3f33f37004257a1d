"""Tests of the notebook docs/tour.ipynb: what is stored in it, and that it runs. They run with the others, or alone by

    python3 -m unittest discover -s clients/python/tests -p test_tour.py

It is run where /usr/bin/python3 has nbconvert, ipykernel, numpy and matplotlib (Debian: jupyter-nbconvert,
python3-ipykernel, python3-numpy, python3-matplotlib), and that is skipped elsewhere.
"""
import base64
import json
import os
import subprocess
import tempfile
import unittest
from collections import Counter
from pathlib import Path

from places import PROGRAM, ROOT, WITH_PACKAGE

TOUR = ROOT / "docs/tour.ipynb"
MOST_BYTES = 300_000
DEBIAN = "/usr/bin/python3"
NEEDED = "import ipykernel, matplotlib, nbconvert, numpy"
PENTOMINO = {(1, 0), (2, 0), (0, 1), (1, 1), (1, 2)}
LIFE, HIGHLIFE = ({3}, {2, 3}), ({3, 6}, {2, 3})  # with how many live neighbours a cell is born, and stays


def later(cells, generations, rule=LIFE):
    """Live cells after some generations of a Life-like rule, counted cell by cell."""
    born, stays = rule
    for _ in range(generations):
        around = Counter((x + i, y + j) for x, y in cells for i in (-1, 0, 1) for j in (-1, 0, 1) if i or j)
        cells = {it for it, live in around.items() if live in (stays if it in cells else born)}
    return cells


def within(cells, x, y, width, height):
    return {it for it in cells if x <= it[0] < x + width and y <= it[1] < y + height}


def wanted():
    """The texts of some cells, worked out without the desk."""
    parted = later(PENTOMINO, 100)
    here, there = (within(later(it, 30), -45, -25, 70, 52) for it in (parted, parted | {(5, 5)}))
    differ = f"{len(here ^ there)} cells differ: {len(here - there)} live only in the first (blue), " \
             f"{len(there - here)} only in the second (pink)"
    left, left_there = len(later(parted, 1003)), len(later(parted | {(5, 5)}, 1900))
    return {
        "bookmarks": f"{{1: {left}}}",
        "branch": differ,
        "branch-end": f"({{1: {left}}}, {{1: {left_there}}})",
        "rule-curve": str([len(later(PENTOMINO, it, HIGHLIFE)) for it in range(13)]),
        "rule-back": f"({{1: {left}}}, True)",
    }


def code(path):
    """The cells of code of a notebook, by their ids."""
    cells = json.loads(path.read_text(encoding="utf-8"))["cells"]
    return {cell["id"]: cell for cell in cells if cell["cell_type"] == "code"}


def texts(cell):
    """What a cell wrote, and its value as text. A slow machine may leave a line of progress that was cleared."""
    for output in cell["outputs"]:
        if text := "".join(output.get("text", output.get("data", {}).get("text/plain", ""))).strip():
            yield text


def can_run():
    try:
        return all(subprocess.run([DEBIAN, *words], capture_output=True, timeout=50).returncode == 0
                   for words in (["-c", NEEDED], ["-m", "jupyter", "nbconvert", "--version"]))
    except OSError:
        return False


class TourTest(unittest.TestCase):
    def test_what_is_stored_is_small_and_whole(self):
        self.assertLess(TOUR.stat().st_size, MOST_BYTES)
        cells = code(TOUR)
        self.assertEqual([it["execution_count"] for it in cells.values()], list(range(1, len(cells) + 1)))
        shown = {name: {kind for it in cell["outputs"] for kind in it.get("data", {})} for name, cell in cells.items()}
        self.assertEqual({name for name, kinds in shown.items() if "image/png" in kinds},
                         {"picture", "curve", "branch", "sweep-picture"})
        self.assertEqual({name for name, kinds in shown.items() if "text/html" in kinds}, {"start", "rule"})
        for cell in cells.values():
            for output in cell["outputs"]:
                self.assertIn(output["output_type"], ("execute_result", "display_data", "stream"))
                self.assertEqual(output.get("name", "stdout"), "stdout")
                if "image/png" in output.get("data", {}):
                    self.assertTrue(base64.b64decode(output["data"]["image/png"]).startswith(b"\x89PNG"))

    def test_the_texts_are_as_worked_out(self):
        cells = code(TOUR)
        for name, text in wanted().items():
            self.assertIn(text, list(texts(cells[name])), name)
        self.assertEqual("".join(cells["rule"]["outputs"][0]["data"]["text/html"]).count("pending"), 7)

    @unittest.skipUnless(can_run(), f"{DEBIAN} lacks jupyter-nbconvert or one of those that it needs: {NEEDED}")
    def test_it_runs_and_comes_to_what_is_stored(self):
        with tempfile.TemporaryDirectory() as folder:
            run = [DEBIAN, "-m", "jupyter", "nbconvert", "--to", "notebook", "--execute", str(TOUR),
                   "--ExecutePreprocessor.timeout=300", "--output-dir", folder, "--output", "run.ipynb"]
            places = {**os.environ, **WITH_PACKAGE, "DESK": PROGRAM, "HOME": folder, "PYTHONDONTWRITEBYTECODE": "1"}
            done = subprocess.run(run, env=places, capture_output=True, text=True, timeout=500)
            self.assertEqual(done.returncode, 0, done.stderr[-3000:])
            fresh = code(Path(folder) / "run.ipynb")
        stored = code(TOUR)
        self.assertEqual(list(fresh), list(stored))
        for name, cell in fresh.items():
            self.assertEqual(list(texts(cell)), list(texts(stored[name])), name)


if __name__ == "__main__":
    unittest.main()
