"""Where the tests find files, the program, and a Python with some modules. It has no tests of its own."""
import os
import subprocess
import sys
from pathlib import Path

from desk import find_program

ROOT = Path(__file__).resolve().parents[3]
CLIENTS, EXAMPLES = ROOT / "clients/python", ROOT / "examples"
PACKAGE = CLIENTS / "src"
PROGRAM = find_program()
# Of programs that tests start: they find the package where it lies, also where another Python runs them.
WITH_PACKAGE = {**os.environ, "PYTHONPATH": str(PACKAGE)}
DEBIAN = "/usr/bin/python3"
HAS_ALL = "import sys; from importlib import util; sys.exit(not all(map(util.find_spec, sys.argv[1:])))"


def python_with(*modules):
    """This Python or Debian's, whichever has these modules, or None."""
    for python in dict.fromkeys((sys.executable, DEBIAN)):
        try:
            if subprocess.run([python, "-c", HAS_ALL, *modules], capture_output=True, timeout=50).returncode == 0:
                return python
        except OSError:
            pass
    return None
