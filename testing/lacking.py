#!/usr/bin/env python3
"""Says which packages of Debian some tests are left out without, in one line that installs them.

    testing/lacking.py

Nothing is printed where all is there. The tests of the clients take Debian's Python, /usr/bin/python3, for modules that
this one lacks.
"""
import importlib.util
import os
import shutil
import subprocess

DEBIAN = "/usr/bin/python3"
# What tests ask for, and the packages that bring it.
COMMANDS = {
    "cc": "gcc libc6-dev",
    "chromium": "chromium",
    "chromedriver": "chromium-driver",
    "bgolly": "golly",
    "mypy": "mypy",
    "flake8": "flake8",
    "jupyter-nbconvert": "jupyter-nbconvert python3-ipykernel",
    "Xvfb": "xvfb",
    "shellcheck": "shellcheck",
    "lintian": "lintian",
    "dpkg-buildpackage": "dpkg-dev",
    "dh": "debhelper",
    "dh_python3": "dh-python pybuild-plugin-pyproject python3-all",
    "objdump": "binutils",
    "man": "man-db groff",
    "zsh": "zsh",
    "fish": "fish",
}
MODULES = {
    "aiohttp": "python3-aiohttp",
    "selenium": "python3-selenium",
    "numpy": "python3-numpy",
    "matplotlib": "python3-matplotlib",
    "tqdm": "python3-tqdm",
    "distributed": "python3-distributed",
    "ensurepip": "python3-venv",
    "pip": "python3-pip",
    "setuptools": "python3-setuptools",
    "wheel": "python3-wheel",
}
FILES = {
    "/usr/share/javascript/codemirror/codemirror.js": "libjs-codemirror",
}
# Debian puts games where not every PATH leads.
PLACES = os.pathsep.join([os.environ.get("PATH", ""), "/usr/games"])


def modules_elsewhere(names):
    """Those of these modules that Debian's Python has."""
    if not os.path.exists(DEBIAN):
        return set()
    text = "import importlib.util, sys; print(*(it for it in sys.argv[1:] if importlib.util.find_spec(it)))"
    run = subprocess.run([DEBIAN, "-c", text, *names], stdout=subprocess.PIPE, text=True, check=False)
    return set(run.stdout.split())


def packages():
    """The packages to install, in the order of the tables."""
    lacking = [it for name, it in COMMANDS.items() if not shutil.which(name, path=PLACES)]
    modules = [name for name in MODULES if not importlib.util.find_spec(name)]
    elsewhere = modules_elsewhere(modules) if modules else set()
    lacking += [it for path, it in FILES.items() if not os.path.exists(path)]
    return [*lacking, *(MODULES[name] for name in modules if name not in elsewhere)]


def main():
    found = packages()
    if found:
        print(f"-- some need what this brings: apt-get install -y {' '.join(found)}")


if __name__ == "__main__":
    main()
