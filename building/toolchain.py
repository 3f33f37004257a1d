"""The toolchain, whose command `rt` is on the PATH."""
import os
import re
import shutil

from places import Lacking

# The program logic that the proofs are written in; `rt version` tells the toolchain's.
LOGIC = "dac8208d650f15bf"


def folder():
    """The folder of the toolchain."""
    rt = shutil.which("rt")
    if not rt:
        raise Lacking("rt, the command of the toolchain, is not on the PATH, and nothing can be built without it")
    return os.path.dirname(os.path.dirname(os.path.realpath(rt)))


def version():
    """What `rt version` says."""
    try:
        with open(f"{folder()}/KIT-ID", encoding="utf-8") as file:
            return file.read().strip()
    except OSError as fault:
        raise Lacking(f"the toolchain in {folder()} doesn't tell its version: {fault.strerror}") from fault


def check():
    """Refuses a toolchain that this text is not written for."""
    found = version()
    if not re.search(rf"\blogic {LOGIC}\b", found):
        raise Lacking(f"the toolchain is `{found}`, and this text is written for one of logic {LOGIC}")
