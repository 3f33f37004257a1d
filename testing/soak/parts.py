"""The parts of the soak, in the order of the report."""
from __future__ import annotations

from typing import Dict

from .against_model import damaged_scripts, random_scripts
from .files import damaged_files
from .page import the_page
from .part import Part
from .stalling import stalling_threads
from .without_memory import refused_allocations
from .workers import alike

PARTS: Dict[str, Part] = {
    "scripts": Part(random_scripts, "random scripts, compared with the model", "scripts", "a script"),
    "damaged": Part(damaged_scripts, "damaged scripts, compared with the model", "scripts", "a script"),
    "memory": Part(refused_allocations, "random scripts, each allocation refused in turn", "refusals", "a script"),
    "threads": Part(stalling_threads, "random runs whose threads stall", "runs", "a run with its stalls"),
    "files": Part(damaged_files, "damaged files, compared with the model", "files", "fifty files"),
    "workers": Part(alike, "1, 2 and 8 workers, whose replies are to be alike", "sessions", "a reply at once"),
    "page": Part(the_page, "the page in a browser, compared with a fresh program", "edits", "an edit on the page"),
}
