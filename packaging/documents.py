"""The texts and examples that both packages have in share/doc."""
from __future__ import annotations

from pathlib import Path
from typing import Dict

from places import DOCUMENTS, EXAMPLES, NAME, ROOT


def documents() -> Dict[str, bytes]:
    """Their bytes by their places below the folder of documents."""
    examples = {f"examples/{it.name}": it.read_bytes() for pattern in EXAMPLES for it in ROOT.glob(pattern)}
    return {**examples, **{name: (ROOT / source).read_bytes() for name, source in DOCUMENTS.items()}}


def lay_documents(folder: Path) -> None:
    """Writes them below a folder `share`."""
    for place, content in documents().items():
        path = folder / "doc" / NAME / place
        path.parent.mkdir(parents=True, exist_ok=True)
        path.write_bytes(content)
