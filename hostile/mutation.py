"""Changes texts at random, as files go wrong and as somebody may write them who looks for faults."""
from __future__ import annotations

import random
from typing import Sequence

PIECES = [b"#", b"@TABLE\n", b"@TREE\n", b"@RULE x\n", b"var a={0,1}\n", b"n_states:256\n", b"0,0,0,0\n",
          b"\n", b"\r\n", b"\0", b"\xff", b"!", b"$", b"9" * 20, b"1" * 5, b"-", b"{", b"}", b"=", b",", b":",
          b"#CXRLE Pos=-1,2 Gen=3\n", b"x = 1, y = 1\n", b"yO", b"pA", b"[M2]\n", b"4 0 0 0 1\n", b"62 1 1 1 1\n",
          b".*.*$", b"#G 9\n", b"#R a:b\n", b"#FRAME 1\n", b"permute", b"rotate8", b"hexagonal"]
MOST = 4000


def mutated(chance: random.Random, text: bytes, others: Sequence[bytes]) -> bytes:
    """The text with one to four changes: bytes go, come, are doubled, or are taken from one of the others."""
    changed = bytearray(text)
    for _ in range(chance.randint(1, 4)):
        at, size = chance.randint(0, len(changed)), min(chance.choice((1, 1, 2, 8, 40)), MOST)
        way = chance.randrange(6)
        if way == 0:
            changed[at:at + size] = b""
        elif way == 1:
            changed[at:at] = chance.choice(PIECES)
        elif way == 2:
            changed[at:at] = changed[at:at + size] * chance.randint(1, 3)
        elif way == 3:
            other = chance.choice(others)
            start = chance.randint(0, len(other))
            changed[at:at + size] = other[start:start + size]
        elif way == 4:
            changed[at:at + 1] = bytes([chance.randrange(256)])
        else:
            del changed[at:]
    return bytes(changed[:MOST])
