"""The colors of a rule's states."""
from __future__ import annotations

import colorsys
import re
from itertools import takewhile
from typing import List, Tuple

Color = Tuple[int, int, int]  # red, green and blue, 0 to 255


def colors_of(rule: bytes) -> List[Color]:
    """The color of each state: those of the rule file's @COLORS, else gray for 0 and a color for each other state."""
    text = rule.decode("latin-1")
    found = [(48, 48, 48), (255, 255, 255)]
    for state in range(2, 256):
        red, green, blue = colorsys.hsv_to_rgb(state * 0.618 % 1, 0.6, 1)
        found.append((int(red * 255), int(green * 255), int(blue * 255)))
    states = re.search(r"(?m)^\s*n(?:um)?_states\s*[:=]\s*(\d+)", text)
    last = min(int(states[1]), 256) - 1 if states else 255
    section = re.search(r"(?ms)^\s*@COLORS\b[^\n]*\n(.*?)(?=^\s*@|\Z)", text)
    for line in section[1].splitlines() if section else []:
        numbers = [min(int(it), 255) for it in takewhile(str.isdecimal, line.split())]
        if len(numbers) >= 6:  # from one color to another over all live states
            for state in range(1, last + 1):
                share = (state - 1) / max(1, last - 1)
                red, green, blue = (round(a + (b - a) * share) for a, b in zip(numbers[:3], numbers[3:6]))
                found[state] = red, green, blue
        elif len(numbers) >= 4:
            state, red, green, blue = numbers[:4]
            found[state] = red, green, blue
    return found
