"""Reads decks, as far as the tools need them: the settings, the steps and the outputs. The program judges a deck."""
from __future__ import annotations

from typing import Dict, List, NamedTuple, Optional, Set, Tuple

from tool_files import Refused, read_bytes

SETTINGS = {"unit": 2, "top": 2, "band": 2, "limits": 3, "frame": 5}
STEPS = {"layer": (4,), "or": (4,), "and": (4,), "sub": (4,), "xor": (4,), "grow": (4, 5), "shrink": (4, 5),
         "invert": (3,), "mirror": (4,)}
DEFAULT_BAND = 1 << 20
DEFAULT_LIMITS = (1 << 20, 1 << 21)


class Output(NamedTuple):
    """A line `write`: the area's name, the file, layer and datatype."""
    area: str
    file: str
    layer: int
    datatype: int


class Deck:
    """The statements of a deck: `settings` by their words, `steps` as lists of words, `outputs`."""

    def __init__(self, text: str, where: str = "deck"):
        self.settings: Dict[str, List[str]] = {}
        self.steps: List[List[str]] = []
        self.outputs: List[Output] = []
        for number, line in enumerate(text.split("\n"), 1):
            words = line.split()
            if words and not words[0].startswith("#"):
                try:
                    self._take(words)
                except (ValueError, IndexError):
                    raise Refused(f"{where}: line {number}: no line of a deck: {' '.join(words)[:80]}") from None
        missing = [word for word in ("unit", "top") if word not in self.settings]
        if missing or not self.outputs:
            raise Refused(f"{where}: no deck: it has no line `{missing[0] if missing else 'write'}`")

    def _take(self, words: List[str]) -> None:
        kind = words[0]
        if kind in SETTINGS and len(words) == SETTINGS[kind]:
            self.settings[kind] = words[1:]
            if kind != "top":
                list(map(int, words[1:]))
        elif kind == "write" and len(words) == 5:
            self.outputs.append(Output(words[1], words[2], int(words[3]), int(words[4])))
        elif kind in STEPS and len(words) in STEPS[kind]:
            self.steps.append(words)
            if kind in ("layer", "grow", "shrink", "mirror"):
                list(map(int, words[2 if kind == "layer" else 3:]))
        else:
            raise ValueError(kind)

    @property
    def unit(self) -> int:
        """Grid steps in a micrometre."""
        return int(self.settings["unit"][0])

    @property
    def top(self) -> str:
        return self.settings["top"][0]

    @property
    def band(self) -> int:
        """The rows of a band."""
        return int(self.settings.get("band", [DEFAULT_BAND])[0])

    @property
    def limits(self) -> Tuple[int, int]:
        """The greatest height and width of a shot in half units."""
        words = self.settings.get("limits")
        return (int(words[0]), int(words[1])) if words else DEFAULT_LIMITS

    @property
    def frame(self) -> Optional[Tuple[int, int, int, int]]:
        words = self.settings.get("frame")
        return (int(words[0]), int(words[1]), int(words[2]), int(words[3])) if words else None

    @property
    def pairs(self) -> Set[Tuple[int, int]]:
        """The layers and datatypes that are taken."""
        return {(int(words[2]), int(words[3])) for words in self.steps if words[0] == "layer"}


def read_deck(path: str) -> Deck:
    """The deck of a file."""
    return Deck(read_bytes(path).decode("latin-1"), path)
