"""The refusals of the library, with document 01's words."""

from __future__ import annotations

from typing import Dict, Optional

WORDS: Dict[int, str] = {
    1: "kind above 4, or a roll of another kind than the call takes",
    2: "an order sum the kind uses, or a shell's order, above 6",
    3: "one of the twelve orders unused by the kind is not 0",
    4: "more than 1,048,575 complete histories",
    5: "start place beyond the buffer's end",
    6: "the whole output doesn't fit from the start place, or the listing's input is over 65,536 bytes",
    7: "roll breaks a rule",
    8: "a used input float is not finite",
    9: "a used exponent is 0 or less",
    10: "Boys numbers are not exactly L+1 (kinds 2, 4; for each nucleus of a list) or 0 (others)",
    11: "a geometry number, table entry or result is not finite",
    12: "matrix size out of range, or a slice length wrong for it",
    13: "component number not below the count",
    14: "the roll ends before a number does",
    15: "primitive count outside 1 to 10",
    16: "host list length wrong for the primitives",
    17: "charge above 118, or nucleus count outside 1 to 32",
    18: "root of a number below 0",
    19: "kind, form or order outside the profile",
    20: "roll is not the expansion",
    21: "line not of the shape",
    22: "number or count that doesn't match",
}


class Refusal(Exception):
    """The library's answer to an input that it does not take. Nothing that was lent has changed.

    number is that of document 01. place is a byte of the roll, counted from 0, beside 7, 14 and 20; line is a line of the
    text, counted from 1, beside 21 and 22; side is `left` or `right` where two rolls were handed in; each is None elsewhere.
    docs/REFUSALS.md says what to do.
    """

    def __init__(self, number: int, place: Optional[int] = None, line: Optional[int] = None, side: Optional[str] = None) -> None:
        super().__init__(number, place, line, side)
        self.number = number
        self.place = place if number in (7, 14, 20) else None
        self.line = line if number in (21, 22) else None
        self.side = side
        self.words = WORDS.get(number, "a refusal that this binding does not know")

    @property
    def head(self) -> str:
        """The refusal's line without its words, as the programs print it."""
        place = "" if self.place is None else f" at {self.place}"
        line = "" if self.line is None else f" line {self.line}"
        side = "" if self.side is None else f" {self.side}"
        return f"refused {self.number}{place}{line}{side}"

    def __str__(self) -> str:
        return f"{self.head}: {self.words}"
