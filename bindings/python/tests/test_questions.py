"""The stored questions of crates/ask, with the answers that the oracle gives."""

from __future__ import annotations

import unittest
from collections import Counter
from pathlib import Path

import questions

STORED = Path(__file__).resolve().parents[3] / "crates" / "ask"


class Questions(unittest.TestCase):
    def test_stored(self) -> None:
        """Every stored line that is a question of an exported call; the listing alone is not exported."""
        asked = (STORED / "stdin").read_bytes().split(b"\n")
        told = (STORED / "stdout").read_bytes().split(b"\n")
        self.assertEqual(len(told), len(asked) + (asked[-1] != b""))
        counts: Counter[str] = Counter()
        refusals: Counter[str] = Counter()
        for question, expected in zip(asked, told):
            if expected == b"?" or expected == question or question.startswith(b"list "):
                continue
            line = question.decode("ascii")
            with self.subTest(question=line[:200]):
                self.assertEqual(questions.answer(line), expected.decode("ascii"))
            counts[line.split(" ")[0]] += 1
            if expected.startswith(b"refused "):
                refusals[expected.decode("ascii").split(" ")[1]] += 1
        self.assertEqual(set(counts), set(questions.ANSWERS))
        self.assertEqual(set(refusals), set(map(str, range(1, 23))))
        self.assertGreater(sum(counts.values()), 2500)


if __name__ == "__main__":
    unittest.main()
