"""The binding beside include/xewumbal.h: every call, the layout of what goes in and comes out, the limits; and the words of the refusals
beside documents 01 and 02."""

from __future__ import annotations

import ctypes
import re
import unittest
from pathlib import Path
from typing import Any, Dict, List, Tuple

import xewumbal
from xewumbal import raw

ROOT = Path(__file__).resolve().parents[3]
PLAIN: Dict[str, Any] = {
    "double": ctypes.c_double,
    "size_t": ctypes.c_size_t,
    "uint8_t": ctypes.c_uint8,
    "uint32_t": ctypes.c_uint32,
    "uint64_t": ctypes.c_uint64,
}


def header() -> str:
    """The header without comments and without the functions that it defines itself."""
    text = (ROOT / "include" / "xewumbal.h").read_text(encoding="utf-8")
    text = re.sub(r"/\*.*?\*/", " ", text, flags=re.S)
    return re.sub(r"static inline[^{;]*\{.*?\n\}", " ", text, flags=re.S)


def layout(kind: Any) -> Any:
    """A type by the sizes of its parts alone: names don't count."""
    if issubclass(kind, ctypes.Structure):
        return tuple(layout(field[1]) for field in kind._fields_)
    if issubclass(kind, ctypes.Array):
        return (layout(kind._type_), kind._length_)
    if kind in (raw.Bytes, raw.Floats):
        return "pointer"
    return kind.__name__


class Header:
    def __init__(self) -> None:
        text = header()
        self.limits = {name: int(value) for name, value in re.findall(r"#define XEW_(\w+) (\d+)", text)}
        self.types = {name: layout(kind) for name, kind in PLAIN.items()}
        for body, name in re.findall(r"typedef struct \{(.*?)\} (xew_\w+);", text, flags=re.S):
            self.types[name] = tuple(self.field(part) for part in self.fields(body))
        calls = re.findall(r"(\w+)\s+(xew_\w+)\s*\(((?:[^()]|\([^()]*\))*)\)[^;{}]*;", text)
        self.calls = {name: (self.types[told], self.arguments(given)) for told, name, given in calls}

    def fields(self, body: str) -> List[Tuple[str, str]]:
        """Each field of a struct, its type and its name with the places that it has."""
        found = []
        for line in filter(None, (line.strip() for line in body.split(";"))):
            kind, names = line.split(None, 1)
            found += [(kind, name.strip()) for name in names.split(",")]
        return found

    def field(self, field: Tuple[str, str]) -> Any:
        kind, name = field
        places = re.match(r"\w+\[(?:XEW_)?(\w+)\]", name)
        if not places:
            return self.types[kind]
        count = places.group(1)
        return (self.types[kind], int(count) if count.isdigit() else self.limits[count])

    def arguments(self, given: str) -> List[Any]:
        parts = [part.strip() for part in given.split(",")]
        if parts == ["void"]:
            return []
        return ["pointer" if "*" in part or "[" in part else self.types[part.split()[0]] for part in parts]


class Beside(unittest.TestCase):
    def test_calls(self) -> None:
        """Every call of the header, each with the layout that it has there."""
        theirs = Header().calls
        ours = {name: (layout(told), [layout(kind) for kind in given]) for name, (told, given) in raw.CALLS.items()}
        self.assertEqual(set(ours), set(theirs))
        for name, call in ours.items():
            with self.subTest(name):
                self.assertEqual(call, theirs[name])

    def test_limits(self) -> None:
        limits = Header().limits
        self.assertGreater(len(limits), 10)
        for name in ("VERSION", "KINDS", "ORDERS", "MOST_ORDER", "MOST_TERMS", "MOST_SCALE", "MOST_ROLL", "MOST_SIZE"):
            self.assertEqual(getattr(xewumbal, name), limits[name], name)
        for name in ("PREFACTORS", "ENTRY", "TABLE", "MOST_CHARGE", "MOST_NUCLEI", "MOST_PRIMITIVES", "SMALL_TERMS", "SMALL_ROLL"):
            self.assertEqual(getattr(xewumbal, name), limits[name], name)

    def test_words(self) -> None:
        """The words that stand last in document 01 and the requests."""
        requests = sorted((ROOT / "docs" / "requests").glob("Q-*.md"))
        words: Dict[int, str] = {}
        for page in [ROOT / "docs" / "01-scope.md", *requests]:
            for number, text in re.findall(r"^\| (\d+) \| (.*) \|$", page.read_text(encoding="utf-8"), flags=re.M):
                if int(number) in xewumbal.WORDS:
                    words[int(number)] = re.sub(r"; carries the .*", "", text)
        words[7] = words[7].replace(" below", "")
        self.assertEqual(xewumbal.WORDS, words)


if __name__ == "__main__":
    unittest.main()
