"""What the binding adds to the calls: what it takes, what it raises, how it is loaded, and the float mode."""

from __future__ import annotations

import doctest
import os
import subprocess
import sys
import tempfile
import unittest
from array import array
from pathlib import Path
from typing import Any

import xewumbal
from xewumbal import COULOMB, KINETIC, OVERLAP, Centre, Primitive, Refusal, raw

try:
    import numpy
except ImportError:
    numpy = None  # type: ignore[assignment]

ROLL = bytes.fromhex("0001000001000002010002000101000107")
A = Centre(0.0, 0.0, 0.0, 1.0)
# A glibc environment of x86-64: 28 bytes of the x87 unit, then MXCSR, whose bits 15 and 6 flush subnormals, and 13 and 14 round.
MODE = """
import ctypes
m = ctypes.CDLL("libm.so.6")
env = (ctypes.c_uint32 * 8)()
m.fegetenv(env)
env[7] |= {bits}
m.fesetenv(env)
import xewumbal
"""


def imported(code: str, **more: str) -> str:
    """The last line that a fresh Python says of some code; empty where it says nothing."""
    environment = {**os.environ, "PYTHONPATH": str(Path(xewumbal.__file__).parents[1]), **more}
    done = subprocess.run([sys.executable, "-B", "-c", code], env=environment, capture_output=True, text=True)
    return done.stderr.strip().split("\n")[-1]


class Loading(unittest.TestCase):
    def test_examples(self) -> None:
        self.assertEqual(doctest.testmod(xewumbal, verbose=False), (0, 5))

    def test_as_it_is(self) -> None:
        self.assertTrue(xewumbal.float_mode_is_right())
        self.assertEqual(imported("import xewumbal"), "")

    def test_not_there(self) -> None:
        said = imported("import xewumbal", XEWUMBAL_LIBRARY="/nowhere/libxewumbal.so")
        self.assertRegex(said, "^ImportError: /nowhere/libxewumbal.so can't be loaded")

    def compiled(self, folder: str, source: str) -> str:
        """A shared library of some C; XEWUMBAL_COMPILER names the compiler."""
        library = os.path.join(folder, "libxewumbal.so")
        words = [os.environ.get("XEWUMBAL_COMPILER", "gcc"), "-shared", "-fPIC", "-x", "c", "-", "-o", library]
        subprocess.run(words, input=source, text=True, check=True)
        return library

    def test_empty(self) -> None:
        with tempfile.TemporaryDirectory() as folder:
            said = imported("import xewumbal", XEWUMBAL_LIBRARY=self.compiled(folder, ""))
        self.assertRegex(said, "^ImportError: .* has no xew_version: .* without --whole-archive$")

    def test_other_version(self) -> None:
        calls = "".join(f"void {name}(void) {{}}\n" for name in raw.CALLS if name != "xew_version")
        for version, expected in ((1, f"is of version 1, and this binding of version {xewumbal.VERSION}"), (xewumbal.VERSION, "")):
            with tempfile.TemporaryDirectory() as folder:
                library = self.compiled(folder, f"{calls} unsigned xew_version(void) {{ return {version}; }}")
                said = imported("import xewumbal", XEWUMBAL_LIBRARY=library)
            self.assertEqual(said[-len(expected) :] if expected else said, expected)

    def test_float_mode(self) -> None:
        """Rounding down, up and to zero, results flushed, inputs flushed: none is imported."""
        for bits in (0x2000, 0x4000, 0x6000, 0x8000, 0x40):
            with self.subTest(bits=hex(bits)):
                self.assertRegex(imported(MODE.format(bits=bits)), "^ImportError: the float mode is not")
        self.assertEqual(imported(MODE.format(bits=0)), "")


class Taking(unittest.TestCase):
    def test_refusal(self) -> None:
        with self.assertRaises(Refusal) as caught:
            xewumbal.check(ROLL[:16])
        refusal = caught.exception
        self.assertEqual((refusal.number, refusal.place, refusal.line, refusal.side), (14, 16, None, None))
        self.assertEqual(str(refusal), "refused 14 at 16: the roll ends before a number does")
        with self.assertRaises(Refusal) as caught:
            xewumbal.import_text(b"0,1,0,0,1,0,0,2\n1,0,0,1\n1,0,7,\n")
        self.assertEqual(str(caught.exception), "refused 21 line 3: line not of the shape")
        with self.assertRaises(Refusal) as caught:
            xewumbal.compare(ROLL, ROLL[:16])
        self.assertEqual(caught.exception.head, "refused 14 at 16 right")
        with self.assertRaises(Refusal) as caught:
            xewumbal.root(-1.0)
        self.assertEqual((caught.exception.number, caught.exception.place), (18, None))

    def test_out_of_range(self) -> None:
        """What C would cut to fit is no input."""
        for call in (
            lambda: xewumbal.expand(256, [0] * 6),
            lambda: xewumbal.expand(-1, [0] * 6),
            lambda: xewumbal.expand(OVERLAP, [0] * 13),
            lambda: xewumbal.expand(OVERLAP, [300]),
            lambda: xewumbal.shell2(0, 0, 1 << 32),
            lambda: xewumbal.evaluate(ROLL, A, Centre(charge=1 << 32), aux=1.0),
            lambda: xewumbal.expand_into(OVERLAP, [0], b"read only"),
            lambda: xewumbal.check(array("d", [1.0])),
            lambda: xewumbal.jk_into(1, [1.0], [1.0], array("f", [0]), array("d", [0])),
        ):
            with self.assertRaises(ValueError):
                call()  # type: ignore[no-untyped-call]

    def test_bytes(self) -> None:
        for roll in (ROLL, bytearray(ROLL), memoryview(ROLL), array("B", ROLL)):
            self.assertEqual(xewumbal.evaluate(roll, A, A, aux=1.0), 0.25)

    def test_floats(self) -> None:
        for ones in ([1.0], (1,), array("d", [1.0]), array("f", [1.0]), [[1.0]]):
            self.assertEqual(xewumbal.jk(1, ones, ones), ([1.0], [1.0]))

    def test_whole_answers(self) -> None:
        """The calls that make their own room say what those say that are lent it."""
        self.assertEqual(xewumbal.expand(OVERLAP, [1, 0, 0, 1]), ROLL)
        self.assertEqual(xewumbal.small_expand(OVERLAP, [1, 0, 0, 1]), ROLL)
        self.assertEqual(xewumbal.expand2(OVERLAP, [1, 0, 0, 1]), xewumbal.to_form2(ROLL))
        self.assertEqual(xewumbal.to_form1(xewumbal.to_form2(ROLL)), ROLL)
        self.assertEqual(xewumbal.import_text(xewumbal.export_text(ROLL)), ROLL)
        self.assertEqual(xewumbal.shell_list(1), [(1, 0, 0), (0, 1, 0), (0, 0, 1)])
        for roll in (ROLL, xewumbal.to_form2(ROLL)):
            fresh, told = xewumbal.salvage(roll[:-2])
            self.assertEqual((fresh, told.kept, told.anew), (roll, 1, 1))
        terms = [(1, 0, (0, 1)), (1, 0, (7,))]
        self.assertEqual(list(xewumbal.terms(ROLL)), terms)
        self.assertEqual(xewumbal.scale_total(KINETIC, [1]), None)

    def test_longest(self) -> None:
        """The longest roll, by docs/requests/Q-6.md and Q-7.md: it is confirmed, and both sums over it have the same bits."""
        orders = [1, 1, 0, 4, 0, 1, 1, 3, 0, 3, 0, 0]
        roll = xewumbal.expand(COULOMB, orders)
        opened = xewumbal.confirm(roll)
        self.assertEqual((len(roll), opened.cursor.left, opened.orders), (15001920, 1048096, tuple(orders)))
        boys, buffer = [1.0] * (opened.cursor.l + 1), bytearray(xewumbal.ENTRY * opened.cursor.left)
        plain = xewumbal.evaluate(roll, A, A, A, A, aux=1.0, boys=boys)
        self.assertEqual(xewumbal.evaluate_grouped(roll, A, A, A, A, aux=1.0, boys=boys, buffer=buffer), plain)

    def test_one_primitive(self) -> None:
        """A contracted element of one primitive on each side is the plain value."""
        one = [Primitive(A, 1.0, 1.0)]
        self.assertEqual(xewumbal.contracted(ROLL, one, one, [1.0]), 0.25)
        with self.assertRaises(Refusal) as caught:
            xewumbal.contracted(ROLL, one * 11, one, [1.0] * 11)
        self.assertEqual(caught.exception.number, 15)


@unittest.skipUnless(numpy, "numpy is not there")
class Arrays(unittest.TestCase):
    def test_arrays(self) -> None:
        n = 3
        i: Any = numpy.arange(n**4, dtype=float).reshape(n, n, n, n)
        d: Any = numpy.arange(n**2, dtype=float).reshape(n, n)
        j, k = numpy.empty((n, n)), numpy.empty((n, n))
        xewumbal.jk_into(n, i, d, j, k)
        self.assertTrue((j == numpy.einsum("mnls,ls->mn", i, d)).all())
        self.assertTrue((k == numpy.einsum("mlns,ls->mn", i, d)).all())
        turned = d.transpose()
        xewumbal.jk_into(n, i, turned, j, k)
        self.assertTrue((j == numpy.einsum("mnls,ls->mn", i, turned)).all())
        with self.assertRaises(ValueError):
            xewumbal.jk_into(n, i, d, j.transpose(), k)
        room = numpy.zeros(64, dtype=numpy.uint8)
        orders: Any = numpy.array([1, 0, 0, 1])
        one: Any = numpy.float64(1)
        told = xewumbal.expand_into(OVERLAP, orders, room, 8)
        self.assertEqual(room[8 : 8 + told.length].tobytes(), ROLL)
        self.assertEqual(xewumbal.check(room[8 : 8 + told.length]).cursor.left, 2)
        self.assertEqual(xewumbal.evaluate(room[8:25], A, A, aux=one, boys=numpy.array([])), 0.25)


if __name__ == "__main__":
    unittest.main()
