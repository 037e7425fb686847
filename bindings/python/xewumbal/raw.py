"""The structs and calls of include/xewumbal.h, and the shared library that has them."""

from __future__ import annotations

import ctypes
import math
import os
from ctypes import POINTER, Structure, c_double, c_size_t, c_uint8, c_uint32, c_uint64
from pathlib import Path
from typing import Any, Dict, List, Tuple

VERSION = 2
ORDERS = 12
PREFACTORS = 24
TABLE = 23
MOST_NUCLEI = 32
MOST_PRIMITIVES = 10

Bytes = POINTER(c_uint8)
Floats = POINTER(c_double)


class Centre(Structure):
    _fields_ = [("x", c_double), ("y", c_double), ("z", c_double), ("exponent", c_double), ("charge", c_uint32)]


class Nuclei(Structure):
    _fields_ = [("centres", Centre * MOST_NUCLEI), ("count", c_uint32)]


class Primitive(Structure):
    _fields_ = [("centre", Centre), ("norm", c_double), ("coefficient", c_double)]


class Contraction(Structure):
    _fields_ = [("primitives", Primitive * MOST_PRIMITIVES), ("count", c_uint32)]


class Written(Structure):
    _fields_ = [("length", c_size_t), ("terms", c_uint32), ("refusal", c_uint8)]


class Value(Structure):
    _fields_ = [("value", c_double), ("place", c_size_t), ("refusal", c_uint8)]


class Rooted(Structure):
    _fields_ = [("root", c_double), ("refusal", c_uint8)]


class Component(Structure):
    _fields_ = [("orders", c_uint8 * ORDERS), ("refusal", c_uint8)]


class Table(Structure):
    _fields_ = [("entries", c_double * TABLE), ("refusal", c_uint8)]


class Cursor(Structure):
    _fields_ = [("place", c_size_t), ("left", c_uint32), ("kind", c_uint8), ("l", c_uint8)]


class Opened(Structure):
    _fields_ = [("cursor", Cursor), ("place", c_size_t), ("orders", c_uint8 * ORDERS), ("refusal", c_uint8)]


class Step(Structure):
    _fields_ = [
        ("next", Cursor),
        ("place", c_size_t),
        ("scale", c_uint32),
        ("boys", c_uint8),
        ("count", c_uint8),
        ("prefactors", c_uint8 * PREFACTORS),
        ("found", c_uint8),
        ("refusal", c_uint8),
    ]


class Restored(Structure):
    _fields_ = [
        ("place", c_size_t),
        ("scale", c_uint32),
        ("boys", c_uint8),
        ("count", c_uint8),
        ("prefactors", c_uint8 * PREFACTORS),
        ("refusal", c_uint8),
    ]


class Cursor2(Structure):
    _fields_ = [("cursor", Cursor), ("count", c_uint8), ("earlier", c_uint8 * PREFACTORS)]


class Opened2(Structure):
    _fields_ = [("cursor", Cursor2), ("place", c_size_t), ("orders", c_uint8 * ORDERS), ("refusal", c_uint8)]


class Step2(Structure):
    _fields_ = [("next", Cursor2), *Step._fields_[1:]]


class Moved(Structure):
    _fields_ = [("length", c_size_t), ("place", c_size_t), ("terms", c_uint32), ("refusal", c_uint8)]


class Salvaged(Structure):
    _fields_ = [
        ("length", c_size_t),
        ("place", c_size_t),
        ("terms", c_uint32),
        ("kept", c_uint32),
        ("anew", c_uint32),
        ("miscounted", c_uint8),
        ("after", c_uint8),
        ("refusal", c_uint8),
    ]


class Text(Structure):
    _fields_ = [("length", c_size_t), ("place", c_size_t), ("refusal", c_uint8)]


class Imported(Structure):
    _fields_ = [("length", c_size_t), ("line", c_uint64), ("terms", c_uint32), ("refusal", c_uint8)]


class Pair(Structure):
    _fields_ = [("left", Cursor2), ("right", Cursor2), ("number", c_uint32)]


class Compared(Structure):
    _fields_ = [
        ("cursor", Pair),
        ("place", c_size_t),
        ("differ", c_uint32),
        ("left", c_uint8 * ORDERS),
        ("right", c_uint8 * ORDERS),
        ("kinds", c_uint8),
        ("orders", c_uint8),
        ("terms", c_uint8),
        ("side", c_uint8),
        ("refusal", c_uint8),
    ]


class Term(Structure):
    _fields_ = [("scale", c_uint32), ("boys", c_uint8), ("count", c_uint8), ("prefactors", c_uint8 * PREFACTORS)]


class Met(Structure):
    _fields_ = [
        ("next", Pair),
        ("place", c_size_t),
        ("number", c_uint32),
        ("left", Term),
        ("right", Term),
        ("found", c_uint8),
        ("side", c_uint8),
        ("refusal", c_uint8),
    ]


class Total(Structure):
    _fields_ = [("total", c_uint64), ("claimed", c_uint8), ("refusal", c_uint8)]


class Scales(Structure):
    _fields_ = [("total", c_uint64), ("place", c_size_t), ("refusal", c_uint8)]


_REQUEST: List[Any] = [c_uint8, Bytes]
_READ: List[Any] = [Bytes, c_size_t]
_WRITE: List[Any] = [Bytes, c_size_t, c_size_t]
_FOUR: List[Any] = [Centre, Centre, Centre, Centre]
_HOST: List[Any] = [Floats, c_size_t]

CALLS: Dict[str, Tuple[Any, List[Any]]] = {
    "xew_version": (c_uint32, []),
    "xew_expand": (Written, _REQUEST + _WRITE),
    "xew_measure": (Written, _REQUEST),
    "xew_expand2": (Written, _REQUEST + _WRITE),
    "xew_shell_list": (Written, [c_uint8, *_WRITE]),
    "xew_shell2": (Component, [c_uint8, c_uint8, c_uint32]),
    "xew_shell4": (Component, [c_uint8, c_uint8, c_uint8, c_uint8, c_uint32]),
    "xew_open": (Opened, _READ),
    "xew_check": (Opened, _READ),
    "xew_next": (Step, [Cursor, *_READ]),
    "xew_open2": (Opened2, _READ),
    "xew_check2": (Opened2, _READ),
    "xew_next2": (Step2, [Cursor2, *_READ]),
    "xew_to_form2": (Moved, _READ + _WRITE),
    "xew_to_form1": (Moved, _READ + _WRITE),
    "xew_salvage": (Salvaged, _READ + _WRITE),
    "xew_confirm": (Opened, _READ),
    "xew_small_check": (Opened, _READ),
    "xew_small_expand": (Written, _REQUEST + _WRITE),
    "xew_export": (Text, _READ + _WRITE),
    "xew_import": (Imported, _READ + _WRITE),
    "xew_compare": (Compared, _READ + _READ),
    "xew_compare_next": (Met, [Pair, *_READ, *_READ]),
    "xew_scale_total": (Total, _REQUEST),
    "xew_roll_total": (Scales, _READ),
    "xew_prefactors": (Table, [c_uint8, *_FOUR]),
    "xew_root": (Rooted, [c_double]),
    "xew_evaluate": (Value, [*_READ, *_FOUR, c_double, *_HOST]),
    "xew_nuclear": (Value, [*_READ, Centre, Centre, Nuclei, c_double, *_HOST]),
    "xew_contracted": (Value, [*_READ, Contraction, Contraction, *_HOST]),
    "xew_evaluate_grouped": (Value, [*_READ, *_FOUR, c_double, *_HOST, *_READ]),
    "xew_grouped_term": (Restored, [*_READ, c_uint8, c_uint32, c_uint32]),
    "xew_jk": (c_uint8, [c_size_t, *_HOST, *_HOST, *_HOST, *_HOST]),
}


def float_mode_is_right() -> bool:
    """Whether this thread rounds to nearest and keeps subnormals, as the proofs take it. Numbers are made at run time, so that
    the arithmetic is done here and now. Traps can't be asked for in Python: with them on, a call that should answer 11 ends
    the process."""
    one, half = math.ldexp(1.0, 0), math.ldexp(1.0, -53)
    more = half + math.ldexp(1.0, -60)
    nearest = one + half == one and one + more > one and -one - half == -one and -one - more < -one
    least, normal = math.ldexp(1.0, -1022), math.ldexp(1.0, -1060)
    kept = least * math.ldexp(1.0, -38) == normal and normal != 0.0 and normal * math.ldexp(1.0, 60) == math.ldexp(1.0, -1000)
    return nearest and kept


def find() -> str:
    """The shared library: the file that XEWUMBAL_LIBRARY names, or libxewumbal.so in this folder, or in lib/ of the release
    that this folder is in, or where the loader finds it."""
    named = os.environ.get("XEWUMBAL_LIBRARY")
    if named:
        return named
    here = Path(__file__).resolve().parent
    for folder in (here, here.parent.parent / "lib"):
        if (folder / "libxewumbal.so").is_file():
            return str(folder / "libxewumbal.so")
    return "libxewumbal.so"


def load(path: str) -> ctypes.CDLL:
    """The library with its calls' types. ImportError where it can't be used: not found, empty, of another version."""
    try:
        library = ctypes.CDLL(path)
    except OSError as error:
        raise ImportError(f"{path} can't be loaded ({error}); XEWUMBAL_LIBRARY names the shared library") from None
    for name, (answer, arguments) in CALLS.items():
        try:
            call = getattr(library, name)
        except AttributeError:
            raise ImportError(f"{path} has no {name}: it is of another version, or was linked without --whole-archive") from None
        call.restype, call.argtypes = answer, arguments
    version = library.xew_version()
    if version != VERSION:
        raise ImportError(f"{path} is of version {version}, and this binding of version {VERSION}")
    return library


if not float_mode_is_right():
    raise ImportError("the float mode is not round to nearest with subnormals kept, so the library's values would be wrong")
library = load(find())
