"""Gaussian integrals by the recurrences of Obara and Saika, over the proved library libxewumbal.

Every call answers every input: what was asked for, or a Refusal with its number, place or line, and words. A roll or a text is
anything with bytes (bytes, bytearray, memoryview, a numpy array of uint8); floats are any sequence of numbers, and an
array of 64-bit floats, numpy's or array's, is taken as it stands. What ends in `_into` writes into a buffer that the caller
lends, a bytearray or an array that can be written, from a start place on. include/xewumbal.h says more of each call, and
docs/AUX.md what aux is.

>>> import xewumbal
>>> roll = xewumbal.expand(xewumbal.OVERLAP, [1, 0, 0, 1, 0, 0])
>>> a = xewumbal.Centre(0.0, 0.0, 0.0, 1.0)
>>> xewumbal.evaluate(roll, a, a, aux=1.0)
0.25
>>> xewumbal.check(roll[:16])
Traceback (most recent call last):
    ...
xewumbal.refusal.Refusal: refused 14 at 16: the roll ends before a number does
"""

from __future__ import annotations

import ctypes
from typing import Any, Iterator, List, NamedTuple, Optional, Sequence, Tuple, Union

from . import raw
from .raw import VERSION as VERSION
from .raw import float_mode_is_right as float_mode_is_right
from .refusal import WORDS as WORDS
from .refusal import Refusal as Refusal

OVERLAP, KINETIC, NUCLEAR, MOMENT, COULOMB = range(5)
KINDS = 5
ORDERS = raw.ORDERS
MOST_ORDER = 6
MOST_TERMS = 1048575
MOST_SCALE = 2176782336
MOST_ROLL = 32505841
MOST_SIZE = 16
PREFACTORS = raw.PREFACTORS
ENTRY = 40
TABLE = raw.TABLE
MOST_CHARGE = 118
MOST_NUCLEI = raw.MOST_NUCLEI
MOST_PRIMITIVES = raw.MOST_PRIMITIVES
SMALL_TERMS = 54
SMALL_ROLL = 348

# Bytes or floats: anything with a buffer, numpy's arrays among them; of floats also a sequence of numbers.
Data = Union[bytes, bytearray, memoryview, Any]
Numbers = Union[Sequence[float], Any]


class Centre(NamedTuple):
    """A centre. Only a nucleus' charge is looked at."""

    x: float = 0.0
    y: float = 0.0
    z: float = 0.0
    exponent: float = 0.0
    charge: int = 0


class Primitive(NamedTuple):
    """A primitive of a contracted function."""

    centre: Centre
    norm: float
    coefficient: float


class Written(NamedTuple):
    """How many bytes were written or measured, and how many terms, or triples of a shell, they say."""

    length: int
    terms: int


class Term(NamedTuple):
    scale: int
    boys: int
    prefactors: Tuple[int, ...]


class Cursor(NamedTuple):
    """Where a reader of a roll stands."""

    place: int
    left: int
    kind: int
    l: int


class Cursor2(NamedTuple):
    """Where a reader of a form 2 roll stands, and the prefactors of the term before."""

    cursor: Cursor
    earlier: Tuple[int, ...] = ()


class Opened(NamedTuple):
    """A roll's orders, zeros after those that its kind uses, and the cursor at its first term."""

    cursor: Cursor
    orders: Tuple[int, ...]


class Opened2(NamedTuple):
    cursor: Cursor2
    orders: Tuple[int, ...]


class Salvaged(NamedTuple):
    """after: 0 unknown, 1 nothing follows the last term, 2 bytes do."""

    length: int
    terms: int
    kept: int
    anew: int
    miscounted: bool
    after: int


class Pair(NamedTuple):
    """Where both readers of a comparison stand, and the number of the position."""

    left: Cursor2
    right: Cursor2
    number: int


class Compared(NamedTuple):
    cursor: Pair
    differ: int
    left: Tuple[int, ...]
    right: Tuple[int, ...]
    kinds: bool
    orders: bool
    terms: bool


class Met(NamedTuple):
    """A position that differs: the term of each side, None where it has none."""

    number: int
    left: Optional[Term]
    right: Optional[Term]


NOWHERE = Centre()


def _whole(value: int, bits: int, what: str) -> int:
    if not 0 <= value < 1 << bits:
        raise ValueError(f"{what} is no whole number below 2^{bits}: {value}")
    return int(value)


def _byte(value: int, what: str) -> int:
    return _whole(value, 8, what)


def _place(value: int) -> int:
    return _whole(value, 64, "a place or length")


def _orders(orders: Sequence[int]) -> Any:
    """Twelve orders; a request may leave out those at the end that are 0."""
    if len(orders) > ORDERS:
        raise ValueError(f"a request has at most {ORDERS} orders, not {len(orders)}")
    return (ctypes.c_uint8 * ORDERS)(*(_byte(order, "an order") for order in orders))


def _read(data: Data) -> Tuple[Any, int]:
    """Bytes that the library reads, and how many."""
    view = memoryview(data)
    if view.itemsize != 1:
        raise ValueError("bytes are wanted, not numbers of several bytes")
    held = view.tobytes()
    return ctypes.cast(ctypes.c_char_p(held), raw.Bytes), len(held)


def _write(buffer: Any) -> Tuple[Any, int]:
    """Bytes that the library may write, and how many."""
    view = memoryview(buffer)
    if view.readonly or view.itemsize != 1 or not view.c_contiguous:
        raise ValueError("a buffer is lent that can be written, of bytes one behind the other")
    return (ctypes.c_uint8 * view.nbytes).from_buffer(buffer), view.nbytes


def _flat(values: Any) -> Iterator[float]:
    for value in values:
        if isinstance(value, list):
            yield from _flat(value)
        else:
            yield float(value)


def _floats(values: Any) -> Tuple[Any, int]:
    """Floats that the library reads, row by row, and how many."""
    try:
        view = memoryview(values)
    except TypeError:
        listed = list(_flat(values))
        return (ctypes.c_double * len(listed))(*listed), len(listed)
    if view.format.lstrip("@=<") == "d":
        held = view.tobytes()
        count = len(held) // 8
        return (ctypes.c_double * count).from_buffer_copy(held), count
    return _floats(view.tolist())


def _write_floats(buffer: Any) -> Tuple[Any, int]:
    view = memoryview(buffer)
    if view.readonly or view.format.lstrip("@=<") != "d" or not view.c_contiguous:
        raise ValueError("a buffer is lent that can be written, of 64-bit floats one behind the other")
    count = view.nbytes // 8
    return (ctypes.c_double * count).from_buffer(buffer), count


def _centre(centre: Centre) -> raw.Centre:
    return raw.Centre(centre.x, centre.y, centre.z, centre.exponent, _whole(centre.charge, 32, "a charge"))


def _nuclei(nuclei: Sequence[Centre]) -> raw.Nuclei:
    held = raw.Nuclei(count=_whole(len(nuclei), 32, "a count"))
    for at, nucleus in enumerate(nuclei[:MOST_NUCLEI]):
        held.centres[at] = _centre(nucleus)
    return held


def _contraction(primitives: Sequence[Primitive]) -> raw.Contraction:
    held = raw.Contraction(count=_whole(len(primitives), 32, "a count"))
    for at, primitive in enumerate(primitives[:MOST_PRIMITIVES]):
        held.primitives[at] = raw.Primitive(_centre(primitive.centre), primitive.norm, primitive.coefficient)
    return held


def _cursor(cursor: Cursor) -> raw.Cursor:
    return raw.Cursor(_place(cursor.place), _whole(cursor.left, 32, "left"), _byte(cursor.kind, "a kind"), _byte(cursor.l, "L"))


def _cursor2(cursor: Cursor2) -> raw.Cursor2:
    if len(cursor.earlier) > PREFACTORS:
        raise ValueError(f"a term has at most {PREFACTORS} prefactors, not {len(cursor.earlier)}")
    earlier = (ctypes.c_uint8 * PREFACTORS)(*(_byte(prefactor, "a prefactor") for prefactor in cursor.earlier))
    return raw.Cursor2(_cursor(cursor.cursor), len(cursor.earlier), earlier)


def _told_cursor(cursor: raw.Cursor) -> Cursor:
    return Cursor(cursor.place, cursor.left, cursor.kind, cursor.l)


def _told_cursor2(cursor: raw.Cursor2) -> Cursor2:
    return Cursor2(_told_cursor(cursor.cursor), tuple(cursor.earlier[: cursor.count]))


def _told_pair(pair: raw.Pair) -> Pair:
    return Pair(_told_cursor2(pair.left), _told_cursor2(pair.right), pair.number)


def _told_term(term: Any) -> Term:
    return Term(term.scale, term.boys, tuple(term.prefactors[: term.count]))


def _taken(answer: Any) -> Any:
    """The answer, or its refusal raised."""
    if answer.refusal:
        side = (None, "left", "right")[getattr(answer, "side", 0)]
        raise Refusal(answer.refusal, getattr(answer, "place", None), getattr(answer, "line", None), side)
    return answer


def _written(answer: Any) -> Written:
    _taken(answer)
    return Written(answer.length, answer.terms)


def _opened(answer: Any) -> Opened:
    _taken(answer)
    return Opened(_told_cursor(answer.cursor), tuple(answer.orders))


def _opened2(answer: Any) -> Opened2:
    _taken(answer)
    return Opened2(_told_cursor2(answer.cursor), tuple(answer.orders))


# Rolls of a request


def expand_into(kind: int, orders: Sequence[int], buffer: Data, start: int = 0) -> Written:
    """Writes the roll of a request. Refusals: 1, 2, 3, 5, 4, 6."""
    return _written(raw.library.xew_expand(_byte(kind, "a kind"), _orders(orders), *_write(buffer), _place(start)))


def expand2_into(kind: int, orders: Sequence[int], buffer: Data, start: int = 0) -> Written:
    """Writes the roll of a request in form 2. Refusals: 1, 2, 3, 5, 4, 6."""
    return _written(raw.library.xew_expand2(_byte(kind, "a kind"), _orders(orders), *_write(buffer), _place(start)))


def small_expand_into(kind: int, orders: Sequence[int], buffer: Data, start: int = 0) -> Written:
    """Writes the roll of a request of the small-cabinet profile. Refusals: 1, 2, 3, 19, 5, 6."""
    return _written(raw.library.xew_small_expand(_byte(kind, "a kind"), _orders(orders), *_write(buffer), _place(start)))


def measure(kind: int, orders: Sequence[int]) -> Written:
    """The bytes and the terms of a request's roll. Refusals: 1, 2, 3, 4."""
    return _written(raw.library.xew_measure(_byte(kind, "a kind"), _orders(orders)))


def expand(kind: int, orders: Sequence[int]) -> bytes:
    """The roll of a request. Refusals: 1, 2, 3, 4."""
    buffer = bytearray(measure(kind, orders).length)
    return bytes(buffer[: expand_into(kind, orders, buffer).length])


def expand2(kind: int, orders: Sequence[int]) -> bytes:
    """The roll of a request in form 2. Refusals: 1, 2, 3, 4."""
    buffer = bytearray(sum(measure(kind, orders)))
    return bytes(buffer[: expand2_into(kind, orders, buffer).length])


def small_expand(kind: int, orders: Sequence[int]) -> bytes:
    """The roll of a request of the small-cabinet profile. Refusals: 1, 2, 3, 19."""
    buffer = bytearray(SMALL_ROLL)
    return bytes(buffer[: small_expand_into(kind, orders, buffer).length])


def scale_total(kind: int, orders: Sequence[int]) -> Optional[int]:
    """What the scales of a request's terms add up to; None for kinetic and Coulomb. Refusals: 1, 2, 3."""
    answer = _taken(raw.library.xew_scale_total(_byte(kind, "a kind"), _orders(orders)))
    return int(answer.total) if answer.claimed else None


# Shells


def shell_list_into(order: int, buffer: Data, start: int = 0) -> Written:
    """Writes the triples of a shell, which terms counts. Refusals: 2, 5, 6."""
    return _written(raw.library.xew_shell_list(_byte(order, "an order"), *_write(buffer), _place(start)))


def shell_list(order: int) -> List[Tuple[int, int, int]]:
    """The triples of a shell, x descending, then y. Refusal: 2."""
    buffer = bytearray(256)
    length = shell_list_into(order, buffer).length
    return [(buffer[at], buffer[at + 1], buffer[at + 2]) for at in range(0, length, 3)]


def shell2(a: int, b: int, number: int) -> Tuple[int, ...]:
    """The six orders of a component of two shells by its number, from 0. Refusals: 2, 13."""
    answer = raw.library.xew_shell2(_byte(a, "an order"), _byte(b, "an order"), _whole(number, 32, "a number"))
    return tuple(_taken(answer).orders[:6])


def shell4(a: int, b: int, c: int, d: int, number: int) -> Tuple[int, ...]:
    """The twelve orders of a component of four shells. Refusals: 2, 13."""
    shells = (_byte(order, "an order") for order in (a, b, c, d))
    return tuple(_taken(raw.library.xew_shell4(*shells, _whole(number, 32, "a number"))).orders)


# Reading


def open_roll(roll: Data) -> Opened:
    """The header of a roll alone. Refusals: 7 or 14."""
    return _opened(raw.library.xew_open(*_read(roll)))


def check(roll: Data) -> Opened:
    """The whole roll judged: it reads. That its terms are those of its request confirm says. Refusals: 7 or 14."""
    return _opened(raw.library.xew_check(*_read(roll)))


def confirm(roll: Data) -> Opened:
    """Whether a roll of either form is the expansion of its own header, byte for byte. Refusals: 7 or 14, 4, 20."""
    return _opened(raw.library.xew_confirm(*_read(roll)))


def small_check(roll: Data) -> Opened:
    """The reader of a cheap board. Refusals: 7 or 14, 19, 20."""
    return _opened(raw.library.xew_small_check(*_read(roll)))


def open_roll2(roll: Data) -> Opened2:
    """The header of a form 2 roll alone. Refusals: 7 or 14."""
    return _opened2(raw.library.xew_open2(*_read(roll)))


def check2(roll: Data) -> Opened2:
    """A whole form 2 roll judged. Refusals: 7 or 14."""
    return _opened2(raw.library.xew_check2(*_read(roll)))


def next_term(cursor: Cursor, roll: Data) -> Optional[Tuple[Term, Cursor]]:
    """The term at a cursor, and the cursor for the next call; None at the end. Refusals: 7 or 14."""
    step = _taken(raw.library.xew_next(_cursor(cursor), *_read(roll)))
    return None if step.found == 2 else (_told_term(step), _told_cursor(step.next))


def next_term2(cursor: Cursor2, roll: Data) -> Optional[Tuple[Term, Cursor2]]:
    """The same of a form 2 roll. Refusals: 7 or 14."""
    step = _taken(raw.library.xew_next2(_cursor2(cursor), *_read(roll)))
    return None if step.found == 2 else (_told_term(step), _told_cursor2(step.next))


def terms(roll: Data) -> Iterator[Term]:
    """The terms of a roll of form 1, which is judged whole first. Refusals: 7 or 14."""
    held = memoryview(roll).tobytes()
    step = next_term(check(held).cursor, held)
    while step is not None:
        term, cursor = step
        yield term
        step = next_term(cursor, held)


def roll_total(roll: Data) -> int:
    """The scales of a roll's terms added up. Refusals: 7 or 14."""
    return int(_taken(raw.library.xew_roll_total(*_read(roll))).total)


# Moving, salvaging, texts, comparing


def to_form2_into(roll: Data, buffer: Data, start: int = 0) -> Written:
    """Moves a form 1 roll to form 2. Refusals: 7 or 14, 5, 6."""
    return _written(raw.library.xew_to_form2(*_read(roll), *_write(buffer), _place(start)))


def to_form1_into(roll: Data, buffer: Data, start: int = 0) -> Written:
    """Moves a form 2 roll back to form 1. Refusals: 7 or 14, 5, 6."""
    return _written(raw.library.xew_to_form1(*_read(roll), *_write(buffer), _place(start)))


def to_form2(roll: Data) -> bytes:
    """A form 1 roll in form 2. Refusals: 7 or 14."""
    buffer = bytearray(memoryview(roll).nbytes + check(roll).cursor.left)
    return bytes(buffer[: to_form2_into(roll, buffer).length])


def to_form1(roll: Data) -> bytes:
    """A form 2 roll in form 1. Refusals: 7 or 14."""
    cursor = check2(roll).cursor.cursor
    buffer = bytearray(memoryview(roll).nbytes + cursor.left * cursor.l)
    return bytes(buffer[: to_form1_into(roll, buffer).length])


def salvage_into(roll: Data, buffer: Data, start: int = 0) -> Salvaged:
    """Works out afresh a damaged roll of either form whose header reads. Refusals: 7 or 14, 5, 4, 6."""
    answer = _taken(raw.library.xew_salvage(*_read(roll), *_write(buffer), _place(start)))
    return Salvaged(answer.length, answer.terms, answer.kept, answer.anew, bool(answer.miscounted), answer.after)


def salvage(roll: Data) -> Tuple[bytes, Salvaged]:
    """The fresh roll, and what was kept of the damaged one. Refusals: 7 or 14, 4."""
    held = memoryview(roll).tobytes()
    orders = open_roll2(held).orders if held[:1] >= b"\x10" else open_roll(held).orders
    buffer = bytearray(sum(measure(held[0] % 16, orders)))
    told = salvage_into(held, buffer)
    return bytes(buffer[: told.length]), told


def export_into(roll: Data, buffer: Data, start: int = 0) -> int:
    """Writes a form 1 roll as text for a spreadsheet, and answers how many bytes. Refusals: 7 or 14, 5, 6."""
    return int(_taken(raw.library.xew_export(*_read(roll), *_write(buffer), _place(start))).length)


def export_text(roll: Data) -> bytes:
    """The text of a form 1 roll. Refusals: 7 or 14."""
    buffer = bytearray(3 * memoryview(roll).nbytes)
    return bytes(buffer[: export_into(roll, buffer)])


def import_into(text: Data, buffer: Data, start: int = 0) -> Written:
    """Writes the form 1 roll of such a text. Refusals: 21 and 22 with the line, 5, 6."""
    return _written(raw.library.xew_import(*_read(text), *_write(buffer), _place(start)))


def import_text(text: Data) -> bytes:
    """The form 1 roll of such a text. Refusals: 21 and 22 with the line."""
    buffer = bytearray(memoryview(text).nbytes)
    return bytes(buffer[: import_into(text, buffer).length])


def compare(left: Data, right: Data) -> Compared:
    """Two rolls, each of either form, beside each other. Refusals: 7 or 14, with the side."""
    answer = _taken(raw.library.xew_compare(*_read(left), *_read(right)))
    same = (bool(answer.kinds), bool(answer.orders), bool(answer.terms))
    return Compared(_told_pair(answer.cursor), answer.differ, tuple(answer.left), tuple(answer.right), *same)


def compare_next(cursor: Pair, left: Data, right: Data) -> Optional[Tuple[Met, Pair]]:
    """The next position that differs, and the cursor behind it; None at the end. Refusals: 7 or 14, with the side."""
    pair = raw.Pair(_cursor2(cursor.left), _cursor2(cursor.right), _whole(cursor.number, 32, "a number"))
    met = _taken(raw.library.xew_compare_next(pair, *_read(left), *_read(right)))
    if met.found == 4:
        return None
    has_left, has_right = met.found in (1, 2), met.found in (1, 3)
    told = Met(met.number, _told_term(met.left) if has_left else None, _told_term(met.right) if has_right else None)
    return told, _told_pair(met.next)


# Numbers


def prefactors(kind: int, a: Centre, b: Centre, c: Centre = NOWHERE, d: Centre = NOWHERE) -> Tuple[float, ...]:
    """The prefactor table of a kind, 0.0 in the places left. Refusals: 1, 8, 9, 11."""
    centres = (_centre(centre) for centre in (a, b, c, d))
    return tuple(_taken(raw.library.xew_prefactors(_byte(kind, "a kind"), *centres)).entries)


def root(x: float) -> float:
    """The nearest float to the root. Refusals: 8, 18."""
    return float(_taken(raw.library.xew_root(x)).root)


def evaluate(
    roll: Data, a: Centre, b: Centre, c: Centre = NOWHERE, d: Centre = NOWHERE, *, aux: float, boys: Numbers = ()
) -> float:
    """The integral over a roll. Refusals: 7 or 14, 17, 8, 9, 10, 11."""
    centres = (_centre(centre) for centre in (a, b, c, d))
    return float(_taken(raw.library.xew_evaluate(*_read(roll), *centres, aux, *_floats(boys))).value)


def evaluate_grouped(
    roll: Data, a: Centre, b: Centre, c: Centre, d: Centre, *, aux: float, boys: Numbers = (), buffer: Data
) -> float:
    """The same integral by way of a lent buffer, ENTRY bytes for each term of a Coulomb roll. Refusals: 7 or 14, 6, 17, 8, 9,
    10, 11; the grouping stays in the front of the buffer whatever is answered after 6."""
    centres = (_centre(centre) for centre in (a, b, c, d))
    lent = _write(buffer)
    return float(_taken(raw.library.xew_evaluate_grouped(*_read(roll), *centres, aux, *_floats(boys), *lent)).value)


def grouped_term(grouping: Data, l: int, count: int, number: int) -> Term:
    """The term with a number, from 1, of a grouping of a roll with so many terms. Refusals: 7, 13, 7 or 14."""
    numbers = (_byte(l, "L"), _whole(count, 32, "a count"), _whole(number, 32, "a number"))
    return _told_term(_taken(raw.library.xew_grouped_term(*_read(grouping), *numbers)))


def nuclear(roll: Data, a: Centre, b: Centre, nuclei: Sequence[Centre], *, aux: float, boys: Numbers) -> float:
    """The nuclear values of a list of nuclei, added up. Refusals: 7 or 14, 1, 17, 8, 9, 10, 11."""
    host = _floats(boys)
    answer = raw.library.xew_nuclear(*_read(roll), _centre(a), _centre(b), _nuclei(nuclei), aux, *host)
    return float(_taken(answer).value)


def contracted(roll: Data, left: Sequence[Primitive], right: Sequence[Primitive], host: Numbers) -> float:
    """The element of two contracted functions; host has the aux of each pair, that of left i and right j at
    j * len(left) + i. Refusals: 15, 16, 7 or 14, 1, 8, 9, 11."""
    answer = raw.library.xew_contracted(*_read(roll), _contraction(left), _contraction(right), *_floats(host))
    return float(_taken(answer).value)


def jk_into(n: int, i: Numbers, d: Numbers, j: Any, k: Any) -> None:
    """Writes J and K of the integrals i and the density d, row by row. Refusals: 12, 8, 11."""
    refusal = raw.library.xew_jk(_place(n), *_floats(i), *_floats(d), *_write_floats(j), *_write_floats(k))
    if refusal:
        raise Refusal(refusal)


def jk(n: int, i: Numbers, d: Numbers) -> Tuple[List[float], List[float]]:
    """J and K, n*n floats each, row by row. Refusals: 12, 8, 11."""
    size = n * n if 1 <= n <= MOST_SIZE else 0
    j, k = (ctypes.c_double * size)(), (ctypes.c_double * size)()
    jk_into(n, i, d, j, k)
    return list(j), list(k)
