"""Answers docs/QUESTIONS.md through the binding, for the questions that an exported call answers."""

from __future__ import annotations

import struct
from array import array
from typing import Callable, Dict, Iterator, List, Sequence, Tuple

import xewumbal
from xewumbal import Centre, Primitive, Refusal, Term

FILL = 0xA5
ROOM = 1048576
USED = (6, 6, 6, 9, 12)
AFTER = ("unknown", "none", "bytes")


class Spoiled(Exception):
    """A byte or float outside the answer has changed."""


class Words:
    """The words of a question, taken one after the other."""

    def __init__(self, words: List[str]) -> None:
        self.words = words

    def whole(self) -> int:
        return int(self.words.pop(0))

    def wholes(self, count: int) -> List[int]:
        return [self.whole() for _ in range(count)]

    def number(self) -> float:
        return float(struct.unpack(">d", bytes.fromhex(self.words.pop(0).zfill(16)))[0])

    def floats(self) -> List[float]:
        return [self.number() for _ in range(len(self.words))]

    def bytes(self) -> bytes:
        word = self.words.pop(0)
        return b"" if word == "-" else bytes.fromhex(word)

    def centre(self) -> Centre:
        return Centre(self.number(), self.number(), self.number(), self.number(), self.whole())

    def primitive(self) -> Primitive:
        return Primitive(self.centre(), self.number(), self.number())

    def function(self) -> List[Primitive]:
        count = self.counted(xewumbal.MOST_PRIMITIVES)
        return [self.primitive() for _ in range(count)] if count > 0 else [Primitive(Centre(), 0.0, 0.0)] * -count

    def counted(self, most: int) -> int:
        """A count, and how many follow: none where it is out of range, for which so many of anything are handed in."""
        count = self.whole()
        return count if 1 <= count <= most else -count


def bits(value: float) -> str:
    return struct.pack(">d", value).hex()


def numbers(values: Sequence[int]) -> str:
    return " ".join(map(str, values))


class Lent:
    """A buffer that is filled before it is lent, and looked at afterwards."""

    def __init__(self, words: Words, usual: int) -> None:
        said = len(words.words) == 2
        self.buffer = bytearray([FILL]) * (words.whole() if said else usual)
        self.start = words.whole() if said else 0

    def call(self, call: Callable[..., xewumbal.Written], *inputs: object) -> Tuple[xewumbal.Written, bytes]:
        before = bytes(self.buffer)
        try:
            told = call(*inputs, self.buffer, self.start)
        except Refusal:
            if self.buffer != before:
                raise Spoiled from None
            raise
        length = told if isinstance(told, int) else told.length
        end = self.start + length
        if end > len(before) or self.buffer[: self.start] != before[: self.start] or self.buffer[end:] != before[end:]:
            raise Spoiled
        return told, bytes(self.buffer[self.start : end])


def rolled(call: Callable[..., xewumbal.Written], lent: Lent, *inputs: object) -> str:
    told, data = lent.call(call, *inputs)
    return f"roll {told.length} terms {told.terms} {data.hex()}"


def request(call: Callable[..., xewumbal.Written]) -> Callable[[Words], str]:
    def answer(words: Words) -> str:
        kind, orders = words.whole(), words.wholes(12)
        return rolled(call, Lent(words, 2 * ROOM), kind, orders)

    return answer


def moved(call: Callable[..., xewumbal.Written]) -> Callable[[Words], str]:
    def answer(words: Words) -> str:
        roll = words.bytes()
        return rolled(call, Lent(words, 2 * ROOM), roll)

    return answer


def measure(words: Words) -> str:
    told = xewumbal.measure(words.whole(), words.wholes(12))
    return f"measured {told.length} terms {told.terms}"


def total(words: Words) -> str:
    told = xewumbal.scale_total(words.whole(), words.wholes(12))
    return f"total {'none' if told is None else told}"


def shell(words: Words) -> str:
    order = words.whole()
    told, data = Lent(words, 256).call(xewumbal.shell_list_into, order)
    return f"shell {told.length} {data.hex()}"


def component(words: Words) -> str:
    given = words.wholes(len(words.words))
    orders = xewumbal.shell2(*given) if len(given) == 3 else xewumbal.shell4(*given)
    return f"component {bytes(orders).hex()}"


def opened(word: str, cursor: xewumbal.Cursor, orders: Sequence[int]) -> str:
    used = orders[: USED[cursor.kind]]
    return f"{word} {cursor.kind} {cursor.l} {cursor.left} {numbers(used)} place {cursor.place}"


def reader(call: Callable[[bytes], xewumbal.Opened], word: str = "opened") -> Callable[[Words], str]:
    def answer(words: Words) -> str:
        told = call(words.bytes())
        return opened(word, told.cursor, told.orders)

    return answer


def reader2(call: Callable[[bytes], xewumbal.Opened2]) -> Callable[[Words], str]:
    def answer(words: Words) -> str:
        told = call(words.bytes())
        return opened("opened", told.cursor.cursor, told.orders)

    return answer


def stepped(term: Term, cursor: xewumbal.Cursor) -> str:
    given = "".join(f" {prefactor}" for prefactor in term.prefactors)
    return f"term {term.scale} {term.boys}{given} next {cursor.place} {cursor.left}"


def next_term(words: Words) -> str:
    kind, l, left, place = words.wholes(4)
    step = xewumbal.next_term(xewumbal.Cursor(place, left, kind, l), words.bytes())
    return "end" if step is None else stepped(*step)


def next_term2(words: Words) -> str:
    kind, l, left, place = words.wholes(4)
    at = words.words.index("/")
    earlier = tuple(words.wholes(at))
    words.words.pop(0)
    step = xewumbal.next_term2(xewumbal.Cursor2(xewumbal.Cursor(place, left, kind, l), earlier), words.bytes())
    return "end" if step is None else stepped(step[0], step[1].cursor)


def scales(words: Words) -> str:
    return f"scales {xewumbal.roll_total(words.bytes())}"


def salvage(words: Words) -> str:
    roll = words.bytes()
    told, data = Lent(words, 2 * ROOM).call(xewumbal.salvage_into, roll)  # type: ignore[arg-type]
    assert isinstance(told, xewumbal.Salvaged)
    count = "other" if told.miscounted else "same"
    return f"salvaged {told.length} terms {told.terms} kept {told.kept} anew {told.anew} count {count} after {AFTER[told.after]} {data.hex()}"


def export(words: Words) -> str:
    roll = words.bytes()
    told, data = Lent(words, 3 * ROOM).call(xewumbal.export_into, roll)  # type: ignore[arg-type]
    return f"text {told} {data.decode('ascii')}".replace("\n", "|")


def reading(term: Term) -> str:
    return f"{term.scale} {term.boys}:" + "".join(f" {prefactor}" for prefactor in term.prefactors)


def compared_lines(left: bytes, right: bytes) -> Iterator[str]:
    told = xewumbal.compare(left, right)
    a, b = told.cursor.left.cursor, told.cursor.right.cursor
    yield f"{told.differ} differ"
    if told.kinds:
        yield f"kind {a.kind} / {b.kind}"
    if told.orders:
        yield f"orders {numbers(told.left[:USED[a.kind]])} / {numbers(told.right[:USED[b.kind]])}"
    if told.terms:
        yield f"terms {a.left} / {b.left}"
    step = xewumbal.compare_next(told.cursor, left, right)
    while step is not None:
        met, cursor = step
        if met.left and met.right:
            yield f"{met.number}: {reading(met.left)} / {reading(met.right)}"
        elif met.left:
            yield f"{met.number}: left {reading(met.left)}"
        elif met.right:
            yield f"{met.number}: right {reading(met.right)}"
        step = xewumbal.compare_next(cursor, left, right)


def compare(words: Words) -> str:
    return "compared " + "".join(line + "|" for line in compared_lines(words.bytes(), words.bytes()))


def evaluate(words: Words) -> str:
    roll, centres = words.bytes(), [words.centre() for _ in range(4)]
    aux = words.number()
    return f"value {bits(xewumbal.evaluate(roll, *centres, aux=aux, boys=array('d', words.floats())))}"


def grouped(words: Words) -> str:
    buffer = bytearray([FILL]) * words.whole()
    roll, centres = words.bytes(), [words.centre() for _ in range(4)]
    aux = words.number()
    value = xewumbal.evaluate_grouped(roll, *centres, aux=aux, boys=words.floats(), buffer=buffer)
    cursor = xewumbal.check(roll).cursor
    used = xewumbal.ENTRY * cursor.left if cursor.kind == xewumbal.COULOMB else 0
    if buffer[used:].count(FILL) != max(0, len(buffer) - used):
        raise Spoiled
    if used:
        given = [xewumbal.grouped_term(buffer, cursor.l, cursor.left, at + 1) for at in range(min(cursor.left, 64))]
        if given != [term for term, _ in zip(xewumbal.terms(roll), range(64))]:
            raise Spoiled
    return f"value {bits(value)}"


def nuclei(words: Words) -> str:
    roll, a, b = words.bytes(), words.centre(), words.centre()
    count = words.counted(xewumbal.MOST_NUCLEI)
    centres = [words.centre() for _ in range(count)] if count > 0 else [Centre()] * -count
    aux = words.number()
    return f"value {bits(xewumbal.nuclear(roll, a, b, centres, aux=aux, boys=words.floats()))}"


def contracted(words: Words) -> str:
    roll, left, right = words.bytes(), words.function(), words.function()
    words.whole()
    return f"value {bits(xewumbal.contracted(roll, left, right, words.floats()))}"


def root(words: Words) -> str:
    return f"root {bits(xewumbal.root(words.number()))}"


def table(words: Words) -> str:
    entries = xewumbal.prefactors(words.whole(), *(words.centre() for _ in range(4)))
    return "table " + " ".join(map(bits, entries))


def matrices(n: int, lengths: Sequence[int], floats: List[float]) -> str:
    i, d = floats[: lengths[0]], floats[lengths[0] :]
    filled = struct.unpack("d", bytes([FILL]) * 8)
    j, k = array("d", filled * lengths[2]), array("d", filled * lengths[3])
    before = j.tobytes(), k.tobytes()
    try:
        xewumbal.jk_into(n, i, d, j, k)
    except Refusal:
        if (j.tobytes(), k.tobytes()) != before:
            raise Spoiled from None
        raise
    return "J " + " ".join(map(bits, j)) + " K " + " ".join(map(bits, k))


def jk(words: Words) -> str:
    n = words.whole()
    size = n * n if 1 <= n <= xewumbal.MOST_SIZE else 0
    return matrices(n, (size * size, size, size, size), words.floats())


def jkl(words: Words) -> str:
    n, lengths = words.whole(), words.wholes(4)
    return matrices(n, lengths, words.floats())


ANSWERS: Dict[str, Callable[[Words], str]] = {
    "expand": request(xewumbal.expand_into),
    "expand2": request(xewumbal.expand2_into),
    "small-expand": request(xewumbal.small_expand_into),
    "measure": measure,
    "total": total,
    "shell": shell,
    "component": component,
    "open": reader(xewumbal.open_roll),
    "check": reader(xewumbal.check),
    "small": reader(xewumbal.small_check),
    "confirm": reader(xewumbal.confirm, "confirmed"),
    "open2": reader2(xewumbal.open_roll2),
    "check2": reader2(xewumbal.check2),
    "next": next_term,
    "next2": next_term2,
    "scales": scales,
    "form1": moved(xewumbal.to_form1_into),
    "form2": moved(xewumbal.to_form2_into),
    "salvage": salvage,
    "export": export,
    "import": moved(xewumbal.import_into),
    "compare": compare,
    "eval": evaluate,
    "grouped": grouped,
    "nuclei": nuclei,
    "contracted": contracted,
    "root": root,
    "table": table,
    "jk": jk,
    "jkl": jkl,
}


def answer(line: str) -> str:
    """The answer to a question that is one."""
    kind, *words = line.split(" ")
    try:
        return ANSWERS[kind](Words(words))
    except Refusal as refusal:
        return refusal.head
    except Spoiled:
        return "spoiled"
