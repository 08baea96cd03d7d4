"""Events with names and fields, as docs/FORMATS.md declares them."""
from __future__ import annotations

import re
import struct
from typing import TYPE_CHECKING, Sequence, Union

if TYPE_CHECKING:
    from . import Offered, Producer

_SORTS = ("u", "BHIQ"), ("i", "bhiq"), ("x", "BHIQ")
_WHOLE = {f"{sort}{8 << k}": code for sort, codes in _SORTS for k, code in enumerate(codes)}
_CODES = {**_WHOLE, "f32": "f", "f64": "d", "flag": "?"}
_WORD = re.compile(r"(\w+)(?:\{(.*)\}|\[(\d*)\])?")

Number = Union[int, float]
Value = Union[Number, str, bytes, Sequence[Number]]


class _Field:
    """A type of a declaration, and the bytes of its values."""

    def __init__(self, word: str) -> None:
        found = _WORD.fullmatch(word)
        base, names, count = (found[1], found[2], found[3]) if found else ("", None, None)
        self.base, self.code, self.count = base, _CODES.get(base, ""), count
        self.named: dict[str, int] = {}
        if names is not None:
            self.named = {name: int(value) for name, _, value in (it.partition("=") for it in names.split(","))}
        is_number = bool(self.code) and (names is None or base in _WHOLE)
        if not is_number and word not in ("str", "text", "bytes"):
            raise ValueError(f"no type of a field: {word}")
        # what a struct packs at once
        self.is_plain = is_number and names is None and count is None

    def pack(self, value: Value) -> bytes:
        if self.count is not None:
            return self._numbers(list(value))  # type: ignore[arg-type]
        if self.code:
            number = self.named[value] if isinstance(value, str) else value
            return struct.pack("<" + self.code, number)
        text = value.encode(errors="backslashreplace") if isinstance(value, str) else bytes(value)  # type: ignore[arg-type]
        return text.split(b"\0")[0] + b"\0" if self.base == "str" else text

    def _numbers(self, values: list[Number]) -> bytes:
        """An array, or a sequence with its length before it."""
        if self.count and len(values) != int(self.count):
            raise ValueError(f"{len(values)} values, where {self.count} are wanted")
        length = b"" if self.count else struct.pack("<I", len(values))
        return length + struct.pack(f"<{len(values)}{self.code}", *values)


class Event:
    """A declared event: Event("queue_push", 3, worker="u32", depth="u64"), with fields of the types of docs/FORMATS.md. `str` of
    it is the line that declares it, for Session.declare, which refuses what declares no event. It may be used by all threads.

    Values are given in the order of the fields, or by their names: whole numbers and floats, True and False, str (up to a zero
    byte, if its type is `str`) or bytes, and of `u8{GET=71}` a number or its name. A number that its type doesn't hold is a
    struct.error."""

    def __init__(self, name: str, id: int, /, **fields: str) -> None:
        self.name, self.id, self._names = name, id, list(fields)
        self._fields = [_Field(it) for it in fields.values()]
        self._line = " ".join([name, str(id), *(f"{field}:{word}" for field, word in fields.items())])
        plain = "".join(it.code for it in self._fields)
        self._struct = struct.Struct("<" + plain) if all(it.is_plain for it in self._fields) else None

    def __str__(self) -> str:
        return self._line

    def __repr__(self) -> str:
        return f"<Event {self._line}>"

    def pack(self, /, *values: Value, **named: Value) -> bytes:
        """The payload of a record."""
        if named:
            values = (*values, *(named.pop(it) for it in self._names[len(values) :] if it in named))
        if named or len(values) != len(self._names):
            raise TypeError(f"values of {', '.join(self._names) or 'no field'} are wanted")
        if self._struct:
            return self._struct.pack(*values)
        return b"".join(field.pack(value) for field, value in zip(self._fields, values))

    def trace(self, producer: Producer, /, *values: Value, **named: Value) -> bool:
        """A tracepoint, as Producer.trace. While the producer is off nothing is packed."""
        return producer.is_active and producer.trace(self.id, self.pack(*values, **named))

    def offer(self, producer: Producer, moment: int, /, *values: Value, **named: Value) -> Offered:
        """Offers a record, as Producer.offer."""
        return producer.offer(moment, self.id, self.pack(*values, **named))
