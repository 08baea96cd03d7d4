"""What tracerd.h declares: results, and the calls of the library."""
from __future__ import annotations

import ctypes
import os
from ctypes import POINTER, c_char_p, c_int, c_int32, c_size_t, c_ssize_t, c_uint8, c_uint32, c_uint64, c_void_p, py_object
from typing import TYPE_CHECKING, Any

from . import __version__

if TYPE_CHECKING:
    from _typeshed import ReadableBuffer


class _Struct(ctypes.Structure):
    """A structure that shows its fields."""

    def __repr__(self) -> str:
        shown = (f"{name}={getattr(self, name)}" for name, *_ in self._fields_ if name[0] != "_")
        return f"{type(self).__name__}({', '.join(shown)})"


def _numbers(*names: str) -> list[tuple[str, Any]]:
    return [(name, c_uint64) for name in names]


class Offered(_Struct):
    """What became of an accepted offer: `outcome` is STORED, STORED_OVER or DISCARDED."""

    outcome: int
    serial: int
    packet: int
    gone: int
    gone_count: int
    _fields_ = [("outcome", c_uint32), *_numbers("serial", "packet", "gone", "gone_count")]


class Fate(_Struct):
    """Where a record is, or how it was lost: `place` is NOT_OFFERED .. WAS_FORGOTTEN."""

    place: int
    chunk: int
    packet: int
    _fields_ = [("place", c_uint32), *_numbers("chunk", "packet"), ("_reserved", c_uint64 * 5)]


class Counts(_Struct):
    """`offered` is the sum of those that come next; what was refused is none of them. `shared` is how many of the offered
    ones were made while a pool had lent their producer to several threads."""

    offered: int
    discarded: int
    overwritten: int
    cleared: int
    in_ring: int
    in_chunks: int
    refused_inactive: int
    refused_too_big: int
    refused_bad_moment: int
    refused_spent: int
    refused_other_layout: int
    shared: int
    _fields_ = [
        *_numbers("offered", "discarded", "overwritten", "cleared", "in_ring", "in_chunks"),
        *_numbers("refused_inactive", "refused_too_big", "refused_bad_moment", "refused_spent", "refused_other_layout"),
        *_numbers("shared"),
        ("_reserved", c_uint64 * 4),
    ]


class About(_Struct):
    """What a session is: `kind` is LOCAL or SNAPSHOT, `state` NEW, ACTIVE or STOPPED."""

    kind: int
    state: int
    is_pending: int
    is_draining: int
    channels: int
    producers: int
    archives: int
    begun: int
    last: int
    forgotten: int
    _fields_ = [
        *[(name, c_uint32) for name in ("kind", "state", "is_pending", "is_draining")],
        *_numbers("channels", "producers", "archives", "begun", "last"),
        ("_uuid", c_uint8 * 16),
        *_numbers("forgotten"),
        ("_reserved", c_uint64 * 6),
    ]


class Archive(_Struct):
    """What an archive has, or had before it was released."""

    begun: int
    ended: int
    packets: int
    records: int
    bytes: int
    is_released: int
    _fields_ = [
        *_numbers("begun", "ended", "packets", "records", "bytes"),
        ("is_released", c_uint32),
        ("_reserved_too", c_uint32),
        ("_reserved", c_uint64 * 10),
    ]


class Audited(_Struct):
    """What an audit found."""

    packets: int
    records: int
    absent: int
    discarded: int
    last_packet: int
    last_serial: int
    archive: int
    byte: int
    packet_fault: int
    _fields_ = [
        *_numbers("packets", "records", "absent", "discarded", "last_packet", "last_serial", "archive", "byte"),
        ("packet_fault", c_uint32),
        ("_reserved_too", c_uint32),
        ("_reserved", c_uint64 * 7),
    ]


class _Buffer(ctypes.Structure):
    """C Python's Py_buffer."""

    buf: int | None
    len: int
    _fields_ = [
        ("buf", c_void_p),
        ("obj", c_void_p),
        ("len", c_ssize_t),
        ("itemsize", c_ssize_t),
        ("readonly", c_int),
        ("ndim", c_int),
        *[(name, c_void_p) for name in ("format", "shape", "strides", "suboffsets", "internal")],
    ]


_get_buffer = ctypes.pythonapi.PyObject_GetBuffer
_get_buffer.argtypes, _get_buffer.restype = [py_object, POINTER(_Buffer), c_int], c_int
_release_buffer = ctypes.pythonapi.PyBuffer_Release
_release_buffer.argtypes, _release_buffer.restype = [POINTER(_Buffer)], None
_SIMPLE = 0


class _View:
    """The bytes of a buffer where they are, for C: the buffer isn't resized while this is there."""

    def __init__(self, payload: ReadableBuffer) -> None:
        self._buffer = _Buffer()
        _get_buffer(payload, self._buffer, _SIMPLE)
        self._as_parameter_, self.size = self._buffer.buf, self._buffer.len

    def __del__(self) -> None:
        _release_buffer(self._buffer)


def _passed(payload: ReadableBuffer) -> tuple[bytes | _View, int]:
    """A payload as C takes it, with its size in bytes. No byte is copied."""
    if isinstance(payload, bytes):
        return payload, len(payload)
    view = _View(payload)
    return view, view.size


class _Number:
    """A number of this kind, which ctypes would cut off without a word."""

    def __init__(self, kind: Any) -> None:
        self._kind = kind

    def from_param(self, value: int) -> Any:
        made = self._kind(value)
        if made.value != value:
            raise OverflowError(f"{value} is no {self._kind.__name__}")
        return made


_i32, _u32, _u64 = _Number(c_int32), _Number(c_uint32), _Number(c_uint64)
_library = ctypes.CDLL(os.environ.get("TRACERD_SO", "libtracerd.so.0.9"), use_errno=True)


def _call(name: str, *types: Any, result: Any = c_uint32) -> Any:
    found: Any = getattr(_library, f"tracerd_{name}")
    found.argtypes, found.restype = types, result
    return found


_version = _call("version", result=c_char_p)
version: str = _version().decode()
if version.split(".")[:2] != __version__.split(".")[:2]:
    raise ImportError(f"tracerd {__version__} for Python needs another libtracerd than {version}")
_number = POINTER(c_uint64)
_status_name = _call("status_name", _u32, result=c_char_p)
_new = _call("new", POINTER(c_void_p), c_char_p, c_char_p, _i32, _u32)
_free = _call("free", c_void_p, result=None)
_rings_in = _call("rings_in", c_void_p, c_char_p)
_channel = _call("channel", c_void_p, c_char_p, _u64, _u64, _u32)
_producer_new = _call("producer_new", c_void_p, c_char_p, POINTER(c_void_p))
_producer_number = _call("producer_number", c_void_p, result=c_uint64)
_producer_done = _call("producer_done", c_void_p)
_declare = _call("declare", c_void_p, c_char_p, _number)
_record_refused = _call("record_refused", c_void_p)
_start = _call("start", c_void_p, _u64)
_stop = _call("stop", c_void_p)
_offer = _call("offer", c_void_p, _u64, _u32, c_void_p, c_size_t, POINTER(Offered))
_trace = _call("trace", c_void_p, _u32, c_void_p, c_size_t)
_drain = _call("drain", c_void_p, _number)
_drainer_start = _call("drainer_start", c_void_p, _u64)
_drainer_stop = _call("drainer_stop", c_void_p)
_rotate = _call("rotate", c_void_p, _u64, _number)
_rotate_on = _call("rotate_on", c_void_p, _number)
_schedule = _call("schedule", c_void_p, _u64, _u64)
_tick = _call("tick", c_void_p, _u64, POINTER(c_uint32), _number)
_clear = _call("clear", c_void_p, _number)
_write = _call("write", c_void_p, _u64, c_char_p)
_release = _call("release", c_void_p, _u64)
_forget = _call("forget", c_void_p, _u64)
_snapshot = _call("snapshot", c_void_p, _u64, c_char_p)
_listen = _call("listen", POINTER(c_void_p), c_void_p, c_char_p, c_char_p)
_listener_stop = _call("listener_stop", c_void_p)
_audit = _call("audit", c_char_p, c_char_p, c_char_p, _u64, c_char_p, POINTER(Audited))
_about_of = _call("about_of", c_void_p, POINTER(About))
_archive_of = _call("archive_of", c_void_p, _u64, POINTER(Archive))
_counts_of = _call("counts_of", c_void_p, POINTER(Counts))
_counts_sum = _call("counts_sum", c_void_p, POINTER(Counts))
_settle = _call("settle", c_void_p, POINTER(Counts), _number)
_fate_of = _call("fate_of", c_void_p, _u64, POINTER(Fate))
_now = _call("now", result=c_uint64)
_now_of = _call("now_of", c_void_p, result=c_uint64)
