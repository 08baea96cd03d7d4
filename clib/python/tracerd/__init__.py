"""A recorder: sessions of channels, in which each thread offers records by a producer of its own.

    import tracerd
    with tracerd.Session("app", uuid.uuid4().bytes) as session:
        session.channel("main", 65536, 16, tracerd.DISCARD)
        producer = session.producer("main")
        session.start(session.now())
        producer.offer(session.now(), 7, b"bytes")
        session.write(session.rotate(session.now()), "DIR")

Event packs typed events, Handler takes what is logged. tracerd.h has the meaning of each call, its units and refusals. The
library is that of the variable TRACERD_SO, or libtracerd.so.0.9 where the system finds libraries."""
from __future__ import annotations

import ctypes
import errno
import os
import weakref
from ctypes import byref, c_uint32, c_uint64, c_void_p
from typing import TYPE_CHECKING, Any, TypeVar

# (before the library is loaded, whose version has to fit)
__version__ = "0.9.0"

from ._library import (
    About, Archive, Audited, Counts, Fate, Offered,
    _about_of, _archive_of, _audit, _channel, _clear, _counts_of, _counts_sum, _declare, _drain, _drainer_start, _drainer_stop,
    _fate_of, _forget, _free, _listen, _listener_stop, _new, _now, _now_of, _offer, _passed, _producer_done, _producer_new,
    _producer_number, _record_refused, _release, _rings_in, _rotate, _rotate_on, _schedule, _settle, _snapshot, _start,
    _status_name, _stop, _tick, _trace, _write, version,
)

from ._events import Event
from ._logging import Handler
from ._status import Status

if TYPE_CHECKING:
    from _typeshed import ReadableBuffer, StrOrBytesPath

__all__ = ["Session", "Producer", "Listener", "Event", "Handler", "audit", "now", "version", "Refused", "FileRefused", "Status"]
__all__ += ["Offered", "Fate", "Counts", "About", "Archive", "Audited"]
__all__ += ["LOCAL", "SNAPSHOT", "DISCARD", "OVERWRITE", "STORED", "STORED_OVER", "DISCARDED", "IDLE", "TIMER", "SIZE", "NEVER"]
__all__ += ["NEW", "ACTIVE", "STOPPED"]
__all__ += ["NOT_OFFERED", "IN_RING", "IN_CHUNK", "WAS_DISCARDED", "WAS_OVERWRITTEN", "WAS_CLEARED", "WAS_FORGOTTEN"]

LOCAL, SNAPSHOT = 0, 1
DISCARD, OVERWRITE = 0, 1
STORED, STORED_OVER, DISCARDED = 0, 1, 2
IDLE, TIMER, SIZE = 0, 1, 2
NEW, ACTIVE, STOPPED = 0, 1, 2
NOT_OFFERED, IN_RING, IN_CHUNK, WAS_DISCARDED, WAS_OVERWRITTEN, WAS_CLEARED, WAS_FORGOTTEN = range(7)
NEVER = 2**64 - 1

_Written = TypeVar("_Written", bound=ctypes.Structure)
_Made = TypeVar("_Made", bound="_Part")


class Refused(Exception):
    """Why a call was refused: `status` is that of tracerd.h, the text its name, and `found` what the call wrote all the same,
    if tracerd.h says that it does."""

    def __init__(self, status: int, found: Any = None) -> None:
        super().__init__(_status_name(status).decode())
        self.status, self.found = Status(status), found

    def __reduce__(self) -> tuple[Any, ...]:
        return Refused, (self.status, self.found)


class FileRefused(Refused, OSError):
    """A refusal of WRITE or READ: an OSError too. `errno` says why, `filename` is the folder that the call was given."""

    def __init__(self, status: int, number: int, folder: StrOrBytesPath) -> None:
        OSError.__init__(self, number, os.strerror(number), folder)
        self.status, self.found = Status(status), None

    def __str__(self) -> str:
        return f"{_status_name(self.status).decode()}: {OSError.__str__(self)}"

    def __reduce__(self) -> tuple[Any, ...]:
        return FileRefused, (self.status, self.errno, self.filename)


def _must(status: int, folder: StrOrBytesPath = "", found: Any = None) -> None:
    """Raises why a call was refused. It comes right after the call, for its errno."""
    if not status:
        return
    if status in (Status.WRITE, Status.READ):
        raise FileRefused(status, ctypes.get_errno(), folder)
    raise Refused(status, found)


def _number(call: Any, *given: Any) -> int:
    """The number that a call writes to the place that is its last argument."""
    made = c_uint64()
    _must(call(*given, byref(made)), found=made.value)
    return made.value


def _written(kind: type[_Written], call: Any, *given: Any) -> _Written:
    """The structure that it writes there."""
    made = kind()
    _must(call(*given, byref(made)), found=made)
    return made


# A name or a path for C, which would end it at a zero byte.


def _name(text: str) -> bytes:
    name = text.encode()
    if b"\0" in name:
        raise Refused(Status.BAD_NAME)
    return name


def _path(folder: StrOrBytesPath, status: Status) -> bytes:
    path = os.fsencode(folder)
    if b"\0" in path:
        raise FileRefused(status, errno.EINVAL, folder)
    return path


def _uuid(uuid: bytes) -> bytes:
    if len(uuid) != 16:
        raise ValueError("an identifier has 16 bytes")
    return bytes(uuid)


def _let_go(holders: list[c_void_p | None]) -> None:
    """A session's object and its producers hold it, and may end in any order: each takes an entry, and the last one, which is
    the handle, frees the session."""
    handle = holders.pop()
    if handle is not None:
        _free(handle)


class _Part:
    """What a session has made, and what keeps it: a handle, which ends with this object or its block."""

    # what __del__ finds if __init__ wasn't reached
    _handle = c_void_p()
    _holders: list[c_void_p | None] | None = None

    def __init__(self, session: Session) -> None:
        self._handle = c_void_p()
        # whatever interrupts this, no entry is let go that isn't this one's
        session._holders.append(None)
        self._holders = session._holders

    def __del__(self) -> None:
        if self._handle:
            self._end()
        if self._holders is not None:
            _let_go(self._holders)

    def __enter__(self: _Made) -> _Made:
        return self

    def __exit__(self, *raised: object) -> None:
        self._end()

    def _end(self) -> None:
        raise NotImplementedError


class Producer(_Part):
    """One thread's right to offer. It keeps its session, and gives itself back; `with` does so at the end of its block."""

    def __init__(self, session: Session, channel: str) -> None:
        super().__init__(session)
        _must(_producer_new(session._handle, _name(channel), byref(self._handle)))
        self._active = c_uint32.from_address(self._handle.value or 0)
        session._producers.add(self)

    def done(self) -> None:
        """Gives it back; once more changes nothing."""
        _producer_done(self._handle)

    def _end(self) -> None:
        self.done()

    @property
    def number(self) -> int:
        """The number of its stream."""
        number: int = _producer_number(self._handle)
        return number

    @property
    def is_active(self) -> bool:
        """Whether offers are taken now."""
        return self._active.value != 0

    def offer(self, moment: int, id: int, payload: ReadableBuffer = b"") -> Offered:
        """Offers a record: an id, and the bytes of any buffer in one piece, as bytes, bytearray, memoryview or array. Only the
        library copies them."""
        given, size = _passed(payload)
        return _written(Offered, _offer, self._handle, moment, id, given, size)

    def trace(self, id: int, payload: ReadableBuffer = b"") -> bool:
        """A tracepoint: the same at the session's clock. Whether it was accepted: while `is_active` is false it isn't, and
        isn't counted. Other refusals are raised."""
        if not self.is_active:
            return False
        given, size = _passed(payload)
        status = _trace(self._handle, id, given, size)
        if status in (Status.INACTIVE, Status.CLOSED):
            return False
        _must(status)
        return True

    def counts(self) -> Counts:
        return _written(Counts, _counts_of, self._handle)

    def fate(self, serial: int) -> Fate:
        return _written(Fate, _fate_of, self._handle, serial)


class Listener(_Part):
    """Has a shell be answered at a socket (`tracerd-ask`), until `stop`, or the end of its block by `with`. It keeps its
    session."""

    def __init__(self, session: Session, path: StrOrBytesPath, folder: StrOrBytesPath | None) -> None:
        below = None if folder is None else _path(folder, Status.WRITE)
        super().__init__(session)
        _must(_listen(byref(self._handle), session._handle, _path(path, Status.WRITE), below), path)
        session._listeners.add(self)

    def stop(self) -> None:
        """Ends it, and removes its socket; once more changes nothing."""
        handle, self._handle = self._handle, c_void_p()
        if handle:
            _listener_stop(handle)

    def _end(self) -> None:
        self.stop()


class Session:
    """A session, which threads share. It goes when nobody has it or one of its producers or listeners. `with` closes it at the
    end of its block."""

    # what __del__ finds if __init__ wasn't reached
    _made = c_void_p()

    def __init__(self, name: str, uuid: bytes, east: int = 0, kind: int = LOCAL) -> None:
        self._made, self._is_closed = c_void_p(), False
        self._producers: weakref.WeakSet[Producer] = weakref.WeakSet()
        self._listeners: weakref.WeakSet[Listener] = weakref.WeakSet()
        _must(_new(byref(self._made), _name(name), _uuid(uuid), east, kind))
        self._holders: list[c_void_p | None] = [self._made]

    def __del__(self) -> None:
        if self._made:
            _let_go(self._holders)

    def __enter__(self) -> Session:
        return self

    def __exit__(self, *raised: object) -> None:
        self.close()

    @property
    def _handle(self) -> c_void_p:
        if self._is_closed:
            raise Refused(Status.CLOSED)
        return self._made

    def close(self) -> None:
        """Ends it: its producers are given back, its drainer and its listener end, and any other call on it is refused (CLOSED).
        What wasn't written is lost. Once more changes nothing. Its memory is freed when nobody has it, a producer or a listener
        of it."""
        self._is_closed = True
        for listener in list(self._listeners):
            listener.stop()
        for producer in list(self._producers):
            producer.done()
        _drainer_stop(self._made)

    def rings_in(self, file: StrOrBytesPath) -> None:
        """Has the session's rings lie in a file, as on /dev/shm, so that what they hold outlives the program: before the first
        producer, once."""
        _must(_rings_in(self._handle, _path(file, Status.WRITE)), file)

    def channel(self, name: str, size: int, count: int, mode: int) -> None:
        _must(_channel(self._handle, _name(name), size, count, mode))

    def producer(self, channel: str) -> Producer:
        return Producer(self, channel)

    def declare(self, *declared: Event | str) -> None:
        """Declares events, and texts of a line an event or a variable ("env hostname web1"), in place of what was declared before.
        Where a line is refused, `found` is the number of the first such line of all these texts, one below the other."""
        # (a zero byte would end the text for C; this one can't be printed either)
        text, line = "\n".join(map(str, declared)).encode().replace(b"\0", b"\1"), c_uint64()
        _must(_declare(self._handle, text, byref(line)), found=line.value or None)

    def record_refused(self) -> None:
        """Has archives say what was refused: records `offers_refused`, with the sums of their producer so far by why. Before the
        start; it declares that event beside the program's."""
        _must(_record_refused(self._handle))

    def now(self) -> int:
        """The moment by the session's clock, which never goes back."""
        moment: int = _now_of(self._handle)
        return moment

    def start(self, moment: int) -> None:
        _must(_start(self._handle, moment))

    def stop(self) -> None:
        _must(_stop(self._handle))

    def listen(self, path: StrOrBytesPath, folder: StrOrBytesPath | None = None) -> Listener:
        """Has a shell be answered at a socket of this path. Archives are written below the folder, if there is one."""
        return Listener(self, path, folder)

    def drain(self) -> int:
        """How many packets came of it."""
        return _number(_drain, self._handle)

    def drainer_start(self, period: int) -> None:
        _must(_drainer_start(self._handle, period))

    def drainer_stop(self) -> None:
        _must(_drainer_stop(self._handle))

    def rotate(self, moment: int) -> int:
        """The archive's number."""
        return _number(_rotate, self._handle, moment)

    def rotate_on(self) -> int:
        return _number(_rotate_on, self._handle)

    def schedule(self, every: int = NEVER, size: int = NEVER) -> None:
        _must(_schedule(self._handle, every, size))

    def tick(self, moment: int) -> tuple[int, int | None]:
        """Why a rotation was due (IDLE, TIMER or SIZE), and the archive's number, or None."""
        cause = c_uint32()
        archive = _number(_tick, self._handle, moment, byref(cause))
        return cause.value, archive if cause.value else None

    def clear(self) -> int:
        """How many records were removed."""
        return _number(_clear, self._handle)

    def write(self, archive: int, folder: StrOrBytesPath) -> None:
        _must(_write(self._handle, archive, _path(folder, Status.WRITE)), folder)

    def release(self, archive: int) -> None:
        _must(_release(self._handle, archive))

    def forget(self, archive: int) -> None:
        """Forgets the archives below this number, which have to be released: what these still take is given up. Counts stay,
        and fates of what was offered before that archive began are WAS_FORGOTTEN."""
        _must(_forget(self._handle, archive))

    def snapshot(self, moment: int, folder: StrOrBytesPath) -> None:
        _must(_snapshot(self._handle, moment, _path(folder, Status.WRITE)), folder)

    def about(self) -> About:
        return _written(About, _about_of, self._handle)

    def archive(self, number: int) -> Archive:
        return _written(Archive, _archive_of, self._handle, number)

    def counts(self) -> Counts:
        return _written(Counts, _counts_sum, self._handle)

    def settle(self) -> Counts:
        """The sums. Where a producer wasn't given back, `found` is the number of the first one."""
        counts = Counts()
        _number(_settle, self._handle, byref(counts))
        return counts


def now() -> int:
    """The wall clock's moment, in nanoseconds since 1970. It may be set back or ahead: that of a session never goes back."""
    moment: int = _now()
    return moment


def audit(folder: StrOrBytesPath, session: str, channel: str, stream: int, uuid: bytes) -> Audited:
    """Reads a stream's files of all archives below a folder, and judges each packet. Of a fault `found` says where it is."""
    audited = Audited()
    path = _path(folder, Status.READ)
    _must(_audit(path, _name(session), _name(channel), stream, _uuid(uuid), byref(audited)), folder, audited)
    return audited
