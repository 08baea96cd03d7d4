"""python -m tracerd audit DIR: what the archives below a folder hold, and where a packet of theirs is at fault.

It prints these lines of `tracerd audit DIR`, each as that does and in its order, and no others: `passed over`, `session`, `uuid
of packets`, `stream` of each stream without a fault, and of each other one the first `fault` of its packets. Gaps, losses, and
what is wrong with archives' names, numbers or metadata it doesn't say: so it never says `whole`, and the program has the last
word. Where a stream can't be audited, as where an archive lacks its file, or two channels have its number, standard error says
why.

It ends with status 0 if nothing was wrong; with 1 if a packet was, or a stream couldn't be audited; with 2 if its words are;
with 3 if there is no session, or a folder can't be read."""
from __future__ import annotations

import collections
import os
import re
import struct
import sys
import uuid
from dataclasses import dataclass, field
from typing import Iterable

from . import Refused, Status, audit

_NAME = "[A-Za-z][A-Za-z0-9_]{0,63}"
_SESSION = re.compile(_NAME)
_STREAM = re.compile(rf"({_NAME})_(0|[1-9][0-9]*)")
_MOMENT = r"[0-9]{8}T[0-9]{6}[+-][0-9]{4}"
_ARCHIVE = re.compile(rf"{_MOMENT}-{_MOMENT}-(0|[1-9][0-9]*)")
_UUID = re.compile(rb'^ *uuid = "(.*)";$', re.M)
_MOST_METADATA = 4_194_304
_PACKET_FAULTS = ["", "Short", "BadMagic", "BadStreamId", "BadSize", "BadRecord", "SerialOrder", "MomentOrder"]
_CAUSES = {
    Status.PACKET: "A1 Packet",
    Status.NUMBER_REPEAT: "A2 NumberRepeat",
    Status.SERIAL_REPEAT: "A3 SerialRepeat",
    Status.FOREIGN: "A4 Foreign",
}


@dataclass
class _Session:
    """A session's folder: its archives in order of their numbers, and its streams' channels."""

    folder: str
    name: str
    archives: list[str] = field(default_factory=list)
    channels: dict[int, set[str]] = field(default_factory=dict)

    def __post_init__(self) -> None:
        for name in _folders(self.path()):
            found = _ARCHIVE.fullmatch(name)
            if found and int(found[1]) < 2**64:
                self.archives.append(name)
        self.archives.sort(key=lambda it: (_number(it), os.fsencode(it)))
        for archive in self.archives:
            for name in os.listdir(self.path(archive)):
                stream = _STREAM.fullmatch(name)
                if stream and int(stream[2]) < 2**64 and os.path.isfile(self.path(archive, name)):
                    self.channels.setdefault(int(stream[2]), set()).add(stream[1])

    def path(self, *names: str) -> str:
        return os.path.join(self.folder, self.name, "archives", *names)

    def identifier(self) -> tuple[uuid.UUID | None, bool]:
        """That which most archives' metadata name, of several the first; or else that which most files of streams begin with. And
        whether it's of packets."""
        metadata = _most_often(_named_in(self.path(it, "metadata")) for it in self.archives)
        if metadata:
            return metadata, False
        files = [f"{channel}_{number}" for number in sorted(self.channels) for channel in sorted(self.channels[number])]
        packets = _most_often(_begun_with(self.path(archive, file)) for file in files for archive in self.archives)
        return packets, packets is not None

    def ends(self, file: str) -> tuple[int, int]:
        """When the first packet of a stream begins, and the last one ends. It was audited, and has packets."""
        moments = [it for archive in self.archives for it in _moments(self.path(archive, file))]
        return moments[0][0], moments[-1][1]


def _number(archive: str) -> int:
    return int(archive.rpartition("-")[2])


def _folders(path: str) -> list[str]:
    """The names of folders in a folder whose names are UTF-8."""
    names = sorted(os.listdir(os.fsencode(path)))
    readable = [it.decode() for it in names if os.fsencode(it.decode(errors="ignore")) == it]
    return [it for it in readable if os.path.isdir(os.path.join(path, it))]


def _most_often(named: Iterable[uuid.UUID | None]) -> uuid.UUID | None:
    counts = collections.Counter(it for it in named if it is not None)
    return counts.most_common(1)[0][0] if counts else None


def _front(path: str, size: int) -> bytes:
    """The first bytes of a file; none of one that can't be read."""
    try:
        with open(path, "rb") as it:
            return it.read(size)
    except OSError:
        return b""


def _named_in(path: str) -> uuid.UUID | None:
    """The identifier in metadata."""
    found = _UUID.search(_front(path, _MOST_METADATA))
    try:
        return uuid.UUID(found[1].decode()) if found else None
    except ValueError:
        return None


def _begun_with(path: str) -> uuid.UUID | None:
    """The identifier of the packet whose header and context a file begins with."""
    head = _front(path, 80)
    if len(head) < 80:
        return None
    (magic, name, stream), (content, size) = struct.unpack_from("<4s16sI", head), struct.unpack_from("<QQ", head, 48)
    is_size = content == size and not size % 8 and 104 <= size // 8 <= 1_048_576
    return uuid.UUID(bytes=name) if magic == b"\xc1\x1f\xfc\xc1" and not stream and is_size else None


def _moments(path: str) -> list[tuple[int, int]]:
    """When each packet of a file begins and ends."""
    found = []
    with open(path, "rb") as it:
        while head := it.read(80):
            begin, end, bits = struct.unpack_from("<QQQ", head, 32)
            it.seek(bits // 8 - 80, os.SEEK_CUR)
            found.append((begin, end))
    return found


def _stream_line(session: _Session, number: int, identifier: uuid.UUID) -> str:
    """The line of a stream that is whole; else its refusal is raised."""
    channel, *others = sorted(session.channels[number])
    if others:
        raise Refused(Status.NAME_TAKEN)
    it = audit(session.folder, session.name, channel, number, identifier.bytes)
    line = f"stream {number} {channel} packets {it.packets} records {it.records} absent {it.absent} lost {it.discarded}"
    if not it.packets:
        return f"{line} last none"
    begin, end = session.ends(f"{channel}_{number}")
    return f"{line} last {it.last_packet} {it.last_serial} from {begin} to {end}"


def _fault_line(session: _Session, number: int, why: Refused) -> str:
    archive = next(it for it in session.archives if _number(it) == why.found.archive)
    fault = why.found.packet_fault
    cause = _CAUSES[why.status] + (f" P{fault} {_PACKET_FAULTS[fault]}" if fault else "")
    return f"fault {number} {archive} {why.found.byte} {cause}"


def _audit_session(session: _Session) -> bool:
    """Says what a session's streams have, and whether nothing was wrong."""
    (identifier, is_of_packets), is_good = session.identifier(), True
    print(f"session {session.name} uuid {identifier or 'none'} archives {len(session.archives)}")
    if is_of_packets:
        print("uuid of packets")
    for number in sorted(session.channels):
        try:
            # (if none is known no file begins with a packet)
            print(_stream_line(session, number, identifier or uuid.UUID(int=0)))
        except Refused as why:
            is_good = False
            if why.status in _CAUSES:
                print(_fault_line(session, number, why))
            else:
                print(f"tracerd: {session.name}: stream {number}: {why}", file=sys.stderr)
    return is_good


def _audit_folder(folder: str) -> int:
    results = []
    for name in _folders(folder):
        if not os.path.isdir(os.path.join(folder, name, "archives")):
            continue
        if _SESSION.fullmatch(name):
            results.append(_audit_session(_Session(folder, name)))
        else:
            print("passed over", re.sub(r"[\0-\x1f\x7f-\x9f]", "?", name))
    if not results:
        print("tracerd: no session", file=sys.stderr)
        return 3
    return 0 if all(results) else 1


def main(words: list[str]) -> int:
    if len(words) != 2 or words[0] != "audit":
        print(__doc__, file=sys.stderr)
        return 2
    try:
        return _audit_folder(words[1])
    except OSError as why:
        print(f"tracerd: {why}", file=sys.stderr)
        return 3


if __name__ == "__main__":
    sys.exit(main(sys.argv[1:]))
