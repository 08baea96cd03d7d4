#!/usr/bin/env python3
"""The package tracerd: what is given to C is what was meant, handles end in any order, and a refusal says why.

Closes with 'N passed, M failed'."""
import array
import ctypes
import errno
import gc
import glob
import mmap
import os
import pathlib
import pickle
import re
import socket
import struct
import sys
import tempfile
import time

import tracerd
from tracerd import Status

UUID = bytes(16)
HEADER = os.path.join(os.path.dirname(os.path.abspath(__file__)), "..", "tracerd.h")
BELOW_A_FILE = "/dev/null/below"


def planned():
    session = tracerd.Session("app", UUID)
    session.channel("main", 256, 2, tracerd.OVERWRITE)
    return session


def raised(call, *given):
    """What a call raises."""
    try:
        call(*given)
    except Exception as why:
        return why
    return None


def ends_in_any_order():
    """In a cycle the collector ends the session's object before its producers: the session goes after them."""
    told = []
    done, free = tracerd._producer_done, tracerd._free
    tracerd._producer_done = lambda handle: told.append("done") or done(handle)
    tracerd._free = lambda handle: told.append("free") or free(handle)
    session = planned()
    session.cycle = [session, session.producer("main"), session.producer("main")]
    del session
    gc.collect()
    producer = planned().producer("main")
    first = told[:]
    del producer
    tracerd._producer_done, tracerd._free = done, free
    assert first == ["done", "done", "free"], first
    assert told[3:] == ["done", "free"], told


def cuts_no_number_off():
    session = planned()
    producer = session.producer("main")
    session.start(0)
    for call, given in (producer.offer, (0, 2**32)), (producer.offer, (2**64, 0)), (producer.fate, (-1,)), (session.rotate, (2**64,)):
        assert isinstance(raised(call, *given), ctypes.ArgumentError), (call, given)
    assert producer.counts().offered == 0
    assert producer.offer(0, 2**32 - 1).serial == 0


def refuses_zero_bytes(folder="nowhere/a\0b"):
    session = planned()
    for call, given in (
        (session.channel, ("a\0b", 256, 2, tracerd.OVERWRITE)),
        (session.producer, ("main\0",)),
        (session.write, (0, folder)),
        (session.snapshot, (0, folder)),
        (tracerd.Session, ("a\0b", UUID)),
        (tracerd.audit, (folder, "app", "main", 0, UUID)),
    ):
        assert isinstance(raised(call, *given), tracerd.Refused), (call, given)


def knows_its_library():
    assert tracerd.version == tracerd.__version__, tracerd.version
    session = planned()
    producer = session.producer("main")
    session.start(0)
    producer.offer(0, 1)
    shown = repr(producer.counts())
    assert shown == (
        "Counts(offered=1, discarded=0, overwritten=0, cleared=0, in_ring=1, in_chunks=0, "
        "refused_inactive=0, refused_too_big=0, refused_bad_moment=0, refused_spent=0, refused_other_layout=0, "
        "shared=0)"
    ), shown
    assert not any(producer.counts()._reserved) and not any(session.counts()._reserved)
    assert not any(producer.fate(0)._reserved)
    assert (session.about().state, session.about().archives) == (tracerd.ACTIVE, 0), session.about()
    archive = session.archive(session.rotate(9))
    assert (archive.ended, archive.records, archive.is_released) == (9, 1, 0), archive
    assert not any(session.about()._reserved) and not any(archive._reserved)


def tells_what_was_found():
    session = planned()
    first, second = session.producer("main"), session.producer("main")
    first.done()
    why = raised(session.settle)
    assert (str(why), why.found) == ("Missing", second.number), (why, why.found)


def lets_no_entry_go_but_its_own():
    """A producer that isn't made leaves its session as it was."""
    session = planned()
    holders = len(session._holders)
    assert isinstance(raised(session.producer, "other"), tracerd.Refused)
    gc.collect()
    assert len(session._holders) == holders
    session.start(0)


def wants_a_whole_identifier():
    told = []
    before, sys.unraisablehook = sys.unraisablehook, told.append
    assert isinstance(raised(tracerd.Session, "app", bytes(15)), ValueError)
    assert isinstance(raised(tracerd.audit, "nowhere", "app", "main", 0, bytes(15)), ValueError)
    for call in tracerd.Session, tracerd.Producer:
        assert isinstance(raised(call, "app"), TypeError), call
    gc.collect()
    sys.unraisablehook = before
    assert not told, told


def has_each_status_by_name():
    with open(HEADER, encoding="utf-8") as it:
        listed = it.read().partition("typedef enum tracerd_status {")[2].partition("} tracerd_status;")[0]
    wanted = {name: int(number) for name, number in re.findall(r"TRACERD_(\w+) = (\d+)", listed)}
    assert {it.name: it.value for it in Status} == wanted
    for it in Status:
        why = tracerd.Refused(it.value)
        assert why.status is it and str(why) == it.name.title().replace("_", ""), why


def takes_the_status_of_a_later_library():
    why = tracerd.Refused(999)
    assert (why.status, str(why), isinstance(why.status, Status)) == (999, "Unknown", True), why


def archived():
    """A session with an empty archive 0."""
    session = planned()
    session.start(0)
    session.rotate(0)
    return session


def tells_errno():
    """Of an empty folder the header says ENOENT; of one below a file POSIX says ENOTDIR."""
    session = archived()
    shown = tracerd.Session("app", UUID, kind=tracerd.SNAPSHOT)
    shown.start(0)
    for status, number, folder, call, given in (
        (Status.WRITE, errno.ENOENT, "", session.write, (0, "")),
        (Status.WRITE, errno.ENOTDIR, BELOW_A_FILE, session.write, (0, BELOW_A_FILE)),
        (Status.WRITE, errno.ENOTDIR, BELOW_A_FILE.encode(), session.write, (0, BELOW_A_FILE.encode())),
        (Status.WRITE, errno.ENOTDIR, BELOW_A_FILE, shown.snapshot, (0, BELOW_A_FILE)),
        (Status.READ, errno.ENOENT, "", tracerd.audit, ("", "app", "main", 0, UUID)),
        (Status.WRITE, errno.EINVAL, "a\0b", session.write, (0, "a\0b")),
    ):
        why = raised(call, *given)
        assert isinstance(why, tracerd.Refused) and isinstance(why, OSError), why
        assert (why.status, why.errno, why.strerror, why.filename) == (status, number, os.strerror(number), folder), why
    why = raised(session.write, 0, pathlib.Path(BELOW_A_FILE))
    assert str(why).startswith("Write: [Errno 20] ") and BELOW_A_FILE in str(why), why
    assert not isinstance(raised(session.write, 1, BELOW_A_FILE), OSError)


def forgets():
    session = planned()
    producer = session.producer("main")
    session.start(0)
    producer.offer(1, 7, b"a")
    assert session.rotate(2) == 0
    assert raised(session.forget, 1).status is Status.HELD
    session.release(0)
    assert producer.fate(0).place == tracerd.IN_CHUNK
    session.forget(1)
    assert producer.fate(0).place == tracerd.WAS_FORGOTTEN and session.about().forgotten == 1
    assert raised(session.archive, 0).status is Status.FORGOTTEN


def has_rings_in_a_file():
    with tempfile.TemporaryDirectory() as folder:
        file = os.path.join(folder, "rings")
        session = tracerd.Session("app", UUID)
        session.rings_in(file)
        assert os.path.exists(file)
        assert raised(session.rings_in, file).status == Status.ALREADY_STARTED
        session.close()
        del session
        assert not os.path.exists(file)


def keeps_what_it_says_when_it_is_sent():
    """A process may raise what another was refused."""
    session = planned()
    first, second = session.producer("main"), session.producer("main")
    for why in raised(session.settle), raised(archived().write, 0, BELOW_A_FILE):
        sent = pickle.loads(pickle.dumps(why))
        assert (type(sent), str(sent), sent.status, sent.found) == (type(why), str(why), why.status, why.found), sent
        assert getattr(sent, "errno", None) == getattr(why, "errno", None), sent
    assert (first.number, second.number) == (0, 1)


def tells_where_a_fault_is():
    """80 bytes that begin no packet (P2), in archive 3."""
    with tempfile.TemporaryDirectory() as folder:
        archive = os.path.join(folder, "app", "archives", "19700101T000000+0000-19700101T000000+0000-3")
        os.makedirs(archive)
        with open(os.path.join(archive, "main_0"), "wb") as it:
            it.write(bytes(80))
        why = raised(tracerd.audit, folder, "app", "main", 0, UUID)
    assert (why.status, why.found.archive, why.found.byte, why.found.packet_fault) == (Status.PACKET, 3, 0, 2), why.found


def payloads(session):
    """The payloads of the records of a session's only stream, from its archive's file."""
    with tempfile.TemporaryDirectory() as folder:
        session.write(session.rotate(session.now()), folder)
        with open(glob.glob(f"{folder}/app/archives/*/main_0")[0], "rb") as it:
            packet = it.read()
    found, at = [], 80
    while at < len(packet):
        _id, _moment, _serial, size = struct.unpack_from("<IQQI", packet, at)
        found.append(packet[at + 24 : at + 24 + size])
        at += 24 + size
    return found


def some_buffers():
    """Buffers, and the bytes that each has."""
    mapped = mmap.mmap(-1, 4096)
    mapped[:3] = b"map"
    return [
        (b"bytes", b"bytes"),
        (b"", b""),
        (bytearray(b"array"), b"array"),
        (bytearray(), b""),
        (memoryview(b"0123456789")[2:5], b"234"),
        (memoryview(b""), b""),
        (memoryview(bytearray(b"0123456789"))[7:], b"789"),
        (array.array("H", [1, 2]), struct.pack("HH", 1, 2)),
        (memoryview(array.array("d", [1.5, 2.5]))[1:], struct.pack("d", 2.5)),
        (memoryview(bytes(range(6))).cast("B", (2, 3)), bytes(range(6))),
        ((ctypes.c_uint16 * 2)(3, 4), struct.pack("HH", 3, 4)),
        (memoryview(mapped)[:3], b"map"),
    ]


def takes_any_buffer():
    session = tracerd.Session("app", UUID)
    session.channel("main", 4096, 2, tracerd.DISCARD)
    producer = session.producer("main")
    session.start(session.now())
    given = some_buffers()
    for payload, _ in given:
        producer.offer(session.now(), 7, payload)
        assert producer.trace(8, payload)
    for payload in "text", 5, None, [1], memoryview(b"abcdef")[::2]:
        for why in raised(producer.offer, session.now(), 7, payload), raised(producer.trace, 7, payload):
            assert isinstance(why, (TypeError, BufferError)), (payload, why)
    given[2][0].append(33)  # nothing holds it any more
    assert payloads(session) == [wanted for _, wanted in given for _ in range(2)]


def copies_no_payload():
    """C is given the address at which the buffer's bytes are."""
    told = []
    kind = ctypes.CFUNCTYPE(
        ctypes.c_uint32, ctypes.c_void_p, ctypes.c_uint64, ctypes.c_uint32, ctypes.c_void_p, ctypes.c_size_t, ctypes.c_void_p
    )
    spy = kind(lambda _producer, _moment, _id, at, size, _offered: told.append((at, size)) or 0)
    text, grown, numbers = b"0123456789", bytearray(b"bytes"), array.array("I", [1, 2, 3])
    text_at = ctypes.cast(text, ctypes.c_void_p).value
    grown_at = ctypes.addressof(ctypes.c_char.from_buffer(grown))
    session = planned()
    producer = session.producer("main")
    offer, tracerd._offer = tracerd._offer, spy
    for payload in text, memoryview(text)[2:7], grown, numbers:
        producer.offer(0, 7, payload)
    tracerd._offer = offer
    assert told == [(text_at, 10), (text_at + 2, 5), (grown_at, 5), (numbers.buffer_info()[0], 12)], told


def traces():
    session = planned()
    producer = session.producer("main")
    assert not producer.is_active and not producer.trace(7, b"early")
    session.start(session.now())
    assert producer.is_active and producer.trace(7, b"first") and producer.trace(7)
    why = raised(producer.trace, 7, bytes(256))
    assert why.status is Status.TOO_BIG, why
    session.stop()
    assert not producer.is_active and not producer.trace(7, b"late")
    assert raised(producer.offer, 0, 7).status is Status.INACTIVE
    counts = producer.counts()
    assert (counts.offered, counts.refused_too_big, counts.refused_inactive) == (2, 1, 1), counts
    assert payloads(session) == [b"first", b""]


def traces_nothing_in_a_child():
    session = planned()
    producer = session.producer("main")
    session.start(0)
    child = os.fork()
    if not child:
        is_off = not producer.is_active and not producer.trace(7, b"bytes")
        os._exit(0 if is_off and raised(producer.offer, 0, 7).status is Status.CLOSED else 1)
    assert os.waitpid(child, 0)[1] == 0
    assert producer.trace(7, b"bytes")


def has_threads(count):
    """Whether there are so many threads within ten seconds: one that was joined may be in the kernel's list a little longer."""
    until = time.monotonic() + 10
    while len(os.listdir("/proc/self/task")) != count:
        if time.monotonic() > until:
            return False
        time.sleep(0.001)
    return True


def listens_until_its_block_ends():
    with tempfile.TemporaryDirectory() as folder, tracerd.Session("s", UUID) as session:
        door = f"{folder}/s.socket"
        with session.listen(door, folder), socket.socket(socket.AF_UNIX) as client:
            assert raised(session.listen, door).status is Status.LISTENING
            client.connect(door)
            client.sendall(b"archives s")
            client.shutdown(socket.SHUT_WR)
            assert client.recv(100) == b"none\n" and not client.recv(100)
        assert not os.path.exists(door)
        session.listen(door).stop()
        left = session.listen(door)
        session.close()
        assert not os.path.exists(door)
        left.stop()


def closes_at_the_end_of_a_block():
    freed = []
    assert has_threads(1)
    with tracerd.Session("app", UUID) as session:
        session.channel("main", 256, 2, tracerd.OVERWRITE)
        with session.producer("main") as first:
            session.start(0)
            session.drainer_start(1_000_000_000)
            assert first.trace(7) and has_threads(2)
        second = session.producer
        assert raised(first.offer, 0, 7).status is Status.CLOSED
    assert has_threads(1)
    for call, given in (session.counts, ()), (session.now, ()), (second, ("main",)), (session.write, (0, "nowhere")):
        assert raised(call, *given).status is Status.CLOSED, call
    session.close()
    gc.collect()
    free, tracerd._free = tracerd._free, lambda handle: freed.append(handle) or free(handle)
    del session, second, first, call, given
    tracerd._free = free
    assert len(freed) == 1, freed


def gives_back_what_others_have():
    """A session that is closed takes no offers, also of producers that are still there; what is raised goes on."""
    session = planned()
    producer = session.producer("main")
    try:
        with session:
            session.start(0)
            producer.offer(0, 7, b"bytes")
            raise KeyError
    except KeyError:
        pass
    assert raised(producer.offer, 0, 7).status is Status.CLOSED
    assert not producer.is_active and producer.counts().in_ring == 1
    del session
    assert producer.fate(0).place == tracerd.IN_RING


def run(*tests):
    """Runs tests, and ends with their counts."""
    failed = 0
    for test in tests:
        why = raised(test)
        failed += why is not None
        if why is not None:
            print(f"{test.__name__}: {why!r}")
    print(f"{len(tests) - failed} passed, {failed} failed")
    sys.exit(failed != 0)


if __name__ == "__main__":
    run(
        ends_in_any_order,
        cuts_no_number_off,
        refuses_zero_bytes,
        knows_its_library,
        tells_what_was_found,
        lets_no_entry_go_but_its_own,
        wants_a_whole_identifier,
        has_each_status_by_name,
        takes_the_status_of_a_later_library,
        tells_errno,
        forgets,
        has_rings_in_a_file,
        keeps_what_it_says_when_it_is_sent,
        tells_where_a_fault_is,
        takes_any_buffer,
        copies_no_payload,
        traces,
        traces_nothing_in_a_child,
        listens_until_its_block_ends,
        closes_at_the_end_of_a_block,
        gives_back_what_others_have,
    )
