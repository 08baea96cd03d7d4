#!/usr/bin/env python3
"""The package tracerd: typed events as docs/FORMATS.md has them, what is logged, and what `python -m tracerd audit` prints.

Closes with 'N passed, M failed'."""
import contextlib
import io
import logging
import os
import struct
import subprocess
import sys
import tempfile
import threading

import tracerd
from tracerd import Status
from wrapper import UUID, payloads, raised, run

REFUSED = os.path.join(os.path.dirname(os.path.abspath(__file__)), "..", "..", "examples", "events", "refused")
ARCHIVE = "19700101T000000+0000-19700101T000000+0000"


def declared(*events):
    """A started session with these events, and its producer."""
    session = tracerd.Session("app", UUID)
    session.channel("main", 4096, 2, tracerd.DISCARD)
    session.declare(*events)
    producer = session.producer("main")
    session.start(session.now())
    return session, producer


def packs_each_type():
    """The bytes of each value, worked by hand."""
    for word, value, wanted in (
        ("u8", 255, b"\xff"),
        ("u16", 0x0102, b"\2\1"),
        ("u32", 0x01020304, b"\4\3\2\1"),
        ("u64", 0x0102030405060708, b"\x08\7\6\5\4\3\2\1"),
        ("i8", -1, b"\xff"),
        ("i16", -2, b"\xfe\xff"),
        ("i32", -3, b"\xfd\xff\xff\xff"),
        ("i64", -(2**63), b"\0\0\0\0\0\0\0\x80"),
        ("x8", 0xAB, b"\xab"),
        ("x16", 0xABCD, b"\xcd\xab"),
        ("x32", 1, b"\1\0\0\0"),
        ("x64", 2**64 - 1, b"\xff" * 8),
        ("f32", 1.5, b"\0\0\xc0\x3f"),
        ("f64", -2.0, b"\0\0\0\0\0\0\0\xc0"),
        ("flag", True, b"\1"),
        ("flag", False, b"\0"),
        ("u8{GET=71,PUT=80}", "PUT", b"\x50"),
        ("u8{GET=71,PUT=80}", 9, b"\x09"),
        ("i16{LOW=-32768}", "LOW", b"\0\x80"),
        ("u16[2]", (1, 2), b"\1\0\2\0"),
        ("i16[]", [-1, 2], b"\2\0\0\0\xff\xff\2\0"),
        ("f64[]", [], b"\0\0\0\0"),
        ("u8[4]", b"\1\2\3\4", b"\1\2\3\4"),
        ("str", "\u00e4", b"\xc3\xa4\0"),
        ("str", b"cut\0off", b"cut\0"),
        ("str", "\udc80", b"\\udc80\0"),
    ):
        assert tracerd.Event("e", 1, a=word).pack(value) == wanted, (word, value)
        event = tracerd.Event("e", 1, before="u8", a=word, after="u16")
        assert event.pack(1, value, 2) == b"\1" + wanted + b"\2\0", (word, value)
    for word, value, wanted in ("text", "all\0of it", b"all\0of it"), ("bytes", b"\0\xff", b"\0\xff"):
        assert tracerd.Event("e", 1, a=word).pack(value) == wanted, word
    assert tracerd.Event("e", 1).pack() == b""


def takes_values_by_their_names():
    event = tracerd.Event("queue_push", 3, name="u8", self="u8", id="u8")
    for wanted in event.pack(1, 2, 3), event.pack(1, id=3, self=2), event.pack(self=2, id=3, name=1):
        assert wanted == b"\1\2\3", wanted
    for values, named in ((1, 2), {}), ((1, 2, 3, 4), {}), ((1, 2, 3), {"id": 3}), ((1, 2), {"other": 3}), ((2,), {"name": 1, "id": 3}):
        assert isinstance(raised(lambda: event.pack(*values, **named)), TypeError), (values, named)
    assert str(event) == "queue_push 3 name:u8 self:u8 id:u8" and repr(event) == f"<Event {event}>"


def refuses_what_has_no_bytes():
    for word in "u9", "u8[", "u8[2", "str[2]", "text[]", "f32{A=1}", "flag{A=1}", "u8{A}", "", "u8 ":
        assert isinstance(raised(lambda: tracerd.Event("e", 1, a=word)), ValueError), word
    for word, value in ("u8", 256), ("u8", -1), ("i8", 128), ("u16{A=1}", 65536), ("u8[2]", (1, 256)), ("u32", 1.5):
        assert isinstance(raised(tracerd.Event("e", 1, a=word).pack, value), struct.error), (word, value)
    assert isinstance(raised(tracerd.Event("e", 1, a="u8[2]").pack, (1, 2, 3)), ValueError)
    assert isinstance(raised(tracerd.Event("e", 1, a="u8{A=1}").pack, "B"), KeyError)


def offers_what_it_packs():
    push, said = tracerd.Event("push", 3, worker="u8", depth="u16"), tracerd.Event("said", 2**32 - 1, text="text")
    session, producer = declared(push, "# others\nsaid 4294967295 text:text\n")
    assert push.offer(producer, session.now(), 1, depth=2).serial == 0
    assert said.offer(producer, session.now(), "hello").serial == 1
    assert push.trace(producer, worker=3, depth=4) and producer.trace(7, b"any")
    for call in (lambda: producer.trace(3, b"ab")), (lambda: producer.offer(session.now(), 3, b"abcd")):
        assert raised(call).status is Status.OTHER_LAYOUT
    counts = session.counts()
    assert (counts.offered, counts.refused_other_layout, counts.refused_inactive) == (4, 2, 0), counts
    assert raised(session.declare, push).status is Status.ALREADY_STARTED
    assert payloads(session) == [b"\1\2\0", b"hello", b"\3\4\0", b"any"]


def records_what_is_refused():
    """What was refused comes before what is accepted next: five sums, of which the last one is of other layouts."""
    session = tracerd.Session("app", UUID)
    session.channel("main", 4096, 2, tracerd.DISCARD)
    session.declare("offers_refused 1")
    assert raised(session.record_refused).status is Status.EVENT_TAKEN
    session.declare(tracerd.Event("push", 3, worker="u8"))
    session.record_refused()
    producer = session.producer("main")
    session.start(session.now())
    assert raised(session.record_refused).status is Status.ALREADY_STARTED
    assert raised(producer.trace, 3, b"ab").status is Status.OTHER_LAYOUT
    assert producer.trace(3, b"a") and session.counts().offered == 2
    assert payloads(session) == [struct.pack("<5Q", 0, 0, 0, 0, 1), b"a"]


def packs_nothing_while_off():
    """A value says when it is packed."""
    told = []

    class Costly:
        def __index__(self):
            told.append(self)
            return 7

    event = tracerd.Event("e", 3, a="u8")
    session, producer = declared(event)
    assert event.trace(producer, Costly()) and len(told) == 1
    session.stop()
    assert not event.trace(producer, Costly()) and len(told) == 1
    assert raised(event.offer, producer, 0, 1).status is Status.INACTIVE
    assert payloads(session) == [b"\7"]


def says_which_line_declares_nothing():
    """The lines that declare nothing, as the program's tests have them: `LINE CODE NAME|TEXT`."""
    session = tracerd.Session("app", UUID)
    with open(REFUSED, encoding="utf-8") as it:
        cases = it.read().splitlines()
    for case in cases:
        said, text = case.split("|")
        line, code, _ = said.split(" ")
        why = raised(session.declare, "# a line before", text.replace("\\n", "\n").replace("\\t", "\t"))
        assert (why.status, why.found) == (1000 + int(code[1:]), int(line)), (case, why)
    assert len(cases) > 30
    why = raised(session.declare, "push 3", tracerd.Event("pop", 4), "pu\0sh 5")
    assert (why.status, why.found, str(why)) == (Status.BAD_EVENT, 3, "BadEvent"), why
    why = raised(session.declare, tracerd.Event("push", 3, a="u8"), tracerd.Event("pop", 3))
    assert (why.status, why.found) == (Status.EVENT_TAKEN, 2), why
    session.declare()
    session.declare(tracerd.Event("push", 3))


def logged(payload):
    """The fields of a message."""
    (level,), rest = struct.unpack_from("<i", payload), payload[4:]
    logger, thread, file, rest = rest.split(b"\0", 3)
    (line,), message = struct.unpack_from("<I", rest), rest[4:]
    assert message.endswith(b"\0") and b"\0" not in message[:-1], payload
    return level, logger.decode(), thread.decode(), file.decode(), line, message[:-1].decode()


def takes_what_is_logged():
    session, producer = declared(tracerd.Handler.EVENT)
    logger = logging.Logger("app.server", logging.DEBUG)
    logger.addHandler(tracerd.Handler(producer, logging.INFO))
    line = sys._getframe().f_lineno
    logger.info("began %d of %s", 1, "gr\u00fc\u00dfe")
    logger.debug("below the handler's level")
    worker = threading.Thread(target=lambda: logger.error("failed\0 it has"), name="worker-1")
    worker.start()
    worker.join()
    try:
        raise KeyError("k")
    except KeyError:
        logger.log(25, "raised", exc_info=True)
    logger.info("")
    session.stop()
    logger.info("after the stop")
    first, second, third, fourth = map(logged, payloads(session))
    assert first == (20, "app.server", "MainThread", "typed.py", line + 1, "began 1 of gr\u00fc\u00dfe"), first
    assert second == (40, "app.server", "worker-1", "typed.py", line + 3, "failed"), second
    assert (third[0], third[4]) == (25, line + 9) and third[5].startswith("raised\nTraceback") and third[5].endswith("KeyError: 'k'"), third
    assert fourth[5] == "-", fourth


def says_what_it_cannot_log():
    """By logging's own way, and the program goes on; while it's off, nothing is formatted."""
    session, producer = declared(tracerd.Handler.EVENT)
    handler = tracerd.Handler(producer)
    logger = logging.Logger("app")
    logger.addHandler(handler)
    with contextlib.redirect_stderr(io.StringIO()) as said:
        logger.info("long %s", "a" * 4096)
        logger.info("wrong %d", "word")
    assert "TooBig" in said.getvalue() and "TypeError" in said.getvalue(), said.getvalue()
    assert session.counts().offered == 0
    producer.done()
    with contextlib.redirect_stderr(io.StringIO()) as said:
        logger.info("wrong %d", "word")
    assert said.getvalue() == ""


def archived(folder):
    """Two archives of two streams. A sub-buffer of 256 bytes has room for two records of 50 bytes; the fifth one finds both full."""
    session = tracerd.Session("s", bytes(15) + b"\1")
    session.channel("main", 256, 2, tracerd.DISCARD)
    first, second = session.producer("main"), session.producer("main")
    session.start(0)
    for moment in range(1, 6):
        first.offer(moment, 7, bytes(50))
    session.drain()
    first.offer(6, 7, bytes(50))
    session.write(session.rotate(10), folder)
    second.offer(15, 7)
    session.write(session.rotate(20), folder)


def audited(folder):
    ran = subprocess.run([sys.executable, "-m", "tracerd", "audit", folder], capture_output=True, text=True)
    return ran.returncode, ran.stdout.splitlines(), ran.stderr


def audits():
    uuid = "00000000-0000-0000-0000-000000000001"
    streams = [
        "stream 0 main packets 3 records 5 absent 0 lost 1 last 2 5 from 1 to 10",
        "stream 1 main packets 1 records 1 absent 0 lost 0 last 0 0 from 15 to 20",
    ]
    with tempfile.TemporaryDirectory() as folder:
        assert audited(folder) == (3, [], "tracerd: no session\n")
        assert audited(f"{folder}/nobody")[:2] == (3, [])
        archived(folder)
        for name in "my-session/archives", "t/archives", "other":
            os.makedirs(f"{folder}/{name}")
        wanted = ["passed over my-session", f"session s uuid {uuid} archives 2", *streams, "session t uuid none archives 0"]
        assert audited(folder) == (0, wanted, ""), audited(folder)
        archives = f"{folder}/s/archives"
        for number in 0, 1:
            os.rename(f"{archives}/{ARCHIVE}-{number}/metadata", f"{folder}/metadata-{number}")
        wanted.insert(2, "uuid of packets")
        assert audited(folder) == (0, wanted, ""), audited(folder)
        # a piece of the third packet is missing, which begins after two of 80 + 2 * 74 bytes
        os.truncate(f"{archives}/{ARCHIVE}-0/main_0", 500)
        wanted[3] = f"fault 0 {ARCHIVE}-0 456 A1 Packet P1 Short"
        assert audited(folder) == (1, wanted, ""), audited(folder)
        os.remove(f"{archives}/{ARCHIVE}-1/main_1")
        status, lines, said = audited(folder)
        assert (status, lines) == (1, wanted[:4] + wanted[5:]) and "s: stream 1: Read" in said, (status, lines, said)
    for words in [], ["audit"], ["check", "."], ["audit", ".", "."]:
        assert subprocess.run([sys.executable, "-m", "tracerd", *words], capture_output=True).returncode == 2, words


if __name__ == "__main__":
    run(
        packs_each_type,
        takes_values_by_their_names,
        refuses_what_has_no_bytes,
        offers_what_it_packs,
        records_what_is_refused,
        packs_nothing_while_off,
        says_which_line_declares_nothing,
        takes_what_is_logged,
        says_what_it_cannot_log,
        audits,
    )
