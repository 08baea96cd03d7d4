"""Records from two threads, rotates, writes the archive below the folder that is named, and reads it back."""
import sys
import threading

import tracerd

UUID = bytes(range(16))
THREADS, RECORDS = 2, 1000


def record(session: tracerd.Session, producer: tracerd.Producer) -> None:
    with producer:
        for k in range(RECORDS - 1):
            offered = producer.offer(session.now(), 7, b"%d" % k)
            assert (offered.outcome, offered.serial) == (tracerd.STORED, k), offered
        assert producer.trace(8, bytearray(b"the last one, at the session's clock"))


def run(session: tracerd.Session, folder: str) -> None:
    session.channel("main", 65536, 16, tracerd.DISCARD)
    producers = [session.producer("main") for _ in range(THREADS)]
    session.start(session.now())
    threads = [threading.Thread(target=record, args=(session, it)) for it in producers]
    for it in threads:
        it.start()
    for it in threads:
        it.join()
    session.stop()
    archive = session.rotate(session.now())
    totals = session.settle()
    assert totals.offered == totals.in_chunks == THREADS * RECORDS, totals
    session.write(archive, folder)
    for stream in range(THREADS):
        audited = tracerd.audit(folder, "snake", "main", stream, UUID)
        assert (audited.records, audited.absent) == (RECORDS, 0), audited
    try:
        session.write(archive + 1, folder)
        raise AssertionError("an archive that isn't there was written")
    except tracerd.Refused as refused:
        assert str(refused) == "NoArchive" and refused.status is tracerd.Status.NO_ARCHIVE, refused
    print(f"python: {totals.in_chunks} records in archive {archive}")


def main(folder: str) -> None:
    with tracerd.Session("snake", UUID) as session:
        run(session, folder)


if __name__ == "__main__":
    if len(sys.argv) != 2:
        sys.exit("usage: example.py DIR")
    main(sys.argv[1])
