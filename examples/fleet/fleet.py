#!/usr/bin/python3
"""What the archives of many hosts hold together, by one process or by a cluster of Dask.

    fleet.py [--program PROGRAM] [--workers N | --scheduler ADDRESS] DIR ..

Each DIR is a host's folder, as `tracerd audit DIR` takes it. A host is a task: PROGRAM (tracerd) audits it, and babeltrace2's
library counts its records by their events, if python3-bt2 is there. N is how many processes of this machine do the tasks,
ADDRESS a scheduler that runs; its workers have to find PROGRAM and each DIR by these names.

It prints how many hosts are whole or faulty, or couldn't be audited, and of how many the events couldn't be counted; then, over
all hosts, the sums of each session and stream, and of each session's events; then of each host what is wrong. The exit status
is 0 if nothing is, else 1."""
from __future__ import annotations

import argparse
import collections
import functools
import glob
import importlib
import os
import re
import subprocess
import sys
from dataclasses import dataclass, field
from typing import Any, Iterable, Iterator

SESSION = re.compile(r"session (\w+) uuid \S+ archives (\d+)")
STREAM = re.compile(r"stream (\d+) (\w+) packets (\d+) records (\d+) absent (\d+) lost (\d+) ")
COUNTS = "packets", "records", "absent", "lost"
VERDICTS = WHOLE, FAULTY, UNAUDITED = "whole", "faulty", "unaudited"
UNCOUNTED = "uncounted"


@dataclass
class Sums:
    """What some hosts have together: `streams` by session, stream, channel and what is counted, `events` by session and
    name."""

    hosts: collections.Counter[str] = field(default_factory=collections.Counter)
    archives: collections.Counter[str] = field(default_factory=collections.Counter)
    streams: collections.Counter[tuple[str, int, str, str]] = field(default_factory=collections.Counter)
    events: collections.Counter[tuple[str, str]] = field(default_factory=collections.Counter)
    wrong: list[str] = field(default_factory=list)

    def add(self, other: Sums) -> None:
        self.hosts.update(other.hosts)
        self.archives.update(other.archives)
        self.streams.update(other.streams)
        self.events.update(other.events)
        self.wrong += other.wrong

    def lines(self) -> Iterator[str]:
        count = sum(self.hosts[it] for it in VERDICTS)
        yield " ".join([f"hosts {count}", *(f"{it} {self.hosts[it]}" for it in (*VERDICTS, UNCOUNTED))])
        yield from (f"session {name} archives {count}" for name, count in sorted(self.archives.items()))
        for of in sorted({it[:3] for it in self.streams}):
            counts = " ".join(f"{what} {self.streams[(*of, what)]}" for what in COUNTS)
            yield f"stream {of[0]} {of[1]} {of[2]} {counts}"
        yield from (f"event {session} {name} {count}" for (session, name), count in sorted(self.events.items()))
        yield from sorted(self.wrong)


def unaudited(host: str, why: object) -> Sums:
    return Sums(hosts=collections.Counter([UNAUDITED]), wrong=[f"{UNAUDITED} {host}: {why}"])


def audited(program: str, host: str) -> Sums:
    """What `tracerd audit` says of a host."""
    try:
        ran = subprocess.run([program, "audit", host], stdin=subprocess.DEVNULL, capture_output=True, text=True)
    except OSError as why:
        return unaudited(host, why)
    *lines, verdict = ran.stdout.splitlines() or [""]
    if ran.returncode not in (0, 1) or not (verdict == "whole" or verdict.startswith("faulty ")):
        return unaudited(host, ran.stderr.strip() or f"status {ran.returncode}")
    found, session = Sums(hosts=collections.Counter([WHOLE if verdict == "whole" else FAULTY])), ""
    for line in lines:
        if it := SESSION.match(line):
            session = it[1]
            found.archives[session] += int(it[2])
        elif it := STREAM.match(line):
            found.streams.update({(session, int(it[1]), it[2], what): int(n) for what, n in zip(COUNTS, it.groups()[2:])})
        elif line.startswith("fault "):
            found.wrong.append(f"{host}: {session} {line}")
    return found


def events_of(host: str) -> collections.Counter[tuple[str, str]]:
    """How many records of each session's events a host has. Archive by archive: several below one folder babeltrace2 reads as
    one trace, which it may order otherwise than they are."""
    bt2: Any = importlib.import_module("bt2")
    found: collections.Counter[tuple[str, str]] = collections.Counter()
    for archive in sorted(glob.glob(f"{glob.escape(host)}/*/archives/*")):
        session = archive.split("/")[-3]
        messages = bt2.TraceCollectionMessageIterator(archive)
        found.update((session, it.event.name) for it in messages if type(it) is bt2._EventMessageConst)
    return found


def add_events(found: Sums, host: str) -> None:
    """Adds a host's events, if there are as many as its audit has records."""
    records = sum(count for (*_, what), count in found.streams.items() if what == "records")
    try:
        events = events_of(host)
        wrong = "" if sum(events.values()) == records else f"{sum(events.values())} events of {records} records"
    except ImportError:
        found.hosts[UNCOUNTED] += 1
        return
    except Exception:  # (what it can't read babeltrace2 says by errors of several kinds)
        wrong = "babeltrace2 can't read all of it"
    if wrong:
        found.hosts[UNCOUNTED] += 1
        found.wrong.append(f"{UNCOUNTED} {host}: {wrong}")
    else:
        found.events.update(events)


def of_host(program: str, host: str) -> Sums:
    """A host's task. It changes nothing, so it may be done again where a worker was lost."""
    found = audited(program, host)
    add_events(found, host)
    return found


def by_cluster(client: Any, program: str, hosts: list[str]) -> Iterator[Sums]:
    """What each host has, in the order in which tasks end. One that ends its workers again and again isn't audited."""
    futures = client.map(functools.partial(of_host, program), hosts)
    host_of = dict(zip((it.key for it in futures), hosts))
    waiting = importlib.import_module("distributed").as_completed(futures)
    del futures  # (what was summed needn't be kept on a worker)
    for done in waiting:
        try:
            found = done.result()  # (it is made again if the worker that had it was lost meanwhile)
        except Exception as why:
            found = unaudited(host_of[done.key], type(why).__name__)
        yield found


def total(found: Iterable[Sums]) -> Sums:
    sums = Sums()
    for it in found:
        sums.add(it)
    return sums


def main(words: list[str]) -> int:
    parser = argparse.ArgumentParser(usage=__doc__, add_help=False)
    parser.add_argument("--program", default="tracerd")
    parser.add_argument("--workers", type=int)
    parser.add_argument("--scheduler")
    parser.add_argument("hosts", nargs="+")
    given = parser.parse_args(words)
    hosts = list(dict.fromkeys(os.path.abspath(it) for it in given.hosts))
    program = os.path.abspath(given.program) if "/" in given.program else given.program
    if given.workers or given.scheduler:
        distributed: Any = importlib.import_module("distributed")
        many = {"n_workers": given.workers, "threads_per_worker": 1, "dashboard_address": None}
        with distributed.Client(given.scheduler or distributed.LocalCluster(**many)) as client:
            sums = total(by_cluster(client, program, hosts))
    else:
        sums = total(of_host(program, it) for it in hosts)
    print(*sums.lines(), sep="\n")
    return 1 if sums.wrong else 0


if __name__ == "__main__":
    sys.exit(main(sys.argv[1:]))
