#!/usr/bin/python3
"""Archives as the JSON that ui.perfetto.dev opens: perfetto.py DIR > trace.json

A session is a process, and a stream a thread of it. An event x_begin begins a slice x, or one of the name in its field `name`, and
x_end ends the last such slice that is open; so do x_enter and x_exit. Other records are instants. Where serials are missing, a
slice `lost N` is between the two records beside them: N records were discarded, overwritten or cleared there."""
import collections
import json
import sys

from records import in_json, records

BEGINNINGS, ENDINGS = ("begin", "enter"), ("end", "exit")


class Stream:
    """What was seen of a stream: its last record, and the names of the slices that are open, by their events."""

    def __init__(self):
        self.last, self.open = None, collections.defaultdict(list)

    def slice_or_instant(self, it):
        stem, _, ending = it.event.rpartition("_")
        if stem and ending in BEGINNINGS:
            self.open[stem].append(it.fields.get("name", stem))
            return {"ph": "B", "name": self.open[stem][-1]}
        if stem and ending in ENDINGS and self.open[stem]:
            return {"ph": "E", "name": self.open[stem].pop()}
        return {"ph": "i", "s": "t", "name": it.event}


def events(folder):
    """The events of the JSON, with moments in microseconds since the first record."""
    first, streams, sessions = None, collections.defaultdict(Stream), {}
    for it in records(folder):
        first = it.moment if first is None else first
        place = {"pid": sessions.setdefault(it.trace, len(sessions) + 1), "tid": it.stream}
        stream = streams[it.trace, it.stream]
        last, stream.last = stream.last, it
        if last is None:
            yield {"ph": "M", "name": "thread_name", **place, "args": {"name": it.file}}
        elif it.serial > last.serial + 1:
            since, took = (last.moment - first) / 1000, (it.moment - last.moment) / 1000
            yield {"ph": "X", "name": f"lost {it.serial - last.serial - 1}", "ts": since, "dur": took, **place}
        args = {"serial": it.serial, **{name: in_json(value) for name, value in it.fields.items()}}
        yield {**stream.slice_or_instant(it), "ts": (it.moment - first) / 1000, **place, "args": args}


def main(folder):
    lines = ",\n".join(json.dumps(it) for it in events(folder))
    print(f'{{"displayTimeUnit": "ns", "traceEvents": [\n{lines}\n]}}')


if __name__ == "__main__":
    if len(sys.argv) != 2:
        sys.exit(__doc__)
    main(sys.argv[1])
