"""The records of archives, with the fields as Python has them."""
import math
import os
from dataclasses import dataclass

import bt2


@dataclass
class Record:
    """`trace` is the session's identifier, `stream` its stream's number, and `file` the name of the stream's file, as c_0."""

    trace: str
    stream: int
    file: str
    moment: int
    serial: int
    event: str
    fields: dict


def value_of(field):
    """A number, a text, a list of numbers, or the name of a number that has one."""
    if isinstance(field, bt2._EnumerationFieldConst) and len(field.labels) == 1:
        return field.labels[0]
    if isinstance(field, bt2._StringFieldConst):
        # (of an empty text babeltrace2 2.0.4 has the length, and the bytes of another record's)
        return str(field) if len(field) else ""
    if isinstance(field, bt2._RealFieldConst):
        return float(field)
    if isinstance(field, bt2._IntegerFieldConst):
        return int(field)
    return [value_of(it) for it in field]


def in_json(value):
    """A value as JSON has it: it has no infinities."""
    if isinstance(value, list):
        return [in_json(it) for it in value]
    return str(value) if isinstance(value, float) and not math.isfinite(value) else value


def records(folder):
    """The records of all archives below a folder, in the order of their moments."""
    for message in bt2.TraceCollectionMessageIterator(folder):
        if type(message) is bt2._EventMessageConst:
            event, stream = message.event, message.event.stream
            fields = {name: value_of(field) for name, field in event.payload_field.items()}
            serial = fields.pop("serial")
            del fields["len"]
            moment = message.default_clock_snapshot.ns_from_origin
            yield Record(str(stream.trace.uuid), stream.id, os.path.basename(stream.name), moment, serial, event.name, fields)
