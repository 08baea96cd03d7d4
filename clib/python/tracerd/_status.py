"""What a call answers. Made by .ci/statuses of clib/tracerd.h."""
from __future__ import annotations

import enum


class Status(enum.IntEnum):
    """What a call answers."""

    OK = 0
    NO_MEMORY = 1  # an allocation failed, or a thread could not be made
    CLOSED = 2  # the producer was given back; in a child of fork: the parent made it
    BAD_MOMENT = 4  # a moment above 9,000,000,000,000,000,000
    BAD_MODE = 6  # a mode that is none
    BAD_NAME = 7  # a name that is none
    BAD_OFFSET = 8  # minutes not from -1,439 to 1,439
    WRITE = 20  # a folder or a file could not be made or written; errno says why
    READ = 21  # a folder or a file could not be read; errno says why
    MISSING = 22  # a producer was not given back
    DRAINING = 23  # the library's drainer runs, or a keeper
    NOT_DRAINING = 24  # it does not run
    EXISTS = 25  # something else has the archive's name, or the socket's
    LISTENING = 26  # the session has a listener
    FORGOTTEN = 27  # the archive is forgotten
    SNAPSHOT_MODE = 101  # not in a snapshot session
    NOT_SNAPSHOT_MODE = 102  # only in a snapshot session
    NEVER_STARTED = 103  # the session was never started
    ROTATION_PENDING = 104  # tracerd_rotate_on first
    ALREADY_ROTATED = 105  # rotated since it was stopped
    ALREADY_ACTIVE = 106
    NOT_ACTIVE = 107
    DISCARD_IN_SNAPSHOT = 109  # in a snapshot session every ring overwrites
    ALREADY_STARTED = 110  # nothing is added once the session was started
    BAD_GEOMETRY = 111  # no ring has such sub-buffers
    TOO_MANY = 112  # 8 channels or 1,024 producers are there
    NOT_PENDING = 113  # no rotation is pending
    NAME_TAKEN = 115  # a channel has this name
    NO_CHANNEL = 117  # no channel has this name
    NO_ARCHIVE = 118  # no archive has this number
    RELEASED = 119  # the archive was released, or has no stream to release
    INACTIVE = 201  # the session takes no offers now
    TOO_BIG = 202  # the payload is longer than a sub-buffer's bytes less 104
    SPENT = 203  # the stream has accepted 2^62 offers
    OTHER_LAYOUT = 206  # the payload isn't laid out as the event of this id is declared
    ZERO_PERIOD = 701
    ZERO_SIZE = 702
    PACKET = 801  # of an audit: no packet is there
    NUMBER_REPEAT = 802  # a packet's number is not above the one before
    SERIAL_REPEAT = 803  # a packet's first serial is not above the last one before
    FOREIGN = 804  # a packet of another trace or another stream
    BAD_EVENT = 1001  # of a declaration: no name, no id, or a byte that can't be printed
    BAD_FIELD = 1002  # a field without a name
    BAD_TYPE = 1003  # a type that is none
    NOT_ALONE = 1004  # text or bytes beside other fields
    FIELD_TWICE = 1005  # two fields have this name
    EVENT_TAKEN = 1006  # an event has this name or this id
    TOO_MANY_DECLARED = 1007  # more than 1,024 events, 32 fields, 524,288 bytes, or what no sub-buffer holds
    BAD_VARIABLE = 1008  # of a variable: no name, or a word of CTF's language
    BAD_VALUE = 1009  # no value, one that the metadata can't have, or a vpid that is no number
    VARIABLE_TAKEN = 1010  # a variable has this name
    TOO_MANY_VARIABLES = 1011  # more than 32
    HELD = 1202  # an archive below this number isn't released

    @classmethod
    def _missing_(cls, value: object) -> Status | None:
        """One that a later library answers: it has no name here."""
        if not isinstance(value, int):
            return None
        later = int.__new__(cls, value)
        later._name_, later._value_ = "UNKNOWN", value
        return later
