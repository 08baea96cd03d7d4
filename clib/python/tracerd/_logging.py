"""What a program logs, as records."""
from __future__ import annotations

import logging
from typing import TYPE_CHECKING

from ._events import Event

if TYPE_CHECKING:
    from . import Producer


class Handler(logging.Handler):
    """A handler of `logging`: it offers each message that it is given by one producer.

        session.declare(tracerd.Handler.EVENT)
        handler = tracerd.Handler(session.producer("log"))
        logging.getLogger().addHandler(handler)

    `logging` locks a handler while it emits, so one producer serves all threads. While the producer is off nothing is
    formatted. A message that is refused, as one that no sub-buffer holds, goes the way of logging's errors
    (Handler.handleError). An empty text is `-`: in its place babeltrace2 2.0.4 shows that of an earlier record."""

    # (an id of its own, far from a program's)
    EVENT = Event(
        "logging_message",
        4294960011,
        level="i32{NOTSET=0,DEBUG=10,INFO=20,WARNING=30,ERROR=40,CRITICAL=50}",
        logger="str",
        thread="str",
        file="str",
        line="u32",
        message="str",
    )

    def __init__(self, producer: Producer, level: int = logging.NOTSET) -> None:
        super().__init__(level)
        self.producer = producer

    def emit(self, record: logging.LogRecord) -> None:
        if not self.producer.is_active:
            return
        try:
            where = record.name or "-", record.threadName or "-", record.filename or "-", record.lineno
            self.EVENT.trace(self.producer, record.levelno, *where, self.format(record) or "-")
        except Exception:
            self.handleError(record)
