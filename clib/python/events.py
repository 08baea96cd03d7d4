"""Records typed events and what is logged, and writes the archive below the folder that is named."""
import logging
import sys
import uuid

import tracerd

queue_push = tracerd.Event("queue_push", 3, worker="u32", depth="u64")
request = tracerd.Event("request", 5, verb="u8{GET=71,PUT=80}", path="str", took="f64")

with tracerd.Session("app", uuid.uuid4().bytes) as session:
    session.declare(queue_push, request, tracerd.Handler.EVENT)
    session.channel("main", 65536, 16, tracerd.DISCARD)
    producer = session.producer("main")  # one for each thread
    logging.getLogger().addHandler(tracerd.Handler(session.producer("main")))
    session.start(session.now())
    queue_push.trace(producer, worker=1, depth=17)
    request.trace(producer, "GET", "/index.html", took=0.25)
    logging.warning("the disk is full")
    session.write(session.rotate(session.now()), sys.argv[1])
