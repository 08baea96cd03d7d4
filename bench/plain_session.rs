//! A session that threads share, in plain Rust, as one would write it by hand over std: what the shared session and the load
//! are measured against.
//!
//! A stream lies under a lock of its own, and its offers are those of `plain_ring`. A part has the bytes of its packets as
//! they go to a file. A producer counts what it was answered, and once all is done its counts have to be the stream's. It has
//! no proof, and it ends if an allocation fails. Each of the two programs uses a part of it.
#![allow(dead_code)]

use crate::plain_ring::{packet_head, Counts, OfferFault, Offered, Ring};
use std::sync::Mutex;

/// A ring, and the parts that it was consumed into, the last of which isn't closed.
pub struct Stream {
    uuid: [u8; 16],
    number: u64,
    pub ring: Ring,
    part: Vec<u8>,
    pub closed_parts: Vec<Vec<u8>>,
}

impl Stream {
    pub fn new(uuid: [u8; 16], number: u64, ring: Ring) -> Stream {
        Stream {
            uuid,
            number,
            ring,
            part: Vec::new(),
            closed_parts: Vec::new(),
        }
    }

    /// Moves the oldest sub-buffer that waits, as a packet, to the end of the part, if one does.
    pub fn take(&mut self) -> bool {
        let Some(oldest) = self.ring.waiting.front() else {
            return false;
        };
        let head = packet_head(self.uuid, self.number, oldest);
        self.part.extend_from_slice(&head);
        self.part.extend_from_slice(&oldest.page.bytes);
        self.ring.remove_oldest();
        true
    }

    /// Moves all that the ring holds to the part, and closes that.
    pub fn cut(&mut self, moment: u64) {
        self.ring.last = self.ring.last.max(moment);
        while self.take() {}
        if self.ring.current.count > 0 {
            self.ring.close_current(self.ring.last);
            self.take();
        }
        self.closed_parts.push(std::mem::take(&mut self.part));
    }

    pub fn in_ring(&self) -> u64 {
        let waiting = self.ring.waiting.iter().map(|it| it.page.count);
        waiting.sum::<u64>() + self.ring.current.count
    }
}

#[derive(Debug)]
pub enum Fault {
    Refused(OfferFault),
    Unsettled,
}

impl From<OfferFault> for Fault {
    fn from(fault: OfferFault) -> Fault {
        Fault::Refused(fault)
    }
}

/// The thread of one stream, and what it was answered.
pub struct Producer {
    pub stream: usize,
    pub counts: Counts,
}

pub struct Shared {
    pub streams: Vec<Mutex<Stream>>,
}

impl Shared {
    pub fn offer(
        &self,
        producer: &mut Producer,
        moment: u64,
        id: u32,
        payload: &[u8],
    ) -> Result<Offered, OfferFault> {
        let mut stream = self.streams[producer.stream]
            .lock()
            .expect("no thread panics");
        let offered = stream.ring.offer(moment, id, payload)?;
        producer.counts.note(offered);
        Ok(offered)
    }

    /// The streams, if each one's counts are its producer's.
    pub fn settle(self, producers: &[Producer]) -> Result<Vec<Stream>, Fault> {
        let mut streams = Vec::with_capacity(self.streams.len());
        for lock in self.streams {
            streams.push(lock.into_inner().expect("no thread panics"));
        }
        for producer in producers {
            let stream = &streams[producer.stream];
            if producer.counts != stream.ring.counts {
                return Err(Fault::Unsettled);
            }
        }
        Ok(streams)
    }
}
