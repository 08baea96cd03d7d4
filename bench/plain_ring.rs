//! A stream's ring in plain Rust, and what an offer does, as one would write it by hand over std.
//!
//! A sub-buffer is a page of bytes, whose memory is asked for once, when the ring is made. A record is written at the end of
//! the current page: its header, and then its payload. Pages go round: one is current, closed ones wait in a queue, and empty
//! ones are free. So no offer asks for memory. What is checked before an offer is accepted is what tr_stream checks. Each of
//! the programs uses a part of it.
#![allow(dead_code)]

use std::collections::VecDeque;
use std::{fmt, mem};

pub const EMPTY_PACKET: usize = 80;
pub const RECORD_HEADER: usize = 24;
const MOST_OFFERS: u64 = 1 << 62;

/// The bytes of a number in the text of a record or a packet.
pub fn number_at<const N: usize>(bytes: &[u8], at: usize) -> [u8; N] {
    bytes[at..at + N].try_into().expect("whole records")
}

/// The texts of records, one after another, and how many they are.
pub struct Page {
    pub bytes: Vec<u8>,
    pub count: u64,
}

impl Page {
    fn new(size: usize) -> Page {
        Page {
            bytes: Vec::with_capacity(size - EMPTY_PACKET),
            count: 0,
        }
    }

    fn put(&mut self, moment: u64, id: u32, serial: u64, payload: &[u8]) {
        let mut header = [0; RECORD_HEADER];
        header[0..4].copy_from_slice(&id.to_le_bytes());
        header[4..12].copy_from_slice(&moment.to_le_bytes());
        header[12..20].copy_from_slice(&serial.to_le_bytes());
        header[20..24].copy_from_slice(&(payload.len() as u32).to_le_bytes());
        self.bytes.extend_from_slice(&header);
        self.bytes.extend_from_slice(payload);
        self.count += 1;
    }

    /// Removes all records, and keeps the memory.
    fn clear(&mut self) {
        self.bytes.clear();
        self.count = 0;
    }
}

/// A sub-buffer that takes no more records.
pub struct Closed {
    pub page: Page,
    pub seq: u64,
    pub end: u64,
    pub discarded: u64,
}

/// The header and the context of a closed sub-buffer's packet.
pub fn packet_head(uuid: [u8; 16], stream: u64, closed: &Closed) -> [u8; EMPTY_PACKET] {
    let text = &closed.page.bytes;
    let bits = 8 * (EMPTY_PACKET + text.len()) as u64;
    let begin = u64::from_le_bytes(number_at(text, 4));
    let (seq, discarded) = (closed.seq, closed.discarded);
    let numbers = [stream, begin, closed.end, bits, bits, seq, discarded];
    let mut head = [0; EMPTY_PACKET];
    head[0..4].copy_from_slice(&[0xC1, 0x1F, 0xFC, 0xC1]);
    head[4..20].copy_from_slice(&uuid);
    for (place, number) in head[24..].chunks_exact_mut(8).zip(numbers) {
        place.copy_from_slice(&number.to_le_bytes());
    }
    head
}

#[derive(Clone, Copy)]
pub enum Offered {
    Stored {
        serial: u64,
        seq: u64,
    },
    StoredOver {
        serial: u64,
        seq: u64,
        gone_seq: u64,
        gone_count: u64,
    },
    Discarded {
        serial: u64,
    },
}

#[derive(Clone, Copy, Debug)]
pub enum OfferFault {
    Inactive,
    TooBig,
    Spent,
}

#[derive(Default, PartialEq)]
pub struct Counts {
    pub offered: u64,
    pub discarded: u64,
    pub overwritten: u64,
    pub overwritten_packets: u64,
}

impl Counts {
    pub fn note(&mut self, offered: Offered) {
        self.offered += 1;
        match offered {
            Offered::Stored { .. } => {}
            Offered::StoredOver { gone_count, .. } => {
                self.overwritten += gone_count;
                self.overwritten_packets += 1;
            }
            Offered::Discarded { .. } => self.discarded += 1,
        }
    }

    pub fn add(&mut self, other: &Counts) {
        self.offered += other.offered;
        self.discarded += other.discarded;
        self.overwritten += other.overwritten;
        self.overwritten_packets += other.overwritten_packets;
    }
}

impl fmt::Display for Counts {
    fn fmt(&self, f: &mut fmt::Formatter) -> fmt::Result {
        let Counts {
            offered,
            discarded,
            overwritten,
            overwritten_packets,
        } = self;
        write!(f, "offered {offered} discarded {discarded} overwritten {overwritten} in {overwritten_packets}")
    }
}

/// The sub-buffer that takes records, the closed ones that wait, and the free ones.
pub struct Ring {
    pub active: bool,
    overwrite: bool,
    size: usize,
    pub seq: u64,
    pub last: u64,
    pub counts: Counts,
    pub current: Page,
    pub waiting: VecDeque<Closed>,
    free: Vec<Page>,
}

impl Ring {
    pub fn new(size: usize, count: usize, overwrite: bool) -> Ring {
        Ring {
            active: false,
            overwrite,
            size,
            seq: 0,
            last: 0,
            counts: Counts::default(),
            current: Page::new(size),
            waiting: VecDeque::with_capacity(count - 1),
            free: (1..count).map(|_| Page::new(size)).collect(),
        }
    }

    pub fn offer(&mut self, moment: u64, id: u32, payload: &[u8]) -> Result<Offered, OfferFault> {
        if !self.active {
            return Err(OfferFault::Inactive);
        }
        if payload.len() > self.size - EMPTY_PACKET - RECORD_HEADER {
            return Err(OfferFault::TooBig);
        }
        if self.counts.offered >= MOST_OFFERS {
            return Err(OfferFault::Spent);
        }
        let moment = moment.max(self.last);
        let offered = self.push(moment, id, payload);
        self.counts.note(offered);
        self.last = moment;
        Ok(offered)
    }

    fn push(&mut self, moment: u64, id: u32, payload: &[u8]) -> Offered {
        let serial = self.counts.offered;
        let used = EMPTY_PACKET + self.current.bytes.len();
        if used + RECORD_HEADER + payload.len() <= self.size {
            self.current.put(moment, id, serial, payload);
            let seq = self.seq;
            return Offered::Stored { serial, seq };
        }
        if !self.free.is_empty() {
            let seq = self.follow(moment, id, serial, payload);
            return Offered::Stored { serial, seq };
        }
        if !self.overwrite {
            return Offered::Discarded { serial };
        }
        let oldest = self.waiting.front().expect("one waits in a full ring");
        let (gone_seq, gone_count) = (oldest.seq, oldest.page.count);
        self.remove_oldest();
        let seq = self.follow(moment, id, serial, payload);
        Offered::StoredOver {
            serial,
            seq,
            gone_seq,
            gone_count,
        }
    }

    /// Closes the current sub-buffer, and begins the next one with this record. What comes back is the next one's number.
    fn follow(&mut self, moment: u64, id: u32, serial: u64, payload: &[u8]) -> u64 {
        self.close_current(moment);
        self.current.put(moment, id, serial, payload);
        self.seq
    }

    /// Closes the current sub-buffer, and begins an empty one.
    pub fn close_current(&mut self, end: u64) {
        let next = self.free.pop().expect("a page is free");
        self.waiting.push_back(Closed {
            page: mem::replace(&mut self.current, next),
            seq: self.seq,
            end,
            discarded: self.counts.discarded,
        });
        self.seq += 1;
    }

    /// Removes the oldest sub-buffer that waits, whose page is free then.
    pub fn remove_oldest(&mut self) {
        if let Some(Closed { mut page, .. }) = self.waiting.pop_front() {
            page.clear();
            self.free.push(page);
        }
    }
}
