//! A stream of a script's session in plain Rust: a ring, and the parts that it is consumed into.

use crate::plain_ring::{number_at, packet_head, Page, Ring, EMPTY_PACKET, RECORD_HEADER};
use crate::plain_script_words::Shape;
use std::{iter, mem};

/// Serials that follow each other, of records of one packet.
struct Run {
    seq: u64,
    first: u64,
    count: u64,
}

impl Run {
    fn has(&self, serial: u64) -> bool {
        serial
            .checked_sub(self.first)
            .is_some_and(|it| it < self.count)
    }
}

/// The serials of whole records, one after another.
fn serials(mut records: &[u8]) -> impl Iterator<Item = u64> + '_ {
    iter::from_fn(move || {
        let (header, rest) = records.split_at_checked(RECORD_HEADER)?;
        let length = u32::from_le_bytes(number_at(header, 20)) as usize;
        records = &rest[length..];
        Some(u64::from_le_bytes(number_at(header, 12)))
    })
}

/// The runs of the records of a packet.
fn push_runs(runs: &mut Vec<Run>, seq: u64, records: &[u8]) {
    let begun = runs.len();
    for serial in serials(records) {
        match runs[begun..].last_mut() {
            Some(run) if run.first + run.count == serial => run.count += 1,
            _ => runs.push(Run {
                seq,
                first: serial,
                count: 1,
            }),
        }
    }
}

/// What a ring gave to one trace chunk: the bytes of its packets, and the place at which each ends. If it is released, it has
/// the runs of their records instead, and counts as before.
#[derive(Default)]
pub struct Part {
    bytes: Vec<u8>,
    ends: Vec<usize>,
    released: Option<Vec<Run>>,
    pub packets: u64,
    pub records: u64,
    pub size: u64,
}

impl Part {
    fn push(&mut self, head: [u8; EMPTY_PACKET], page: &Page) {
        self.bytes.extend_from_slice(&head);
        self.bytes.extend_from_slice(&page.bytes);
        self.ends.push(self.bytes.len());
        self.packets += 1;
        self.records += page.count;
        self.size = self.bytes.len() as u64;
    }

    /// The number and the records of each packet.
    fn each_packet(&self) -> impl Iterator<Item = (u64, &[u8])> {
        let begins = iter::once(0).chain(self.ends.iter().copied());
        begins.zip(&self.ends).map(|(begin, end)| {
            let (head, records) = self.bytes[begin..*end].split_at(EMPTY_PACKET);
            (u64::from_le_bytes(number_at(head, 64)), records)
        })
    }

    fn runs(&self) -> Vec<Run> {
        let mut runs = Vec::new();
        for (seq, records) in self.each_packet() {
            push_runs(&mut runs, seq, records);
        }
        runs
    }

    /// The number of the packet that has, or had, the record of this serial.
    fn seq_of(&self, serial: u64) -> Option<u64> {
        if let Some(runs) = &self.released {
            return runs.iter().find(|it| it.has(serial)).map(|it| it.seq);
        }
        self.each_packet()
            .find(|(_, records)| serials(records).any(|it| it == serial))
            .map(|(seq, _)| seq)
    }

    pub fn is_released(&self) -> bool {
        self.released.is_some()
    }

    fn release(&mut self) {
        self.released = Some(self.runs());
        self.bytes = Vec::new();
        self.ends = Vec::new();
    }
}

pub struct Taken {
    pub seq: u64,
    pub count: u64,
    pub chunk: u64,
}

pub enum Fate {
    NotOffered,
    Discarded,
    Overwritten,
    Cleared { seq: u64 },
    InRing { seq: u64 },
    InChunk { chunk: u64, seq: u64 },
}

/// A packet that a ring would give, as a snapshot shows it.
pub struct Shown {
    pub seq: u64,
    pub count: u64,
    pub first: u64,
    pub last: u64,
}

impl Shown {
    fn of(seq: u64, page: &Page) -> Option<Shown> {
        let first = serials(&page.bytes).next()?;
        let last = serials(&page.bytes).last()?;
        Some(Shown {
            seq,
            count: page.count,
            first,
            last,
        })
    }
}

/// A ring, its closed parts, each with the serial at which the next one began, the current part, and the runs of what was
/// cleared.
pub struct Stream {
    uuid: [u8; 16],
    number: u64,
    overwrite: bool,
    pub ring: Ring,
    closed: Vec<Part>,
    starts: Vec<u64>,
    current: Part,
    gone: Vec<Run>,
    pub in_chunks: u64,
    pub cleared: u64,
}

impl Stream {
    pub fn new(uuid: [u8; 16], number: u64, (size, count, overwrite): Shape) -> Stream {
        Stream {
            uuid,
            number,
            overwrite,
            ring: Ring::new(size, count, overwrite),
            closed: Vec::new(),
            starts: Vec::new(),
            current: Part::default(),
            gone: Vec::new(),
            in_chunks: 0,
            cleared: 0,
        }
    }

    pub fn in_ring(&self) -> u64 {
        let counts = &self.ring.counts;
        counts.offered - counts.discarded - counts.overwritten - self.cleared - self.in_chunks
    }

    /// Moves the oldest sub-buffer that waits, as a packet, to the end of the current part.
    pub fn take(&mut self) -> Option<Taken> {
        let oldest = self.ring.waiting.front()?;
        let taken = Taken {
            seq: oldest.seq,
            count: oldest.page.count,
            chunk: self.closed.len() as u64,
        };
        let head = packet_head(self.uuid, self.number, oldest);
        self.current.push(head, &oldest.page);
        self.ring.remove_oldest();
        self.in_chunks += taken.count;
        Some(taken)
    }

    /// Moves all that the ring holds, and answers with how many records that are.
    fn take_all(&mut self) -> u64 {
        let records = self.in_ring();
        while self.take().is_some() {}
        if self.ring.current.count > 0 {
            self.ring.close_current(self.ring.last);
            self.take();
        }
        records
    }

    /// Moves all that the ring holds, and closes the part.
    pub fn cut(&mut self, moment: u64) -> u64 {
        self.ring.last = self.ring.last.max(moment);
        let records = self.take_all();
        self.closed.push(mem::take(&mut self.current));
        self.starts.push(self.ring.counts.offered);
        records
    }

    /// Removes what the ring and the current part hold, and keeps the runs.
    pub fn clear(&mut self) -> u64 {
        self.take_all();
        let part = mem::take(&mut self.current);
        self.gone.extend(part.runs());
        self.in_chunks -= part.records;
        self.cleared += part.records;
        part.records
    }

    /// Gives up the bytes of a closed part, and says whether it had them.
    pub fn release(&mut self, chunk: u64) -> bool {
        match self.closed.get_mut(chunk as usize) {
            Some(part) if !part.is_released() => {
                part.release();
                true
            }
            _ => false,
        }
    }

    /// The part of a trace chunk: a closed one, or else the current one.
    pub fn part(&self, chunk: u64) -> &Part {
        self.closed.get(chunk as usize).unwrap_or(&self.current)
    }

    pub fn current_size(&self) -> u64 {
        self.current.size
    }

    pub fn fate(&self, serial: u64) -> Fate {
        if serial >= self.ring.counts.offered {
            return Fate::NotOffered;
        }
        let chunk = self.starts.partition_point(|it| *it <= serial) as u64;
        if let Some(seq) = self.part(chunk).seq_of(serial) {
            return Fate::InChunk { chunk, seq };
        }
        let after = self.gone.partition_point(|it| it.first <= serial);
        if let Some(run) = self.gone[..after].last().filter(|it| it.has(serial)) {
            return Fate::Cleared { seq: run.seq };
        }
        match self.seq_in_ring(serial) {
            Some(seq) => Fate::InRing { seq },
            None if self.overwrite => Fate::Overwritten,
            None => Fate::Discarded,
        }
    }

    /// The number and the page of each sub-buffer, the oldest first.
    fn pages(&self) -> impl Iterator<Item = (u64, &Page)> {
        let waiting = self.ring.waiting.iter().map(|it| (it.seq, &it.page));
        waiting.chain(iter::once((self.ring.seq, &self.ring.current)))
    }

    fn seq_in_ring(&self, serial: u64) -> Option<u64> {
        self.pages()
            .find(|(_, page)| serials(&page.bytes).any(|it| it == serial))
            .map(|(seq, _)| seq)
    }

    /// The packets of the sub-buffers that have a record, the oldest first.
    pub fn shown(&self) -> Vec<Shown> {
        self.pages()
            .filter_map(|(seq, page)| Shown::of(seq, page))
            .collect()
    }
}
