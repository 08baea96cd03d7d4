//! The same stream in plain Rust, as one would write it by hand over std: what `offers` of tr_bench is measured against.
//!
//!     plain_stream offers CASE ROUNDS
//!
//! Its offers are those of `plain_ring`. A take writes a packet's header and copies the sub-buffer's page after it, as
//! tr_stream does. It prints what tr_bench prints. It has no proof, and it ends if an allocation fails.
#![forbid(unsafe_code)]

mod plain_ring;

use plain_ring::{
    number_at, packet_head, Counts, OfferFault, Offered, Ring, EMPTY_PACKET, RECORD_HEADER,
};
use std::ops::Range;
use std::process::ExitCode;

/// How many offers a round makes to a new stream.
const OFFERS: u64 = 100_000;
/// How many offers come between two takes.
const OFFERS_A_TAKE: u64 = 125;

struct Taken {
    seq: u64,
    count: u64,
    chunk: u64,
}

/// A ring, and the texts of the packets that it was consumed into, with the place at which each ends.
struct Stream {
    uuid: [u8; 16],
    number: u64,
    ring: Ring,
    part: Vec<u8>,
    ends: Vec<usize>,
    consumed: u64,
}

impl Stream {
    fn new(uuid: [u8; 16], number: u64, ring: Ring) -> Stream {
        Stream {
            uuid,
            number,
            ring,
            part: Vec::new(),
            ends: Vec::new(),
            consumed: 0,
        }
    }

    /// Moves the oldest sub-buffer that waits to the end of the part: the packet's head, and one copy of the page.
    fn take(&mut self) -> Option<Taken> {
        let oldest = self.ring.waiting.front()?;
        let head = packet_head(self.uuid, self.number, oldest);
        let taken = Taken {
            seq: oldest.seq,
            count: oldest.page.count,
            chunk: 0,
        };
        self.part.extend_from_slice(&head);
        self.part.extend_from_slice(&oldest.page.bytes);
        self.ends.push(self.part.len());
        self.ring.remove_oldest();
        self.consumed += taken.count;
        Some(taken)
    }

    /// The sum with each packet's head and first record.
    fn mix_packets(&self, mut sum: u64) -> u64 {
        let mut begin = 0;
        for end in &self.ends {
            sum = mix_packet(sum, &self.part[begin..*end]);
            begin = *end;
        }
        sum
    }
}

fn mix(sum: u64, value: u64) -> u64 {
    sum.wrapping_mul(31).wrapping_add(value)
}

/// The sum with a packet's head and its first record.
fn mix_packet(sum: u64, packet: &[u8]) -> u64 {
    let number = |at| u64::from_le_bytes(number_at(packet, at));
    // of a context: the stream, both moments, the number and the discarded records
    let head = [24, 32, 40, 64, 72].map(number);
    let sum = head.into_iter().fold(mix(sum, u64::from(packet[19])), mix);
    let record = &packet[EMPTY_PACKET..];
    let field = |at| u64::from_le_bytes(number_at(record, at));
    let id = u64::from(u32::from_le_bytes(number_at(record, 0)));
    let len = u32::from_le_bytes(number_at(record, 20)) as usize;
    let sum = [field(12), field(4), id].into_iter().fold(sum, mix);
    record[RECORD_HEADER..RECORD_HEADER + len]
        .iter()
        .fold(sum, |sum, byte| mix(sum, u64::from(*byte)))
}

/// Size and count of the sub-buffers, whether the oldest gives way, whether packets are taken.
fn case_named(name: &str) -> Option<(usize, usize, bool, bool)> {
    match name {
        "stored" => Some((65_536, 64, false, false)),
        "taken" => Some((4_096, 4, false, true)),
        "discarded" => Some((4_096, 4, false, false)),
        "overwriting" => Some((4_096, 4, true, false)),
        _ => None,
    }
}

/// The sum with the answers to the offers of these numbers.
fn feed(stream: &mut Stream, numbers: Range<u64>, mut sum: u64) -> Result<u64, OfferFault> {
    for k in numbers {
        // every second moment is earlier than the last one
        match stream.ring.offer(k ^ 1, 7, &k.to_le_bytes())? {
            Offered::Stored { serial, seq } => sum = mix(mix(sum, serial), seq),
            Offered::StoredOver {
                serial,
                seq,
                gone_seq,
                gone_count,
            } => sum = mix(mix(mix(mix(sum, serial), seq), gone_seq), gone_count),
            Offered::Discarded { serial } => sum = mix(sum, serial),
        }
    }
    Ok(sum)
}

/// The sum with the answers to all offers of a round, and to a take after each so many of them.
fn feed_and_take(stream: &mut Stream, mut sum: u64) -> Result<u64, OfferFault> {
    for turn in 0..OFFERS / OFFERS_A_TAKE {
        let first = turn * OFFERS_A_TAKE;
        sum = feed(stream, first..first + OFFERS_A_TAKE, sum)?;
        if let Some(Taken { seq, count, chunk }) = stream.take() {
            sum = mix(mix(mix(sum, seq), count), chunk);
        }
    }
    Ok(sum)
}

/// The counts of all streams, and a sum over all answers.
#[derive(Default)]
struct Total {
    counts: Counts,
    consumed: u64,
    sum: u64,
}

/// One round: the offers to a new stream.
fn round(
    (size, count, overwrite, takes): (usize, usize, bool, bool),
    total: &mut Total,
) -> Result<(), OfferFault> {
    let mut stream = Stream::new([0; 16], 0, Ring::new(size, count, overwrite));
    stream.ring.active = true;
    let sum = if takes {
        feed_and_take(&mut stream, total.sum)?
    } else {
        feed(&mut stream, 0..OFFERS, total.sum)?
    };
    total.sum = mix(stream.mix_packets(sum), stream.part.len() as u64);
    total.counts.add(&stream.ring.counts);
    total.consumed += stream.consumed;
    Ok(())
}

fn main() -> ExitCode {
    let words: Vec<String> = std::env::args().skip(1).collect();
    let words: Vec<&str> = words.iter().map(String::as_str).collect();
    let ["offers", case, rounds] = words[..] else {
        return ExitCode::from(2);
    };
    let (Some(case), Ok(rounds)) = (case_named(case), rounds.parse::<u64>()) else {
        return ExitCode::from(2);
    };
    let mut total = Total::default();
    for _ in 0..rounds {
        if let Err(fault) = round(case, &mut total) {
            eprintln!("an offer was refused: {fault:?}");
            return ExitCode::FAILURE;
        }
    }
    let Total {
        counts,
        consumed,
        sum,
    } = total;
    println!("{counts} consumed {consumed} sum {sum}");
    ExitCode::SUCCESS
}
