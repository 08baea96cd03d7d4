//! The same reading in plain Rust, as one would write it by hand over std: what `decode` and `audit` of tr_bench are
//! measured against.
//!
//!     plain_decoder decode ROUNDS
//!     plain_decoder audit ROUNDS
//!
//! It reads packets from standard input, asks the same of them, and prints what tr_bench prints. Its decoder keeps a
//! packet's first and last serial, so that its audit goes over the records once. It has no proof, and it ends where memory
//! is refused.
#![forbid(unsafe_code)]

use std::hint::black_box;
use std::io::Read;
use std::process::ExitCode;

const MAGIC: [u8; 4] = [0xC1, 0x1F, 0xFC, 0xC1];
const FRONT: usize = 80;
const LAST_MOMENT: u64 = 9_000_000_000_000_000_000;

#[derive(Debug)]
enum PacketFault {
    Short,
    BadMagic,
    BadStreamId,
    BadSize,
    BadRecord,
    SerialOrder,
    MomentOrder,
}

struct Record<'a> {
    serial: u64,
    moment: u64,
    id: u32,
    payload: &'a [u8],
}

struct Head {
    uuid: [u8; 16],
    stream: u64,
    seq: u64,
    discarded: u64,
}

struct Packet<'a> {
    head: Head,
    count: usize,
    first_serial: u64,
    last_serial: u64,
    body: &'a [u8],
}

/// The number in eight bytes, lowest byte first.
fn u64_at<const N: usize>(bytes: &[u8; N], at: usize) -> u64 {
    u64::from_le_bytes(bytes[at..at + 8].try_into().expect("eight bytes"))
}

fn u32_at<const N: usize>(bytes: &[u8; N], at: usize) -> u32 {
    u32::from_le_bytes(bytes[at..at + 4].try_into().expect("four bytes"))
}

/// The record in front, and the bytes after it.
fn read_record(bytes: &[u8]) -> Option<(Record<'_>, &[u8])> {
    let (fields, rest) = bytes.split_first_chunk::<24>()?;
    let (payload, rest) = rest.split_at_checked(u32_at(fields, 20) as usize)?;
    let record = Record {
        serial: u64_at(fields, 12),
        moment: u64_at(fields, 4),
        id: u32_at(fields, 0),
        payload,
    };
    Some((record, rest))
}

/// The records of a packet that was decoded.
struct Records<'a> {
    rest: &'a [u8],
}

impl<'a> Iterator for Records<'a> {
    type Item = Record<'a>;

    fn next(&mut self) -> Option<Record<'a>> {
        let (record, rest) = read_record(self.rest)?;
        self.rest = rest;
        Some(record)
    }
}

impl<'a> Packet<'a> {
    fn records(&self) -> Records<'a> {
        Records { rest: self.body }
    }

    /// The packet of these records, where they are whole and in order.
    fn checked(head: Head, begin: u64, end: u64, body: &'a [u8]) -> Result<Self, PacketFault> {
        let (first, mut rest) = read_record(body).ok_or(PacketFault::BadRecord)?;
        let (mut count, mut last_serial, mut moment) = (1, first.serial, first.moment);
        let mut serials_rise = true;
        let mut moments_hold = first.moment == begin;
        while !rest.is_empty() {
            let (record, after) = read_record(rest).ok_or(PacketFault::BadRecord)?;
            serials_rise &= last_serial < record.serial;
            moments_hold &= moment <= record.moment;
            (last_serial, moment, rest) = (record.serial, record.moment, after);
            count += 1;
        }
        if !serials_rise {
            return Err(PacketFault::SerialOrder);
        }
        if !moments_hold || end < moment || end > LAST_MOMENT {
            return Err(PacketFault::MomentOrder);
        }
        Ok(Packet {
            head,
            count,
            first_serial: first.serial,
            last_serial,
            body,
        })
    }
}

/// The packet in front, and how many bytes it has, or the first fault.
fn decode_packet(bytes: &[u8]) -> Result<(Packet<'_>, usize), PacketFault> {
    let Some((front, rest)) = bytes.split_first_chunk::<FRONT>() else {
        return Err(PacketFault::Short);
    };
    if front[..4] != MAGIC {
        return Err(PacketFault::BadMagic);
    }
    if u32_at(front, 20) != 0 {
        return Err(PacketFault::BadStreamId);
    }
    let (content, bits) = (u64_at(front, 48), u64_at(front, 56));
    if content != bits || bits % 8 != 0 || !(104..=1_048_576).contains(&(bits / 8)) {
        return Err(PacketFault::BadSize);
    }
    let size = (bits / 8) as usize;
    let body = rest.get(..size - FRONT).ok_or(PacketFault::Short)?;
    let head = Head {
        uuid: front[4..20].try_into().expect("sixteen bytes"),
        stream: u64_at(front, 24),
        seq: u64_at(front, 64),
        discarded: u64_at(front, 72),
    };
    let packet = Packet::checked(head, u64_at(front, 32), u64_at(front, 40), body)?;
    Ok((packet, size))
}

#[derive(Debug)]
enum AuditFault {
    Packet(PacketFault),
    Foreign,
    NumberRepeat,
    SerialRepeat,
}

/// What an audit finds.
#[derive(Default)]
struct Audit {
    packets: u64,
    records: u64,
    gaps: Vec<(u64, u64)>,
    last_seq: Option<u64>,
    last_serial: Option<u64>,
    last_discarded: u64,
}

impl Audit {
    /// Adds a packet after those that were audited.
    fn add(&mut self, uuid: &[u8; 16], stream: u64, packet: &Packet) -> Result<(), AuditFault> {
        let head = &packet.head;
        if head.uuid != *uuid || head.stream != stream {
            return Err(AuditFault::Foreign);
        }
        if self.last_seq.is_some_and(|last| last >= head.seq) {
            return Err(AuditFault::NumberRepeat);
        }
        if self
            .last_serial
            .is_some_and(|last| last >= packet.first_serial)
        {
            return Err(AuditFault::SerialRepeat);
        }
        let next = self.last_seq.map_or(0, |last| last + 1);
        if next < head.seq {
            self.gaps.push((next, head.seq - next));
        }
        self.packets += 1;
        self.records += packet.count as u64;
        self.last_seq = Some(head.seq);
        self.last_serial = Some(packet.last_serial);
        self.last_discarded = head.discarded;
        Ok(())
    }
}

fn audit_stream(uuid: &[u8; 16], stream: u64, bytes: &[u8]) -> Result<Audit, AuditFault> {
    let mut audit = Audit::default();
    let mut rest = bytes;
    while !rest.is_empty() {
        let (packet, size) = decode_packet(rest).map_err(AuditFault::Packet)?;
        audit.add(uuid, stream, &packet)?;
        rest = &rest[size..];
    }
    Ok(audit)
}

fn mix(sum: u64, value: u64) -> u64 {
    sum.wrapping_mul(31).wrapping_add(value)
}

fn mix_records(packet: &Packet, sum: u64) -> u64 {
    packet.records().fold(sum, |sum, r| {
        let numbers = r.serial.wrapping_add(r.moment);
        let rest = u64::from(r.id).wrapping_add(r.payload.len() as u64);
        mix(sum, numbers.wrapping_add(rest))
    })
}

fn decode(bytes: &[u8], rounds: u64) -> Result<(), PacketFault> {
    let (mut packets, mut records, mut sum) = (0, 0, 0);
    for _ in 0..rounds {
        let mut rest = black_box(bytes);
        while !rest.is_empty() {
            let (packet, size) = decode_packet(rest)?;
            packets += 1;
            records += packet.count;
            sum = mix_records(&packet, sum);
            rest = &rest[size..];
        }
    }
    println!("packets {packets} records {records} sum {sum}");
    Ok(())
}

fn audit(bytes: &[u8], rounds: u64) -> Result<(), AuditFault> {
    let uuid = 1_u128.to_be_bytes();
    let (mut packets, mut records, mut gaps, mut absent, mut sum) = (0, 0, 0, 0, 0);
    for _ in 0..rounds {
        let found = audit_stream(&uuid, 0, black_box(bytes))?;
        packets += found.packets;
        records += found.records;
        gaps += found.gaps.len();
        absent += found.gaps.iter().map(|(_, count)| count).sum::<u64>();
        sum = mix(sum, found.last_seq.unwrap_or(0));
        sum = mix(mix(sum, found.last_serial.unwrap_or(0)), found.last_discarded);
    }
    println!("packets {packets} records {records} gaps {gaps} absent {absent} sum {sum}");
    Ok(())
}

fn main() -> ExitCode {
    let words: Vec<String> = std::env::args().skip(1).collect();
    let words: Vec<&str> = words.iter().map(String::as_str).collect();
    let [what @ ("decode" | "audit"), rounds] = words[..] else {
        return ExitCode::from(2);
    };
    let Ok(rounds) = rounds.parse::<u64>() else {
        return ExitCode::from(2);
    };
    let mut bytes = Vec::new();
    if let Err(fault) = std::io::stdin().read_to_end(&mut bytes) {
        eprintln!("the packets can't be read: {fault}");
        return ExitCode::FAILURE;
    }
    let stopped = match what {
        "decode" => decode(&bytes, rounds)
            .err()
            .map(|fault| format!("{fault:?}")),
        _ => audit(&bytes, rounds).err().map(|fault| match fault {
            AuditFault::Packet(fault) => format!("{fault:?}"),
            other => format!("{other:?}"),
        }),
    };
    match stopped {
        None => ExitCode::SUCCESS,
        Some(fault) => {
            eprintln!("stopped {fault}");
            ExitCode::FAILURE
        }
    }
}
