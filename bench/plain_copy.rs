//! A plain copy of the bytes that a rotation moves: what `rotate` of tr_bench is measured against.
//!
//!     plain_copy rotate LENGTH ROUNDS
//!
//! It fills as many sub-buffers as the session of tr_bench has, each flat: the bytes of its packet. It copies each into
//! new memory, and prints what tr_bench prints, which it reads from the copies. The copying alone is timed.

use std::process::ExitCode;

const STREAMS: u64 = 256;
const SIZE: usize = 4_096;
const COUNT: u64 = 64;
const PACKET_FRONT: usize = 80;
const RECORD_FRONT: usize = 24;
const MAGIC: u32 = 0xC1FC_1FC1;
const LAST_MOMENT: u64 = 9_000_000_000_000_000_000;
const ID: u32 = 7;

/// The processor time of the process, from the C library: std has only clocks on the wall.
mod clock {
    #[repr(C)]
    struct Time {
        seconds: i64,
        nanoseconds: i64,
    }

    const OF_THE_PROCESS: i32 = 2;

    extern "C" {
        fn clock_gettime(which: i32, time: *mut Time) -> i32;
    }

    pub fn nanoseconds() -> u128 {
        let mut time = Time {
            seconds: 0,
            nanoseconds: 0,
        };
        // SAFETY: on x86-64 a timespec is two numbers of 64 bits, and the pointer is to one
        let status = unsafe { clock_gettime(OF_THE_PROCESS, &mut time) };
        assert!(status == 0, "nobody tells the processor time");
        time.seconds as u128 * 1_000_000_000 + time.nanoseconds as u128
    }
}

/// A packet's bytes: that of this number of a stream whose packets have so many records each.
fn packet(stream: u64, seq: u64, count: u64, payload: &[u8]) -> Vec<u8> {
    let mut bytes = Vec::with_capacity(SIZE);
    let size = PACKET_FRONT + count as usize * (RECORD_FRONT + payload.len());
    let begin = seq * count;
    // a sub-buffer is closed by the first record of the next one, the last by the rotation
    let end = if seq + 1 < COUNT {
        begin + count
    } else {
        LAST_MOMENT
    };
    bytes.extend(MAGIC.to_le_bytes());
    bytes.extend(1_u128.to_be_bytes());
    bytes.extend(0_u32.to_le_bytes());
    for number in [stream, begin, end, 8 * size as u64, 8 * size as u64, seq, 0] {
        bytes.extend(number.to_le_bytes());
    }
    for serial in begin..begin + count {
        bytes.extend(ID.to_le_bytes());
        bytes.extend(serial.to_le_bytes());
        bytes.extend(serial.to_le_bytes());
        bytes.extend((payload.len() as u32).to_le_bytes());
        bytes.extend(payload);
    }
    bytes
}

/// The copy, each buffer in memory of its own. It stays a function, so that callgrind counts what it does and nothing else.
#[inline(never)]
fn copy_all(buffers: &[Vec<u8>]) -> Vec<Vec<u8>> {
    let mut copies = Vec::with_capacity(buffers.len());
    for buffer in buffers {
        copies.push(buffer.to_vec());
    }
    copies
}

fn mix(sum: u64, value: u64) -> u64 {
    sum.wrapping_mul(31).wrapping_add(value)
}

fn number(bytes: &[u8], at: usize) -> u64 {
    u64::from_le_bytes(bytes[at..at + 8].try_into().expect("eight bytes"))
}

/// The sum with a packet's head and its first record.
fn mix_packet(before: u64, packet: &[u8], length: usize) -> u64 {
    let [stream, begin, end, seq, discarded] = [24, 32, 40, 64, 72].map(|at| number(packet, at));
    let mut sum = [stream, seq, begin, end, discarded]
        .into_iter()
        .fold(before, mix);
    let first = &packet[PACKET_FRONT..PACKET_FRONT + RECORD_FRONT + length];
    let byte = if length == 0 { 0 } else { first[first.len() - 1] };
    let id = number(first, 0) & u64::from(u32::MAX);
    for value in [number(first, 12), number(first, 4), id, u64::from(byte)] {
        sum = mix(sum, value);
    }
    sum
}

fn main() -> ExitCode {
    let words: Vec<String> = std::env::args().skip(1).collect();
    let words: Vec<&str> = words.iter().map(String::as_str).collect();
    let ["rotate", length, rounds] = words[..] else {
        return ExitCode::from(2);
    };
    let (Ok(length), Ok(rounds)) = (length.parse::<usize>(), rounds.parse::<u64>()) else {
        return ExitCode::from(2);
    };
    let payload = vec![0x61; length];
    let count = (SIZE - PACKET_FRONT) / (RECORD_FRONT + length);
    let (mut packets, mut records, mut bytes, mut sum, mut quickest) = (0, 0, 0, 0, u128::MAX);
    for _ in 0..rounds {
        let numbers = (0..STREAMS).flat_map(|stream| (0..COUNT).map(move |seq| (stream, seq)));
        let buffers: Vec<Vec<u8>> = numbers
            .map(|(stream, seq)| packet(stream, seq, count as u64, &payload))
            .collect();
        let before = clock::nanoseconds();
        let copies = copy_all(&buffers);
        quickest = quickest.min(clock::nanoseconds() - before);
        for copy in &copies {
            packets += 1;
            records += (copy.len() - PACKET_FRONT) / (RECORD_FRONT + length);
            bytes += copy.len();
            sum = mix_packet(sum, copy, length);
        }
    }
    println!("packets {packets} records {records} bytes {bytes} sum {sum}");
    println!("quickest {quickest}");
    ExitCode::SUCCESS
}
