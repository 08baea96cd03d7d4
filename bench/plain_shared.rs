//! The same session in plain Rust: what `shared` of tr_bench is measured against.
//!
//!     plain_shared shared CASE ROUNDS
//!
//! Prints what tr_bench prints.
#![forbid(unsafe_code)]

mod plain_cases;
mod plain_ring;
mod plain_session;

use plain_cases::{case_named, mix, mix_answer, OFFERS};
use plain_ring::{Counts, Ring};
use plain_session::{Fault, Producer, Shared, Stream};
use std::process::ExitCode;
use std::sync::Mutex;

/// One round: the offers to a new session.
fn round(
    (size, count, overwrite): (usize, usize, bool),
    total: &mut Counts,
    mut sum: u64,
) -> Result<u64, Fault> {
    let mut stream = Stream::new([0; 16], 0, Ring::new(size, count, overwrite));
    stream.ring.active = true;
    let shared = Shared {
        streams: vec![Mutex::new(stream)],
    };
    let mut producer = Producer {
        stream: 0,
        counts: Counts::default(),
    };
    for k in 0..OFFERS {
        // every second moment is earlier than the last one
        let answer = shared.offer(&mut producer, k ^ 1, 7, &k.to_le_bytes())?;
        sum = mix_answer(sum, answer);
    }
    for stream in shared.settle(&[producer])? {
        let counts = &stream.ring.counts;
        if counts.offered != counts.discarded + counts.overwritten + stream.in_ring() {
            return Err(Fault::Unsettled);
        }
        total.add(counts);
    }
    // nothing was taken, so the part of the first trace chunk has no bytes
    Ok(mix(sum, 0))
}

fn main() -> ExitCode {
    let words: Vec<String> = std::env::args().skip(1).collect();
    let words: Vec<&str> = words.iter().map(String::as_str).collect();
    let ["shared", case, rounds] = words[..] else {
        return ExitCode::from(2);
    };
    let (Some(case), Ok(rounds)) = (case_named(case), rounds.parse::<u64>()) else {
        return ExitCode::from(2);
    };
    let (mut total, mut sum) = (Counts::default(), 0);
    for _ in 0..rounds {
        match round(case, &mut total, sum) {
            Ok(next) => sum = next,
            Err(fault) => {
                eprintln!("stopped: {fault:?}");
                return ExitCode::FAILURE;
            }
        }
    }
    println!("{total} consumed 0 sum {sum}");
    ExitCode::SUCCESS
}
