//! The same watched session in plain Rust: what `threads` of tr_bench is measured against. It is a program of its own, since
//! with two callers rustc doesn't inline an offer.
//!
//!     plain_watched threads CASE THREADS WATCHERS ROUNDS
//!
//! Prints what tr_bench prints.
#![forbid(unsafe_code)]

mod plain_cases;
mod plain_ring;
mod plain_session;

use plain_cases::{case_named, mix, mix_answer, OFFERS};
use plain_ring::{Counts, Ring};
use plain_session::{Fault, Producer, Shared, Stream};
use std::process::ExitCode;
use std::sync::atomic::{AtomicU64, Ordering};
use std::sync::Mutex;
use std::thread;

/// The count that is published of one stream, in a line of the processor's cache of its own.
#[repr(align(64))]
#[derive(Default)]
struct Word(AtomicU64);

/// Offers by one producer, in its thread. If anybody watches, it publishes how many it has offered, once the lock is given back.
fn offer_round(
    shared: &Shared,
    words: &[Word],
    mut producer: Producer,
) -> Result<(Producer, u64), Fault> {
    let mut sum = 0;
    for k in 0..OFFERS {
        let answer = shared.offer(&mut producer, k ^ 1, 7, &k.to_le_bytes())?;
        if let Some(word) = words.get(producer.stream) {
            word.0.store(producer.counts.offered, Ordering::SeqCst);
        }
        sum = mix_answer(sum, answer);
    }
    Ok((producer, sum))
}

/// One round: the offers to each stream of a new session, by a thread of its own.
fn round_of_threads(
    (size, count, overwrite): (usize, usize, bool),
    threads: usize,
    watched: bool,
    total: &mut Counts,
    before: u64,
) -> Result<u64, Fault> {
    let streams = (0..threads).map(|number| {
        let mut stream = Stream::new([0; 16], number as u64, Ring::new(size, count, overwrite));
        stream.ring.active = true;
        Mutex::new(stream)
    });
    let shared = Shared {
        streams: streams.collect(),
    };
    let words: Vec<Word> = (0..if watched { threads } else { 0 })
        .map(|_| Word::default())
        .collect();
    let done = thread::scope(|scope| {
        let (shared, words) = (&shared, &words[..]);
        let begun: Vec<_> = (0..threads)
            .map(|stream| {
                let producer = Producer {
                    stream,
                    counts: Counts::default(),
                };
                scope.spawn(move || offer_round(shared, words, producer))
            })
            .collect();
        let joined = begun
            .into_iter()
            .map(|it| it.join().expect("no thread panics"));
        joined.collect::<Result<Vec<_>, Fault>>()
    })?;
    let mut sum = before;
    let mut producers = Vec::new();
    for (producer, answers) in done {
        sum = sum.wrapping_add(answers);
        producers.push(producer);
    }
    for stream in shared.settle(&producers)? {
        total.add(&stream.ring.counts);
        // nothing was taken, so the part of the first trace chunk has no bytes
        sum = mix(sum, 0);
    }
    Ok(sum)
}

fn main() -> ExitCode {
    let words: Vec<String> = std::env::args().skip(1).collect();
    let words: Vec<&str> = words.iter().map(String::as_str).collect();
    let ["threads", case, threads, watchers, rounds] = words[..] else {
        return ExitCode::from(2);
    };
    let numbers = (
        threads.parse(),
        watchers.parse::<usize>(),
        rounds.parse::<u64>(),
    );
    let (Some(case), (Ok(threads), Ok(watchers), Ok(rounds))) = (case_named(case), numbers) else {
        return ExitCode::from(2);
    };
    let (mut total, mut sum) = (Counts::default(), 0);
    for _ in 0..rounds {
        match round_of_threads(case, threads, watchers > 0, &mut total, sum) {
            Ok(next) => sum = next,
            Err(fault) => {
                eprintln!("stopped: {fault:?}");
                return ExitCode::FAILURE;
            }
        }
    }
    println!("{total} consumed 0 sum {sum}");
    ExitCode::SUCCESS
}
