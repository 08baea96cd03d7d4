//! A load in plain Rust, as one would write it by hand over std: what `tracerd load` is measured against.
//!
//!     plain_load THREADS RECORDS WORKERS
//!
//! Each feeder is given its records beforehand, each with a payload of its own, offers them in order, and keeps those that
//! were accepted as its log. The workers take meanwhile, each from every WORKERS-th stream, and make one more round after
//! the feeders ended; after a second round in a row that took nothing a worker sleeps for 10 microseconds. Then every stream
//! is cut, and each record of its part is compared with the log. It prints what `tracerd load` prints.
#![forbid(unsafe_code)]

mod plain_ring;
mod plain_session;

use plain_ring::{number_at, Counts, Ring, EMPTY_PACKET, RECORD_HEADER};
use plain_session::{Producer, Shared, Stream};
use std::process::ExitCode;
use std::sync::atomic::{AtomicBool, Ordering};
use std::sync::Mutex;
use std::thread;
use std::time::Duration;

const IDENTIFIER: [u8; 16] = [0, 0, 0, 0, 0, 0, 0x40, 0, 0x80, 0, 0, 0, 0, 0, 0, 1];
const SIZE: usize = 65_536;
const COUNT: usize = 2;
const REST: Duration = Duration::from_micros(10);

struct Item {
    moment: u64,
    id: u32,
    payload: Vec<u8>,
}

/// What a feeder is to offer.
fn work(feeder: u32, records: u64) -> Vec<Item> {
    let item = |k: u32| Item {
        moment: u64::from(k),
        id: k,
        payload: [feeder.to_le_bytes(), k.to_le_bytes()].concat(),
    };
    (0..records as u32).map(item).collect()
}

/// Offers the work, and gives the producer back with what was accepted. The producer lies in the feeder's own memory: counts
/// beside those of another thread would slow both.
fn feed(shared: &Shared, mut producer: Producer, work: Vec<Item>) -> (Producer, Vec<Item>) {
    let mut log = Vec::with_capacity(work.len());
    for item in work {
        if shared
            .offer(&mut producer, item.moment, item.id, &item.payload)
            .is_ok()
        {
            log.push(item);
        }
    }
    (producer, log)
}

/// Takes from every so many streams, in rounds.
fn drain(shared: &Shared, worker: usize, workers: usize, ended: &AtomicBool) {
    let mut idle = 0;
    loop {
        let is_last = ended.load(Ordering::SeqCst);
        let mut took = false;
        for stream in shared.streams.iter().skip(worker).step_by(workers) {
            took |= stream.lock().expect("no thread panics").take();
        }
        if is_last {
            return;
        }
        idle = if took { 0 } else { idle + 1 };
        if idle > 1 {
            thread::sleep(REST);
        }
    }
}

/// How many records the packets of a part have, if each one is that of the log.
fn compare(mut part: &[u8], log: &[Item]) -> Option<u64> {
    let mut count = 0;
    while !part.is_empty() {
        let size = u64::from_le_bytes(number_at(part, 56)) as usize / 8;
        let mut records = &part[EMPTY_PACKET..size];
        while !records.is_empty() {
            let end = RECORD_HEADER + u32::from_le_bytes(number_at(records, 20)) as usize;
            let item = log.get(u64::from_le_bytes(number_at(records, 12)) as usize)?;
            let is_same = item.id == u32::from_le_bytes(number_at(records, 0))
                && item.payload == records[RECORD_HEADER..end]
                && item.moment <= u64::from_le_bytes(number_at(records, 4));
            if !is_same {
                return None;
            }
            count += 1;
            records = &records[end..];
        }
        part = &part[size..];
    }
    Some(count)
}

/// The streams after the load, and the logs of their feeders.
fn load(threads: usize, records: u64, workers: usize) -> (Vec<Stream>, Vec<Vec<Item>>) {
    let stream = |number| {
        let mut stream = Stream::new(IDENTIFIER, number, Ring::new(SIZE, COUNT, false));
        stream.ring.active = true;
        Mutex::new(stream)
    };
    let shared = Shared {
        streams: (0..threads as u64).map(stream).collect(),
    };
    let producer = |stream| Producer {
        stream,
        counts: Counts::default(),
    };
    let producers: Vec<Producer> = (0..threads).map(producer).collect();
    let works: Vec<Vec<Item>> = (0..threads as u32).map(|it| work(it, records)).collect();
    let ended = AtomicBool::new(false);
    let (producers, logs): (Vec<_>, Vec<_>) = thread::scope(|scope| {
        let (shared, ended) = (&shared, &ended);
        for worker in 0..workers {
            scope.spawn(move || drain(shared, worker, workers, ended));
        }
        let feeders: Vec<_> = producers
            .into_iter()
            .zip(works)
            .map(|(producer, work)| scope.spawn(move || feed(shared, producer, work)))
            .collect();
        let fed = feeders
            .into_iter()
            .map(|it| it.join().expect("no thread panics"))
            .unzip();
        ended.store(true, Ordering::SeqCst);
        fed
    });
    for stream in &shared.streams {
        stream.lock().expect("no thread panics").cut(records);
    }
    let streams = shared.settle(&producers).expect("counts agree");
    (streams, logs)
}

fn main() -> ExitCode {
    let numbers: Vec<u64> = std::env::args().skip(1).flat_map(|it| it.parse()).collect();
    let [threads, records, workers] = numbers[..] else {
        return ExitCode::from(2);
    };
    let (streams, logs) = load(threads as usize, records, workers as usize);
    let (mut offered, mut discarded, mut in_chunks) = (0, 0, 0);
    for (number, (stream, log)) in streams.iter().zip(&logs).enumerate() {
        offered += stream.ring.counts.offered;
        discarded += stream.ring.counts.discarded;
        for part in &stream.closed_parts {
            let Some(count) = compare(part, log) else {
                println!("mismatch stream {number}");
                return ExitCode::FAILURE;
            };
            in_chunks += count;
        }
    }
    println!("threads {threads}\noffered {offered}\ndiscarded {discarded}\noverwritten 0\nin ring 0\nin chunks {in_chunks}\nreconciled");
    ExitCode::SUCCESS
}
