//! Records from four threads, rotates, writes the archive below the folder that is named, and reads it back.
use std::path::Path;
use tracerd::{audit, trace, Fate, Kind, Mode, Offered, Refused, Session};

const UUID: [u8; 16] = [3; 16];
const THREADS: u64 = 4;
const RECORDS: u64 = 1_000;

fn main() -> Result<(), Refused> {
    assert_eq!(tracerd::version(), env!("CARGO_PKG_VERSION"));
    let folder = std::env::args().nth(1).expect("usage: threads DIR");
    let session = Session::new("rusty", UUID, 0, Kind::Local)?;
    session.channel("main", 65_536, 16, Mode::Discard)?;
    let producers = (0..THREADS).map(|_| session.producer("main")).collect::<Result<Vec<_>, _>>()?;
    session.start(session.now())?;
    let session = &session;
    std::thread::scope(|scope| {
        for mut producer in producers {
            scope.spawn(move || {
                for k in 0..RECORDS - 1 {
                    let offered = producer.offer(session.now(), 7, &k.to_le_bytes());
                    assert!(matches!(offered, Ok(Offered::Stored { serial, .. }) if serial == k), "{offered:?}");
                }
                trace!(producer, 8, "the last one, at the session's clock");
                assert!(matches!(producer.fate(0), Ok(Fate::InRing { packet: 0 })));
                assert_eq!(producer.offer(session.now(), 7, &[0; 65_536]), Err(Refused::TooBig));
            });
        }
    });
    session.stop()?;
    let archive = session.rotate(session.now())?;
    let totals = session.settle()?;
    assert_eq!((totals.offered, totals.in_chunks), (THREADS * RECORDS, THREADS * RECORDS));
    session.write(archive, Path::new(&folder))?;
    assert_eq!((session.about()?.archives, session.archive(archive)?.records), (1, THREADS * RECORDS));
    for stream in 0..THREADS {
        let audited = audit(Path::new(&folder), "rusty", "main", stream, UUID)?;
        assert_eq!((audited.records, audited.absent, audited.last_serial), (RECORDS, 0, RECORDS - 1));
    }
    println!("rust: {} records in archive {archive}", totals.in_chunks);
    Ok(())
}
