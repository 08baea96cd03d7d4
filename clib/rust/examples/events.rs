//! Records typed events, and writes the archive below the folder that is named.
use tracerd::{trace, tracerd_events, Kind, Mode, Refused, Session};

tracerd_events! {
    queue_push = 3 { worker: u32, depth: u64 }
    request = 5 { verb: u8 { GET = 71, PUT = 80 }, path: str, took: f64 }
}

fn main() -> Result<(), Refused> {
    let folder = std::env::args().nth(1).expect("usage: events DIR");
    let session = Session::new("app", [1; 16], 0, Kind::Local)?;
    session.declare(DECLARATIONS)?;
    session.channel("main", 65_536, 16, Mode::Discard)?;
    let mut producer = session.producer("main")?; // one for each thread
    session.start(session.now())?;
    trace!(producer, queue_push(1, 17)); // a load and a branch while the session is off
    request(&mut producer, b'G', "/index.html", 0.25)?;
    session.write(session.rotate(session.now())?, folder.as_ref())
}
