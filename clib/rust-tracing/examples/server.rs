//! A server that says what it does by `tracing` alone; only `main` knows where that goes: below the folder that is named.
use std::error::Error;
use std::thread;
use tracerd::{Kind, Mode, Session};
use tracing_subscriber::layer::SubscriberExt;

fn answer(number: u32) {
    let _in_request = tracing::info_span!("request", number, path = "/index.html").entered();
    tracing::info!("begun");
    tracing::debug_span!("read", bytes = 512).in_scope(|| tracing::warn!(cached = false, "slow disk"));
}

fn serve() {
    let threads = (0..4).map(|number| thread::spawn(move || answer(number)));
    threads.collect::<Vec<_>>().into_iter().for_each(|it| it.join().expect("a thread"));
}

fn main() -> Result<(), Box<dyn Error>> {
    let folder = std::env::args().nth(1).expect("usage: server DIR");
    let session = Session::new("server", [5; 16], 0, Kind::Local)?;
    session.declare(tracerd_tracing::DECLARATIONS)?;
    session.channel("log", 65_536, 16, Mode::Discard)?;
    let layer = tracerd_tracing::Layer::new(&session, "log", 2)?;
    tracing::subscriber::set_global_default(tracing_subscriber::registry().with(layer))?;
    session.start(session.now())?;
    serve();
    session.write(session.rotate(session.now())?, folder.as_ref())?;
    Ok(())
}
