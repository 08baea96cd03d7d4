//! The crate `clib/rust-tracing`: what a program says by `tracing` is read back from the archive, each span and each event, by
//! docs/FORMATS.md. `cargo test` of that crate runs it.
use std::fmt;
use std::fs;
use std::path::PathBuf;
use std::sync::atomic::{AtomicU64, Ordering};
use std::sync::{Arc, Barrier};
use std::thread;
use tracerd::{Kind, Mode, Session};
use tracerd_tracing::{Layer, DECLARATIONS};
use tracing_subscriber::layer::SubscriberExt;

/// The program, which knows `tracing` alone.
mod server {
    use std::thread;
    use tracing::{debug, error, info, info_span, trace, trace_span, warn, Span};

    pub fn answer(number: u32, path: &str) {
        let request = info_span!("request", number, path, status = tracing::field::Empty);
        let _in_request = request.enter();
        info!("begun");
        trace_span!(target: "disk", "read").in_scope(|| match number {
            2 => error!(code = 5, "disk {}", "full"),
            _ => debug!(bytes = 512, cached = true, name = "a\"b"),
        });
        request.record("status", if number == 2 { 500 } else { 200 });
    }

    pub fn run() {
        for number in 1..=3 {
            let work = move || answer(number, "/index.html");
            thread::Builder::new().name(format!("worker-{number}")).spawn(work).unwrap().join().unwrap();
        }
        warn!(target: "main", left = -1, "ended\0 it is");
        trace!(parent: Span::none(), "");
    }
}

#[derive(Clone, Debug, PartialEq)]
enum Record {
    Thread { thread: u32, name: String },
    Enter { thread: u32, span: u64, parent: u64, level: u8, target: String, name: String, fields: String },
    Exit { thread: u32, span: u64 },
    Event { thread: u32, span: u64, level: u8, target: String, message: String, fields: String },
}

/// Takes fields from the front of a payload.
struct Payload<'a>(&'a [u8]);

impl Payload<'_> {
    fn number<const SIZE: usize>(&mut self) -> [u8; SIZE] {
        let (first, rest) = self.0.split_at(SIZE);
        self.0 = rest;
        first.try_into().unwrap()
    }

    fn u32(&mut self) -> u32 {
        u32::from_le_bytes(self.number())
    }

    fn u64(&mut self) -> u64 {
        u64::from_le_bytes(self.number())
    }

    fn u8(&mut self) -> u8 {
        u8::from_le_bytes(self.number())
    }

    fn str(&mut self) -> String {
        let end = self.0.iter().position(|byte| *byte == 0).unwrap();
        let text = String::from_utf8(self.0[..end].to_vec()).unwrap();
        self.0 = &self.0[end + 1..];
        text
    }
}

fn record(id: u32, payload: &[u8]) -> Record {
    let mut it = Payload(payload);
    let thread = it.u32();
    let read = match id {
        4_294_960_001 => Record::Thread { thread, name: it.str() },
        4_294_960_002 => {
            let (span, parent, level) = (it.u64(), it.u64(), it.u8());
            Record::Enter { thread, span, parent, level, target: it.str(), name: it.str(), fields: it.str() }
        }
        4_294_960_003 => Record::Exit { thread, span: it.u64() },
        4_294_960_004 => {
            let (span, level) = (it.u64(), it.u8());
            Record::Event { thread, span, level, target: it.str(), message: it.str(), fields: it.str() }
        }
        _ => panic!("an id that isn't declared: {id}"),
    };
    assert!(it.0.is_empty(), "{id}: {payload:?}");
    read
}

/// The records of a file of packets.
fn records(file: &[u8]) -> Vec<Record> {
    let (mut found, mut at) = (Vec::new(), 0);
    while at < file.len() {
        let size = u64::from_le_bytes(file[at + 48..at + 56].try_into().unwrap()) as usize / 8;
        let (end, mut next) = (at + size, at + 80);
        while next < end {
            let number = |place: usize| u32::from_le_bytes(file[place..place + 4].try_into().unwrap());
            let after = next + 24 + number(next + 20) as usize;
            found.push(record(number(next), &file[next + 24..after]));
            next = after;
        }
        at = end;
    }
    found
}

fn session() -> Session {
    let session = Session::new("s", [7; 16], 0, Kind::Local).unwrap();
    session.declare(DECLARATIONS).unwrap();
    session.channel("log", 65_536, 4, Mode::Discard).unwrap();
    session
}

/// What the session's streams have.
fn written(session: &Session, name: &str) -> Vec<Vec<Record>> {
    let folder = std::env::temp_dir().join(format!("tracerd-tracing-{}-{name}", std::process::id()));
    session.write(session.rotate(session.now()).unwrap(), &folder).unwrap();
    let archive = fs::read_dir(folder.join("s/archives")).unwrap().next().unwrap().unwrap().path();
    let mut files: Vec<PathBuf> = fs::read_dir(archive).unwrap().map(|it| it.unwrap().path()).collect();
    files.retain(|it| !it.ends_with("metadata"));
    files.sort();
    let found = files.iter().map(|it| records(&fs::read(it).unwrap())).collect();
    fs::remove_dir_all(folder).unwrap();
    found
}

/// The number that the kernel gave the thread by whose record this is.
fn thread_of(it: &Record) -> u32 {
    match it {
        Record::Thread { thread, .. } | Record::Enter { thread, .. } => *thread,
        Record::Exit { thread, .. } | Record::Event { thread, .. } => *thread,
    }
}

/// What `server::answer` says in a thread, by numbers of its spans that differ.
fn answered(it: u32, number: u32, outer: u64, inner: u64) -> Vec<Record> {
    let (thread, here) = (it, "tracing::server".to_owned());
    let fields = format!("number={number} path=\"/index.html\"");
    let enter = |span, parent, level, target: &str, name: &str, fields| {
        let (target, name) = (target.to_owned(), name.to_owned());
        Record::Enter { thread, span, parent, level, target, name, fields }
    };
    let event = |span, level, message: &str, fields: &str| {
        let (target, message, fields) = (here.clone(), message.to_owned(), fields.to_owned());
        Record::Event { thread, span, level, target, message, fields }
    };
    vec![
        Record::Thread { thread, name: format!("worker-{number}") },
        enter(outer, 0, 3, &here, "request", fields),
        event(outer, 3, "begun", "-"),
        enter(inner, outer, 1, "disk", "read", "-".to_owned()),
        match number {
            2 => event(inner, 5, "disk full", "code=5"),
            _ => event(inner, 2, "-", r#"bytes=512 cached=true name="a\"b""#),
        },
        Record::Exit { thread, span: inner },
        Record::Exit { thread, span: outer },
    ]
}

/// What is wanted of one thread, by the thread and the spans that its records name.
fn wanted(records: &[Record], number: u32) -> Vec<Record> {
    let spans: Vec<u64> =
        records.iter().filter_map(|it| if let Record::Enter { span, .. } = it { Some(*span) } else { None }).collect();
    assert!(spans.len() == 2 && spans[0] != spans[1] && !spans.contains(&0), "{records:?}");
    answered(thread_of(&records[0]), number, spans[0], spans[1])
}

/// Three threads, one after another, and the main one: of three producers the first thread has the first one, and so has none of the
/// others; that which was free longest comes next.
#[test]
fn records_each_span_and_event() {
    let session = session();
    let layer = Layer::new(&session, "log", 3).unwrap();
    tracing::subscriber::set_global_default(tracing_subscriber::registry().with(layer.clone())).unwrap();
    tracing::info!("before the start");
    session.start(session.now()).unwrap();
    server::run();
    session.stop().unwrap();
    tracing::info!("after the stop");
    layer.close();
    assert_eq!(session.settle().unwrap().offered, 3 * 7 + 3);

    let streams = written(&session, "each");
    assert_eq!(streams.len(), 3);
    // the main thread was lent the first at what it said before the start
    let main = thread_of(&streams[0][0]);
    let said = |level, target: &str, message: &str, fields: &str| Record::Event {
        thread: main,
        span: 0,
        level,
        target: target.into(),
        message: message.into(),
        fields: fields.into(),
    };
    let name = thread::current().name().unwrap().to_owned();
    let of_main =
        [Record::Thread { thread: main, name }, said(4, "main", "ended", "left=-1"), said(1, "tracing::server", "-", "-")];
    assert_eq!(streams[0], of_main);
    assert_eq!(streams[1].len(), 14);
    for (records, number) in [(&streams[1][..7], 1), (&streams[2][..], 2), (&streams[1][7..], 3)] {
        assert_eq!(records, wanted(records, number));
        assert_ne!(thread_of(&records[0]), main);
    }
}

/// Five threads at once, and two producers: nothing is lost, and each record says whose it is.
#[test]
fn shares_what_is_lent() {
    let session = session();
    let layer = Layer::new(&session, "log", 2).unwrap();
    session.start(0).unwrap();
    let all = Arc::new(Barrier::new(5));
    let threads = (1..=5).map(|number| {
        let (layer, all) = (layer.clone(), all.clone());
        let work = move || {
            tracing::subscriber::with_default(tracing_subscriber::registry().with(layer), || {
                // (none ends before each one has a producer)
                server::answer(number, "/index.html");
                all.wait();
            });
        };
        thread::Builder::new().name(format!("worker-{number}")).spawn(work).unwrap()
    });
    threads.collect::<Vec<_>>().into_iter().for_each(|it| it.join().unwrap());

    let streams = written(&session, "shared");
    assert_eq!((streams.len(), streams.iter().map(Vec::len).sum::<usize>()), (2, 5 * 7));
    let mut numbers = Vec::new();
    for first in streams.iter().flatten() {
        let Record::Thread { thread, name } = first else { continue };
        let number = name.strip_prefix("worker-").unwrap().parse().unwrap();
        let its: Vec<Record> = streams.iter().flatten().filter(|it| thread_of(it) == *thread).cloned().collect();
        assert_eq!(its, wanted(&its, number));
        numbers.push(number);
    }
    numbers.sort_unstable();
    assert_eq!(numbers, [1, 2, 3, 4, 5]);
}

static SHOWN: AtomicU64 = AtomicU64::new(0);

/// Says when it is shown.
struct Costly;

impl fmt::Debug for Costly {
    fn fmt(&self, out: &mut fmt::Formatter<'_>) -> fmt::Result {
        SHOWN.fetch_add(1, Ordering::Relaxed);
        out.write_str("costly")
    }
}

/// An event is formatted only while the session is on; a span is also if it comes to be on.
#[test]
fn formats_what_is_recorded() {
    let session = session();
    let layer = Layer::new(&session, "log", 1).unwrap();
    tracing::subscriber::with_default(tracing_subscriber::registry().with(layer.clone()), || {
        tracing::info!(it = ?Costly, "off");
        assert_eq!(SHOWN.load(Ordering::Relaxed), 0);
        let span = tracing::info_span!("made early", it = ?Costly, later = tracing::field::Empty);
        session.start(0).unwrap();
        span.record("later", 7);
        span.in_scope(|| tracing::info!(it = ?Costly, "on"));
        assert_eq!(SHOWN.load(Ordering::Relaxed), 2);
        layer.close();
        tracing::info!(it = ?Costly, "closed");
        assert_eq!(SHOWN.load(Ordering::Relaxed), 2);
    });
    assert_eq!(session.settle().unwrap().refused_inactive, 0);

    let streams = written(&session, "costly");
    let said: Vec<(&str, &str)> = streams[0]
        .iter()
        .filter_map(|it| match it {
            Record::Event { message, fields, .. } => Some((&**message, &**fields)),
            Record::Enter { name, fields, .. } => Some((&**name, &**fields)),
            _ => None,
        })
        .collect();
    assert_eq!(said, [("made early", "it=costly later=7"), ("on", "it=costly")]);
}
