//! The crate `clib/rust`: what it says of refusals, tracepoints, and what is shown of its types. `cargo test` runs it.
use crate::refused::{Fault, Refused};
use crate::{audit, trace, Audited, Fate, Kind, Mode, Offered, Producer, Session};
use std::error::Error;
use std::fs;
use std::io::{self, ErrorKind, Read, Write};
use std::net::Shutdown;
use std::os::unix::net::UnixStream;
use std::path::{Path, PathBuf};

pub(crate) const UUID: [u8; 16] = [3; 16];
const NOTHING_FOUND: u32 = 2;
const NO_FOLDER: u32 = 20;
const ARCHIVES: &str = "s/archives/19700101T000000+0000-19700101T000000+0000";

/// A folder of a test's own, which goes with it.
pub(crate) struct Folder(pub(crate) PathBuf);

impl Folder {
    pub(crate) fn new(name: &str) -> Folder {
        let path = std::env::temp_dir().join(format!("tracerd-{}-{name}", std::process::id()));
        fs::create_dir(&path).unwrap();
        Folder(path)
    }
}

impl Drop for Folder {
    fn drop(&mut self) {
        let _ = fs::remove_dir_all(&self.0);
    }
}

fn planned() -> (Session, Producer) {
    let session = Session::new("s", UUID, 0, Kind::Local).unwrap();
    session.channel("main", 256, 2, Mode::Discard).unwrap();
    let producer = session.producer("main").unwrap();
    (session, producer)
}

/// The names and numbers that the header gives, as `TooBig` and 202.
fn statuses() -> Vec<(String, u32)> {
    let (_, listed) = include_str!("../tracerd.h").split_once("typedef enum tracerd_status {").unwrap();
    let (listed, _) = listed.split_once("} tracerd_status;").unwrap();
    let named = listed.lines().filter_map(|line| line.trim().strip_prefix("TRACERD_")?.split_once(" = "));
    let word = |it: &str| it[..1].to_owned() + &it[1..].to_lowercase();
    let number = |it: &str| it.chars().take_while(char::is_ascii_digit).collect::<String>().parse().unwrap();
    named.map(|(name, said)| (name.split('_').map(word).collect(), number(said))).collect()
}

#[test]
fn has_each_status_by_name() {
    let all = statuses();
    assert_eq!((all[0].clone(), all[all.len() - 1].clone()), (("Ok".into(), 0), ("Held".into(), 1202)));
    for (name, status) in &all[1..] {
        let why = match *status {
            crate::refused::MISSING => Refused::Missing(0),
            1001..=1011 => Refused::from_line(*status, 1),
            status => Refused::from_audit(status, &Audited::default()),
        };
        let variant = format!("{why:?}");
        assert_eq!(variant.split(['(', ' ']).next(), Some(&name[..]));
        assert_eq!((why.status(), why.name()), (*status, &name[..]));
    }
}

#[test]
fn has_rings_in_a_file() {
    let folder = Folder::new("rings");
    let file = folder.0.join("rings");
    let session = Session::new("s", UUID, 0, Kind::Snapshot).unwrap();
    session.rings_in(&file).unwrap();
    assert!(file.exists());
    assert_eq!(session.rings_in(&file), Err(Refused::AlreadyStarted));
    drop(session);
    assert!(!file.exists());
}

#[test]
fn takes_the_status_of_a_later_library() {
    for status in [999, u32::MAX] {
        let why = Refused::from_status(status);
        assert!(matches!(why, Refused::Other(it) if it == status));
        assert_eq!((why.status(), why.name(), why.to_string()), (status, "Unknown", format!("Unknown: status {status}")));
    }
}

#[test]
fn forgets() {
    let (session, mut producer) = planned();
    session.start(0).unwrap();
    producer.offer(1, 7, b"a").unwrap();
    assert_eq!((session.rotate(2), session.forget(1)), (Ok(0), Err(Refused::Held)));
    session.release(0).unwrap();
    assert_eq!(producer.fate(0), Ok(Fate::InChunk { chunk: 0, packet: 0 }));
    session.forget(1).unwrap();
    assert_eq!((producer.fate(0), session.archive(0)), (Ok(Fate::Forgotten), Err(Refused::Forgotten)));
    assert_eq!(session.about().unwrap().forgotten, 1);
}

/// Of an empty folder the header says ENOENT; of one below a file POSIX says ENOTDIR.
#[test]
fn tells_errno() {
    let (session, _producer) = planned();
    let snapshots = Session::new("s", UUID, 0, Kind::Snapshot).unwrap();
    let below = Path::new("/dev/null/below");
    session.start(0).unwrap();
    snapshots.start(0).unwrap();
    let archive = session.rotate(0).unwrap();
    let errno = |errno: u32| io::Error::from_raw_os_error(errno as i32);
    assert_eq!(session.write(archive, "".as_ref()), Err(Refused::Write(errno(NOTHING_FOUND))));
    assert_eq!(session.write(archive, below), Err(Refused::Write(errno(NO_FOLDER))));
    assert_eq!(snapshots.snapshot(0, below), Err(Refused::Write(errno(NO_FOLDER))));
    assert_eq!(audit("".as_ref(), "s", "main", 0, UUID), Err(Refused::Read(errno(NOTHING_FOUND))));
    assert_ne!(session.write(archive, "".as_ref()), session.write(archive, below));

    let why = session.write(archive, "".as_ref()).unwrap_err();
    assert_eq!(why.to_string(), format!("Write: {}", errno(NOTHING_FOUND)));
    let source = why.source().and_then(|it| it.downcast_ref::<io::Error>()).unwrap();
    assert_eq!(source.kind(), ErrorKind::NotFound);
    assert_eq!(io::Error::from(why).raw_os_error(), Some(NOTHING_FOUND as i32));
}

#[test]
fn becomes_an_io_error() {
    let (session, _producer) = planned();
    let try_to = || -> io::Result<()> { Ok(session.stop()?) };
    let why = try_to().unwrap_err();
    assert_eq!(why.get_ref().and_then(|it| it.downcast_ref::<Refused>()), Some(&Refused::NotActive));
    assert_eq!(io::Error::from(Refused::NoMemory).kind(), ErrorKind::OutOfMemory);
    let sent: Box<dyn Error + Send + Sync> = Refused::TooBig.into();
    assert_eq!(sent.to_string(), "TooBig");
}

#[test]
fn refuses_zero_bytes() {
    let (session, _producer) = planned();
    let folder = Path::new("nowhere/a\0b");
    assert_eq!(session.producer("main\0").unwrap_err(), Refused::BadName);
    assert!(matches!(session.write(0, folder), Err(Refused::Write(why)) if why.kind() == ErrorKind::InvalidInput));
    assert!(matches!(session.snapshot(0, folder), Err(Refused::Write(why)) if why.kind() == ErrorKind::InvalidInput));
    let audited = audit(folder, "s", "main", 0, UUID);
    assert!(matches!(audited, Err(Refused::Read(why)) if why.kind() == ErrorKind::InvalidInput));
}

#[test]
fn tells_whose_producer_is_out() {
    let (session, first) = planned();
    let (_second, _third) = (session.producer("main").unwrap(), session.producer("main").unwrap());
    drop(first);
    let why = session.settle().unwrap_err();
    assert_eq!((&why, why.status()), (&Refused::Missing(1), 22));
    assert_ne!(why, Refused::Missing(2));
    assert_eq!(why.to_string(), "Missing: stream 1");
    assert_ne!(Refused::TooBig, Refused::Spent);
}

/// 80 bytes that begin no packet (P2), in archive 3; then after a packet.
#[test]
fn tells_where_a_fault_is() {
    let folder = Folder::new("faults");
    let (session, mut producer) = planned();
    session.start(0).unwrap();
    producer.offer(0, 7, b"bytes").unwrap();
    let archive = session.rotate(0).unwrap();
    session.write(archive, &folder.0).unwrap();
    let foreign = Fault { archive, byte: 0, packet_fault: 0 };
    assert_eq!(audit(&folder.0, "s", "main", 0, [4; 16]), Err(Refused::Foreign(foreign)));

    let third = folder.0.join(format!("{ARCHIVES}-3"));
    fs::create_dir(&third).unwrap();
    fs::write(third.join("main_0"), [0; 80]).unwrap();
    let fault = Fault { archive: 3, byte: 0, packet_fault: 2 };
    let why = audit(&folder.0, "s", "main", 0, UUID).unwrap_err();
    assert_eq!((&why, &*why.to_string()), (&Refused::Packet(fault), "Packet: archive 3, byte 0, P2"));

    let packet = fs::read(folder.0.join(format!("{ARCHIVES}-{archive}/main_0"))).unwrap();
    let repeat = Fault { archive: 3, byte: 0, packet_fault: 0 };
    fs::write(third.join("main_0"), [&packet[..], &[0; 80]].concat()).unwrap();
    assert_eq!(audit(&folder.0, "s", "main", 0, UUID), Err(Refused::NumberRepeat(repeat)));
    fs::remove_dir_all(folder.0.join(format!("{ARCHIVES}-{archive}"))).unwrap();
    let fault = Fault { archive: 3, byte: packet.len() as u64, packet_fault: 2 };
    assert_eq!(audit(&folder.0, "s", "main", 0, UUID), Err(Refused::Packet(fault)));
}

/// A tracepoint evaluates nothing while the session is off; else it is recorded at the session's clock. The first record's
/// moment stands in bytes 32 to 39 of its packet.
#[test]
fn traces() {
    let folder = Folder::new("traces");
    let (session, mut producer) = planned();
    let mut evaluated = 0;
    let mut payload = || {
        evaluated += 1;
        "text"
    };
    trace!(producer, 7, payload());
    assert!(!producer.is_active() && producer.if_active().is_none());
    assert_eq!(producer.trace(7, b"refused"), Err(Refused::Inactive));
    session.start(session.now()).unwrap();
    let before = session.now();
    trace!(producer, 7, payload());
    let after = session.now();
    trace!(&mut producer, 8, [0; 200]);
    assert_eq!((producer.is_active(), producer.trace(8, &[0; 200])), (true, Err(Refused::TooBig)));
    session.stop().unwrap();
    trace!(producer, 7, payload());
    assert_eq!(evaluated, 1);
    let counts = producer.counts().unwrap();
    assert_eq!((counts.offered, counts.refused_inactive, counts.refused_too_big, counts.shared), (1, 1, 2, 0));

    session.write(session.rotate(session.now()).unwrap(), &folder.0).unwrap();
    let archive = fs::read_dir(folder.0.join("s/archives")).unwrap().next().unwrap().unwrap().path();
    let packet = fs::read(archive.join("main_0")).unwrap();
    let moment = u64::from_le_bytes(packet[32..40].try_into().unwrap());
    assert!((before..=after).contains(&moment), "{before} {moment} {after}");
    assert!(packet.ends_with(b"text"));
}

#[test]
fn refuses_offers_while_stopped() {
    let (session, mut producer) = planned();
    assert_eq!(producer.offer(0, 7, b"early"), Err(Refused::Inactive));
    session.start(0).unwrap();
    assert_eq!(producer.offer(0, 7, b"first"), Ok(Offered::Stored { serial: 0, packet: 0 }));
    assert_eq!(producer.offer(9_000_000_000_000_000_001, 7, b"late"), Err(Refused::BadMoment));
}

/// A shell is answered until the listener is dropped.
#[test]
fn listens() {
    let folder = Folder::new("listens");
    fs::create_dir_all(&folder.0).unwrap();
    let door = folder.0.join("s.socket");
    let (session, _producer) = planned();
    let listener = session.listen(&door, Some(&folder.0)).unwrap();
    assert!(matches!(session.listen(&door, None), Err(Refused::Listening)));
    let mut client = UnixStream::connect(&door).unwrap();
    client.write_all(b"archives s").unwrap();
    client.shutdown(Shutdown::Write).unwrap();
    let mut answer = String::new();
    client.read_to_string(&mut answer).unwrap();
    assert_eq!(answer, "none\n");
    drop(session);
    drop(listener);
    assert!(!door.exists());
}

#[test]
fn shows_its_types() {
    let (session, producer) = planned();
    session.start(0).unwrap();
    assert_eq!(format!("{producer:?}"), "Producer { number: 0, is_active: true }");
    let shown = format!("{session:?}");
    assert!(shown.starts_with("Session(") && shown == format!("{:?}", session.clone()), "{shown}");
}
