//! The crate `clib/rust`: what a typed event's payload is, by docs/FORMATS.md, and what a text of declarations is refused for.
//! `cargo test` runs it.
use crate::wrapper::{Folder, UUID};
use crate::{trace, tracerd_events, Kind, Mode, Producer, Refused, Session};
use std::fs;

tracerd_events! {
    /// What has no sign.
    wholes = 1 { a: u8, b: u16, c: u32, d: u64 }
    signed = 2 { a: i8, b: i16, c: i32, d: i64 }
    shown = 3 { a: x8, b: x16, c: x32, d: x64 }
    others = 4 { a: f32, b: f64, yes: flag, no: flag }
    many = 5 { cpu: [u8; 4], parts: [u16], none: [f64], last: [i16; 1] }
    named = 6 { verb: u8 { GET = 0, PUT = 1, }, by: i16 { LOW = -32768, HIGH = 0x7fff } }
    path = 7 { before: str, at: u32, after: str }
    said = 8 { text: text }
    held = 9 { bytes: bytes }
    ended = 4_294_967_295 {}
    // a typed function has names of its own
    taken = 10 { producer: u8, payload: u8, id: u8 }
}

const DECLARED: &str = "\
wholes 1 a:u8 b:u16 c:u32 d:u64
signed 2 a:i8 b:i16 c:i32 d:i64
shown 3 a:x8 b:x16 c:x32 d:x64
others 4 a:f32 b:f64 yes:flag no:flag
many 5 cpu:u8[4] parts:u16[] none:f64[] last:i16[1]
named 6 verb:u8{GET=0,PUT=1} by:i16{LOW=-32768,HIGH=32767}
path 7 before:str at:u32 after:str
said 8 text:text
held 9 bytes:bytes
ended 4294967295
taken 10 producer:u8 payload:u8 id:u8
";

fn declared() -> (Session, Producer) {
    let session = Session::new("s", UUID, 0, Kind::Local).unwrap();
    session.channel("main", 65_536, 2, Mode::Discard).unwrap();
    session.declare(DECLARATIONS).unwrap();
    let producer = session.producer("main").unwrap();
    session.start(0).unwrap();
    (session, producer)
}

/// The ids and the payloads of the records in a session's only packet.
fn records(session: &Session, name: &str) -> Vec<(u32, Vec<u8>)> {
    let folder = Folder::new(name);
    session.write(session.rotate(session.now()).unwrap(), &folder.0).unwrap();
    let archive = fs::read_dir(folder.0.join("s/archives")).unwrap().next().unwrap().unwrap().path();
    let packet = fs::read(archive.join("main_0")).unwrap();
    let number = |at: usize| u32::from_le_bytes(packet[at..at + 4].try_into().unwrap());
    let (mut found, mut at) = (Vec::new(), 80);
    while at < packet.len() {
        let end = at + 24 + number(at + 20) as usize;
        found.push((number(at), packet[at + 24..end].to_vec()));
        at = end;
    }
    found
}

#[test]
fn declares_what_it_is_given() {
    assert_eq!(DECLARATIONS, DECLARED);
}

#[test]
fn packs_numbers() {
    let (session, mut it) = declared();
    wholes(&mut it, 255, 0x0102, 0x0102_0304, 0x0102_0304_0506_0708).unwrap();
    signed(&mut it, -1, -2, -3, i64::MIN).unwrap();
    shown(&mut it, 0xab, 0xabcd, 0xabcd_ef01, u64::MAX).unwrap();
    others(&mut it, 1.5, -2.0, true, false).unwrap();
    named(&mut it, 1, -32_768).unwrap();
    ended(&mut it).unwrap();
    taken(&mut it, 1, 2, 3).unwrap();
    let wanted: [(u32, &[u8]); 7] = [
        (1, &[255, 2, 1, 4, 3, 2, 1, 8, 7, 6, 5, 4, 3, 2, 1]),
        (2, &[0xff, 0xfe, 0xff, 0xfd, 0xff, 0xff, 0xff, 0, 0, 0, 0, 0, 0, 0, 0x80]),
        (3, &[0xab, 0xcd, 0xab, 1, 0xef, 0xcd, 0xab, 255, 255, 255, 255, 255, 255, 255, 255]),
        (4, &[0, 0, 0xc0, 0x3f, 0, 0, 0, 0, 0, 0, 0, 0xc0, 1, 0]),
        (6, &[1, 0, 0x80]),
        (u32::MAX, &[]),
        (10, &[1, 2, 3]),
    ];
    assert_eq!(records(&session, "numbers"), wanted.map(|(id, bytes)| (id, bytes.to_vec())));
}

/// Also where a payload has more bytes than the stack has room for, and just as many.
#[test]
fn packs_texts() {
    let (session, mut it) = declared();
    many(&mut it, &[1, 2, 3, 4], &[0x0102, 5], &[], &[-2]).unwrap();
    path(&mut it, "ä", 0x0102_0304, "cut\0off").unwrap();
    said(&mut it, "all\0of it").unwrap();
    held(&mut it, &[0, 255]).unwrap();
    let mut wanted = vec![
        (5, vec![1, 2, 3, 4, 2, 0, 0, 0, 2, 1, 5, 0, 0, 0, 0, 0, 0xfe, 0xff]),
        (7, b"\xc3\xa4\0\x04\x03\x02\x01cut\0".to_vec()),
        (8, b"all\0of it".to_vec()),
        (9, vec![0, 255]),
    ];
    for size in [0, 63, 64, 65, 126, 127, 128, 129, 1000] {
        let long = "a".repeat(size);
        path(&mut it, &long, 0x0102_0304, &long).unwrap();
        said(&mut it, &long).unwrap();
        wanted.push((7, [long.as_bytes(), b"\0\x04\x03\x02\x01", long.as_bytes(), b"\0"].concat()));
        wanted.push((8, long.into_bytes()));
    }
    assert_eq!(records(&session, "texts"), wanted);
}

/// While the session is off a tracepoint evaluates nothing but its producer; what is refused else is counted.
#[test]
fn evaluates_nothing_while_off() {
    let (session, mut it) = declared();
    let mut evaluated = 0;
    let mut costly = || {
        evaluated += 1;
        7
    };
    session.stop().unwrap();
    trace!(it, taken(costly(), 2, 3));
    trace!(it, 10, [costly(); 3]);
    session.start(session.now()).unwrap();
    trace!(it, taken(costly(), 2, 3));
    trace!(&mut it, self::taken(4, 5, 6),);
    trace!(it, 10, [costly(); 3]);
    trace!(it, u32::from(10u8), [8; 3]);
    assert_eq!(evaluated, 2);
    session.stop().unwrap();
    assert_eq!(taken(&mut it, 1, 2, 3), Err(Refused::Inactive));
    let wanted = [[7, 2, 3], [4, 5, 6], [7; 3], [8; 3]];
    assert_eq!(records(&session, "tracepoints"), wanted.map(|bytes| (10, bytes.to_vec())));
}

/// What was refused comes before what is accepted next: five sums, of which the last one is of other layouts.
#[test]
fn records_what_is_refused() {
    let session = Session::new("s", UUID, 0, Kind::Local).unwrap();
    session.channel("main", 65_536, 2, Mode::Discard).unwrap();
    session.declare("offers_refused 1").unwrap();
    assert_eq!(session.record_refused(), Err(Refused::EventTaken(0)));
    session.declare(DECLARATIONS).unwrap();
    session.record_refused().unwrap();
    let mut it = session.producer("main").unwrap();
    session.start(0).unwrap();
    assert_eq!(session.record_refused(), Err(Refused::AlreadyStarted));
    assert_eq!(it.trace(10, &[1, 2]), Err(Refused::OtherLayout));
    taken(&mut it, 1, 2, 3).unwrap();
    let sums = [0u64, 0, 0, 0, 1].map(u64::to_le_bytes).concat();
    assert_eq!(records(&session, "refused"), [(4_294_967_292, sums), (10, vec![1, 2, 3])]);
}

#[test]
fn refuses_another_layout() {
    let (session, mut it) = declared();
    assert_eq!(it.trace(10, &[1, 2]), Err(Refused::OtherLayout));
    assert_eq!(it.offer(session.now(), 10, &[1, 2, 3, 4]), Err(Refused::OtherLayout));
    trace!(it, 7, b"without an end");
    trace!(it, 11, b"any bytes");
    let counts = it.counts().unwrap();
    assert_eq!((counts.offered, counts.refused_other_layout, counts.refused_too_big), (1, 3, 0));
    assert_eq!(said(&mut it, &"a".repeat(65_433)), Err(Refused::TooBig));
    assert_eq!(session.declare(DECLARATIONS), Err(Refused::AlreadyStarted));
}

/// The lines that declare nothing, as the program's tests have them: `LINE CODE NAME|TEXT`.
#[test]
fn says_which_line_declares_nothing() {
    let session = Session::new("s", UUID, 0, Kind::Local).unwrap();
    let mut tried = 0;
    for case in include_str!("../../examples/events/refused").lines() {
        let (said, text) = case.split_once('|').unwrap();
        let [line, code, name] = said.split(' ').collect::<Vec<_>>().try_into().unwrap();
        let text = format!("# a line before\n{}\n", text.replace("\\n", "\n").replace("\\t", "\t"));
        let why = session.declare(&text).unwrap_err();
        let name = if code == "V7" { "TooManyDeclared" } else { name };
        assert_eq!((why.to_string(), why.name()), (format!("{name}: line {line}"), name), "{text}");
        assert_eq!(why.status(), 1000 + code[1..].parse::<u32>().unwrap(), "{text}");
        tried += 1;
    }
    assert!(tried > 30, "{tried}");
    assert_eq!(session.declare("push 3\npop 4\npush\0 5"), Err(Refused::BadEvent(3)));
    assert_ne!(Refused::BadType(1), Refused::BadType(2));
    assert_ne!(Refused::BadType(1), Refused::BadField(1));
}

/// What was declared before goes, also where the new text declares nothing.
#[test]
fn declares_anew() {
    let session = Session::new("s", UUID, 0, Kind::Local).unwrap();
    session.channel("main", 256, 2, Mode::Discard).unwrap();
    session.declare("push 3 a:u8\n").unwrap();
    assert_eq!(session.declare("pop 4 a:u9"), Err(Refused::BadType(1)));
    let mut it = session.producer("main").unwrap();
    assert_eq!(it.trace(3, &[]), Err(Refused::OtherLayout));
    session.declare("pop 4 a:u8").unwrap();
    session.start(0).unwrap();
    assert_eq!((it.trace(3, &[]), it.trace(4, &[])), (Ok(()), Err(Refused::OtherLayout)));
}
