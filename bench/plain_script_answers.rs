//! The answers to the lines of a script, in plain Rust.

use crate::plain_ring::Offered;
use crate::plain_script_names::Archive;
use crate::plain_script_session::{Session, State};
use crate::plain_script_stream::{Fate, Part, Shown, Taken};
use std::fmt::{self, Write};

const HEADS: &str = "stream     offered   discarded overwritten     in-ring   in-chunks";

/// What was done for a line.
pub enum Answer<'a> {
    Created(&'a str),
    Channel(&'a str),
    Stream(usize),
    Started,
    Stopped,
    Offered(Offered),
    Taken(Taken),
    Cleared(u64),
    Rotating(u64),
    Cut(Option<(usize, u64)>),
    Archived(Archive),
    /// The moment, and the session that it shows.
    Snapshot(u64, &'a Session),
    Scheduled(bool),
    Ticked(Option<(&'static str, Archive)>),
    Fate(Fate),
    Status(&'a Session),
    Archives(&'a Session),
    Released(u64),
}

impl Answer<'_> {
    /// Adds its text, with its newlines.
    pub fn put(self, out: &mut String) -> fmt::Result {
        match self {
            Answer::Created(name) => writeln!(out, "created {name}"),
            Answer::Channel(name) => writeln!(out, "channel {name}"),
            Answer::Stream(number) => writeln!(out, "stream {number}"),
            Answer::Started => writeln!(out, "started"),
            Answer::Stopped => writeln!(out, "stopped"),
            Answer::Offered(offered) => put_offered(out, offered),
            Answer::Taken(Taken { seq, count, chunk }) => {
                writeln!(out, "taken {seq} records {count} chunk {chunk}")
            }
            Answer::Cleared(records) => writeln!(out, "cleared {records}"),
            Answer::Rotating(id) => writeln!(out, "rotating {id}"),
            Answer::Cut(Some((stream, records))) => writeln!(out, "cut {stream} records {records}"),
            Answer::Cut(None) => writeln!(out, "all cut"),
            Answer::Archived(archive) => writeln!(out, "archived {} {archive}", archive.id),
            Answer::Snapshot(moment, session) => put_snapshot(out, moment, session),
            Answer::Scheduled(true) => writeln!(out, "schedule set"),
            Answer::Scheduled(false) => writeln!(out, "schedule off"),
            Answer::Ticked(Some((cause, archive))) => {
                writeln!(out, "rotated {cause} {} {archive}", archive.id)
            }
            Answer::Ticked(None) => writeln!(out, "idle"),
            Answer::Fate(fate) => put_fate(out, fate),
            Answer::Status(session) => put_status(out, session),
            Answer::Archives(session) => put_archives(out, session),
            Answer::Released(id) => writeln!(out, "released {id}"),
        }
    }
}

fn put_offered(out: &mut String, offered: Offered) -> fmt::Result {
    match offered {
        Offered::Stored { serial, seq } => writeln!(out, "stored {serial} in {seq}"),
        Offered::StoredOver {
            serial,
            seq,
            gone_seq,
            gone_count,
        } => writeln!(out, "stored {serial} in {seq} over {gone_seq} {gone_count}"),
        Offered::Discarded { serial } => writeln!(out, "discarded {serial}"),
    }
}

fn put_fate(out: &mut String, fate: Fate) -> fmt::Result {
    match fate {
        Fate::NotOffered => writeln!(out, "not offered"),
        Fate::Discarded => writeln!(out, "discarded"),
        Fate::Overwritten => writeln!(out, "overwritten"),
        Fate::Cleared { seq } => writeln!(out, "cleared {seq}"),
        Fate::InRing { seq } => writeln!(out, "in ring {seq}"),
        Fate::InChunk { chunk, seq } => writeln!(out, "in chunk {chunk} {seq}"),
    }
}

fn put_snapshot(out: &mut String, moment: u64, session: &Session) -> fmt::Result {
    writeln!(out, "snapshot {moment}")?;
    for (number, stream) in session.streams.iter().enumerate() {
        let offered = stream.ring.counts.offered;
        let packets = stream.shown();
        let (count, records) = (packets.len(), stream.in_ring());
        writeln!(
            out,
            "stream {number} offered {offered} packets {count} records {records}"
        )?;
        for packet in packets {
            put_shown(out, &packet)?;
        }
    }
    Ok(())
}

fn put_shown(out: &mut String, packet: &Shown) -> fmt::Result {
    let Shown {
        seq,
        count,
        first,
        last,
    } = packet;
    writeln!(
        out,
        "packet {seq} records {count} first {first} last {last}"
    )
}

fn put_status(out: &mut String, session: &Session) -> fmt::Result {
    let mode = if session.snapshot {
        "snapshot"
    } else {
        "local"
    };
    let state = match session.state {
        State::New => "new",
        State::Active => "active",
        State::Inactive => "inactive",
    };
    let (channels, streams) = (session.channels.len(), session.streams.len());
    write!(out, "session {} {mode} {state}", session.name)?;
    write!(out, " channels {channels} streams {streams}")?;
    write!(out, " archives {}", session.archives.len())?;
    if let Some(pending) = &session.pending {
        write!(out, " pending {}", pending.archive.id)?;
    }
    let cleared: u64 = session.streams.iter().map(|it| it.cleared).sum();
    if cleared > 0 {
        write!(out, " cleared {cleared}")?;
    }
    writeln!(out, "\n{HEADS}")?;
    for (number, stream) in session.streams.iter().enumerate() {
        let counts = &stream.ring.counts;
        write!(
            out,
            "{number:>6} {:>11} {:>11}",
            counts.offered, counts.discarded
        )?;
        let (in_ring, in_chunks) = (stream.in_ring(), stream.in_chunks);
        writeln!(
            out,
            " {:>11} {in_ring:>11} {in_chunks:>11}",
            counts.overwritten
        )?;
    }
    Ok(())
}

fn put_archives(out: &mut String, session: &Session) -> fmt::Result {
    if session.archives.is_empty() {
        return writeln!(out, "none");
    }
    for archive in &session.archives {
        let parts = || session.streams.iter().map(|it| it.part(archive.id));
        let packets: u64 = parts().map(|it| it.packets).sum();
        let bytes: u64 = parts().map(|it| it.size).sum();
        let is_released = !session.streams.is_empty() && parts().all(Part::is_released);
        let mark = if is_released { " released" } else { "" };
        let id = archive.id;
        writeln!(out, "{id} {archive} packets {packets} bytes {bytes}{mark}")?;
    }
    Ok(())
}
