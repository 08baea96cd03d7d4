//! A session of a script in plain Rust: its rules, its rotations and its streams.

use crate::plain_ring::{OfferFault, Offered};
use crate::plain_script_names::Archive;
use crate::plain_script_stream::{Fate, Stream, Taken};
use crate::plain_script_words::Shape;

const MOST_CHANNELS: usize = 8;
const MOST_STREAMS: usize = 1_024;

/// Why a line is refused.
#[derive(Clone, Copy)]
pub enum Fault {
    NoSession,
    BadUuid,
    BadName,
    SnapshotMode,
    NotSnapshotMode,
    NeverStarted,
    RotationPending,
    AlreadyRotated,
    AlreadyActive,
    NotActive,
    NoStream,
    DiscardInSnapshot,
    AlreadyStarted,
    BadGeometry,
    TooMany,
    NotPending,
    CutMissing,
    NameTaken,
    NoChannel,
    NoArchive,
    Released,
    Offer(OfferFault),
    NothingToTake,
    TakeInSnapshot,
    ZeroPeriod,
    ZeroSize,
}

impl Fault {
    /// Its code and its name.
    pub fn text(self) -> &'static str {
        match self {
            Fault::NoSession => "K1 NoSession",
            Fault::BadUuid => "K2 BadUuid",
            Fault::BadName => "K3 BadName",
            Fault::SnapshotMode => "S1 SnapshotMode",
            Fault::NotSnapshotMode => "S2 NotSnapshotMode",
            Fault::NeverStarted => "S3 NeverStarted",
            Fault::RotationPending => "S4 RotationPending",
            Fault::AlreadyRotated => "S5 AlreadyRotated",
            Fault::AlreadyActive => "S6 AlreadyActive",
            Fault::NotActive => "S7 NotActive",
            Fault::NoStream => "S8 NoStream",
            Fault::DiscardInSnapshot => "S9 DiscardInSnapshot",
            Fault::AlreadyStarted => "S10 AlreadyStarted",
            Fault::BadGeometry => "S11 BadGeometry",
            Fault::TooMany => "S12 TooMany",
            Fault::NotPending => "S13 NotPending",
            Fault::CutMissing => "S14 CutMissing",
            Fault::NameTaken => "S15 NameTaken",
            Fault::NoChannel => "S17 NoChannel",
            Fault::NoArchive => "S18 NoArchive",
            Fault::Released => "S19 Released",
            Fault::Offer(OfferFault::Inactive) => "O1 Inactive",
            Fault::Offer(OfferFault::TooBig) => "O2 TooBig",
            Fault::Offer(OfferFault::Spent) => "O3 Spent",
            Fault::NothingToTake => "T1 Nothing",
            Fault::TakeInSnapshot => "T2 SnapshotMode",
            Fault::ZeroPeriod => "D1 ZeroPeriod",
            Fault::ZeroSize => "D2 ZeroSize",
        }
    }
}

impl From<OfferFault> for Fault {
    fn from(fault: OfferFault) -> Fault {
        Fault::Offer(fault)
    }
}

/// `Err` with this fault if something holds.
pub fn refuse_if(holds: bool, fault: Fault) -> Result<(), Fault> {
    if holds {
        Err(fault)
    } else {
        Ok(())
    }
}

#[derive(Clone, Copy, PartialEq)]
pub enum State {
    New,
    Active,
    Inactive,
}

/// A rotation that isn't finished, and how many streams it has cut.
pub struct Pending {
    pub archive: Archive,
    cut: usize,
}

/// When a rotation is due: after nanoseconds, at bytes.
struct Schedule {
    every: Option<u64>,
    size: Option<u64>,
}

pub struct Session {
    pub name: String,
    uuid: [u8; 16],
    offset: i32,
    pub snapshot: bool,
    pub state: State,
    is_rotated: bool,
    last: u64,
    begin: u64,
    pub channels: Vec<(String, Shape)>,
    pub streams: Vec<Stream>,
    pub pending: Option<Pending>,
    pub archives: Vec<Archive>,
    schedule: Option<Schedule>,
}

impl Session {
    pub fn new(name: &str, uuid: [u8; 16], offset: i32, snapshot: bool) -> Session {
        Session {
            name: name.to_owned(),
            uuid,
            offset,
            snapshot,
            state: State::New,
            is_rotated: false,
            last: 0,
            begin: 0,
            channels: Vec::new(),
            streams: Vec::new(),
            pending: None,
            archives: Vec::new(),
            schedule: None,
        }
    }

    fn channel(&self, name: &str) -> Option<Shape> {
        let found = self.channels.iter().find(|(it, _)| it == name);
        found.map(|(_, shape)| *shape)
    }

    pub fn add_channel(&mut self, name: &str, shape: Shape) -> Result<(), Fault> {
        let (size, count, overwrite) = shape;
        let is_size = size.is_power_of_two() && (256..=1_048_576).contains(&size);
        let is_count = count.is_power_of_two() && (2..=64).contains(&count);
        refuse_if(self.state != State::New, Fault::AlreadyStarted)?;
        refuse_if(self.channel(name).is_some(), Fault::NameTaken)?;
        refuse_if(self.channels.len() >= MOST_CHANNELS, Fault::TooMany)?;
        refuse_if(!is_size || !is_count, Fault::BadGeometry)?;
        refuse_if(self.snapshot && !overwrite, Fault::DiscardInSnapshot)?;
        self.channels.push((name.to_owned(), shape));
        Ok(())
    }

    pub fn add_thread(&mut self, channel: &str) -> Result<usize, Fault> {
        refuse_if(self.state != State::New, Fault::AlreadyStarted)?;
        let shape = self.channel(channel).ok_or(Fault::NoChannel)?;
        let number = self.streams.len();
        refuse_if(number >= MOST_STREAMS, Fault::TooMany)?;
        let stream = Stream::new(self.uuid, number as u64, shape);
        self.streams.push(stream);
        Ok(number)
    }

    fn switch(&mut self, active: bool) {
        for stream in &mut self.streams {
            stream.ring.active = active;
        }
    }

    pub fn start(&mut self, moment: u64) -> Result<(), Fault> {
        refuse_if(self.pending.is_some(), Fault::RotationPending)?;
        refuse_if(self.state == State::Active, Fault::AlreadyActive)?;
        self.last = self.last.max(moment);
        if self.state == State::New {
            self.begin = self.last;
        }
        self.state = State::Active;
        self.switch(true);
        Ok(())
    }

    pub fn stop(&mut self) -> Result<(), Fault> {
        refuse_if(self.pending.is_some(), Fault::RotationPending)?;
        refuse_if(self.state != State::Active, Fault::NotActive)?;
        self.state = State::Inactive;
        self.is_rotated = false;
        self.switch(false);
        Ok(())
    }

    fn stream(&mut self, number: u64) -> Result<&mut Stream, Fault> {
        let number = usize::try_from(number).map_err(|_| Fault::NoStream)?;
        self.streams.get_mut(number).ok_or(Fault::NoStream)
    }

    pub fn offer(
        &mut self,
        number: u64,
        moment: u64,
        id: u32,
        payload: &[u8],
    ) -> Result<Offered, Fault> {
        Ok(self.stream(number)?.ring.offer(moment, id, payload)?)
    }

    pub fn consume(&mut self, number: u64) -> Result<Taken, Fault> {
        let snapshot = self.snapshot;
        let stream = self.stream(number)?;
        refuse_if(snapshot, Fault::TakeInSnapshot)?;
        stream.take().ok_or(Fault::NothingToTake)
    }

    pub fn fate(&mut self, number: u64, serial: u64) -> Result<Fate, Fault> {
        Ok(self.stream(number)?.fate(serial))
    }

    /// Refuses what only a local session that was started and isn't rotating can do.
    fn check_settled(&self) -> Result<(), Fault> {
        refuse_if(self.snapshot, Fault::SnapshotMode)?;
        refuse_if(self.state == State::New, Fault::NeverStarted)?;
        refuse_if(self.pending.is_some(), Fault::RotationPending)
    }

    pub fn clear(&mut self) -> Result<u64, Fault> {
        self.check_settled()?;
        Ok(self.streams.iter_mut().map(Stream::clear).sum())
    }

    pub fn rotate_begin(&mut self, moment: u64) -> Result<u64, Fault> {
        self.check_settled()?;
        let is_done = self.state == State::Inactive && self.is_rotated;
        refuse_if(is_done, Fault::AlreadyRotated)?;
        let archive = Archive {
            id: self.archives.len() as u64,
            begin: self.begin,
            end: self.last.max(moment),
            offset: self.offset,
        };
        self.pending = Some(Pending { archive, cut: 0 });
        self.is_rotated = true;
        self.last = archive.end;
        self.begin = archive.end;
        Ok(archive.id)
    }

    /// Cuts the next stream, if one is left: its number, and how many records were moved.
    pub fn rotate_next(&mut self) -> Result<Option<(usize, u64)>, Fault> {
        let pending = self.pending.as_mut().ok_or(Fault::NotPending)?;
        let number = pending.cut;
        let Some(stream) = self.streams.get_mut(number) else {
            return Ok(None);
        };
        pending.cut += 1;
        Ok(Some((number, stream.cut(pending.archive.end))))
    }

    pub fn rotate_finish(&mut self) -> Result<Archive, Fault> {
        let pending = self.pending.as_ref().ok_or(Fault::NotPending)?;
        let archive = pending.archive;
        refuse_if(pending.cut < self.streams.len(), Fault::CutMissing)?;
        self.pending = None;
        self.archives.push(archive);
        Ok(archive)
    }

    pub fn rotate(&mut self, moment: u64) -> Result<Archive, Fault> {
        self.rotate_begin(moment)?;
        while self.rotate_next()?.is_some() {}
        self.rotate_finish()
    }

    pub fn release(&mut self, id: u64) -> Result<(), Fault> {
        refuse_if(id >= self.archives.len() as u64, Fault::NoArchive)?;
        let mut had_bytes = false;
        for stream in &mut self.streams {
            had_bytes |= stream.release(id);
        }
        refuse_if(!had_bytes, Fault::Released)
    }

    /// The moment of a snapshot, which is stored.
    pub fn snapshot_at(&mut self, moment: u64) -> Result<u64, Fault> {
        refuse_if(!self.snapshot, Fault::NotSnapshotMode)?;
        refuse_if(self.state == State::New, Fault::NeverStarted)?;
        self.last = self.last.max(moment);
        Ok(self.last)
    }

    /// Sets a schedule, or none, and says whether there is one.
    pub fn set_schedule(&mut self, every: Option<u64>, size: Option<u64>) -> Result<bool, Fault> {
        refuse_if(self.snapshot, Fault::SnapshotMode)?;
        refuse_if(every == Some(0), Fault::ZeroPeriod)?;
        refuse_if(size == Some(0), Fault::ZeroSize)?;
        let is_set = every.is_some() || size.is_some();
        self.schedule = is_set.then_some(Schedule { every, size });
        Ok(is_set)
    }

    /// The cause of a rotation that is due, if one is.
    fn due(&self, moment: u64) -> Option<&'static str> {
        let schedule = self.schedule.as_ref()?;
        if self.state != State::Active || self.pending.is_some() {
            return None;
        }
        let age = moment.checked_sub(self.begin);
        if schedule
            .every
            .zip(age)
            .is_some_and(|(every, age)| every <= age)
        {
            return Some("timer");
        }
        let sizes = self.streams.iter().map(Stream::current_size);
        let held = sizes.fold(0, u64::saturating_add);
        schedule.size.is_some_and(|it| it <= held).then_some("size")
    }

    /// Rotates if that is due: the cause, and the archive.
    pub fn tick(&mut self, moment: u64) -> Result<Option<(&'static str, Archive)>, Fault> {
        match self.due(moment) {
            Some(cause) => Ok(Some((cause, self.rotate(moment)?))),
            None => Ok(None),
        }
    }
}
