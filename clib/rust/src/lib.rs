//! A recorder: sessions of channels, in which each thread offers records by a producer of its own. `tracerd.h` has the meaning
//! of each call, its units and refusals. [`tracerd_events!`] makes typed events.
//!
//! ```no_run
//! use tracerd::{Kind, Mode, Session};
//!
//! fn main() -> Result<(), tracerd::Refused> {
//!     let session = Session::new("app", [1; 16], 0, Kind::Local)?;
//!     session.channel("main", 65_536, 16, Mode::Discard)?;
//!     let mut producer = session.producer("main")?;
//!     session.start(session.now())?;
//!     producer.offer(session.now(), 7, b"bytes")?;
//!     let archive = session.rotate(session.now())?;
//!     session.write(archive, "DIR".as_ref())
//! }
//! ```
pub mod events;
mod ffi;
mod refused;
#[cfg(test)]
#[path = "../../tests/typed.rs"]
mod typed;
#[cfg(test)]
#[path = "../../tests/wrapper.rs"]
mod wrapper;

use std::ffi::{CStr, CString};
use std::fmt;
use std::os::unix::ffi::OsStrExt;
use std::path::Path;
use std::ptr::{null, null_mut, NonNull};
use std::sync::atomic::Ordering;
use std::sync::Arc;

pub use ffi::{About, Archive, Audited, Counts};
pub use refused::{Fault, Refused};

fn done(status: u32) -> Result<(), Refused> {
    if status == 0 {
        Ok(())
    } else {
        Err(Refused::from_status(status))
    }
}

/// What a call writes to a place that it is given.
fn written<T: Default>(call: impl FnOnce(&mut T) -> u32) -> Result<T, Refused> {
    let mut value = T::default();
    done(call(&mut value))?;
    Ok(value)
}

fn name(text: &str) -> Result<CString, Refused> {
    CString::new(text).map_err(|_| Refused::BadName)
}

fn path(folder: &Path, otherwise: fn(std::io::Error) -> Refused) -> Result<CString, Refused> {
    CString::new(folder.as_os_str().as_bytes()).map_err(|why| otherwise(why.into()))
}

/// The version of the library that is linked.
pub fn version() -> &'static str {
    unsafe { CStr::from_ptr(ffi::tracerd_version()) }.to_str().unwrap_or_default()
}

/// The wall clock's moment, in nanoseconds since 1970. It may be set back or ahead: [`Session::now`] never goes back.
pub fn now() -> u64 {
    unsafe { ffi::tracerd_now() }
}

/// A local session is rotated into archives, a snapshot session shows what its rings hold.
#[derive(Clone, Copy, Debug, PartialEq, Eq)]
pub enum Kind {
    Local = 0,
    Snapshot = 1,
}

/// What a full ring does: it discards the newest record, or overwrites its oldest sub-buffer.
#[derive(Clone, Copy, Debug, PartialEq, Eq)]
pub enum Mode {
    Discard = 0,
    Overwrite = 1,
}

/// What became of an accepted offer.
#[derive(Clone, Copy, Debug, PartialEq, Eq)]
pub enum Offered {
    Stored { serial: u64, packet: u64 },
    StoredOver { serial: u64, packet: u64, gone: u64, gone_count: u64 },
    Discarded { serial: u64 },
}

/// Where a record is, or how it was lost.
#[derive(Clone, Copy, Debug, PartialEq, Eq)]
pub enum Fate {
    NotOffered,
    InRing { packet: u64 },
    InChunk { chunk: u64, packet: u64 },
    Discarded,
    Overwritten,
    Cleared { packet: u64 },
    Forgotten,
}

/// Why a tick rotated, and the archive that it made.
#[derive(Clone, Copy, Debug, PartialEq, Eq)]
pub enum Ticked {
    Idle,
    Timer(u64),
    Size(u64),
}

/// A session in the library: it goes with the last that holds it.
#[derive(Debug)]
struct Handle(NonNull<ffi::RawSession>);

// the library orders all calls on a session by locks
unsafe impl Send for Handle {}
unsafe impl Sync for Handle {}

impl Drop for Handle {
    fn drop(&mut self) {
        unsafe { ffi::tracerd_free(self.0.as_ptr()) }
    }
}

/// A session, which threads share by reference or by clones.
#[derive(Clone, Debug)]
pub struct Session(Arc<Handle>);

/// One thread's right to offer. It keeps its session alive, and gives itself back.
pub struct Producer {
    raw: NonNull<ffi::RawProducer>,
    _session: Arc<Handle>,
}

// a producer is used by one thread at a time: its offers take it by `&mut`
unsafe impl Send for Producer {}

/// Has a shell be answered, until it is dropped. It keeps its session alive.
#[derive(Debug)]
pub struct Listener {
    raw: NonNull<ffi::RawListener>,
    _session: Arc<Handle>,
}

// only its drop makes a call on it
unsafe impl Send for Listener {}
unsafe impl Sync for Listener {}

impl Drop for Listener {
    fn drop(&mut self) {
        unsafe { ffi::tracerd_listener_stop(self.raw.as_ptr()) };
    }
}

impl Session {
    pub fn new(session: &str, uuid: [u8; 16], east: i32, kind: Kind) -> Result<Session, Refused> {
        let mut raw = null_mut();
        let session = name(session)?;
        done(unsafe { ffi::tracerd_new(&mut raw, session.as_ptr(), uuid.as_ptr(), east, kind as u32) })?;
        Ok(Session(Arc::new(Handle(NonNull::new(raw).ok_or(Refused::NoMemory)?))))
    }

    fn raw(&self) -> *mut ffi::RawSession {
        self.0 .0.as_ptr()
    }

    /// Has the session's rings lie in a file, as on /dev/shm, so that what they hold outlives the program: before the first
    /// producer, once. `Write` if the file can't be made.
    pub fn rings_in(&self, file: &Path) -> Result<(), Refused> {
        let file = path(file, Refused::Write)?;
        done(unsafe { ffi::tracerd_rings_in(self.raw(), file.as_ptr()) })
    }

    pub fn channel(&self, channel: &str, size: u64, count: u64, mode: Mode) -> Result<(), Refused> {
        let channel = name(channel)?;
        done(unsafe { ffi::tracerd_channel(self.raw(), channel.as_ptr(), size, count, mode as u32) })
    }

    pub fn producer(&self, channel: &str) -> Result<Producer, Refused> {
        let mut raw = null_mut();
        let channel = name(channel)?;
        done(unsafe { ffi::tracerd_producer_new(self.raw(), channel.as_ptr(), &mut raw) })?;
        Ok(Producer { raw: NonNull::new(raw).ok_or(Refused::NoMemory)?, _session: self.0.clone() })
    }

    /// Declares events, a line each: those of [`tracerd_events!`], or of any text. Several texts may be put together; what was
    /// declared before goes. A refusal has the number of the first line that is refused, as [`Refused::BadType`].
    pub fn declare(&self, text: &str) -> Result<(), Refused> {
        // (a zero byte would end the text for C; this one can't be printed either)
        let text = CString::new(text.replace('\0', "\u{1}")).expect("no byte is zero");
        let mut line = 0;
        match unsafe { ffi::tracerd_declare(self.raw(), text.as_ptr(), &mut line) } {
            0 => Ok(()),
            status => Err(Refused::from_line(status, line)),
        }
    }

    /// Has archives say what was refused: records `offers_refused`, with the sums of their producer so far by why. Before the
    /// start; it declares that event beside the program's, for which no line is named if it is refused (0).
    pub fn record_refused(&self) -> Result<(), Refused> {
        match unsafe { ffi::tracerd_record_refused(self.raw()) } {
            0 => Ok(()),
            status => Err(Refused::from_line(status, 0)),
        }
    }

    /// The moment by the session's clock, for offers and calls on it.
    pub fn now(&self) -> u64 {
        unsafe { ffi::tracerd_now_of(self.raw()) }
    }

    pub fn start(&self, moment: u64) -> Result<(), Refused> {
        done(unsafe { ffi::tracerd_start(self.raw(), moment) })
    }

    pub fn stop(&self) -> Result<(), Refused> {
        done(unsafe { ffi::tracerd_stop(self.raw()) })
    }

    /// Takes all closed sub-buffers, and counts them.
    pub fn drain(&self) -> Result<u64, Refused> {
        written(|packets| unsafe { ffi::tracerd_drain(self.raw(), packets) })
    }

    pub fn drainer_start(&self, period: u64) -> Result<(), Refused> {
        done(unsafe { ffi::tracerd_drainer_start(self.raw(), period) })
    }

    pub fn drainer_stop(&self) -> Result<(), Refused> {
        done(unsafe { ffi::tracerd_drainer_stop(self.raw()) })
    }

    /// Ends the current chunk, and answers with the archive's number.
    pub fn rotate(&self, moment: u64) -> Result<u64, Refused> {
        written(|archive| unsafe { ffi::tracerd_rotate(self.raw(), moment, archive) })
    }

    pub fn rotate_on(&self) -> Result<u64, Refused> {
        written(|archive| unsafe { ffi::tracerd_rotate_on(self.raw(), archive) })
    }

    pub fn schedule(&self, every: Option<u64>, bytes: Option<u64>) -> Result<(), Refused> {
        done(unsafe { ffi::tracerd_schedule(self.raw(), every.unwrap_or(u64::MAX), bytes.unwrap_or(u64::MAX)) })
    }

    pub fn tick(&self, moment: u64) -> Result<Ticked, Refused> {
        let (mut cause, mut archive) = (0, 0);
        done(unsafe { ffi::tracerd_tick(self.raw(), moment, &mut cause, &mut archive) })?;
        Ok(match cause {
            0 => Ticked::Idle,
            1 => Ticked::Timer(archive),
            _ => Ticked::Size(archive),
        })
    }

    /// Removes what the rings and the current chunk hold, and counts these records.
    pub fn clear(&self) -> Result<u64, Refused> {
        written(|records| unsafe { ffi::tracerd_clear(self.raw(), records) })
    }

    pub fn write(&self, archive: u64, folder: &Path) -> Result<(), Refused> {
        let folder = path(folder, Refused::Write)?;
        done(unsafe { ffi::tracerd_write(self.raw(), archive, folder.as_ptr()) })
    }

    pub fn release(&self, archive: u64) -> Result<(), Refused> {
        done(unsafe { ffi::tracerd_release(self.raw(), archive) })
    }

    /// Forgets the archives below this number, which have to be released: what these still take is given up. Counts stay, and
    /// fates of what was offered before that archive began are `Forgotten`.
    pub fn forget(&self, archive: u64) -> Result<(), Refused> {
        done(unsafe { ffi::tracerd_forget(self.raw(), archive) })
    }

    pub fn snapshot(&self, moment: u64, folder: &Path) -> Result<(), Refused> {
        let folder = path(folder, Refused::Write)?;
        done(unsafe { ffi::tracerd_snapshot(self.raw(), moment, folder.as_ptr()) })
    }

    /// Has a shell be answered at a socket of this path (`tracerd-ask`), as long as there is what this gives. Archives are
    /// written below the folder, if there is one.
    pub fn listen(&self, socket: &Path, folder: Option<&Path>) -> Result<Listener, Refused> {
        let mut raw = null_mut();
        let socket = path(socket, Refused::Write)?;
        let folder = folder.map(|folder| path(folder, Refused::Write)).transpose()?;
        let folder = folder.as_ref().map_or(null(), |folder| folder.as_ptr());
        done(unsafe { ffi::tracerd_listen(&mut raw, self.raw(), socket.as_ptr(), folder) })?;
        Ok(Listener { raw: NonNull::new(raw).ok_or(Refused::NoMemory)?, _session: self.0.clone() })
    }

    /// What the session is now.
    pub fn about(&self) -> Result<About, Refused> {
        written(|about| unsafe { ffi::tracerd_about_of(self.raw(), about) })
    }

    /// What an archive has.
    pub fn archive(&self, number: u64) -> Result<Archive, Refused> {
        written(|archive| unsafe { ffi::tracerd_archive_of(self.raw(), number, archive) })
    }

    pub fn counts(&self) -> Result<Counts, Refused> {
        written(|counts| unsafe { ffi::tracerd_counts_sum(self.raw(), counts) })
    }

    /// The sums, once every producer was given back. [`Refused::Missing`] has the number of the first stream whose wasn't.
    pub fn settle(&self) -> Result<Counts, Refused> {
        let (mut counts, mut stream) = (Counts::default(), 0);
        match unsafe { ffi::tracerd_settle(self.raw(), &mut counts, &mut stream) } {
            refused::MISSING => Err(Refused::Missing(stream)),
            status => done(status).map(|()| counts),
        }
    }
}

impl Producer {
    #[inline]
    pub fn offer(&mut self, moment: u64, id: u32, payload: &[u8]) -> Result<Offered, Refused> {
        let (bytes, size) = (payload.as_ptr().cast(), payload.len());
        let it: ffi::RawOffered = written(|it| unsafe { ffi::tracerd_offer(self.raw.as_ptr(), moment, id, bytes, size, it) })?;
        Ok(match it.outcome {
            0 => Offered::Stored { serial: it.serial, packet: it.packet },
            1 => Offered::StoredOver { serial: it.serial, packet: it.packet, gone: it.gone, gone_count: it.gone_count },
            _ => Offered::Discarded { serial: it.serial },
        })
    }

    /// Offers at the session's clock, and answers only a refusal. [`trace!`] evaluates nothing while the session is off.
    #[inline]
    pub fn trace(&mut self, id: u32, payload: &[u8]) -> Result<(), Refused> {
        done(unsafe { ffi::tracerd_trace(self.raw.as_ptr(), id, payload.as_ptr().cast(), payload.len()) })
    }

    /// Whether offers are taken now: a load.
    #[inline]
    pub fn is_active(&self) -> bool {
        unsafe { self.raw.as_ref() }.active.load(Ordering::Relaxed) != 0
    }

    /// Itself, if offers are taken now.
    #[inline]
    pub fn if_active(&mut self) -> Option<&mut Producer> {
        if self.is_active() {
            Some(self)
        } else {
            None
        }
    }

    /// The number of its stream.
    pub fn number(&self) -> u64 {
        unsafe { ffi::tracerd_producer_number(self.raw.as_ptr()) }
    }

    pub fn counts(&self) -> Result<Counts, Refused> {
        written(|counts| unsafe { ffi::tracerd_counts_of(self.raw.as_ptr(), counts) })
    }

    pub fn fate(&self, serial: u64) -> Result<Fate, Refused> {
        let it: ffi::RawFate = written(|it| unsafe { ffi::tracerd_fate_of(self.raw.as_ptr(), serial, it) })?;
        Ok(match it.place {
            0 => Fate::NotOffered,
            1 => Fate::InRing { packet: it.packet },
            2 => Fate::InChunk { chunk: it.chunk, packet: it.packet },
            3 => Fate::Discarded,
            4 => Fate::Overwritten,
            5 => Fate::Cleared { packet: it.packet },
            _ => Fate::Forgotten,
        })
    }
}

impl fmt::Debug for Producer {
    fn fmt(&self, out: &mut fmt::Formatter<'_>) -> fmt::Result {
        let (number, is_active) = (self.number(), self.is_active());
        out.debug_struct("Producer").field("number", &number).field("is_active", &is_active).finish()
    }
}

impl Drop for Producer {
    fn drop(&mut self) {
        unsafe { ffi::tracerd_producer_done(self.raw.as_ptr()) };
    }
}

/// Reads a stream's files of all archives below a folder, and judges each packet. Of a fault the refusal has the place
/// ([`Fault`]).
pub fn audit(folder: &Path, session: &str, channel: &str, stream: u64, uuid: [u8; 16]) -> Result<Audited, Refused> {
    let (folder, session, channel) = (path(folder, Refused::Read)?, name(session)?, name(channel)?);
    let (folder, session, channel) = (folder.as_ptr(), session.as_ptr(), channel.as_ptr());
    let mut found = Audited::default();
    match unsafe { ffi::tracerd_audit(folder, session, channel, stream, uuid.as_ptr(), &mut found) } {
        0 => Ok(found),
        status => Err(Refused::from_audit(status, &found)),
    }
}
