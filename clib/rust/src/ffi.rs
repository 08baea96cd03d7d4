//! What `tracerd.h` declares.
use std::ffi::{c_char, c_void};
use std::sync::atomic::AtomicU32;

#[repr(C)]
pub struct RawSession {
    _opaque: [u8; 0],
}

#[repr(C)]
pub struct RawListener {
    _opaque: [u8; 0],
}

#[repr(C)]
pub struct RawProducer {
    pub active: AtomicU32,
}

#[repr(C)]
#[derive(Default)]
pub struct RawOffered {
    pub outcome: u32,
    pub serial: u64,
    pub packet: u64,
    pub gone: u64,
    pub gone_count: u64,
}

#[repr(C)]
#[derive(Default)]
pub struct RawFate {
    pub place: u32,
    pub chunk: u64,
    pub packet: u64,
    reserved: [u64; 5],
}

/// `offered` is the sum of those that come next; what was refused is none of them. `shared` is how many of the offered
/// ones were made while a pool had lent their producer to several threads.
#[repr(C)]
#[derive(Clone, Copy, Debug, Default, PartialEq, Eq)]
pub struct Counts {
    pub offered: u64,
    pub discarded: u64,
    pub overwritten: u64,
    pub cleared: u64,
    pub in_ring: u64,
    pub in_chunks: u64,
    pub refused_inactive: u64,
    pub refused_too_big: u64,
    pub refused_bad_moment: u64,
    pub refused_spent: u64,
    pub refused_other_layout: u64,
    pub shared: u64,
    reserved: [u64; 4],
}

/// What a session is.
#[repr(C)]
#[derive(Clone, Copy, Debug, Default, PartialEq, Eq)]
pub struct About {
    /// As `Kind` has it: 0 or 1.
    pub kind: u32,
    /// 0 new, 1 active, 2 stopped.
    pub state: u32,
    pub is_pending: u32,
    pub is_draining: u32,
    pub channels: u64,
    pub producers: u64,
    pub archives: u64,
    pub begun: u64,
    pub last: u64,
    uuid: [u8; 16],
    /// Archives below this one are forgotten.
    pub forgotten: u64,
    reserved: [u64; 6],
}

/// What an archive has, or had before it was released.
#[repr(C)]
#[derive(Clone, Copy, Debug, Default, PartialEq, Eq)]
pub struct Archive {
    pub begun: u64,
    pub ended: u64,
    pub packets: u64,
    pub records: u64,
    pub bytes: u64,
    pub is_released: u32,
    reserved_too: u32,
    reserved: [u64; 10],
}

/// What an audit found.
#[repr(C)]
#[derive(Clone, Copy, Debug, Default, PartialEq, Eq)]
pub struct Audited {
    pub packets: u64,
    pub records: u64,
    pub absent: u64,
    pub discarded: u64,
    pub last_packet: u64,
    pub last_serial: u64,
    pub archive: u64,
    pub byte: u64,
    pub packet_fault: u32,
    reserved_too: u32,
    reserved: [u64; 7],
}

extern "C" {
    pub fn tracerd_version() -> *const c_char;
    pub fn tracerd_status_name(status: u32) -> *const c_char;
    pub fn tracerd_now() -> u64;
    pub fn tracerd_now_of(s: *const RawSession) -> u64;
    pub fn tracerd_new(s: *mut *mut RawSession, name: *const c_char, uuid: *const u8, east: i32, kind: u32) -> u32;
    pub fn tracerd_free(s: *mut RawSession);
    pub fn tracerd_rings_in(s: *mut RawSession, file: *const c_char) -> u32;
    pub fn tracerd_channel(s: *mut RawSession, name: *const c_char, size: u64, count: u64, mode: u32) -> u32;
    pub fn tracerd_producer_new(s: *mut RawSession, channel: *const c_char, p: *mut *mut RawProducer) -> u32;
    pub fn tracerd_producer_number(p: *const RawProducer) -> u64;
    pub fn tracerd_producer_done(p: *mut RawProducer) -> u32;
    pub fn tracerd_declare(s: *mut RawSession, text: *const c_char, line: *mut u64) -> u32;
    pub fn tracerd_record_refused(s: *mut RawSession) -> u32;
    pub fn tracerd_start(s: *mut RawSession, moment: u64) -> u32;
    pub fn tracerd_stop(s: *mut RawSession) -> u32;
    pub fn tracerd_offer(
        p: *mut RawProducer,
        moment: u64,
        id: u32,
        bytes: *const c_void,
        size: usize,
        o: *mut RawOffered,
    ) -> u32;
    pub fn tracerd_trace(p: *mut RawProducer, id: u32, bytes: *const c_void, size: usize) -> u32;
    pub fn tracerd_drain(s: *mut RawSession, packets: *mut u64) -> u32;
    pub fn tracerd_drainer_start(s: *mut RawSession, period: u64) -> u32;
    pub fn tracerd_drainer_stop(s: *mut RawSession) -> u32;
    pub fn tracerd_rotate(s: *mut RawSession, moment: u64, archive: *mut u64) -> u32;
    pub fn tracerd_rotate_on(s: *mut RawSession, archive: *mut u64) -> u32;
    pub fn tracerd_schedule(s: *mut RawSession, every: u64, bytes: u64) -> u32;
    pub fn tracerd_tick(s: *mut RawSession, moment: u64, cause: *mut u32, archive: *mut u64) -> u32;
    pub fn tracerd_clear(s: *mut RawSession, records: *mut u64) -> u32;
    pub fn tracerd_write(s: *mut RawSession, archive: u64, folder: *const c_char) -> u32;
    pub fn tracerd_release(s: *mut RawSession, archive: u64) -> u32;
    pub fn tracerd_forget(s: *mut RawSession, archive: u64) -> u32;
    pub fn tracerd_snapshot(s: *mut RawSession, moment: u64, folder: *const c_char) -> u32;
    pub fn tracerd_audit(
        folder: *const c_char,
        session: *const c_char,
        channel: *const c_char,
        stream: u64,
        uuid: *const u8,
        a: *mut Audited,
    ) -> u32;
    pub fn tracerd_listen(l: *mut *mut RawListener, s: *mut RawSession, path: *const c_char, folder: *const c_char) -> u32;
    pub fn tracerd_listener_stop(l: *mut RawListener) -> u32;
    pub fn tracerd_about_of(s: *mut RawSession, about: *mut About) -> u32;
    pub fn tracerd_archive_of(s: *mut RawSession, number: u64, archive: *mut Archive) -> u32;
    pub fn tracerd_counts_of(p: *mut RawProducer, counts: *mut Counts) -> u32;
    pub fn tracerd_counts_sum(s: *mut RawSession, counts: *mut Counts) -> u32;
    pub fn tracerd_settle(s: *mut RawSession, counts: *mut Counts, stream: *mut u64) -> u32;
    pub fn tracerd_fate_of(p: *mut RawProducer, serial: u64, fate: *mut RawFate) -> u32;
}
