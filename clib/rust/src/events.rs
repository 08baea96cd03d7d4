//! Events with names and fields: [`tracerd_events!`](crate::tracerd_events) makes a function of each, and the text that
//! declares them; [`trace!`](crate::trace) offers by it where the program runs by.
use std::ffi::CStr;
use std::mem::size_of;

/// The bytes of a record's payload. The first `ROOM` of them need no memory from the heap.
pub struct Payload<const ROOM: usize> {
    near: [u8; ROOM],
    size: usize,
    far: Vec<u8>,
}

impl<const ROOM: usize> Payload<ROOM> {
    /// One without bytes.
    #[allow(clippy::new_without_default)]
    #[inline]
    pub fn new() -> Payload<ROOM> {
        Payload { near: [0; ROOM], size: 0, far: Vec::new() }
    }

    #[inline]
    fn put(&mut self, bytes: &[u8]) {
        let end = self.size + bytes.len();
        if self.far.is_empty() && end <= ROOM {
            self.near[self.size..end].copy_from_slice(bytes);
        } else {
            self.put_far(bytes);
        }
        self.size = end;
    }

    /// What has no more room there moves to the heap, with all before it.
    #[cold]
    fn put_far(&mut self, bytes: &[u8]) {
        if self.far.is_empty() {
            self.far.extend_from_slice(&self.near[..self.size]);
        }
        self.far.extend_from_slice(bytes);
    }

    /// All that was put.
    #[inline]
    pub fn bytes(&self) -> &[u8] {
        if self.far.is_empty() {
            &self.near[..self.size]
        } else {
            &self.far
        }
    }
}

/// A type of a declared field.
pub trait Field {
    /// What a typed function is given of it.
    type Given<'a>: Copy;
    /// How many bytes of it are to need no memory from the heap.
    const ROOM: usize;
    /// Puts its bytes after those that are there.
    fn put<const ROOM: usize>(given: Self::Given<'_>, payload: &mut Payload<ROOM>);
}

/// A number, lowest byte first.
pub trait Number: Copy {
    /// Puts its bytes after those that are there.
    fn put_number<const ROOM: usize>(self, payload: &mut Payload<ROOM>);
}

macro_rules! numbers {
    ($($kind:ident)*) => {
        $(impl Number for $kind {
            #[inline]
            fn put_number<const ROOM: usize>(self, payload: &mut Payload<ROOM>) {
                payload.put(&self.to_le_bytes());
            }
        })*
    };
}
numbers! { u8 u16 u32 u64 i8 i16 i32 i64 f32 f64 }

impl Number for bool {
    #[inline]
    fn put_number<const ROOM: usize>(self, payload: &mut Payload<ROOM>) {
        payload.put(&[u8::from(self)]);
    }
}

impl<T: Number + 'static> Field for T {
    type Given<'a> = T;
    const ROOM: usize = size_of::<T>();
    #[inline]
    fn put<const ROOM: usize>(given: T, payload: &mut Payload<ROOM>) {
        given.put_number(payload);
    }
}

impl<T: Number + 'static, const COUNT: usize> Field for [T; COUNT] {
    type Given<'a> = &'a [T; COUNT];
    const ROOM: usize = size_of::<[T; COUNT]>();
    #[inline]
    fn put<const ROOM: usize>(given: &[T; COUNT], payload: &mut Payload<ROOM>) {
        given.iter().for_each(|it| it.put_number(payload));
    }
}

impl<T: Number + 'static> Field for [T] {
    type Given<'a> = &'a [T];
    const ROOM: usize = 64;
    /// Their count goes before them. (If it doesn't fit a u32, no sub-buffer holds them, and the offer is refused.)
    #[inline]
    fn put<const ROOM: usize>(given: &[T], payload: &mut Payload<ROOM>) {
        u32::try_from(given.len()).unwrap_or(u32::MAX).put_number(payload);
        given.iter().for_each(|it| it.put_number(payload));
    }
}

impl Field for str {
    type Given<'a> = &'a str;
    const ROOM: usize = 64;
    /// Up to a zero byte, if it has one.
    #[inline]
    fn put<const ROOM: usize>(given: &str, payload: &mut Payload<ROOM>) {
        match CStr::from_bytes_until_nul(given.as_bytes()) {
            Ok(text) => payload.put(text.to_bytes_with_nul()),
            Err(_) => {
                payload.put(given.as_bytes());
                payload.put(&[0]);
            }
        }
    }
}

impl Field for types::text {
    type Given<'a> = &'a str;
    const ROOM: usize = 128;
    #[inline]
    fn put<const ROOM: usize>(given: &str, payload: &mut Payload<ROOM>) {
        payload.put(given.as_bytes());
    }
}

impl Field for types::bytes {
    type Given<'a> = &'a [u8];
    const ROOM: usize = 128;
    #[inline]
    fn put<const ROOM: usize>(given: &[u8], payload: &mut Payload<ROOM>) {
        payload.put(given);
    }
}

/// The types by their names in declarations.
#[allow(non_camel_case_types)]
pub mod types {
    pub use std::primitive::{f32, f64, i16, i32, i64, i8, str, u16, u32, u64, u8};
    pub type x8 = u8;
    pub type x16 = u16;
    pub type x32 = u32;
    pub type x64 = u64;
    pub type flag = bool;
    /// All of the payload, as text.
    pub enum text {}
    /// All of the payload.
    pub enum bytes {}
}

/// Declares events: of each a function that offers a record of it at the session's clock, as [`Producer::trace`] does, and for
/// all of them the text `DECLARATIONS` for [`Session::declare`].
///
/// A field has a type of `docs/FORMATS.md`: `u8` to `u64`, `i8` to `i64`, `x8` to `x64`, `f32`, `f64`, `flag` (a `bool`), `str`
/// (up to a zero byte), and as the only field `text` or `bytes`; an array is `[u16; 4]`, as many as there are `[u16]`, and
/// names of a whole number's values follow its type. An id or an event twice, the id 0, a field twice, or another type
/// doesn't compile. What else declares no event is said by [`Session::declare`].
///
/// A payload is packed on the stack, unless a text in it is long, and copied once from there.
///
/// ```
/// tracerd::tracerd_events! {
///     queue_push = 3 { worker: u32, depth: u64 }
///     request = 5 { verb: u8 { GET = 71, PUT = 80 }, path: str, took: f64 }
///     log = 7 { text: text }
/// }
/// assert_eq!(
///     DECLARATIONS,
///     "queue_push 3 worker:u32 depth:u64\nrequest 5 verb:u8{GET=71,PUT=80} path:str took:f64\nlog 7 text:text\n"
/// );
/// # fn run(session: tracerd::Session) -> Result<(), tracerd::Refused> {
/// session.declare(DECLARATIONS)?;
/// let mut producer = session.producer("main")?;
/// session.start(session.now())?;
/// queue_push(&mut producer, 1, 17)?;
/// tracerd::trace!(producer, queue_push(1, 18));
/// # Ok(())
/// # }
/// ```
///
/// [`Producer::trace`]: crate::Producer::trace
/// [`Session::declare`]: crate::Session::declare
#[macro_export]
macro_rules! tracerd_events {
    ($($(#[$note:meta])* $event:ident = $id:literal {
        $($field:ident : $kind:tt $({ $($name:ident = $value:literal),+ $(,)? })?),* $(,)?
    })+) => {
        /// The text that declares these events, a line each.
        pub const DECLARATIONS: &str = concat!($(
            stringify!($event), " ", $id,
            $(" ", stringify!($field), ":", $crate::events_text!($kind $({ $($name = $value),+ })?),)*
            "\n"
        ),+);
        // each name and each id once; those of what isn't declared are taken
        const _: () = {
            #[allow(dead_code, non_camel_case_types)]
            #[repr(u32)]
            enum Id { record = 0, $($event = $id),+ }
        };
        $(
            $(#[$note])*
            #[allow(dead_code, missing_docs, clippy::too_many_arguments)]
            #[inline]
            pub fn $event(
                producer: &mut $crate::Producer,
                $($field: <$crate::events_type!($kind) as $crate::events::Field>::Given<'_>),*
            ) -> ::std::result::Result<(), $crate::Refused> {
                #[allow(unused_mut)]
                let mut payload = $crate::events::Payload::<{
                    0 $(+ <$crate::events_type!($kind) as $crate::events::Field>::ROOM)*
                }>::new();
                $(<$crate::events_type!($kind) as $crate::events::Field>::put($field, &mut payload);)*
                producer.trace($id, payload.bytes())
            }
        )+
    };
}

/// The type of a field, of [`tracerd_events!`](crate::tracerd_events).
#[doc(hidden)]
#[macro_export]
macro_rules! events_type {
    ([$base:ident; $count:literal]) => {
        [$crate::events::types::$base; $count]
    };
    ([$base:ident]) => {
        [$crate::events::types::$base]
    };
    ($base:ident) => {
        $crate::events::types::$base
    };
}

/// How a declaration writes it.
#[doc(hidden)]
#[macro_export]
macro_rules! events_text {
    ([$base:ident; $count:literal]) => { concat!(stringify!($base), "[", $count, "]") };
    ([$base:ident]) => { concat!(stringify!($base), "[]") };
    ($base:ident) => { stringify!($base) };
    ($base:ident { $first:ident = $value:literal $(, $next:ident = $other:literal)* }) => {
        concat!(stringify!($base), "{", stringify!($first), "=", $value $(, ",", stringify!($next), "=", $other)*, "}")
    };
}

/// A tracepoint: `trace!(producer, event(value, ..))` offers a record of a declared event, and `trace!(producer, id, payload)`
/// one of any id, whose payload is anything that is `AsRef<[u8]>`, at the session's clock. While the session is off it costs a
/// load and a branch, and only the producer is evaluated. Refusals are lost: where they matter call the event's function, or
/// [`Producer::trace`](crate::Producer::trace); [`Counts`](crate::Counts) has them.
///
/// ```no_run
/// # fn costly() -> Vec<u8> { vec![1] }
/// # fn main() -> Result<(), tracerd::Refused> {
/// # let session = tracerd::Session::new("app", [1; 16], 0, tracerd::Kind::Local)?;
/// # session.channel("main", 65_536, 16, tracerd::Mode::Discard)?;
/// tracerd::tracerd_events! { queue_push = 3 { worker: u32, depth: u64 } }
/// let mut producer = session.producer("main")?;
/// tracerd::trace!(producer, queue_push(1, 17));
/// tracerd::trace!(producer, 8, costly());
/// # Ok(())
/// # }
/// ```
#[macro_export]
macro_rules! trace {
    ($producer:expr, $event:ident $(:: $more:ident)* ($($value:expr),* $(,)?) $(,)?) => {
        if let ::std::option::Option::Some(producer) = $producer.if_active() {
            let _ = $event $(:: $more)* (producer $(, $value)*);
        }
    };
    ($producer:expr, $id:expr, $payload:expr $(,)?) => {
        if let ::std::option::Option::Some(producer) = $producer.if_active() {
            let _ = producer.trace($id, ::std::convert::AsRef::<[u8]>::as_ref(&$payload));
        }
    };
}
