//! Records what a program says by the crate `tracing`: a layer of `tracing_subscriber` that offers each event, and each entry
//! of a span and its exit, to a session of `tracerd`.
//!
//! ```no_run
//! use tracerd::{Kind, Mode, Session};
//! use tracing_subscriber::layer::SubscriberExt;
//!
//! # fn main() -> Result<(), Box<dyn std::error::Error>> {
//! let session = Session::new("app", [1; 16], 0, Kind::Local)?;
//! session.declare(tracerd_tracing::DECLARATIONS)?; // beside the program's own, if it has some
//! session.channel("log", 65_536, 16, Mode::Discard)?;
//! let layer = tracerd_tracing::Layer::new(&session, "log", 8)?;
//! tracing::subscriber::set_global_default(tracing_subscriber::registry().with(layer))?;
//! session.start(session.now())?;
//! tracing::info_span!("request", path = "/index.html").in_scope(|| tracing::info!(user = 7, "begun"));
//! # Ok(())
//! # }
//! ```
//!
//! **Spans.** A thread is in a span from a record `tracing_enter` to the record `tracing_exit` of the same span, so a span that
//! is entered often, as an asynchronous one, is as many pairs. Each entry has the span's name and fields, those too that were
//! recorded later: so it says all that it has to, also where a ring has overwritten the entry before. A span that is never
//! entered isn't recorded, nor what follows from what. Its number is used again once it is closed.
//!
//! **Fields** are written as `name=value` with spaces between, as `Debug` shows the values. A text ends at a zero byte. Where there
//! is none it is `-`: of an empty text babeltrace2 2.0.4 shows that of an earlier record.
//!
//! **Threads.** A layer has as many producers as it was made with. A thread is lent one at its first record, which follows a
//! record `tracing_thread` with its name, and gives it back when it ends. If none is free, it shares one with another thread,
//! and one waits for the other while that records: nothing is lost for it. So each record has the number of its thread.
//!
//! **Losses.** While the session is off nothing is recorded, and no event's fields are formatted. What finds its ring full has
//! its serial, as ever; what is longer than a sub-buffer is counted (`refused_too_big`).
mod pool;

use pool::{Lent, Pool};
use std::fmt::{self, Write};
use std::sync::Arc;
use tracerd::{trace, Refused, Session};
use tracing::field::{Field, Visit};
use tracing::span::{Attributes, Id, Record};
use tracing::{Event, Level, Subscriber};
use tracing_subscriber::layer::Context;
use tracing_subscriber::registry::LookupSpan;

mod events {
    // (ids of their own, far from a program's)
    tracerd::tracerd_events! {
        tracing_thread = 4_294_960_001 { thread: u32, name: str }
        tracing_enter = 4_294_960_002 {
            thread: u32, span: u64, parent: u64, level: u8 { TRACE = 1, DEBUG = 2, INFO = 3, WARN = 4, ERROR = 5 },
            target: str, name: str, fields: str,
        }
        tracing_exit = 4_294_960_003 { thread: u32, span: u64 }
        tracing_event = 4_294_960_004 {
            thread: u32, span: u64, level: u8 { TRACE = 1, DEBUG = 2, INFO = 3, WARN = 4, ERROR = 5 },
            target: str, message: str, fields: str,
        }
    }
}
pub use events::DECLARATIONS;

/// The layer. A subscriber has one at most. Clones record by the same producers.
#[derive(Clone)]
pub struct Layer(Arc<Pool>);

impl Layer {
    /// One with this number of producers of a channel, at least one. As any producer, they are made before the first start.
    pub fn new(session: &Session, channel: &str, producers: usize) -> Result<Layer, Refused> {
        Ok(Layer(Pool::new(session, channel, producers)?))
    }

    /// Gives its producers back, so that the session can be settled. What comes after is passed over.
    pub fn close(&self) {
        self.0.close();
    }

    /// The thread's producer, if offers are taken now. The thread's name comes before its records.
    fn lent(&self) -> Option<Lent> {
        let lent = self.0.lent();
        if !lent.is_named {
            let thread = std::thread::current();
            self.0.with(lent, |it| {
                if events::tracing_thread(it, lent.thread, or_none(thread.name().unwrap_or(""))).is_ok() {
                    self.0.set_named();
                }
            });
        }
        self.0.is_active(lent).then_some(lent)
    }
}

impl fmt::Debug for Layer {
    fn fmt(&self, out: &mut fmt::Formatter<'_>) -> fmt::Result {
        out.debug_struct("Layer").finish_non_exhaustive()
    }
}

/// Fields as text.
#[derive(Default)]
struct Fields(String);

impl Fields {
    fn begin_next(&mut self) {
        if !self.0.is_empty() {
            self.0.push(' ');
        }
    }
}

impl Visit for Fields {
    fn record_debug(&mut self, field: &Field, value: &dyn fmt::Debug) {
        self.begin_next();
        // (a text takes all that is written)
        let _ = write!(self.0, "{}={value:?}", field.name());
    }
}

/// What an event says: its message apart from its other fields.
#[derive(Default)]
struct Said {
    message: String,
    fields: Fields,
}

impl Visit for Said {
    fn record_debug(&mut self, field: &Field, value: &dyn fmt::Debug) {
        match field.name() {
            "message" => drop(write!(self.message, "{value:?}")),
            _ => self.fields.record_debug(field, value),
        }
    }

    fn record_str(&mut self, field: &Field, value: &str) {
        match field.name() {
            "message" => self.message.push_str(value),
            _ => self.fields.record_debug(field, &value),
        }
    }
}

/// A text, or what is written for none.
fn or_none(text: &str) -> &str {
    if text.is_empty() {
        "-"
    } else {
        text
    }
}

fn number(level: &Level) -> u8 {
    match *level {
        Level::TRACE => 1,
        Level::DEBUG => 2,
        Level::INFO => 3,
        Level::WARN => 4,
        Level::ERROR => 5,
    }
}

impl<S: Subscriber + for<'a> LookupSpan<'a>> tracing_subscriber::Layer<S> for Layer {
    /// A span keeps its fields as text: the session may be on when it is entered.
    fn on_new_span(&self, attributes: &Attributes<'_>, id: &Id, context: Context<'_, S>) {
        let mut fields = Fields::default();
        attributes.record(&mut fields);
        if let Some(span) = context.span(id) {
            span.extensions_mut().replace(fields);
        }
    }

    fn on_record(&self, id: &Id, values: &Record<'_>, context: Context<'_, S>) {
        let Some(span) = context.span(id) else { return };
        // (nothing is formatted while the span is locked: what shows itself may look at it)
        let mut next = Fields::default();
        values.record(&mut next);
        let mut extensions = span.extensions_mut();
        if let Some(fields) = extensions.get_mut::<Fields>() {
            fields.begin_next();
            fields.0.push_str(&next.0);
        }
    }

    fn on_enter(&self, id: &Id, context: Context<'_, S>) {
        let (Some(span), Some(lent)) = (context.span(id), self.lent()) else { return };
        let parent = span.parent().map_or(0, |it| it.id().into_u64());
        let (about, extensions) = (span.metadata(), span.extensions());
        let (level, fields) = (number(about.level()), extensions.get::<Fields>().map_or("-", |it| or_none(&it.0)));
        self.0.with(lent, |it| {
            let span = id.into_u64();
            trace!(it, events::tracing_enter(lent.thread, span, parent, level, about.target(), about.name(), fields));
        });
    }

    fn on_exit(&self, id: &Id, _: Context<'_, S>) {
        if let Some(lent) = self.lent() {
            self.0.with(lent, |it| trace!(it, events::tracing_exit(lent.thread, id.into_u64())));
        }
    }

    fn on_event(&self, event: &Event<'_>, context: Context<'_, S>) {
        let Some(lent) = self.lent() else { return };
        let (mut said, about) = (Said::default(), event.metadata());
        event.record(&mut said);
        let span = context.event_span(event).map_or(0, |it| it.id().into_u64());
        let (message, fields) = (or_none(&said.message), or_none(&said.fields.0));
        self.0.with(lent, |it| {
            let (level, target) = (number(about.level()), about.target());
            trace!(it, events::tracing_event(lent.thread, span, level, target, message, fields));
        });
    }
}
