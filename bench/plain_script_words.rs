//! The command language of a script in plain Rust: what the words of a line ask for.

use std::str::{FromStr, SplitAsciiWhitespace};

const LAST_MOMENT: u64 = 9_000_000_000_000_000_000;
const MOST_FILL: usize = 1_048_576;
const MOST_MINUTES: u16 = 1_439;

/// What a line asks for.
pub enum Request<'a> {
    Create(Create<'a>),
    /// A step of the session of this name.
    Step(&'a str, Step<'a>),
}

pub struct Create<'a> {
    pub session: &'a str,
    pub uuid: &'a str,
    pub offset: i32,
    pub snapshot: bool,
}

/// The payload is the text and then so many bytes `a`.
pub struct Offer<'a> {
    pub stream: u64,
    pub moment: u64,
    pub id: u32,
    pub text: &'a str,
    pub fill: usize,
}

/// Size and count of a ring's sub-buffers, and whether the oldest gives way.
pub type Shape = (usize, usize, bool);

/// What is done with a session.
pub enum Step<'a> {
    Channel(&'a str, Shape),
    Thread(&'a str),
    Start(u64),
    Stop,
    Offer(Offer<'a>),
    Consume(u64),
    Clear,
    RotateBegin(u64),
    RotateNext,
    RotateFinish,
    Rotate(u64),
    Snapshot(u64),
    Schedule(Option<u64>, Option<u64>),
    Tick(u64),
    Fate(u64, u64),
    Status,
    Archives,
    Release(u64),
}

/// An option of a command: `--name TEXT`, or the flag `--name`.
#[derive(Clone, Copy)]
enum Choice {
    Text(&'static str),
    Flag(&'static str),
}

impl Choice {
    fn name(self) -> &'static str {
        match self {
            Choice::Text(name) | Choice::Flag(name) => name,
        }
    }
}

/// The words of a line that come after the command.
type Words<'a> = SplitAsciiWhitespace<'a>;

/// What the words of a line ask for. None is a bad line.
pub fn request<'a>(command: &str, words: Words<'a>) -> Option<Request<'a>> {
    match command {
        "create" => create(words),
        "channel" => channel(words),
        "thread" => thread(words),
        "start" => at_moment(words, Step::Start),
        "stop" => of_session(words, Step::Stop),
        "offer" => offer(words),
        "consume" => of_number(words, Step::Consume),
        "clear" => of_session(words, Step::Clear),
        "rotate-begin" => at_moment(words, Step::RotateBegin),
        "rotate-next" => of_session(words, Step::RotateNext),
        "rotate-finish" => of_session(words, Step::RotateFinish),
        "rotate" => at_moment(words, Step::Rotate),
        "snapshot" => at_moment(words, Step::Snapshot),
        "schedule" => schedule(words),
        "tick" => at_moment(words, Step::Tick),
        "fate" => fate(words),
        "status" => of_session(words, Step::Status),
        "archives" => of_session(words, Step::Archives),
        "release" => of_number(words, Step::Release),
        _ => None,
    }
}

fn create(words: Words<'_>) -> Option<Request<'_>> {
    let choices = [
        Choice::Text("east"),
        Choice::Text("west"),
        Choice::Flag("snapshot"),
    ];
    let ([session, uuid], [east, west, snapshot]) = arguments(words, choices)?;
    let minutes = |text: Option<_>| match text {
        Some(text) => number_up_to(text, MOST_MINUTES).map(i32::from),
        None => Some(0),
    };
    Some(Request::Create(Create {
        session,
        uuid,
        offset: minutes(east)? - minutes(west)?,
        snapshot: snapshot.is_some(),
    }))
}

fn channel(words: Words<'_>) -> Option<Request<'_>> {
    let ([session, channel, size, count, mode], []) = arguments(words, [])?;
    let (size, count) = (number::<u32>(size)?, number::<u32>(count)?);
    let overwrite = match mode {
        "discard" => false,
        "overwrite" => true,
        _ => return None,
    };
    let shape = (size as usize, count as usize, overwrite);
    Some(Request::Step(session, Step::Channel(channel, shape)))
}

fn thread(words: Words<'_>) -> Option<Request<'_>> {
    let ([session, channel], []) = arguments(words, [])?;
    Some(Request::Step(session, Step::Thread(channel)))
}

fn offer(words: Words<'_>) -> Option<Request<'_>> {
    let choices = [Choice::Text("text"), Choice::Text("fill")];
    let ([session, stream, moment, id], [text, fill]) = arguments(words, choices)?;
    let offer = Offer {
        stream: number(stream)?,
        moment: number_up_to(moment, LAST_MOMENT)?,
        id: number(id)?,
        text: text.unwrap_or_default(),
        fill: fill.map_or(Some(0), |fill| number_up_to(fill, MOST_FILL))?,
    };
    Some(Request::Step(session, Step::Offer(offer)))
}

fn schedule(words: Words<'_>) -> Option<Request<'_>> {
    let choices = [Choice::Text("every"), Choice::Text("size")];
    let ([session], [every, size]) = arguments(words, choices)?;
    let given = |text: Option<_>| text.map_or(Some(None), |text| number(text).map(Some));
    let step = Step::Schedule(given(every)?, given(size)?);
    Some(Request::Step(session, step))
}

fn fate(words: Words<'_>) -> Option<Request<'_>> {
    let ([session, stream, serial], []) = arguments(words, [])?;
    let step = Step::Fate(number(stream)?, number(serial)?);
    Some(Request::Step(session, step))
}

fn of_session<'a>(words: Words<'a>, step: Step<'a>) -> Option<Request<'a>> {
    let ([session], []) = arguments(words, [])?;
    Some(Request::Step(session, step))
}

fn of_number<'a>(words: Words<'a>, step: fn(u64) -> Step<'a>) -> Option<Request<'a>> {
    let ([session, of], []) = arguments(words, [])?;
    Some(Request::Step(session, step(number(of)?)))
}

fn at_moment<'a>(words: Words<'a>, step: fn(u64) -> Step<'a>) -> Option<Request<'a>> {
    let ([session, moment], []) = arguments(words, [])?;
    let moment = number_up_to(moment, LAST_MOMENT)?;
    Some(Request::Step(session, step(moment)))
}

/// An unsigned number. Std takes a `+` too.
fn number<N: FromStr>(text: &str) -> Option<N> {
    if text.starts_with('+') {
        return None;
    }
    text.parse().ok()
}

fn number_up_to<N: FromStr + PartialOrd>(text: &str, most: N) -> Option<N> {
    number(text).filter(|it| *it <= most)
}

/// Whether a word is an option, or is taken for one.
fn is_option(word: &str) -> bool {
    word.len() > 1 && word.starts_with('-')
}

/// The words that are no options, which have to be `N`, and what is given of each option. After `--` no word is an option.
fn arguments<'a, const N: usize, const M: usize>(
    mut words: Words<'a>,
    choices: [Choice; M],
) -> Option<([&'a str; N], [Option<&'a str>; M])> {
    let (mut placed, mut given) = ([""; N], [None; M]);
    let (mut count, mut has_options) = (0, true);
    while let Some(word) = words.next() {
        if !has_options || !is_option(word) {
            *placed.get_mut(count)? = word;
            count += 1;
        } else if word == "--" {
            has_options = false;
        } else {
            let (place, value) = chosen(word.strip_prefix("--")?, &choices, &mut words)?;
            if given[place].replace(value).is_some() {
                return None;
            }
        }
    }
    (count == N).then_some((placed, given))
}

/// The place of an option, and its value: after `=`, or the next word.
fn chosen<'a>(
    option: &'a str,
    choices: &[Choice],
    words: &mut Words<'a>,
) -> Option<(usize, &'a str)> {
    for (place, choice) in choices.iter().enumerate() {
        let value = match (choice, option.strip_prefix(choice.name())) {
            (Choice::Text(_), Some("")) => words.next().filter(|it| !is_option(it))?,
            (Choice::Text(_), Some(rest)) if rest.starts_with('=') => &rest[1..],
            (Choice::Flag(_), Some("")) => "",
            _ => continue,
        };
        return Some((place, value));
    }
    None
}
