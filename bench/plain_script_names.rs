//! Names, identifiers and the names of archives, in plain Rust.

use std::fmt;

const LONGEST_NAME: usize = 64;
const URN: &str = "urn:uuid:";

/// Whether a session or a channel may have this name.
pub fn is_name(text: &str) -> bool {
    text.len() <= LONGEST_NAME
        && text.starts_with(|it: char| it.is_ascii_alphabetic())
        && text
            .bytes()
            .all(|it| it.is_ascii_alphanumeric() || it == b'_')
}

/// The identifier that a text writes: 32 digits, or with hyphens, which may be in braces or after `urn:uuid:` of either case.
pub fn uuid(text: &str) -> Option<[u8; 16]> {
    let hyphenated = match text.len() {
        32 => return digits_value(text),
        36 => text,
        38 => text.strip_prefix('{')?.strip_suffix('}')?,
        45 => match text.split_at(URN.len()) {
            (urn, rest) if urn.eq_ignore_ascii_case(URN) => rest,
            _ => return None,
        },
        _ => return None,
    };
    let groups: Vec<&str> = hyphenated.split('-').collect();
    if !groups.iter().map(|it| it.len()).eq([8, 4, 4, 4, 12]) {
        return None;
    }
    digits_value(&groups.concat())
}

/// The value of 32 hexadecimal digits.
fn digits_value(digits: &str) -> Option<[u8; 16]> {
    if !digits.bytes().all(|it| it.is_ascii_hexdigit()) {
        return None;
    }
    u128::from_str_radix(digits, 16).ok().map(u128::to_be_bytes)
}

/// An archive: when its trace chunk began and ended, at how many minutes ahead of UTC. It prints as its name.
#[derive(Clone, Copy)]
pub struct Archive {
    pub id: u64,
    pub begin: u64,
    pub end: u64,
    pub offset: i32,
}

impl fmt::Display for Archive {
    fn fmt(&self, f: &mut fmt::Formatter) -> fmt::Result {
        put_stamp(f, self.begin, self.offset)?;
        f.write_str("-")?;
        put_stamp(f, self.end, self.offset)?;
        write!(f, "-{}", self.id)
    }
}

/// The date and the time of a moment's whole seconds at an offset, and the offset.
fn put_stamp(f: &mut fmt::Formatter, moment: u64, offset: i32) -> fmt::Result {
    let seconds = (moment / 1_000_000_000) as i64 + 60 * i64::from(offset);
    let (year, month, day) = date(seconds.div_euclid(86_400));
    let second = seconds.rem_euclid(86_400);
    let (hour, minute, second) = (second / 3_600, second / 60 % 60, second % 60);
    let sign = if offset < 0 { '-' } else { '+' };
    let (hours, minutes) = (offset.abs() / 60, offset.abs() % 60);
    write!(
        f,
        "{year:04}{month:02}{day:02}T{hour:02}{minute:02}{second:02}{sign}{hours:02}{minutes:02}"
    )
}

/// Year, month and day of a day, counted from 1970-01-01. A year is taken to begin in March, so that its leap day is the last.
fn date(days: i64) -> (i64, i64, i64) {
    // 719,468 days before 1970 is the 1st of March of the year 0; 400 years have 146,097 days
    let days = days + 719_468;
    let (era, day) = (days.div_euclid(146_097), days.rem_euclid(146_097));
    let year = (day - day / 1_460 + day / 36_524 - day / 146_096) / 365;
    let day = day - (365 * year + year / 4 - year / 100);
    // five months from March on have 153 days, as have the next five
    let month = (5 * day + 2) / 153;
    let day = day - (153 * month + 2) / 5 + 1;
    let year = 400 * era + year;
    if month < 10 {
        (year, month + 3, day)
    } else {
        (year + 1, month - 9, day)
    }
}
