//! The same scripts in plain Rust, as one would write it by hand over std: what `tracerd script` is measured against.
//!
//!     plain_script < SCRIPT
//!
//! It reads standard input in pieces of 65,536 bytes, cuts lines, parses and does each, and writes all answers that it has
//! before it reads on. Its offers are those of `plain_ring`. It prints what `tracerd script` prints, byte for byte, and has the
//! same exit status. It has no proof, and it ends if an allocation fails.
#![forbid(unsafe_code)]

mod plain_ring;
mod plain_script_answers;
mod plain_script_console;
mod plain_script_names;
mod plain_script_session;
mod plain_script_stream;
mod plain_script_words;

use plain_script_console::Console;
use std::io::{self, Read, Write};
use std::process::ExitCode;

const LONGEST_PIECE: usize = 65_536;
const LONGEST_LINE: usize = 4_096;
const LONGEST_SCRIPT: usize = 16_777_216;

/// The sessions, the answers that aren't written yet, and whether a line was refused.
#[derive(Default)]
struct Script {
    console: Console,
    answers: String,
    is_refused: bool,
}

impl Script {
    /// Answers a line, without its newline.
    fn answer(&mut self, line: &[u8]) {
        let is_done = match text_of(line) {
            Some(text) => self.console.answer(text, &mut self.answers),
            None => {
                self.answers.push_str("bad line\n");
                false
            }
        };
        self.is_refused |= !is_done;
    }
}

/// The text of a line, if it is good.
fn text_of(line: &[u8]) -> Option<&str> {
    if line.len() > LONGEST_LINE || !line.iter().all(|it| (b' '..=b'~').contains(it)) {
        return None;
    }
    std::str::from_utf8(line).ok()
}

/// Answers a whole script, and says whether no line was refused.
fn run(input: &mut impl Read, output: &mut impl Write) -> io::Result<bool> {
    let mut script = Script::default();
    let mut piece = vec![0; LONGEST_PIECE];
    let mut line = Vec::new();
    let mut left = LONGEST_SCRIPT;
    loop {
        let room = left.clamp(1, LONGEST_PIECE);
        let count = input.read(&mut piece[..room])?;
        if count == 0 {
            break;
        }
        left = left.checked_sub(count).ok_or(io::ErrorKind::FileTooLarge)?;
        for part in piece[..count].split_inclusive(|it| *it == b'\n') {
            line.extend_from_slice(part);
            if let Some(whole) = line.strip_suffix(b"\n") {
                script.answer(whole);
                line.clear();
            }
        }
        output.write_all(script.answers.as_bytes())?;
        script.answers.clear();
    }
    if !line.is_empty() {
        script.answer(&line);
        output.write_all(script.answers.as_bytes())?;
    }
    Ok(!script.is_refused)
}

fn main() -> ExitCode {
    match run(&mut io::stdin().lock(), &mut io::stdout().lock()) {
        Ok(true) => ExitCode::SUCCESS,
        Ok(false) => ExitCode::FAILURE,
        Err(fault) => {
            eprintln!("stopped: {fault}");
            ExitCode::from(3)
        }
    }
}
