//! The sessions of a script in plain Rust, and what is done for its lines.

use crate::plain_script_answers::Answer;
use crate::plain_script_names::{is_name, uuid};
use crate::plain_script_session::{refuse_if, Fault, Session};
use crate::plain_script_words::{request, Create, Offer, Request, Step};
use std::fmt::Write;

const MOST_SESSIONS: usize = 16;

/// The sessions, and the payload of the last offer, whose memory the next one takes.
#[derive(Default)]
pub struct Console {
    sessions: Vec<Session>,
    payload: Vec<u8>,
}

impl Console {
    /// Adds the answer to a line, and says whether the line wasn't refused.
    pub fn answer(&mut self, line: &str, answers: &mut String) -> bool {
        let mut words = line.split_ascii_whitespace();
        let command = match words.next() {
            Some(word) if !word.starts_with('#') => word,
            _ => return true,
        };
        let Some(request) = request(command, words) else {
            answers.push_str("bad line\n");
            return false;
        };
        let answer = self.run(request);
        let is_done = answer.is_ok();
        let put = match answer {
            Ok(answer) => answer.put(answers),
            Err(fault) => writeln!(answers, "refused {}", fault.text()),
        };
        put.expect("a String takes every text");
        is_done
    }

    fn run<'a>(&'a mut self, request: Request<'a>) -> Result<Answer<'a>, Fault> {
        match request {
            Request::Create(asked) => self.create(&asked),
            Request::Step(name, step) => {
                let found = self.sessions.iter_mut().find(|it| it.name == name);
                let session = found.ok_or(Fault::NoSession)?;
                run_step(session, step, &mut self.payload)
            }
        }
    }

    fn create<'a>(&mut self, asked: &Create<'a>) -> Result<Answer<'a>, Fault> {
        let name = asked.session;
        refuse_if(!is_name(name), Fault::BadName)?;
        let uuid = uuid(asked.uuid).ok_or(Fault::BadUuid)?;
        let is_taken = self.sessions.iter().any(|it| it.name == name);
        refuse_if(is_taken, Fault::NameTaken)?;
        refuse_if(self.sessions.len() >= MOST_SESSIONS, Fault::TooMany)?;
        let session = Session::new(name, uuid, asked.offset, asked.snapshot);
        self.sessions.push(session);
        Ok(Answer::Created(name))
    }
}

fn run_step<'a>(
    session: &'a mut Session,
    step: Step<'a>,
    payload: &mut Vec<u8>,
) -> Result<Answer<'a>, Fault> {
    Ok(match step {
        Step::Channel(name, shape) => {
            refuse_if(!is_name(name), Fault::BadName)?;
            session.add_channel(name, shape)?;
            Answer::Channel(name)
        }
        Step::Thread(channel) => Answer::Stream(session.add_thread(channel)?),
        Step::Start(moment) => {
            session.start(moment)?;
            Answer::Started
        }
        Step::Stop => {
            session.stop()?;
            Answer::Stopped
        }
        Step::Offer(asked) => return offer(session, &asked, payload),
        Step::Consume(stream) => Answer::Taken(session.consume(stream)?),
        Step::Clear => Answer::Cleared(session.clear()?),
        Step::RotateBegin(moment) => Answer::Rotating(session.rotate_begin(moment)?),
        Step::RotateNext => Answer::Cut(session.rotate_next()?),
        Step::RotateFinish => Answer::Archived(session.rotate_finish()?),
        Step::Rotate(moment) => Answer::Archived(session.rotate(moment)?),
        Step::Snapshot(moment) => Answer::Snapshot(session.snapshot_at(moment)?, session),
        Step::Schedule(every, size) => Answer::Scheduled(session.set_schedule(every, size)?),
        Step::Tick(moment) => Answer::Ticked(session.tick(moment)?),
        Step::Fate(stream, serial) => Answer::Fate(session.fate(stream, serial)?),
        Step::Status => Answer::Status(session),
        Step::Archives => Answer::Archives(session),
        Step::Release(archive) => {
            session.release(archive)?;
            Answer::Released(archive)
        }
    })
}

fn offer<'a>(
    session: &mut Session,
    asked: &Offer,
    payload: &mut Vec<u8>,
) -> Result<Answer<'a>, Fault> {
    payload.clear();
    payload.extend_from_slice(asked.text.as_bytes());
    payload.resize(asked.text.len() + asked.fill, b'a');
    let offered = session.offer(asked.stream, asked.moment, asked.id, payload)?;
    Ok(Answer::Offered(offered))
}
