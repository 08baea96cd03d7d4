//! Why a call was refused.
use crate::ffi;
use std::ffi::CStr;
use std::{fmt, io};

/// Where an audit found a fault.
#[derive(Clone, Copy, Debug, PartialEq, Eq)]
#[non_exhaustive]
pub struct Fault {
    /// The number of the archive.
    pub archive: u64,
    /// Where in the stream's file of this archive the packet begins.
    pub byte: u64,
    /// Of [`Refused::Packet`]: 1 to 7 for P1 to P7; else 0.
    pub packet_fault: u32,
}

macro_rules! refusals {
    ($($(#[$said:meta])* $name:ident = $code:literal,)*; lines: $($(#[$said_of_line:meta])* $bad:ident = $of_line:literal,)*) => {
        /// Why a call was refused. A later library may answer what isn't here: match with a last arm for it.
        #[derive(Debug)]
        #[non_exhaustive]
        pub enum Refused {
            $($(#[$said])* $name,)*
            /// A folder or a file could not be made or written, for this reason.
            Write(io::Error),
            /// A folder or a file could not be read, for this reason.
            Read(io::Error),
            /// Producers were not given back: the number of the first one's stream.
            Missing(u64),
            /// An audit found no packet here.
            Packet(Fault),
            /// An audit found a packet here whose number isn't above the one before.
            NumberRepeat(Fault),
            /// An audit found a packet here whose first serial isn't above the last one before.
            SerialRepeat(Fault),
            /// An audit found a packet of another trace or another stream here.
            Foreign(Fault),
            $($(#[$said_of_line])* $bad(u64),)*
            /// A status that this version of the crate doesn't know.
            Other(u32),
        }

        impl Refused {
            /// Of a status, just after the call that answered it: errno is that call's.
            pub(crate) fn from_status(status: u32) -> Refused {
                match status {
                    $($code => Refused::$name,)*
                    WRITE => Refused::Write(io::Error::last_os_error()),
                    READ => Refused::Read(io::Error::last_os_error()),
                    _ => Refused::Other(status),
                }
            }

            /// Of a text of declarations, of which this line is refused.
            pub(crate) fn from_line(status: u32, line: u64) -> Refused {
                match status {
                    $($of_line => Refused::$bad(line),)*
                    _ => Refused::from_status(status),
                }
            }

            fn line(&self) -> Option<u64> {
                match self {
                    $(Refused::$bad(line) => Some(*line),)*
                    _ => None,
                }
            }

            /// The status of `tracerd.h`.
            pub fn status(&self) -> u32 {
                match self {
                    $(Refused::$name => $code,)*
                    Refused::Write(_) => WRITE,
                    Refused::Read(_) => READ,
                    Refused::Missing(_) => MISSING,
                    Refused::Packet(_) => PACKET,
                    Refused::NumberRepeat(_) => NUMBER_REPEAT,
                    Refused::SerialRepeat(_) => SERIAL_REPEAT,
                    Refused::Foreign(_) => FOREIGN,
                    $(Refused::$bad(_) => $of_line,)*
                    Refused::Other(status) => *status,
                }
            }
        }
    };
}

include!("statuses.rs");

impl Refused {
    /// Of an audit that stopped at a fault.
    pub(crate) fn from_audit(status: u32, found: &ffi::Audited) -> Refused {
        let fault = Fault { archive: found.archive, byte: found.byte, packet_fault: found.packet_fault };
        match status {
            PACKET => Refused::Packet(fault),
            NUMBER_REPEAT => Refused::NumberRepeat(fault),
            SERIAL_REPEAT => Refused::SerialRepeat(fault),
            FOREIGN => Refused::Foreign(fault),
            _ => Refused::from_status(status),
        }
    }

    /// The status's name, as `TooBig`; of one that the library doesn't know `Unknown`.
    pub fn name(&self) -> &'static str {
        unsafe { CStr::from_ptr(ffi::tracerd_status_name(self.status())) }.to_str().unwrap_or_default()
    }

    fn io_error(&self) -> Option<&io::Error> {
        match self {
            Refused::Write(why) | Refused::Read(why) => Some(why),
            _ => None,
        }
    }

    fn fault(&self) -> Option<Fault> {
        match self {
            Refused::Packet(it) | Refused::NumberRepeat(it) | Refused::SerialRepeat(it) | Refused::Foreign(it) => Some(*it),
            _ => None,
        }
    }

    fn stream(&self) -> Option<u64> {
        match self {
            Refused::Missing(stream) => Some(*stream),
            _ => None,
        }
    }
}

/// Two are equal if they are of one status and say the same; errors of files, if they are of one kind and one errno.
impl PartialEq for Refused {
    fn eq(&self, other: &Refused) -> bool {
        let why = |it: &Refused| it.io_error().map(|why| (why.kind(), why.raw_os_error()));
        let all = |it: &Refused| (it.status(), why(it), it.fault(), it.stream(), it.line());
        all(self) == all(other)
    }
}

impl Eq for Refused {}

impl fmt::Display for Refused {
    fn fmt(&self, out: &mut fmt::Formatter<'_>) -> fmt::Result {
        match self {
            Refused::Write(why) | Refused::Read(why) => write!(out, "{}: {why}", self.name()),
            Refused::Missing(stream) => write!(out, "{}: stream {stream}", self.name()),
            Refused::Other(status) => write!(out, "{}: status {status}", self.name()),
            _ => match (self.fault(), self.line()) {
                (Some(at), _) if at.packet_fault != 0 => {
                    write!(out, "{}: archive {}, byte {}, P{}", self.name(), at.archive, at.byte, at.packet_fault)
                }
                (Some(at), _) => write!(out, "{}: archive {}, byte {}", self.name(), at.archive, at.byte),
                (None, Some(line)) => write!(out, "{}: line {line}", self.name()),
                (None, None) => out.write_str(self.name()),
            },
        }
    }
}

impl std::error::Error for Refused {
    fn source(&self) -> Option<&(dyn std::error::Error + 'static)> {
        self.io_error().map(|why| why as _)
    }
}

/// What `?` makes of it where files are written: the reason of `Write` and `Read`; for all else an error that has it inside.
impl From<Refused> for io::Error {
    fn from(why: Refused) -> io::Error {
        match why {
            Refused::Write(why) | Refused::Read(why) => why,
            Refused::NoMemory => io::ErrorKind::OutOfMemory.into(),
            why => io::Error::other(why),
        }
    }
}
