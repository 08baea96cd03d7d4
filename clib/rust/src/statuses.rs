// Made by .ci/statuses of clib/tracerd.h.
pub(crate) const WRITE: u32 = 20;
pub(crate) const READ: u32 = 21;
pub(crate) const MISSING: u32 = 22;
pub(crate) const PACKET: u32 = 801;
pub(crate) const NUMBER_REPEAT: u32 = 802;
pub(crate) const SERIAL_REPEAT: u32 = 803;
pub(crate) const FOREIGN: u32 = 804;

refusals! {
    /// The status 1 of `tracerd.h`: an allocation failed, or a thread could not be made.
    NoMemory = 1,
    /// The status 2 of `tracerd.h`: the producer was given back; in a child of fork: the parent made it.
    Closed = 2,
    /// The status 4 of `tracerd.h`: a moment above 9,000,000,000,000,000,000.
    BadMoment = 4,
    /// The status 6 of `tracerd.h`: a mode that is none.
    BadMode = 6,
    /// The status 7 of `tracerd.h`: a name that is none.
    BadName = 7,
    /// The status 8 of `tracerd.h`: minutes not from -1,439 to 1,439.
    BadOffset = 8,
    /// The status 23 of `tracerd.h`: the library's drainer runs, or a keeper.
    Draining = 23,
    /// The status 24 of `tracerd.h`: it does not run.
    NotDraining = 24,
    /// The status 25 of `tracerd.h`: something else has the archive's name, or the socket's.
    Exists = 25,
    /// The status 26 of `tracerd.h`: the session has a listener.
    Listening = 26,
    /// The status 27 of `tracerd.h`: the archive is forgotten.
    Forgotten = 27,
    /// The status 101 of `tracerd.h`: not in a snapshot session.
    SnapshotMode = 101,
    /// The status 102 of `tracerd.h`: only in a snapshot session.
    NotSnapshotMode = 102,
    /// The status 103 of `tracerd.h`: the session was never started.
    NeverStarted = 103,
    /// The status 104 of `tracerd.h`: tracerd_rotate_on first.
    RotationPending = 104,
    /// The status 105 of `tracerd.h`: rotated since it was stopped.
    AlreadyRotated = 105,
    /// The status 106 of `tracerd.h`.
    AlreadyActive = 106,
    /// The status 107 of `tracerd.h`.
    NotActive = 107,
    /// The status 109 of `tracerd.h`: in a snapshot session every ring overwrites.
    DiscardInSnapshot = 109,
    /// The status 110 of `tracerd.h`: nothing is added once the session was started.
    AlreadyStarted = 110,
    /// The status 111 of `tracerd.h`: no ring has such sub-buffers.
    BadGeometry = 111,
    /// The status 112 of `tracerd.h`: 8 channels or 1,024 producers are there.
    TooMany = 112,
    /// The status 113 of `tracerd.h`: no rotation is pending.
    NotPending = 113,
    /// The status 115 of `tracerd.h`: a channel has this name.
    NameTaken = 115,
    /// The status 117 of `tracerd.h`: no channel has this name.
    NoChannel = 117,
    /// The status 118 of `tracerd.h`: no archive has this number.
    NoArchive = 118,
    /// The status 119 of `tracerd.h`: the archive was released, or has no stream to release.
    Released = 119,
    /// The status 201 of `tracerd.h`: the session takes no offers now.
    Inactive = 201,
    /// The status 202 of `tracerd.h`: the payload is longer than a sub-buffer's bytes less 104.
    TooBig = 202,
    /// The status 203 of `tracerd.h`: the stream has accepted 2^62 offers.
    Spent = 203,
    /// The status 206 of `tracerd.h`: the payload isn't laid out as the event of this id is declared.
    OtherLayout = 206,
    /// The status 701 of `tracerd.h`.
    ZeroPeriod = 701,
    /// The status 702 of `tracerd.h`.
    ZeroSize = 702,
    /// The status 1202 of `tracerd.h`: an archive below this number isn't released.
    Held = 1202,
    ; lines:
    /// The status 1001 of `tracerd.h`, with the number of the first line that is refused: of a declaration: no name, no id, or a byte that can't be printed.
    BadEvent = 1001,
    /// The status 1002 of `tracerd.h`, with the number of the first line that is refused: a field without a name.
    BadField = 1002,
    /// The status 1003 of `tracerd.h`, with the number of the first line that is refused: a type that is none.
    BadType = 1003,
    /// The status 1004 of `tracerd.h`, with the number of the first line that is refused: text or bytes beside other fields.
    NotAlone = 1004,
    /// The status 1005 of `tracerd.h`, with the number of the first line that is refused: two fields have this name.
    FieldTwice = 1005,
    /// The status 1006 of `tracerd.h`, with the number of the first line that is refused: an event has this name or this id.
    EventTaken = 1006,
    /// The status 1007 of `tracerd.h`, with the number of the first line that is refused: more than 1,024 events, 32 fields, 524,288 bytes, or what no sub-buffer holds.
    TooManyDeclared = 1007,
    /// The status 1008 of `tracerd.h`, with the number of the first line that is refused: of a variable: no name, or a word of CTF's language.
    BadVariable = 1008,
    /// The status 1009 of `tracerd.h`, with the number of the first line that is refused: no value, one that the metadata can't have, or a vpid that is no number.
    BadValue = 1009,
    /// The status 1010 of `tracerd.h`, with the number of the first line that is refused: a variable has this name.
    VariableTaken = 1010,
    /// The status 1011 of `tracerd.h`, with the number of the first line that is refused: more than 32.
    TooManyVariables = 1011,
}
