//! Why calls are refused, and what is wrong with received messages.

use crate::sys;
use std::error::Error;
use std::fmt;
use std::io;
use waywire_sys as ffi;

/// Why tables, an end or an inspector are not made.
#[derive(Clone, Copy, Debug, PartialEq, Eq)]
#[non_exhaustive]
pub enum NewError {
    /// An end cannot have these sizes: see [`Sizes`](crate::Sizes). Or a message cannot have this limit:
    /// see [`Inspector::new`](crate::Inspector::new).
    BadSizes,
    /// Out of memory.
    NoMemory,
}

/// Why no tables are read from a text.
#[derive(Clone, Copy, Debug, PartialEq, Eq)]
#[non_exhaustive]
pub enum TablesError {
    /// A line, counted from 1, has none of the forms of such a text.
    BadLine {
        /// The first such line.
        line: usize,
    },
    /// Every line has one of the forms, and a line breaks a rule of tables.
    BadTable {
        /// The first such line, counted from 1.
        line: usize,
        /// The lowest rule that it breaks: 1 to 9 for V1 to V9, 11 for V11.
        rule: u32,
    },
    /// Only from [`Connection::more_tables`](crate::Connection::more_tables): the text has the first
    /// event by which the server makes an object, and the end has no room for such objects.
    FirstServerObject,
    /// Out of memory.
    NoMemory,
}

/// Why a message is not written. Nothing has changed.
#[derive(Clone, Copy, Debug, PartialEq, Eq)]
#[non_exhaustive]
pub enum SendError {
    /// The end has failed, and reads and writes nothing more.
    Failed,
    /// The target is not live.
    Stale,
    /// Its interface has no such message, or another call writes it.
    NoSuchMessage,
    /// The message is newer than its target.
    TooOld,
    /// The argument at this index, counted from 0, does not fit the signature, or is missing.
    WrongArgs {
        /// The first such index.
        place: usize,
    },
    /// The object at this index is not live, or of another interface.
    BadObject {
        /// The first such index.
        place: usize,
    },
    /// No global of this name, interface and version was announced. From
    /// [`Writer::bind_unannounced`](crate::Writer::bind_unannounced): the tables have no such interface
    /// and version.
    BadBind,
    /// The message is longer than the end's limit ([`Sizes::limit`](crate::Sizes::limit)).
    TooLong,
    /// The outbox has no room for it: take, and then send again.
    Full,
    /// No more objects can be opened.
    NoIds,
    /// Out of memory.
    NoMemory,
    /// The interface has no event that destroys its objects.
    NotDroppable,
    /// A descriptor cannot be duplicated, for example because the process has too many.
    NotDuplicated {
        /// The number of the system's error, for [`std::io::Error::from_raw_os_error`].
        error: i32,
    },
}

/// Why a global is not added or not withdrawn. Nothing has changed.
#[derive(Clone, Copy, Debug, PartialEq, Eq)]
#[non_exhaustive]
pub enum GlobalError {
    /// The server has failed.
    Failed,
    /// This interface and version cannot be advertised.
    BadGlobal,
    /// The server has added as many globals in its life as it may: 1,024, or the number of
    /// [`allow_globals`](crate::Writer::allow_globals).
    TooMany,
    /// The name was never given to a global, or its global is withdrawn.
    NoSuchGlobal,
    /// Out of memory.
    NoMemory,
}

/// Why no message was read.
#[derive(Clone, Copy, Debug, PartialEq, Eq)]
#[non_exhaustive]
pub enum NextError {
    /// The received message is at fault. The end has failed for good. A server has written
    /// wl_display.error: take and send it.
    Fault(Fault),
    /// The end had failed before.
    Failed,
    /// Out of memory for the object that the message makes. The message stays, and can be read again.
    NoMemory,
    /// The server's outbox has no room for the delete_id of the object that the request destroys. The
    /// request stays: take, and then read again.
    OutFull,
}

/// Why [`Server::next_unanswered`](crate::Server::next_unanswered) read no request. Nothing has changed.
#[derive(Clone, Copy, Debug, PartialEq, Eq)]
pub struct Unanswered<'a> {
    /// The reason.
    pub error: NextError,
    /// With a fault: the id of the message's target; else 0.
    pub target: u32,
    /// With a fault: the message's opcode; else 0.
    pub opcode: u16,
    /// With a fault: the bytes of the message, header included, or with [`FaultKind::BadSize`] those of the
    /// header; else empty.
    pub message: &'a [u8],
}

/// Out of memory. Nothing has changed.
#[derive(Clone, Copy, Debug, PartialEq, Eq)]
pub struct NoMemory;

/// The end has failed, and accepts no more bytes.
#[derive(Clone, Copy, Debug, PartialEq, Eq)]
pub struct Failed;

/// The inbox of a [`Link`](crate::socket::Link) has no room for what the socket may pass at once, which is a
/// byte and [`MOST_DESCRIPTORS`](crate::socket::MOST_DESCRIPTORS) descriptors. It is inside the [`io::Error`]
/// of [`Link::fill`](crate::socket::Link::fill), and of the calls that fill.
///
/// If all messages were read before, the inbox is full of the descriptors of a message that is not whole yet
/// ([`Sizes`](crate::Sizes) says how many to allow for), or of some that belong to no message. Then the
/// connection cannot go on.
#[derive(Clone, Copy, Debug, PartialEq, Eq)]
pub struct InboxFull;

/// The queues of an end are too small for a [`Link`](crate::socket::Link), which
/// [`Link::new`](crate::socket::Link::new) explains.
#[derive(Clone, Copy, Debug, PartialEq, Eq)]
pub struct TooSmall;

/// What is wrong with a received message.
#[derive(Clone, Copy, Debug, PartialEq, Eq)]
pub struct Fault {
    /// What it is.
    pub kind: FaultKind,
    /// Where the message begins in the stream, in bytes.
    pub offset: u64,
}

/// The kinds of faults. `place` is the index of the argument, counted from 0.
#[derive(Clone, Copy, Debug, PartialEq, Eq)]
#[non_exhaustive]
pub enum FaultKind {
    /// The header has a length that no message has (F1).
    BadSize,
    /// The target is no object (F2).
    UnknownObject,
    /// The target's interface has no such message at its version (F3).
    UnknownMessage,
    /// An argument is malformed (F4).
    BadArgument {
        /// Its index.
        place: usize,
        /// It ends too early (1), is null (2), has no ending NUL (3), or a NUL inside (4).
        spelling: u32,
    },
    /// An argument is no object of its interface (F5).
    BadObject {
        /// Its index.
        place: usize,
    },
    /// The id of a new object is not one that can be opened (F6).
    BadNewId {
        /// Its index.
        place: usize,
    },
    /// Bytes follow the last argument (F7).
    TrailingBytes,
    /// A descriptor has not come with its message (F8).
    MissingDescriptor,
    /// A bind names no global of this name, interface and version (F9).
    BadBind,
    /// The end has no room for another object (F10).
    TooManyObjects,
}

/// A value of the library's `waywire_status`.
pub(crate) trait Status {
    /// The number, whose text says what is wrong.
    fn status(&self) -> u32;
}

impl Status for NewError {
    fn status(&self) -> u32 {
        match self {
            NewError::BadSizes => ffi::WAYWIRE_BAD_SIZES,
            NewError::NoMemory => ffi::WAYWIRE_NO_MEMORY,
        }
    }
}

impl Status for TablesError {
    fn status(&self) -> u32 {
        match self {
            TablesError::BadLine { .. } => ffi::WAYWIRE_BAD_LINE,
            TablesError::BadTable { .. } => ffi::WAYWIRE_BAD_TABLE,
            TablesError::FirstServerObject => ffi::WAYWIRE_FIRST_SERVER_OBJECT,
            TablesError::NoMemory => ffi::WAYWIRE_NO_MEMORY,
        }
    }
}

impl Status for SendError {
    fn status(&self) -> u32 {
        match self {
            SendError::Failed => ffi::WAYWIRE_FAILED,
            SendError::Stale => ffi::WAYWIRE_STALE,
            SendError::NoSuchMessage => ffi::WAYWIRE_NO_SUCH_MESSAGE,
            SendError::TooOld => ffi::WAYWIRE_TOO_OLD,
            SendError::WrongArgs { .. } => ffi::WAYWIRE_WRONG_ARGS,
            SendError::BadObject { .. } => ffi::WAYWIRE_BAD_OBJECT,
            SendError::BadBind => ffi::WAYWIRE_BAD_BIND,
            SendError::TooLong => ffi::WAYWIRE_TOO_LONG,
            SendError::Full => ffi::WAYWIRE_FULL,
            SendError::NoIds => ffi::WAYWIRE_NO_IDS,
            SendError::NoMemory => ffi::WAYWIRE_NO_MEMORY,
            SendError::NotDroppable => ffi::WAYWIRE_NOT_DROPPABLE,
            // It is no refusal of the library's: see its text below.
            SendError::NotDuplicated { .. } => ffi::WAYWIRE_NO_MEMORY,
        }
    }
}

impl Status for GlobalError {
    fn status(&self) -> u32 {
        match self {
            GlobalError::Failed => ffi::WAYWIRE_FAILED,
            GlobalError::BadGlobal => ffi::WAYWIRE_BAD_GLOBAL,
            GlobalError::TooMany => ffi::WAYWIRE_TOO_MANY_GLOBALS,
            GlobalError::NoSuchGlobal => ffi::WAYWIRE_NO_SUCH_GLOBAL,
            GlobalError::NoMemory => ffi::WAYWIRE_NO_MEMORY,
        }
    }
}

impl Status for NextError {
    fn status(&self) -> u32 {
        match self {
            NextError::Fault(fault) => fault.kind.status(),
            NextError::Failed => ffi::WAYWIRE_FAILED,
            NextError::NoMemory => ffi::WAYWIRE_NO_MEMORY,
            NextError::OutFull => ffi::WAYWIRE_OUT_FULL,
        }
    }
}

impl Status for NoMemory {
    fn status(&self) -> u32 {
        ffi::WAYWIRE_NO_MEMORY
    }
}

impl Status for Failed {
    fn status(&self) -> u32 {
        ffi::WAYWIRE_FAILED
    }
}

impl Status for FaultKind {
    fn status(&self) -> u32 {
        match self {
            FaultKind::BadSize => ffi::WAYWIRE_FAULT_BAD_SIZE,
            FaultKind::UnknownObject => ffi::WAYWIRE_FAULT_UNKNOWN_OBJECT,
            FaultKind::UnknownMessage => ffi::WAYWIRE_FAULT_UNKNOWN_MESSAGE,
            FaultKind::BadArgument { .. } => ffi::WAYWIRE_FAULT_BAD_ARGUMENT,
            FaultKind::BadObject { .. } => ffi::WAYWIRE_FAULT_BAD_OBJECT,
            FaultKind::BadNewId { .. } => ffi::WAYWIRE_FAULT_BAD_NEW_ID,
            FaultKind::TrailingBytes => ffi::WAYWIRE_FAULT_TRAILING_BYTES,
            FaultKind::MissingDescriptor => ffi::WAYWIRE_FAULT_MISSING_DESCRIPTOR,
            FaultKind::BadBind => ffi::WAYWIRE_FAULT_BAD_BIND,
            FaultKind::TooManyObjects => ffi::WAYWIRE_FAULT_TOO_MANY_OBJECTS,
        }
    }
}

impl fmt::Display for NewError {
    fn fmt(&self, f: &mut fmt::Formatter<'_>) -> fmt::Result {
        f.write_str(sys::text_of(self.status()))
    }
}

impl fmt::Display for TablesError {
    fn fmt(&self, f: &mut fmt::Formatter<'_>) -> fmt::Result {
        match self {
            TablesError::BadLine { line } => write!(f, "line {line}: bad line"),
            TablesError::BadTable { line, rule } => write!(f, "line {line}: breaks V{rule}"),
            _ => f.write_str(sys::text_of(self.status())),
        }
    }
}

impl fmt::Display for SendError {
    fn fmt(&self, f: &mut fmt::Formatter<'_>) -> fmt::Result {
        if let SendError::NotDuplicated { error } = self {
            let why = io::Error::from_raw_os_error(*error);
            return write!(f, "a descriptor is not duplicated: {why}");
        }
        f.write_str(sys::text_of(self.status()))?;
        match self {
            SendError::WrongArgs { place } | SendError::BadObject { place } => {
                write!(f, ", argument {place}")
            }
            _ => Ok(()),
        }
    }
}

impl fmt::Display for GlobalError {
    fn fmt(&self, f: &mut fmt::Formatter<'_>) -> fmt::Result {
        f.write_str(sys::text_of(self.status()))
    }
}

impl fmt::Display for NextError {
    fn fmt(&self, f: &mut fmt::Formatter<'_>) -> fmt::Result {
        match self {
            NextError::Fault(fault) => fault.fmt(f),
            _ => f.write_str(sys::text_of(self.status())),
        }
    }
}

impl fmt::Display for NoMemory {
    fn fmt(&self, f: &mut fmt::Formatter<'_>) -> fmt::Result {
        f.write_str(sys::text_of(self.status()))
    }
}

impl fmt::Display for Failed {
    fn fmt(&self, f: &mut fmt::Formatter<'_>) -> fmt::Result {
        f.write_str(sys::text_of(self.status()))
    }
}

impl fmt::Display for InboxFull {
    fn fmt(&self, f: &mut fmt::Formatter<'_>) -> fmt::Result {
        f.write_str("the inbox has no room for what the socket may pass")
    }
}

impl fmt::Display for TooSmall {
    fn fmt(&self, f: &mut fmt::Formatter<'_>) -> fmt::Result {
        f.write_str("the end has too little room for a socket")
    }
}

impl fmt::Display for Fault {
    fn fmt(&self, f: &mut fmt::Formatter<'_>) -> fmt::Result {
        write!(f, "message at byte {}: {}", self.offset, self.kind)
    }
}

impl fmt::Display for FaultKind {
    fn fmt(&self, f: &mut fmt::Formatter<'_>) -> fmt::Result {
        f.write_str(sys::text_of(self.status()))?;
        match self {
            FaultKind::BadArgument { place, spelling } => {
                write!(f, ", argument {place}: {}", sys::spelling_of(*spelling))
            }
            FaultKind::BadObject { place } | FaultKind::BadNewId { place } => {
                write!(f, ", argument {place}")
            }
            _ => Ok(()),
        }
    }
}

impl Error for NewError {}
impl Error for TablesError {}
impl Error for SendError {}
impl Error for GlobalError {}
impl Error for Fault {}
impl Error for FaultKind {}
impl Error for NoMemory {}
impl Error for Failed {}
impl Error for InboxFull {}
impl Error for TooSmall {}

impl Error for NextError {
    fn source(&self) -> Option<&(dyn Error + 'static)> {
        match self {
            NextError::Fault(fault) => Some(fault),
            _ => None,
        }
    }
}

#[cfg(test)]
mod tests {
    use super::*;

    #[test]
    fn faults_are_errors() {
        let kind = FaultKind::BadArgument { place: 2, spelling: 1 };
        let (status, spelling) =
            (sys::text_of(ffi::WAYWIRE_FAULT_BAD_ARGUMENT), sys::spelling_of(1));
        assert_eq!(kind.to_string(), format!("{status}, argument 2: {spelling}"));
        let fault = Fault { kind, offset: 12 };
        assert_eq!(fault.to_string(), format!("message at byte 12: {kind}"));
        let error = NextError::Fault(fault);
        assert_eq!(error.to_string(), fault.to_string());
        let source = error.source().and_then(|it| it.downcast_ref::<Fault>());
        assert_eq!(source, Some(&fault));
        assert!(NextError::Failed.source().is_none());
    }
}
