//! What makes the calls of waywire.h safe, which `waywire_sys` declares. Only this module, with those below
//! it, has `unsafe` in it.
//!
//! What the header asks of every call is kept by the types here:
//!
//! - a pointer to tables, an end or an inspector is one that the library returned, and it is freed once,
//!   by the drop of what owns it;
//! - what points into tables or an inspector is borrowed from them;
//! - tables are used by any threads at once, as the header allows; an end or an inspector by one call at
//!   a time, since it is not `Sync`;
//! - a token of an end is a descriptor that the end owns: it comes in as an `OwnedFd`, and goes out as
//!   one, once. The library reports each token that it was fed, and hands out each that it was sent,
//!   exactly once;
//! - a slice's pointer and length are those of a Rust slice.

use crate::args::{Arg, MAX_ARGS};
use crate::error::{Fault, FaultKind, NextError, Unanswered};
use crate::inspector::Sender;
use crate::report::Named;
use crate::tables::{Interface, Object};
use std::ffi::{c_char, CStr};
use std::os::fd::AsRawFd;
use std::ptr;
use std::slice;
use waywire_sys as ffi;

mod decoded;
mod end;
mod inspector;
mod read;
mod reading;
mod socket;
mod tables;

pub use decoded::Decoded;
pub use end::{End, Going};
pub use inspector::{Followed, Inspector};
pub use read::Read;
pub use reading::Reading;
pub use socket::{
    connect, had_no_room, has_lost, inherited, parts, poll, receive, send, Listening, Pollfd,
};
use tables::tables_error;
pub use tables::Tables;

impl Sender {
    /// `waywire_sender`.
    fn number(self) -> u32 {
        match self {
            Sender::Client => ffi::WAYWIRE_FROM_CLIENT,
            Sender::Server => ffi::WAYWIRE_FROM_SERVER,
        }
    }
}

const NO_ARG: ffi::waywire_arg = ffi::waywire_arg::NONE;

/// An argument of a call. It must not outlive its slices. A descriptor is the caller's.
#[inline]
fn raw(arg: &Arg<'_>) -> ffi::waywire_arg {
    let with_bytes = |kind, bytes: &[u8]| ffi::waywire_arg {
        kind,
        bytes: bytes.as_ptr().cast(),
        length: bytes.len(),
        ..NO_ARG
    };
    match *arg {
        Arg::Int(i) => ffi::waywire_arg { kind: ffi::WAYWIRE_INT, i, ..NO_ARG },
        Arg::Uint(u) => ffi::waywire_arg { kind: ffi::WAYWIRE_UINT, u, ..NO_ARG },
        Arg::Fixed(number) => {
            ffi::waywire_arg { kind: ffi::WAYWIRE_FIXED, i: number.raw(), ..NO_ARG }
        }
        Arg::Str(Some(text)) => with_bytes(ffi::WAYWIRE_STRING, text),
        Arg::Str(None) => ffi::waywire_arg { kind: ffi::WAYWIRE_NULL_STRING, ..NO_ARG },
        Arg::Object(Some(object)) => {
            ffi::waywire_arg { kind: ffi::WAYWIRE_OBJECT, object: object.0, ..NO_ARG }
        }
        Arg::Object(None) => ffi::waywire_arg { kind: ffi::WAYWIRE_NULL_OBJECT, ..NO_ARG },
        Arg::NewId => ffi::waywire_arg { kind: ffi::WAYWIRE_NEW, ..NO_ARG },
        Arg::Array(bytes) => with_bytes(ffi::WAYWIRE_ARRAY, bytes),
        Arg::Fd(fd) => {
            ffi::waywire_arg { kind: ffi::WAYWIRE_FD, u: fd.as_raw_fd() as u32, ..NO_ARG }
        }
    }
}

/// What `next` of an end has read.
#[derive(Debug)]
pub struct Report(ffi::waywire_report);

// SAFETY: the pointers lead into the end to which the report is private, and the two move together.
unsafe impl Send for Report {}

/// The slice that the library lends. Its pointer may be null if it is empty.
///
/// # Safety
///
/// The pointer leads to so many items, which stay as they are as long as `'a` lasts.
#[inline]
unsafe fn lent<'a, T>(items: *const T, length: usize) -> &'a [T] {
    if length == 0 {
        return &[];
    }
    // SAFETY: the caller says so, and a slice that is not empty is never null.
    unsafe { slice::from_raw_parts(items, length) }
}

/// The object that a call has written, with id 0 if there is none.
#[inline]
fn some(object: ffi::waywire_object) -> Option<Object> {
    (object.id != 0).then_some(Object(object))
}

impl Report {
    /// A report that `next` is to fill.
    pub fn nothing() -> Report {
        Report(ffi::waywire_report {
            kind: 0,
            opcode: 0,
            target: ffi::waywire_object::NONE,
            arg_count: 0,
            tokens: ptr::null(),
            token_count: 0,
            id: 0,
            code: 0,
            named: 0,
            spelling: 0,
            text: ptr::null(),
            text_length: 0,
            place: 0,
            offset: 0,
            replaced: ffi::waywire_object::NONE,
            interface: 0,
            forgotten: false,
            version: 0,
            user: ptr::null_mut(),
            replaced_user: ptr::null_mut(),
            args: [NO_ARG; MAX_ARGS],
        })
    }

    #[inline]
    pub fn kind(&self) -> u32 {
        self.0.kind
    }

    #[inline]
    pub fn opcode(&self) -> u16 {
        self.0.opcode as u16
    }

    #[inline]
    pub fn interface(&self) -> Interface {
        Interface(self.0.interface)
    }

    #[inline]
    pub fn version(&self) -> u32 {
        self.0.version
    }

    #[inline]
    pub fn is_forgotten(&self) -> bool {
        self.0.forgotten
    }

    #[inline]
    pub fn replaced(&self) -> Option<Object> {
        some(self.0.replaced)
    }

    /// The line of the report, as a trace has it.
    pub fn line(&self, tables: &Tables, sender: Sender) -> String {
        // SAFETY: the tables are the library's, the report is one that `next` of an end wrote, which
        // has not been called since, and no line is written.
        let length = unsafe {
            ffi::waywire_report_line(tables.at(), sender.number(), &self.0, ptr::null_mut(), 0)
        };
        let mut line = vec![0_u8; length + 1];
        // SAFETY: as above, and the line has room for so many bytes.
        unsafe {
            let room = line.len();
            ffi::waywire_report_line(
                tables.at(),
                sender.number(),
                &self.0,
                line.as_mut_ptr().cast(),
                room,
            )
        };
        line.pop();
        String::from_utf8_lossy(&line).into_owned()
    }

    #[inline]
    pub fn target(&self) -> Object {
        Object(self.0.target)
    }

    pub fn id(&self) -> u32 {
        self.0.id
    }

    pub fn code(&self) -> u32 {
        self.0.code
    }

    pub fn named(&self) -> Named {
        match self.0.named {
            ffi::WAYWIRE_OBJECT => Named::Live(self.target()),
            ffi::WAYWIRE_DEAD_OBJECT => Named::Dead(self.target()),
            _ => Named::Null,
        }
    }

    #[inline]
    pub fn args(&self) -> ArgsOf<'_> {
        ArgsOf(self.0.args[..self.0.arg_count].iter())
    }

    fn tokens(&self) -> &[u32] {
        // SAFETY: `next` of an end wrote the pointer and the length. What is there stays as it is until
        // the end reads again, takes bytes in, changes its tables or is given up or freed: the header
        // says so, and that calls which write leave it. All those calls take the `Connection` that has
        // both the end and this report by a `&mut`, or drop it, so there is none while the report is
        // borrowed. A call that writes may come meanwhile.
        unsafe { lent(self.0.tokens, self.0.token_count) }
    }

    pub fn text(&self) -> &[u8] {
        // SAFETY: as in `tokens`.
        unsafe { lent(self.0.text.cast(), self.0.text_length) }
    }

    fn fault(&self, status: u32) -> NextError {
        let kind = fault_kind(status, self.0.place, self.0.spelling);
        NextError::Fault(Fault { kind, offset: self.0.offset })
    }

    /// Why no message was read, with a status that is not `OK`.
    #[cold]
    fn error(&self, status: u32) -> NextError {
        match status {
            ffi::WAYWIRE_OUT_FULL => NextError::OutFull,
            ffi::WAYWIRE_NO_MEMORY => NextError::NoMemory,
            ffi::WAYWIRE_FAULT_BAD_SIZE..=ffi::WAYWIRE_FAULT_TOO_MANY_OBJECTS => self.fault(status),
            _ => NextError::Failed,
        }
    }

    /// The same error, with what the report has about a fault that is left to the caller.
    pub fn unanswered(&self, error: NextError) -> Unanswered<'_> {
        Unanswered { error, target: self.0.id, opcode: self.opcode(), message: self.text() }
    }
}

fn fault_kind(status: u32, place: usize, spelling: u32) -> FaultKind {
    match status {
        ffi::WAYWIRE_FAULT_BAD_SIZE => FaultKind::BadSize,
        ffi::WAYWIRE_FAULT_UNKNOWN_OBJECT => FaultKind::UnknownObject,
        ffi::WAYWIRE_FAULT_UNKNOWN_MESSAGE => FaultKind::UnknownMessage,
        ffi::WAYWIRE_FAULT_BAD_ARGUMENT => FaultKind::BadArgument { place, spelling },
        ffi::WAYWIRE_FAULT_BAD_OBJECT => FaultKind::BadObject { place },
        ffi::WAYWIRE_FAULT_BAD_NEW_ID => FaultKind::BadNewId { place },
        ffi::WAYWIRE_FAULT_TRAILING_BYTES => FaultKind::TrailingBytes,
        ffi::WAYWIRE_FAULT_MISSING_DESCRIPTOR => FaultKind::MissingDescriptor,
        ffi::WAYWIRE_FAULT_BAD_BIND => FaultKind::BadBind,
        _ => FaultKind::TooManyObjects,
    }
}

/// The arguments of a report.
#[derive(Clone)]
pub struct ArgsOf<'a>(slice::Iter<'a, ffi::waywire_arg>);

impl<'a> Iterator for ArgsOf<'a> {
    type Item = ArgOf<'a>;

    #[inline]
    fn next(&mut self) -> Option<ArgOf<'a>> {
        self.0.next().map(ArgOf)
    }

    fn size_hint(&self) -> (usize, Option<usize>) {
        self.0.size_hint()
    }
}

/// One argument of a report.
pub struct ArgOf<'a>(&'a ffi::waywire_arg);

impl<'a> ArgOf<'a> {
    #[inline]
    pub fn kind(&self) -> u32 {
        self.0.kind
    }

    pub fn int(&self) -> i32 {
        self.0.i
    }

    pub fn uint(&self) -> u32 {
        self.0.u
    }

    pub fn object(&self) -> Object {
        Object(self.0.object)
    }

    pub fn bytes(&self) -> &'a [u8] {
        // SAFETY: as in `Report::tokens`; the report is borrowed for `'a`.
        unsafe { lent(self.0.bytes.cast(), self.0.length) }
    }

    /// The text of a string, or of the interface of wl_registry.bind.
    pub fn text(&self) -> &'a CStr {
        assert!(!self.0.bytes.is_null());
        // SAFETY: as in `Report::tokens`. The header says that a string of a report ends with a NUL which
        // its length does not count. A message with a NUL before that is at fault, and has no report.
        unsafe {
            let with_nul = slice::from_raw_parts(self.0.bytes.cast(), self.0.length + 1);
            CStr::from_bytes_with_nul_unchecked(with_nul)
        }
    }
}

/// The text of a static string of the library.
///
/// # Safety
///
/// The pointer leads to a static string that ends with a NUL.
unsafe fn static_text(text: *const c_char) -> &'static str {
    // SAFETY: the caller says so.
    unsafe { CStr::from_ptr(text) }.to_str().unwrap_or("")
}

/// What a status means.
pub fn text_of(status: u32) -> &'static str {
    // SAFETY: any number is allowed, and for each the call returns a static string.
    unsafe { static_text(ffi::waywire_strerror(status)) }
}

/// How an argument is malformed.
pub fn spelling_of(spelling: u32) -> &'static str {
    // SAFETY: as in `text_of`.
    unsafe { static_text(ffi::waywire_strspelling(spelling)) }
}

#[cfg(test)]
mod tests {
    use super::*;
    use crate::args::Fixed;
    use std::os::fd::AsFd;

    /// The library copies no argument of a call if each has an address, whatever its kind.
    #[test]
    fn arguments_have_addresses() {
        let (object, input) = (Some(Object::NONE), std::io::stdin());
        let args = [
            Arg::Int(1),
            Arg::Uint(1),
            Arg::Fixed(Fixed::from_raw(1)),
            Arg::Str(None),
            Arg::Str(Some(b"")),
            Arg::Object(None),
            Arg::Object(object),
            Arg::NewId,
            Arg::Array(b""),
            Arg::Fd(input.as_fd()),
        ];
        assert!(args.iter().all(|it| !raw(it).bytes.is_null()));
    }
}
