//! The calls of ends. Each is declared once and wrapped once, also if both ends have it.

use super::{lent, raw, some, tables_error, Reading, Tables};
use crate::amounts::{Amounts, Announced, Sizes};
use crate::args::{Arg, MAX_ARGS};
use crate::error::{Failed, GlobalError, NewError, NextError, SendError, TablesError};
use crate::tables::{Interface, Object};
use std::ffi::{c_char, CString};
use std::mem::{self, MaybeUninit};
use std::os::fd::{AsFd, BorrowedFd, FromRawFd, OwnedFd, RawFd};
use std::ptr::{self, NonNull};
use std::slice;
use waywire_sys as ffi;

const NO_PART: ffi::waywire_part = ffi::waywire_part { bytes: ptr::null_mut(), length: 0 };

/// A call of the library that binds a global.
type Bind = unsafe extern "C" fn(
    ffi::waywire_client,
    ffi::waywire_object,
    u32,
    *const c_char,
    u32,
    *mut ffi::waywire_object,
) -> u32;

/// Why a message was not written.
fn send_error(status: u32, place: usize) -> SendError {
    match status {
        ffi::WAYWIRE_FAILED => SendError::Failed,
        ffi::WAYWIRE_STALE => SendError::Stale,
        ffi::WAYWIRE_TOO_OLD => SendError::TooOld,
        ffi::WAYWIRE_WRONG_ARGS => SendError::WrongArgs { place },
        ffi::WAYWIRE_BAD_OBJECT => SendError::BadObject { place },
        ffi::WAYWIRE_BAD_BIND => SendError::BadBind,
        ffi::WAYWIRE_TOO_LONG => SendError::TooLong,
        ffi::WAYWIRE_FULL => SendError::Full,
        ffi::WAYWIRE_NO_IDS => SendError::NoIds,
        ffi::WAYWIRE_NO_MEMORY => SendError::NoMemory,
        ffi::WAYWIRE_NOT_DROPPABLE => SendError::NotDroppable,
        _ => SendError::NoSuchMessage,
    }
}

/// Whether a call that writes, and whose arguments have no places, has written.
fn send_result(status: u32) -> Result<(), SendError> {
    match status {
        ffi::WAYWIRE_OK => Ok(()),
        _ => Err(send_error(status, 0)),
    }
}

/// Gives an end the first descriptors of a list, those that it has taken in.
fn feed_result(
    status: u32,
    fed: ffi::waywire_amounts,
    descriptors: &mut Vec<OwnedFd>,
) -> Result<Amounts, Failed> {
    if fed.tokens > 0 {
        descriptors.drain(..fed.tokens).for_each(mem::forget);
    }
    match status {
        ffi::WAYWIRE_OK => Ok(Amounts::of(fed)),
        _ => Err(Failed),
    }
}

/// The descriptor that an end gives away.
///
/// # Safety
///
/// The token is one of the end's, which has just given it out.
unsafe fn given_out(token: u32) -> OwnedFd {
    // SAFETY: the end owned the descriptor, and has given it out once.
    unsafe { OwnedFd::from_raw_fd(token as RawFd) }
}

fn global_result(status: u32) -> Result<(), GlobalError> {
    match status {
        ffi::WAYWIRE_OK => Ok(()),
        ffi::WAYWIRE_FAILED => Err(GlobalError::Failed),
        ffi::WAYWIRE_TOO_MANY_GLOBALS => Err(GlobalError::TooMany),
        ffi::WAYWIRE_NO_SUCH_GLOBAL => Err(GlobalError::NoSuchGlobal),
        ffi::WAYWIRE_NO_MEMORY => Err(GlobalError::NoMemory),
        _ => Err(GlobalError::BadGlobal),
    }
}

/// The most descriptors of a message, and so of a first byte.
const MOST: usize = MAX_ARGS;
/// As many descriptors as are moved at one time.
const AT_ONCE: usize = 28;
/// The most tokens that an outbox has.
const MOST_IN_OUTBOX: usize = 65_536;

/// What goes with one `sendmsg`: its bytes, and the descriptors that go with the first of them.
#[derive(Clone, Debug)]
pub struct Going<'a> {
    pub parts: [&'a [u8]; 2],
    tokens: [u32; MOST],
    count: usize,
}

impl<'a> Going<'a> {
    pub fn descriptors(&self) -> &[BorrowedFd<'a>] {
        let tokens = &self.tokens[..self.count];
        // SAFETY: the tokens are descriptors of the end's, which is lent for `'a` and closes none
        // meanwhile; a BorrowedFd is laid out as the number of its descriptor.
        unsafe { slice::from_raw_parts(tokens.as_ptr().cast(), tokens.len()) }
    }

    fn length(&self) -> usize {
        self.parts[0].len() + self.parts[1].len()
    }
}

/// The slice that an end lends to be written. Its pointer may be null if it is empty.
///
/// # Safety
///
/// The pointer leads to so many bytes, which nothing else uses as long as `'a` lasts.
unsafe fn lent_mut<'a>(part: ffi::waywire_part) -> &'a mut [u8] {
    if part.length == 0 {
        return &mut [];
    }
    // SAFETY: the caller says so, and a slice that is not empty is never null.
    unsafe { slice::from_raw_parts_mut(part.bytes.cast(), part.length) }
}

/// An end, freed when it is dropped, with the descriptors that wait in it closed: a client's or a
/// server's. [`Connection`](crate::Connection)
/// knows by its type which of the two it is, and offers only the calls of that end. The library
/// refuses the others.
///
/// A call that takes `&self` leaves what the last report points to: the header says that only the calls
/// that read, take bytes in, change tables or give the end up end a report. Those take `&mut self`.
#[derive(Debug)]
pub struct End {
    at: NonNull<ffi::waywire_end>,
}

// SAFETY: the header says so: an end is bound to no thread, and used by one call at a time,
// which it is since it is not `Sync`.
unsafe impl Send for End {}

impl Drop for End {
    fn drop(&mut self) {
        drop(self.take_waiting_tokens());
        // SAFETY: the end is the library's, and freed here alone.
        unsafe { ffi::waywire_end_free(self.at.as_ptr()) }
    }
}

// A pointer that a call is given is never null, so each call with a status that is not read answers OK.
impl End {
    pub(super) fn at(&mut self) -> *mut ffi::waywire_end {
        self.at.as_ptr()
    }

    pub fn new_client(tables: &Tables, sizes: &Sizes) -> Result<End, NewError> {
        let mut made = ffi::waywire_client { end: ptr::null_mut() };
        // SAFETY: the tables are the library's and lent for the call; the sizes and `made` are local or
        // lent.
        let status = unsafe { ffi::waywire_client_new(tables.at(), &sizes.raw(), &mut made) };
        End::made_by_new(status, made.end)
    }

    pub fn new_server(tables: &Tables, sizes: &Sizes) -> Result<End, NewError> {
        let mut made = ffi::waywire_server { end: ptr::null_mut() };
        // SAFETY: as in `new_client`.
        let status = unsafe { ffi::waywire_server_new(tables.at(), &sizes.raw(), &mut made) };
        End::made_by_new(status, made.end)
    }

    /// The end that a call of `new` has written, null if it has made none.
    fn made_by_new(status: u32, made: *mut ffi::waywire_end) -> Result<End, NewError> {
        match status {
            ffi::WAYWIRE_BAD_SIZES => Err(NewError::BadSizes),
            _ => {
                let at = NonNull::new(made).ok_or(NewError::NoMemory)?;
                Ok(End { at })
            }
        }
    }

    pub fn display(&self) -> Object {
        // SAFETY: the end is the library's, and lives as long as `self`.
        Object(unsafe { ffi::waywire_end_display(self.at.as_ptr()) })
    }

    #[inline]
    pub fn live(&self, object: Object) -> Option<(Interface, u32)> {
        let (mut interface, mut version) = (0, 0);
        // SAFETY: the end is the library's, and lives as long as `self`; what is written is local.
        let status = unsafe {
            ffi::waywire_end_live(self.at.as_ptr(), object.0, &mut interface, &mut version)
        };
        (status == ffi::WAYWIRE_OK).then_some((Interface(interface), version))
    }

    pub fn object_after(&self, id: u32) -> Option<Object> {
        let mut object = Object::NONE;
        // SAFETY: the end is the library's, and lives as long as `self`; what is written is local.
        let status = unsafe { ffi::waywire_end_object_after(self.at.as_ptr(), id, &mut object.0) };
        (status == ffi::WAYWIRE_OK).then_some(object)
    }

    pub fn object_count(&self) -> usize {
        // SAFETY: the end is the library's, and lives as long as `self`.
        unsafe { ffi::waywire_end_object_count(self.at.as_ptr()) }
    }

    pub fn has_failed(&self) -> bool {
        // SAFETY: the end is the library's, and lives as long as `self`.
        unsafe { ffi::waywire_end_has_failed(self.at.as_ptr()) }
    }

    pub fn in_room(&self) -> Amounts {
        // SAFETY: the end is the library's, and lives as long as `self`.
        Amounts::of(unsafe { ffi::waywire_end_in_room(self.at.as_ptr()) })
    }

    pub fn out_room(&self) -> Amounts {
        // SAFETY: the end is the library's, and lives as long as `self`.
        Amounts::of(unsafe { ffi::waywire_end_out_room(self.at.as_ptr()) })
    }

    pub fn is_drained(&self) -> bool {
        // SAFETY: the end is the library's, and lives as long as `self`.
        unsafe { ffi::waywire_end_is_drained(self.at.as_ptr()) }
    }

    #[inline]
    pub fn feed(
        &mut self,
        bytes: &[u8],
        descriptors: &mut Vec<OwnedFd>,
    ) -> Result<Amounts, Failed> {
        let mut fed = ffi::waywire_amounts::default();
        // SAFETY: the end is the library's, and lives as long as `self`; the slices are lent for the call.
        // An OwnedFd is laid out as the number of its descriptor, which is a token.
        let status = unsafe {
            ffi::waywire_end_feed(
                self.at.as_ptr(),
                bytes.as_ptr().cast(),
                bytes.len(),
                descriptors.as_ptr().cast(),
                descriptors.len(),
                &mut fed,
            )
        };
        feed_result(status, fed, descriptors)
    }

    #[inline]
    pub fn goes(&self, bytes: usize, tokens: usize) -> Amounts {
        // SAFETY: the end is the library's, and lives as long as `self`.
        Amounts::of(unsafe { ffi::waywire_end_goes(self.at.as_ptr(), bytes, tokens) })
    }

    #[inline]
    pub fn take(
        &mut self,
        bytes: &mut [u8],
        descriptors: &mut Vec<OwnedFd>,
        most: usize,
    ) -> Amounts {
        let most = most.min(MOST_IN_OUTBOX);
        descriptors.reserve(most);
        let room = descriptors.spare_capacity_mut();
        let mut taken = ffi::waywire_amounts::default();
        // SAFETY: the end is the library's, and lives as long as `self`; the slice is lent for the call,
        // and the list has room for `most` more. An OwnedFd is laid out as the number of its descriptor.
        unsafe {
            ffi::waywire_end_take(
                self.at.as_ptr(),
                bytes.as_mut_ptr().cast(),
                bytes.len(),
                room.as_mut_ptr().cast(),
                most,
                &mut taken,
            )
        };
        // SAFETY: an OwnedFd is laid out as the number of its descriptor, and the end has
        // given out so many, which were written behind the others.
        unsafe { descriptors.set_len(descriptors.len() + taken.tokens) };
        Amounts::of(taken)
    }

    pub fn peek(&mut self) -> Going<'_> {
        let mut parts = [NO_PART; 2];
        let mut tokens = [0; MOST];
        let mut count = 0;
        // SAFETY: the end is the library's, and lives as long as `self`; the arrays are local, and have
        // room for what is written.
        unsafe {
            ffi::waywire_end_peek(
                self.at.as_ptr(),
                parts.as_mut_ptr(),
                tokens.as_mut_ptr(),
                tokens.len(),
                &mut count,
            )
        };
        // SAFETY: the parts lie in the outbox, and stay as they are until the end's next call, before which
        // this loan of `self` ends.
        let parts = parts.map(|it| unsafe { lent(it.bytes.cast_const().cast(), it.length) });
        Going { parts, tokens, count }
    }

    pub fn sent(&mut self, bytes: usize) -> Amounts {
        let mut all = Amounts::default();
        loop {
            let going = self.peek();
            let (tokens, count) = (going.tokens, going.count);
            let length = going.length().min(bytes - all.bytes);
            if length == 0 {
                return all;
            }
            // SAFETY: the end is the library's, and lives as long as `self`; `going` is not used any more.
            let went = unsafe { ffi::waywire_end_sent(self.at.as_ptr(), length) };
            // SAFETY: all of these have gone out of the outbox with the first byte.
            tokens[..count].iter().for_each(|it| drop(unsafe { given_out(*it) }));
            all.bytes += went.bytes;
            all.tokens += count;
        }
    }

    pub fn space(&mut self) -> [&mut [u8]; 2] {
        let mut parts = [NO_PART; 2];
        // SAFETY: the end is the library's, and lives as long as `self`; the array has room for both parts.
        unsafe { ffi::waywire_end_space(self.at.as_ptr(), parts.as_mut_ptr()) };
        // The two parts have no byte in common.
        // SAFETY: the parts lie in the inbox, have no byte in common, and are the caller's until the end's
        // next call, before which this loan of `self` ends.
        parts.map(|it| unsafe { lent_mut(it) })
    }

    pub fn received(
        &mut self,
        bytes: usize,
        descriptors: &mut Vec<OwnedFd>,
    ) -> Result<Amounts, Failed> {
        let mut fed = ffi::waywire_amounts::default();
        // SAFETY: the end is the library's, and lives as long as `self`; the list is lent for the call. An
        // OwnedFd is laid out as the number of its descriptor, which is a token.
        let status = unsafe {
            ffi::waywire_end_received(
                self.at.as_ptr(),
                bytes,
                descriptors.as_ptr().cast(),
                descriptors.len(),
                &mut fed,
            )
        };
        feed_result(status, fed, descriptors)
    }

    pub fn take_waiting_tokens(&mut self) -> Vec<OwnedFd> {
        let mut waiting = Vec::new();
        loop {
            let (mut tokens, mut taken) = ([0; AT_ONCE], 0);
            // SAFETY: the end is the library's, and lives as long as `self`; the array is local, and has
            // room for as many as are said.
            unsafe {
                ffi::waywire_end_take_waiting_tokens(
                    self.at.as_ptr(),
                    tokens.as_mut_ptr(),
                    tokens.len(),
                    &mut taken,
                )
            };
            if taken == 0 {
                return waiting;
            }
            // SAFETY: the end has given these out.
            waiting.extend(tokens[..taken].iter().map(|it| unsafe { given_out(*it) }));
        }
    }

    /// Sends a message with a duplicate of each of its descriptors.
    #[inline(always)]
    pub fn send(
        &self,
        target: Object,
        opcode: u16,
        args: &[Arg<'_>],
    ) -> Result<Option<Object>, SendError> {
        if args.iter().any(|it| matches!(it, Arg::Fd(_))) {
            return self.send_duplicates(target, opcode, args);
        }
        self.send_own(target, opcode, args)
    }

    /// The same. The end owns the duplicates if the message is written; else they are closed.
    #[cold]
    fn send_duplicates(
        &self,
        target: Object,
        opcode: u16,
        args: &[Arg<'_>],
    ) -> Result<Option<Object>, SendError> {
        let mut duplicates = Vec::new();
        for arg in args {
            let Arg::Fd(fd) = arg else { continue };
            let made = fd.try_clone_to_owned();
            duplicates.push(made.map_err(|why| SendError::NotDuplicated {
                error: why.raw_os_error().unwrap_or_default(),
            })?);
        }
        let mut own = duplicates.iter().map(|it| Arg::Fd(it.as_fd()));
        let args: Vec<Arg<'_>> = args
            .iter()
            .map(|it| match it {
                Arg::Fd(_) => own.next().unwrap_or(*it),
                _ => *it,
            })
            .collect();
        let sent = self.send_own(target, opcode, &args)?;
        duplicates.into_iter().for_each(mem::forget);
        Ok(sent)
    }

    /// Sends a message with these descriptors, which are the end's if the message is written.
    #[inline(always)]
    fn send_own(
        &self,
        target: Object,
        opcode: u16,
        args: &[Arg<'_>],
    ) -> Result<Option<Object>, SendError> {
        // One more than a message can have, so that too many are refused at their index.
        const LENGTH: usize = MOST + 1;
        let mut given = [const { MaybeUninit::<ffi::waywire_arg>::uninit() }; LENGTH];
        let count = args.len().min(LENGTH);
        for (slot, arg) in given.iter_mut().zip(args) {
            slot.write(raw(arg));
        }
        let (mut made, mut index) =
            (MaybeUninit::<ffi::waywire_object>::uninit(), MaybeUninit::uninit());
        // SAFETY: the end is the library's, and lives as long as `self`; what is written is local, and the first `count` arguments were written.
        let status = unsafe {
            ffi::waywire_end_send(
                self.at.as_ptr(),
                target.0,
                opcode,
                given.as_ptr().cast(),
                count,
                made.as_mut_ptr(),
                index.as_mut_ptr(),
            )
        };
        match status {
            ffi::WAYWIRE_OK => {
                // SAFETY: the call has written it, with id 0 if the message makes no object.
                Ok(some(unsafe { made.assume_init() }))
            }
            ffi::WAYWIRE_WRONG_ARGS | ffi::WAYWIRE_BAD_OBJECT => {
                // SAFETY: the call has written the index with these two.
                Err(send_error(status, unsafe { index.assume_init() }))
            }
            _ => Err(send_error(status, 0)),
        }
    }

    /// Sends a message whose arguments are numbers alone, given as their words.
    #[inline]
    pub fn send_words(&self, target: Object, opcode: u16, words: &[u32]) -> Result<(), SendError> {
        let mut index = 0;
        // SAFETY: the end is the library's, and lives as long as `self`; the slice is lent for the call.
        let status = unsafe {
            ffi::waywire_end_send_words(
                self.at.as_ptr(),
                target.0,
                opcode,
                words.as_ptr(),
                words.len(),
                &mut index,
            )
        };
        match status {
            ffi::WAYWIRE_OK => Ok(()),
            _ => Err(send_error(status, index)),
        }
    }

    /// Reads a message. The descriptors of the one before are closed, if nobody has taken them.
    #[inline]
    pub fn next(&mut self, reading: &mut Reading) -> Result<(), NextError> {
        reading.close();
        // SAFETY: the end is the library's, and lives as long as `self`; the report is lent for the call.
        let status = unsafe { ffi::waywire_end_next(self.at.as_ptr(), &mut reading.report.0) };
        if status != ffi::WAYWIRE_OK {
            return Err(reading.report.error(status));
        }
        // SAFETY: the end has just written this report, and has given its tokens away.
        unsafe { reading.hold() };
        Ok(())
    }

    pub fn more_tables(&mut self, text: &[u8]) -> Result<(), TablesError> {
        let (mut line, mut rule) = (0, 0);
        // SAFETY: the end is the library's, and lives as long as `self`; the text is lent for the call, and
        // what is written is local.
        let status = unsafe {
            ffi::waywire_end_more_tables(
                self.at.as_ptr(),
                text.as_ptr().cast(),
                text.len(),
                &mut line,
                &mut rule,
            )
        };
        match status {
            ffi::WAYWIRE_OK => Ok(()),
            _ => Err(tables_error(status, line, rule)),
        }
    }

    // What a client alone has.

    fn as_client(&self) -> ffi::waywire_client {
        ffi::waywire_client { end: self.at.as_ptr() }
    }

    pub fn made(&self) -> Option<Object> {
        let mut made = ffi::waywire_object::NONE;
        // SAFETY: the end is the library's, and lives as long as `self`; `made` is local.
        unsafe { ffi::waywire_client_made(self.as_client(), &mut made) };
        some(made)
    }

    pub fn bind(
        &self,
        registry: Object,
        name: u32,
        interface: &str,
        version: u32,
    ) -> Result<Object, SendError> {
        self.bind_by(ffi::waywire_client_bind, registry, name, interface, version)
    }

    pub fn bind_unannounced(
        &self,
        registry: Object,
        name: u32,
        interface: &str,
        version: u32,
    ) -> Result<Object, SendError> {
        self.bind_by(ffi::waywire_client_bind_unannounced, registry, name, interface, version)
    }

    /// No interface has a NUL in its name.
    fn bind_by(
        &self,
        call: Bind,
        registry: Object,
        name: u32,
        interface: &str,
        version: u32,
    ) -> Result<Object, SendError> {
        let interface = CString::new(interface).map_err(|_| SendError::BadBind)?;
        let (mut bound, interface) = (Object::NONE, interface.as_ptr());
        // SAFETY: the end is the library's, and lives as long as `self`; the string ends with a NUL, and
        // `bound` is local.
        send_result(unsafe {
            call(self.as_client(), registry.0, name, interface, version, &mut bound.0)
        })
        .map(|()| bound)
    }

    // What a server alone has.

    fn as_server(&self) -> ffi::waywire_server {
        ffi::waywire_server { end: self.at.as_ptr() }
    }

    pub fn add_global(&self, interface: u16, version: u32) -> Result<u32, GlobalError> {
        let mut name = 0;
        // SAFETY: the end is the library's, and lives as long as `self`; `name` is local.
        let status = unsafe {
            ffi::waywire_server_add_global(self.as_server(), interface, version, &mut name)
        };
        global_result(status).map(|()| name)
    }

    pub fn allow_globals(&self, number: usize) {
        // SAFETY: the end is the library's, and lives as long as `self`.
        let status = unsafe { ffi::waywire_server_allow_globals(self.as_server(), number) };
        debug_assert_eq!(status, ffi::WAYWIRE_OK);
    }

    pub fn withdraw(&self, name: u32) -> Result<(), GlobalError> {
        // SAFETY: the end is the library's, and lives as long as `self`.
        global_result(unsafe { ffi::waywire_server_withdraw(self.as_server(), name) })
    }

    pub fn announce(&self) -> Result<Announced, SendError> {
        let (mut count, mut all) = (0, false);
        // SAFETY: the end is the library's, and lives as long as `self`; what is written is local.
        let status =
            unsafe { ffi::waywire_server_announce(self.as_server(), &mut count, &mut all) };
        send_result(status).map(|()| Announced { count, all })
    }

    pub fn drop_object(&self, object: Object) -> Result<(), SendError> {
        // SAFETY: the end is the library's, and lives as long as `self`.
        send_result(unsafe { ffi::waywire_server_drop_object(self.as_server(), object.0) })
    }

    pub fn end_object(&self, object: Object) -> Result<(), SendError> {
        // SAFETY: the end is the library's, and lives as long as `self`.
        send_result(unsafe { ffi::waywire_server_end_object(self.as_server(), object.0) })
    }

    /// Reads a message as `next` does. A fault is only reported.
    pub fn next_unanswered(&mut self, reading: &mut Reading) -> Result<(), NextError> {
        reading.close();
        // SAFETY: the end is the library's, and lives as long as `self`; the report is lent for the call.
        let status =
            unsafe { ffi::waywire_server_next_unanswered(self.as_server(), &mut reading.report.0) };
        if status != ffi::WAYWIRE_OK {
            return Err(reading.report.error(status));
        }
        // SAFETY: as in `next`.
        unsafe { reading.hold() };
        Ok(())
    }

    pub fn post_error(&self, object: Object, code: u32, text: &str) -> Result<(), SendError> {
        let text = text.split('\0').next().unwrap_or("");
        let text = CString::new(text).unwrap_or_default();
        // SAFETY: the end is the library's, and lives as long as `self`; the string ends with a NUL.
        send_result(unsafe {
            ffi::waywire_server_post_error(self.as_server(), object.0, code, text.as_ptr())
        })
    }
}
