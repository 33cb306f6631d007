//! The calls of waywire-socket.h that move bytes and descriptors, and what std does not have: poll.

use super::end::End;
use crate::connection::Connection;
use crate::error::{Failed, InboxFull};
use crate::socket::Link;
use std::ffi::{c_int, c_ulong, CString};
use std::io;
use std::mem::ManuallyDrop;
use std::os::fd::{AsRawFd, BorrowedFd, FromRawFd, OwnedFd, RawFd};
use std::os::unix::ffi::OsStrExt;
use std::os::unix::net::UnixStream;
use std::path::Path;
use std::ptr::{self, NonNull};
use waywire_sys as ffi;
use waywire_sys::system::{self, pollfd};

/// The most descriptors that come at once.
const MOST: usize = ffi::WAYWIRE_SOCKET_DESCRIPTORS as usize;

/// The least number of a duplicate: those below it are the standard streams.
const BEHIND_STREAMS: c_int = 3;

/// A descriptor that is waited for.
#[repr(transparent)]
pub struct Pollfd(pollfd);

/// Whether bytes and descriptors that came are lost with this error of receiving.
pub fn has_lost(error: &io::Error) -> bool {
    matches!(error.raw_os_error(), Some(system::EMFILE | system::EOVERFLOW))
}

/// Whether the kernel had no room or no memory. Nothing is lost then.
pub fn had_no_room(error: &io::Error) -> bool {
    matches!(error.raw_os_error(), Some(system::ENOMEM | system::ENOBUFS | system::ETOOMANYREFS))
}

/// The number of bytes that a call returns, or the error that it leaves.
fn counted(result: isize) -> io::Result<usize> {
    usize::try_from(result).map_err(|_| io::Error::last_os_error())
}

/// The descriptor that a call has made.
///
/// # Safety
///
/// The number is that of a descriptor that the call has made and that nobody has yet, or below 0.
unsafe fn made(number: c_int) -> io::Result<OwnedFd> {
    if number < 0 {
        return Err(io::Error::last_os_error());
    }
    // SAFETY: the caller says so.
    Ok(unsafe { OwnedFd::from_raw_fd(number) })
}

/// A path for C. Only an absolute one may be given to a call: for any other name it would read the
/// environment, which another thread may change by std's calls at that time.
fn in_c(path: &Path) -> io::Result<CString> {
    assert!(path.is_absolute(), "{} is no absolute path", path.display());
    Ok(CString::new(path.as_os_str().as_bytes())?)
}

/// Connects to the compositor at an absolute path.
pub fn connect(path: &Path) -> io::Result<OwnedFd> {
    let path = in_c(path)?;
    // SAFETY: the path is a string of C; what comes back is a new descriptor.
    unsafe { made(ffi::waywire_socket_connect_to(path.as_ptr(), -1)) }
}

/// A duplicate of a descriptor that this process was started with. The number may be any: that of a
/// descriptor which belongs to somebody else here stays theirs.
pub fn inherited(number: RawFd) -> io::Result<OwnedFd> {
    // SAFETY: the call refuses a number that is no open descriptor; it makes a new one.
    let duplicate =
        unsafe { made(system::fcntl(number, system::F_DUPFD_CLOEXEC, BEHIND_STREAMS)) }?;
    if number >= BEHIND_STREAMS {
        // SAFETY: as above; programs that this one starts do not get the descriptor.
        unsafe { system::fcntl(number, system::F_SETFD, system::FD_CLOEXEC) };
    }
    Ok(duplicate)
}

/// The parts of a call that only reads them.
fn parts_of(parts: [&[u8]; 2]) -> [ffi::waywire_part; 2] {
    parts.map(|it| ffi::waywire_part { bytes: it.as_ptr().cast_mut().cast(), length: it.len() })
}

pub fn send(
    socket: BorrowedFd<'_>,
    parts: [&[u8]; 2],
    descriptors: &[BorrowedFd<'_>],
) -> io::Result<usize> {
    let parts = parts_of(parts);
    // SAFETY: the parts and the descriptors are lent for the call, which only reads them; a BorrowedFd
    // is laid out as the number of its descriptor.
    let sent = unsafe {
        let (first, count) = (descriptors.as_ptr().cast(), descriptors.len());
        ffi::waywire_socket_send(socket.as_raw_fd(), parts.as_ptr(), first, count)
    };
    counted(sent)
}

pub fn receive(
    socket: BorrowedFd<'_>,
    parts: [&mut [u8]; 2],
    descriptors: &mut Vec<OwnedFd>,
) -> io::Result<usize> {
    let parts =
        parts.map(|it| ffi::waywire_part { bytes: it.as_mut_ptr().cast(), length: it.len() });
    let (mut numbers, mut count) = ([-1; MOST], 0);
    // SAFETY: the parts are lent for the call, and `numbers` has room for the most descriptors.
    let came = unsafe {
        let numbers = numbers.as_mut_ptr();
        ffi::waywire_socket_receive(socket.as_raw_fd(), parts.as_ptr(), numbers, &mut count)
    };
    let came = counted(came)?;
    // SAFETY: the kernel has made these descriptors for this process, and nobody has them yet.
    descriptors.extend(numbers[..count].iter().map(|it| unsafe { OwnedFd::from_raw_fd(*it) }));
    Ok(came)
}

impl End {
    /// Sends what waits, and closes the descriptors that went.
    pub fn flush(&mut self, socket: BorrowedFd<'_>) -> io::Result<()> {
        // SAFETY: the end is the library's, and owns the descriptors that are its tokens.
        match unsafe { ffi::waywire_socket_flush(socket.as_raw_fd(), self.at()) } {
            0 => Ok(()),
            _ => Err(io::Error::last_os_error()),
        }
    }

    /// Receives once. The descriptors that come are the end's.
    pub fn fill(&mut self, socket: BorrowedFd<'_>) -> io::Result<usize> {
        if self.has_failed() {
            return Err(io::Error::other(Failed));
        }
        let room = self.in_room();
        if room.bytes == 0 || room.tokens < MOST {
            return Err(io::Error::other(InboxFull));
        }
        // SAFETY: the end is the library's, and becomes the owner of its tokens.
        counted(unsafe { ffi::waywire_socket_fill(socket.as_raw_fd(), self.at()) })
    }
}

/// The parts of a link, whose drop does not run.
pub fn parts<R>(link: Link<R>) -> (Connection<R>, UnixStream) {
    let link = ManuallyDrop::new(link);
    let Link { end, socket, .. } = &*link;
    // SAFETY: each part is moved out once, and the link, whose other fields own nothing, is neither used nor
    // dropped any more.
    unsafe { (ptr::read(end), ptr::read(socket)) }
}

/// A socket at which clients connect, closed when it is dropped.
#[derive(Debug)]
pub struct Listening(NonNull<ffi::waywire_listening_socket>);

// SAFETY: the header says so: the library has no state but the environment, which these calls do not read,
// and a listening socket is bound to no thread. It is used by one call at a time, since it is not `Sync`.
unsafe impl Send for Listening {}

impl Drop for Listening {
    fn drop(&mut self) {
        // SAFETY: the socket is the library's, and closed here alone.
        unsafe { ffi::waywire_listening_socket_close(self.0.as_ptr()) }
    }
}

impl Listening {
    /// Listens at an absolute path.
    pub fn new(path: &Path) -> io::Result<Listening> {
        let path = in_c(path)?;
        // SAFETY: the path is a string of C.
        let made = unsafe { ffi::waywire_socket_listen(path.as_ptr()) };
        NonNull::new(made).map(Listening).ok_or_else(io::Error::last_os_error)
    }

    pub fn fd(&self) -> BorrowedFd<'_> {
        // The descriptor is open until the socket is closed.
        // SAFETY: the listening socket is the library's, and its descriptor is open as long as `self`
        // lives.
        unsafe { BorrowedFd::borrow_raw(ffi::waywire_listening_socket_fd(self.0.as_ptr())) }
    }

    pub fn accept(&self) -> io::Result<OwnedFd> {
        // SAFETY: the listening socket is the library's, and lives as long as `self`; what comes back is a
        // new descriptor, or below 0.
        unsafe { made(ffi::waywire_listening_socket_accept(self.0.as_ptr())) }
    }
}

impl Pollfd {
    /// A descriptor that is waited for until it can be read, and if `writes`, also until it can be
    /// written.
    pub fn new((descriptor, writes): (BorrowedFd<'_>, bool)) -> Pollfd {
        let events = if writes { system::POLLIN | system::POLLOUT } else { system::POLLIN };
        Pollfd(pollfd { fd: descriptor.as_raw_fd(), events, revents: 0 })
    }

    /// Whether the last call of [`poll`] has found it ready.
    pub fn is_ready(&self) -> bool {
        self.0.revents != 0
    }
}

/// Waits for one of these, so many milliseconds at most; below 0 is no limit.
pub fn poll(polled: &mut [Pollfd], milliseconds: c_int) -> io::Result<()> {
    let (first, count) = (polled.as_mut_ptr().cast(), polled.len() as c_ulong);
    // SAFETY: the call reads and writes these; a Pollfd is laid out as a pollfd.
    if unsafe { system::poll(first, count, milliseconds) } < 0 {
        return Err(io::Error::last_os_error());
    }
    Ok(())
}
