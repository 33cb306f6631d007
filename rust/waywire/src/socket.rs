//! A Unix socket for an end: connecting, listening, and the bytes and descriptors of a [`Link`].
//!
//! This module uses the calls of `waywire-socket.h`. Every descriptor that it makes is close-on-exec. No
//! call raises a signal: if the other end of a socket is closed, the error is
//! [`io::ErrorKind::BrokenPipe`].
//!
//! [`wait`], [`wait_many`], [`Link::wait`], [`Link::dispatch`] and [`Link::round_trip`] wait, each at most
//! as long as its limit says. [`Listener::accept_next`] waits for a client. [`connect`] waits if the
//! compositor has too many clients that it has not accepted. No other call waits.

use crate::args::Value;
use crate::connection::{AsClient, AsServer, Connection};
use crate::error::{NextError, SendError, TablesError, TooSmall};
use crate::report::{Incoming, ProtocolError, Request};
use crate::sys::{self, Pollfd};
use crate::tables::{Object, Tables};
use crate::typed::{EventHandler, RequestHandler};
use crate::wayland::wl_callback::WlCallback;
use crate::wayland::wl_display::{self, WlDisplay};
use crate::writer::Writer;
use std::env;
use std::ffi::{OsStr, OsString};
use std::fmt;
use std::io::{self, ErrorKind};
use std::net::Shutdown;
use std::ops::Deref;
use std::os::fd::{AsFd, BorrowedFd, OwnedFd};
use std::os::unix::net::UnixStream;
use std::path::{Path, PathBuf};
use std::time::{Duration, Instant};
use waywire_sys as ffi;

/// The most descriptors that an end passes at once. libwayland has the same limit.
pub const MOST_DESCRIPTORS: usize = ffi::WAYWIRE_SOCKET_DESCRIPTORS as usize;

/// Connects to a compositor, as `wl_display_connect` does.
///
/// A name that begins with a slash is a path, and any other name is one in the folder `XDG_RUNTIME_DIR`.
/// `None` connects to the name in `WAYLAND_DISPLAY`, and if that is not set, to `wayland-0`.
///
/// If `WAYLAND_SOCKET` is set, it is the number of a socket that is already connected, which this process
/// was started with. The call then returns a duplicate of that socket, removes the variable, and does not
/// look at `name`. The number itself stays open, since no call can know whether it belongs to something
/// else in this process. Dropping the [`Link`] ends the connection all the same.
///
/// The call uses the environment only through [`mod@std::env`], which locks it against other Rust code. That
/// lock does not stop another thread that reads the environment in C, for example by `getenv`, while this
/// call removes `WAYLAND_SOCKET`. So if there are such threads, connect before you start them.
///
/// # Errors
///
/// The error has a [`ConnectError`] in it, which names the path. Its kind is
/// [`NotFound`](io::ErrorKind::NotFound) if no compositor is there, or if `XDG_RUNTIME_DIR` is not set to an
/// absolute path. Other errors are those of the system. If `WAYLAND_SOCKET` is set and is no number, the kind
/// is [`InvalidInput`](io::ErrorKind::InvalidInput).
pub fn connect(name: Option<&Path>) -> io::Result<UnixStream> {
    const VARIABLE: &str = "WAYLAND_SOCKET";
    if let Some(number) = env::var_os(VARIABLE) {
        let socket = inherited(&number)?;
        env::remove_var(VARIABLE);
        return Ok(socket.into());
    }
    let asked =
        name.map(PathBuf::from).or_else(|| env::var_os("WAYLAND_DISPLAY").map(PathBuf::from));
    let path = path_of(&asked.unwrap_or_else(|| "wayland-0".into()));
    let made = has_folder(&path).and_then(|()| sys::connect(&path));
    made.map(UnixStream::from)
        .map_err(|error| io::Error::new(error.kind(), ConnectError { path, error }))
}

/// The path of a name: the name itself if it begins with a slash, otherwise one in `XDG_RUNTIME_DIR`. If
/// that is not set to an absolute path, the name stays as it is.
fn path_of(name: &Path) -> PathBuf {
    let folder = env::var_os("XDG_RUNTIME_DIR").map(PathBuf::from).filter(|it| it.is_absolute());
    folder.unwrap_or_default().join(name)
}

/// Whether there is a folder for the name that [`path_of`] has looked up.
fn has_folder(path: &Path) -> io::Result<()> {
    if path.is_absolute() {
        return Ok(());
    }
    let missing = "XDG_RUNTIME_DIR is not set to an absolute path";
    Err(io::Error::new(ErrorKind::NotFound, missing))
}

/// The path at which [`connect`] found no compositor, and why. It is inside the [`io::Error`] of
/// `connect`, which has the same kind as `error`.
#[derive(Debug)]
pub struct ConnectError {
    /// Relative if `XDG_RUNTIME_DIR` is not set to an absolute path: then there is no folder to look in.
    pub path: PathBuf,
    /// What the system said, or that there is no folder.
    pub error: io::Error,
}

impl fmt::Display for ConnectError {
    fn fmt(&self, f: &mut fmt::Formatter<'_>) -> fmt::Result {
        write!(f, "cannot connect to {}: {}", self.path.display(), self.error)
    }
}

impl std::error::Error for ConnectError {
    fn source(&self) -> Option<&(dyn std::error::Error + 'static)> {
        Some(&self.error)
    }
}

/// Whether a name is not empty.
fn has_name(name: &Path) -> io::Result<()> {
    if name.as_os_str().is_empty() {
        return Err(io::Error::new(ErrorKind::InvalidInput, "the name is empty"));
    }
    Ok(())
}

fn inherited(number: &OsStr) -> io::Result<OwnedFd> {
    let number = number.to_str().and_then(|it| it.parse().ok());
    sys::inherited(number.ok_or(ErrorKind::InvalidInput)?)
}

/// Sends bytes, and the descriptors together with the first byte. The descriptors stay open here. Returns
/// how many bytes were sent. It does not wait: [`io::ErrorKind::WouldBlock`]. Two empty parts and more than
/// 253 descriptors are errors. An end at the other side receives at most [`MOST_DESCRIPTORS`] at once.
pub fn send(
    socket: impl AsFd,
    parts: [&[u8]; 2],
    descriptors: &[BorrowedFd<'_>],
) -> io::Result<usize> {
    sys::send(socket.as_fd(), parts, descriptors)
}

/// Receives bytes into the parts, and appends the descriptors that came with them, at most
/// [`MOST_DESCRIPTORS`]. Returns how many bytes came; 0 is the end of the stream. It does not wait:
/// [`io::ErrorKind::WouldBlock`]. If the process may open no more descriptors, or more came at once, bytes
/// and descriptors are lost: close the socket.
pub fn receive(
    socket: impl AsFd,
    parts: [&mut [u8]; 2],
    descriptors: &mut Vec<OwnedFd>,
) -> io::Result<usize> {
    sys::receive(socket.as_fd(), parts, descriptors)
}

/// Waits until one of these sockets can be read or, if its flag is set, be written. Returns which of them
/// can. It waits at most for `limit`; `None` is no limit. Without sockets and without a limit it never
/// returns.
///
/// For two links: `wait([a.awaited(), b.awaited()], None)`.
pub fn wait<const N: usize>(
    sockets: [(BorrowedFd<'_>, bool); N],
    limit: Option<Duration>,
) -> io::Result<[bool; N]> {
    let mut polled = sockets.map(Pollfd::new);
    poll(&mut polled, limit)?;
    Ok(polled.map(|it| it.is_ready()))
}

/// The same for any number of sockets, such as those of a server's clients. If there may be none, give it a
/// limit, or the socket of a [`Listener`].
pub fn wait_many<'a>(
    sockets: impl IntoIterator<Item = (BorrowedFd<'a>, bool)>,
    limit: Option<Duration>,
) -> io::Result<Vec<bool>> {
    let mut polled: Vec<Pollfd> = sockets.into_iter().map(Pollfd::new).collect();
    poll(&mut polled, limit)?;
    Ok(polled.iter().map(Pollfd::is_ready).collect())
}

fn poll(polled: &mut [Pollfd], limit: Option<Duration>) -> io::Result<()> {
    let until = Deadline::of(limit);
    loop {
        match sys::poll(polled, until.milliseconds()) {
            Err(error) if error.kind() == ErrorKind::Interrupted => {}
            ended => return ended,
        }
    }
}

/// When waiting ends; `None` means never.
#[derive(Clone, Copy)]
struct Deadline(Option<Instant>);

impl Deadline {
    fn of(limit: Option<Duration>) -> Deadline {
        Deadline(limit.and_then(|it| Instant::now().checked_add(it)))
    }

    fn left(self) -> Option<Duration> {
        self.0.map(|it| it.saturating_duration_since(Instant::now()))
    }

    fn has_passed(self) -> bool {
        self.left() == Some(Duration::ZERO)
    }

    /// The milliseconds until then, rounded up, as poll counts them.
    fn milliseconds(self) -> i32 {
        let Some(left) = self.left() else { return -1 };
        i32::try_from(left.as_nanos().div_ceil(1_000_000)).unwrap_or(i32::MAX)
    }
}

/// A socket at which clients connect, with the lock of its name. Dropping it closes the socket, and
/// removes it and its lock file; clients that were accepted stay connected.
#[derive(Debug)]
pub struct Listener {
    listening: sys::Listening,
    name: OsString,
}

/// The path at which [`Listener::bind`] cannot listen, and why. It is inside the [`io::Error`] of `bind`,
/// which has the same kind as `error`.
#[derive(Debug)]
pub struct BindError {
    /// Relative if `XDG_RUNTIME_DIR` is not set to an absolute path: then there is no folder for the socket.
    pub path: PathBuf,
    /// What the system said, or that there is no folder or no name.
    pub error: io::Error,
}

impl fmt::Display for BindError {
    fn fmt(&self, f: &mut fmt::Formatter<'_>) -> fmt::Result {
        write!(f, "cannot listen at {}: {}", self.path.display(), self.error)
    }
}

impl std::error::Error for BindError {
    fn source(&self) -> Option<&(dyn std::error::Error + 'static)> {
        Some(&self.error)
    }
}

impl Listener {
    /// Listens under a name, as `wl_display_add_socket` does. A name that begins with a slash is a path,
    /// and any other name is one in the folder `XDG_RUNTIME_DIR`. `None` takes the first free name of
    /// wayland-1 to wayland-32. A socket left behind by a server that is gone is replaced.
    ///
    /// # Errors
    ///
    /// The error has a [`BindError`] in it, which names the path; with `None` it is that of wayland-32. Its
    /// kind is [`AddrInUse`](io::ErrorKind::AddrInUse) if another server has the name (or all names), or if
    /// a file of this name is no socket. It is [`InvalidInput`](io::ErrorKind::InvalidInput) if the name is
    /// empty, and [`NotFound`](io::ErrorKind::NotFound) if there is no such folder. Other errors are those of
    /// the system.
    pub fn bind(name: Option<&Path>) -> io::Result<Listener> {
        const LAST: u32 = 32;
        let numbered = |number| Listener::at(Path::new(&format!("wayland-{number}")));
        match name {
            Some(name) => Listener::at(name),
            // A name that cannot be had for another reason is not free either.
            None => (1..LAST).find_map(|it| numbered(it).ok()).map_or_else(|| numbered(LAST), Ok),
        }
    }

    fn at(name: &Path) -> io::Result<Listener> {
        let path = path_of(name);
        let made = has_name(name)
            .and_then(|()| has_folder(&path))
            .and_then(|()| sys::Listening::new(&path));
        match made {
            Ok(listening) => Ok(Listener { listening, name: name.into() }),
            Err(error) => Err(io::Error::new(error.kind(), BindError { path, error })),
        }
    }

    /// The name for `WAYLAND_DISPLAY`.
    pub fn name(&self) -> &OsStr {
        &self.name
    }

    /// The socket of the next client. It does not wait: [`io::ErrorKind::WouldBlock`].
    pub fn accept(&self) -> io::Result<UnixStream> {
        self.listening.accept().map(UnixStream::from)
    }

    /// Waits for a client, and returns its socket.
    pub fn accept_next(&self) -> io::Result<UnixStream> {
        loop {
            match self.accept() {
                Err(error) if error.kind() == ErrorKind::WouldBlock => {
                    wait([(self.as_fd(), false)], None)?;
                }
                accepted => return accepted,
            }
        }
    }
}

impl AsFd for Listener {
    fn as_fd(&self) -> BorrowedFd<'_> {
        self.listening.fd()
    }
}

/// An end and its socket. It has the calls of a [`Writer`], and reads with its own: no call moves bytes past
/// the socket.
///
/// Dropping it sends what still waits, as far as the socket takes it without waiting. It then ends the
/// connection, and closes the descriptors that wait.
///
/// For a loop of your own: [`flush`](Link::flush), wait for what [`awaited`](Link::awaited) returns,
/// [`fill`](Link::fill), and read all messages. If a server's `next` returns
/// [`OutFull`](NextError::OutFull), its client does not read: end the client, or do not fill before
/// a flush has sent something.
#[derive(Debug)]
pub struct Link<R> {
    pub(crate) end: Connection<R>,
    pub(crate) socket: UnixStream,
    /// At a server: the callback of a sync that has no answer yet.
    unanswered: Option<WlCallback>,
    /// How many syncs were answered.
    serial: u32,
}

impl<R> Deref for Link<R> {
    type Target = Writer<R>;

    #[inline]
    fn deref(&self) -> &Writer<R> {
        &self.end
    }
}

impl<R> AsFd for Link<R> {
    fn as_fd(&self) -> BorrowedFd<'_> {
        self.socket.as_fd()
    }
}

impl<R> Drop for Link<R> {
    fn drop(&mut self) {
        // Nobody is left to hear of an error.
        let _sent = self.flush();
        let _ended = self.socket.shutdown(Shutdown::Both);
    }
}

/// The result of waiting.
#[derive(Clone, Copy, Debug, PartialEq, Eq)]
pub enum Came {
    /// Bytes, which may be a whole message.
    Something,
    /// Nothing, within the time.
    Nothing,
    /// The other end has closed the connection.
    End,
}

/// Whether an error says that the other end has closed the connection.
pub fn has_gone(error: &io::Error) -> bool {
    use ErrorKind::{BrokenPipe, ConnectionReset, UnexpectedEof};
    matches!(error.kind(), BrokenPipe | ConnectionReset | UnexpectedEof)
}

/// Whether an error of a [`Link`] passes. Nothing is lost then, the connection goes on, and the same call can
/// be made again: the kernel had no room or no memory (`ENOBUFS`, `ENOMEM`, `ETOOMANYREFS`), there was no
/// memory for a message ([`NextError::NoMemory`]), or the request of a round trip was not written
/// ([`SendError::Full`], [`SendError::NoMemory`]).
///
/// After such an error, a socket may be ready to be written all the same. So do not wait for that, but call
/// again some milliseconds later.
pub fn is_temporary(error: &io::Error) -> bool {
    let inner = error.get_ref();
    let read = inner.and_then(|it| it.downcast_ref());
    let sent = inner.and_then(|it| it.downcast_ref());
    sys::had_no_room(error)
        || matches!(read, Some(NextError::NoMemory))
        || matches!(sent, Some(SendError::Full | SendError::NoMemory))
}

impl<R> Link<R> {
    /// A link of an end and its connected socket.
    ///
    /// # Errors
    ///
    /// [`TooSmall`] unless the [`Sizes`](crate::Sizes) of the end have room for any message, and for what
    /// libwayland sends at once: an outbox of [`limit`](crate::Sizes::limit) bytes and
    /// [`MAX_ARGS`](crate::MAX_ARGS) tokens, and an inbox of [`MOST_DESCRIPTORS`] tokens and `MAX_ARGS` more,
    /// which is 48. The end and the socket are closed then.
    pub fn new(end: Connection<R>, socket: UnixStream) -> Result<Link<R>, TooSmall> {
        if !end.writer.sizes.can_carry() {
            return Err(TooSmall);
        }
        Ok(Link { end, socket, unanswered: None, serial: 0 })
    }

    /// The end and the socket. This sends nothing, and closes nothing. At a server, a sync whose answer had
    /// no room ([`OutFull`](NextError::OutFull)) stays without one.
    pub fn into_parts(self) -> (Connection<R>, UnixStream) {
        sys::parts(self)
    }

    /// The socket.
    pub fn socket(&self) -> &UnixStream {
        &self.socket
    }

    /// The socket, and whether something waits to be sent: an argument for [`wait`].
    pub fn awaited(&self) -> (BorrowedFd<'_>, bool) {
        (self.as_fd(), self.wants_write())
    }

    /// Whether something waits to be sent.
    pub fn wants_write(&self) -> bool {
        self.end.goes(1, MOST_DESCRIPTORS).bytes > 0
    }

    /// Sends what waits, also at a failed end, and closes the descriptors that were sent. It does not wait:
    /// it returns false if the socket takes no more now. What was not sent still waits, also after an error.
    ///
    /// # Errors
    ///
    /// An error [passes](is_temporary) if the kernel has no room now: flush again some milliseconds later. If
    /// the other end [has gone](has_gone), what it said before can still be read. Any other error ends the
    /// connection.
    pub fn flush(&mut self) -> io::Result<bool> {
        match self.end.writer.end.flush(self.socket.as_fd()) {
            Err(error) if error.kind() == ErrorKind::WouldBlock => Ok(false),
            sent => sent.map(|()| true),
        }
    }

    /// Receives once. Read all messages before. It does not wait: [`Came::Nothing`] if nothing is there
    /// yet.
    ///
    /// # Errors
    ///
    /// An error [passes](is_temporary) if the kernel has no memory now. Any other error ends the connection:
    ///
    /// - [`InboxFull`](crate::InboxFull), for example because descriptors came that belong to no message;
    /// - [`Failed`](crate::Failed) if the end has failed;
    /// - an error of the socket. If the process may open no more descriptors, or more than
    ///   [`MOST_DESCRIPTORS`] came at once, some are lost, and the end has failed afterwards.
    pub fn fill(&mut self) -> io::Result<Came> {
        match self.end.writer.end.fill(self.socket.as_fd()) {
            Ok(0) => Ok(Came::End),
            Ok(_) => Ok(Came::Something),
            Err(error) if error.kind() == ErrorKind::WouldBlock => Ok(Came::Nothing),
            Err(error) if has_gone(&error) => Ok(Came::End), // reset: it had not read all
            Err(error) => {
                if sys::has_lost(&error) {
                    drop(self.end.take_waiting_tokens());
                }
                Err(error)
            }
        }
    }

    /// Sends what waits if that is more than half of the outbox, so that a handler has room.
    fn make_room(&mut self) -> io::Result<()> {
        if self.out_room().bytes < self.end.writer.sizes.out_bytes / 2 {
            self.is_stuck()?;
        }
        Ok(())
    }

    /// Sends what the socket takes, and returns whether something still waits. It is no error here if the
    /// other end has gone: what it said before can still be read.
    fn is_stuck(&mut self) -> io::Result<bool> {
        match self.flush() {
            Err(error) if has_gone(&error) => Ok(false),
            sent => sent.map(|is_all| !is_all),
        }
    }

    /// Sends what waits, and waits until something comes, at most for `limit`; `None` is no limit. Read all
    /// messages before. While it waits, it goes on sending.
    ///
    /// # Errors
    ///
    /// Those of [`flush`](Link::flush) and [`fill`](Link::fill), but not that the other end has gone, which is
    /// [`Came::End`]. An error that [passes](is_temporary) comes at once, before the limit: nothing is lost, so
    /// wait again some milliseconds later.
    pub fn wait(&mut self, limit: Option<Duration>) -> io::Result<Came> {
        let until = Deadline::of(limit);
        loop {
            let is_stuck = self.is_stuck()?;
            wait([(self.as_fd(), is_stuck)], until.left())?;
            match self.fill() {
                Ok(Came::Nothing) if !until.has_passed() => {}
                came => return came,
            }
        }
    }
}

/// The wl_display.error with which the compositor has ended the connection. It is inside the
/// [`io::Error`] of [`Link::dispatch`] and [`Link::round_trip`].
#[derive(Clone, Debug, PartialEq, Eq)]
pub struct PostedError {
    /// The id of the object that it is about.
    pub id: u32,
    /// The name of that object's interface, if the client knows the object.
    pub interface: Option<String>,
    /// Its code, whose meaning depends on the object's interface.
    pub code: u32,
    /// The whole error in words, as in C: `wl_surface@4: error 2: bad scale`. If the client does not know
    /// the object, `object` replaces the name of its interface.
    pub text: String,
}

impl PostedError {
    /// An error that a client has read, in memory of its own. The tables are the client's.
    pub fn of(error: &ProtocolError<'_>, tables: &Tables) -> PostedError {
        let (id, code) = (error.id, error.code);
        let interface = error.interface.and_then(|it| tables.name(it)).map(String::from);
        let name = interface.as_deref().unwrap_or("object");
        let text = format!("{name}@{id}: error {code}: {}", String::from_utf8_lossy(error.text));
        PostedError { id, interface, code, text }
    }
}

impl fmt::Display for PostedError {
    fn fmt(&self, f: &mut fmt::Formatter<'_>) -> fmt::Result {
        f.write_str(&self.text)
    }
}

impl std::error::Error for PostedError {}

impl Link<AsClient> {
    /// Gives the events that were read to the handler. If there are none, it waits for some, at most for
    /// `limit`; `None` is no limit. Returns how many messages there were, 0 if the time is over.
    ///
    /// The handler answers with the [`ClientWriter`](crate::ClientWriter) that it gets. Before each event, the
    /// link flushes if more than half of the outbox waits.
    ///
    /// If the handler does not take an event, its descriptors are closed. An object that this event has
    /// made stays open, as does the object of a discarded event. The handler does not learn which objects
    /// end; an [`ObjectMap`](crate::ObjectMap) needs not know.
    ///
    /// # Errors
    ///
    /// An error [passes](is_temporary) if there is no memory for a message, or the kernel has no room or no
    /// memory now. Nothing is lost, so dispatch again some milliseconds later. Any other error ends the
    /// connection: [`UnexpectedEof`](io::ErrorKind::UnexpectedEof) if the compositor has closed it,
    /// [`PostedError`], [`NextError`], or an error of [`fill`](Link::fill) or [`flush`](Link::flush).
    pub fn dispatch(
        &mut self,
        handler: &mut impl EventHandler,
        limit: Option<Duration>,
    ) -> io::Result<usize> {
        let until = Deadline::of(limit);
        loop {
            let (count, _) = self.read_all(handler, None)?;
            if count > 0 || !self.waits(until)? {
                return Ok(count);
            }
        }
    }

    /// Dispatches until the compositor has read all that was written before (wl_display.sync). The
    /// handler does not get the event of the sync.
    ///
    /// # Errors
    ///
    /// [`TimedOut`](io::ErrorKind::TimedOut) if that takes longer than `limit`: the connection goes on, and
    /// if the answer comes later, the handler gets it. [`SendError`] if the sync cannot be written; nothing
    /// has changed then. The other errors are those of [`dispatch`](Link::dispatch). After one that
    /// [passes](is_temporary), the next call sends a new sync, and the handler gets the answer to the first.
    pub fn round_trip(
        &mut self,
        handler: &mut impl EventHandler,
        limit: Option<Duration>,
    ) -> io::Result<()> {
        let until = Deadline::of(limit);
        let display = WlDisplay(self.end.display());
        self.is_stuck()?; // so that there is room
        let callback = display.sync(&self.end).map_err(io::Error::other)?;
        let mut is_over = false;
        while !self.read_all(handler, Some(callback.0))?.1 {
            if is_over || !self.waits(until)? {
                return Err(ErrorKind::TimedOut.into());
            }
            is_over = until.has_passed();
        }
        Ok(())
    }

    /// Reads the next message, as [`Client::next`](crate::Client::next) does.
    // Not an iterator's: what it returns is lent from the client.
    #[allow(clippy::should_implement_trait)]
    pub fn next(&mut self) -> Result<Option<Incoming<'_>>, NextError> {
        self.end.next()
    }

    /// The live object that the last message replaced: [`Client::replaced`](crate::Client::replaced).
    pub fn replaced(&self) -> Option<Object> {
        self.end.replaced()
    }

    /// Adds the interfaces of a text to the client's tables: [`Client::more_tables`](crate::Client::more_tables).
    pub fn more_tables(&mut self, text: &[u8]) -> Result<(), TablesError> {
        self.end.more_tables(text)
    }

    /// Waits until something comes. False if the time is over.
    fn waits(&mut self, until: Deadline) -> io::Result<bool> {
        match self.wait(until.left())? {
            Came::Something => Ok(true),
            Came::Nothing => Ok(false),
            Came::End => Err(io::Error::new(ErrorKind::UnexpectedEof, "the compositor has gone")),
        }
    }

    /// Reads all whole messages. Returns how many there were, and whether one of them ended this object,
    /// whose events the handler is not given.
    fn read_all(
        &mut self,
        handler: &mut impl EventHandler,
        ended: Option<Object>,
    ) -> io::Result<(usize, bool)> {
        let tables = self.end.tables().clone();
        let (mut count, mut has_ended) = (0, false);
        loop {
            self.make_room()?;
            match self.end.next().map_err(io::Error::other)? {
                None => return Ok((count, has_ended)),
                Some(Incoming::Event(event)) if ended == Some(event.target()) => {}
                Some(Incoming::Event(mut event)) => {
                    let _is_taken = handler.dispatch_event(event.writer(), &mut event);
                }
                Some(Incoming::Deleted(object)) => has_ended |= ended == Some(object),
                Some(Incoming::Error(error)) => {
                    return Err(io::Error::other(PostedError::of(&error, &tables)));
                }
                Some(Incoming::Discarded(_) | Incoming::Stray { .. }) => {}
            }
            count += 1;
        }
    }
}

impl Link<AsServer> {
    /// Reads the next request, as [`Server::next`](crate::Server::next) does, and answers each
    /// wl_display.sync itself, as libwayland's server does: `None` if no other request is whole. Before
    /// the answer it [announces](Writer::announce) the globals. The callback gets the number of the
    /// syncs that were answered.
    ///
    /// To answer them yourself, or to pass them on, read with [`next_or_sync`](Link::next_or_sync).
    ///
    /// # Errors
    ///
    /// Those of `Server::next`. If there is no room for an answer, the link flushes; if there is none
    /// then, it is [`OutFull`](NextError::OutFull), and the next call answers first.
    // Not an iterator's: what it returns is lent from the server.
    #[allow(clippy::should_implement_trait)]
    pub fn next(&mut self) -> Result<Option<Request<'_>>, NextError> {
        let display = self.end.display();
        loop {
            self.answer()?;
            let Some(request) = self.end.next()? else { return Ok(None) };
            self.unanswered = callback_of(&request, display);
            if self.unanswered.is_none() {
                return Ok(Some(self.end.last_read()));
            }
        }
    }

    /// Reads the next request, as [`Server::next`](crate::Server::next) does, and answers no wl_display.sync:
    /// its callback is the caller's.
    pub fn next_or_sync(&mut self) -> Result<Option<Request<'_>>, NextError> {
        self.end.next()
    }

    /// Gives the requests that were read to the handler, as [`next`](Link::next) reads them, and announces the
    /// globals to the registries that they have made. Returns how many requests there were. It does not wait:
    /// [`fill`](Link::fill) the link before, and flush it afterwards.
    ///
    /// The handler answers with the [`ServerWriter`](crate::ServerWriter) that it gets. Before each request, the
    /// link flushes if more than half of the outbox waits. If the handler does not take a request, its
    /// descriptors are closed. After [`post_error`](Writer::post_error) no request is read.
    ///
    /// # Errors
    ///
    /// [`NextError`], and those of [`flush`](Link::flush).
    pub fn dispatch(&mut self, handler: &mut impl RequestHandler) -> io::Result<usize> {
        let mut count = 0;
        loop {
            self.make_room()?;
            match self.next() {
                Ok(Some(mut request)) => {
                    let _is_taken = handler.dispatch_request(request.writer(), &mut request);
                    count += 1;
                }
                Err(NextError::Failed) if count > 0 => return Ok(count),
                ended => {
                    ended.map_err(io::Error::other)?;
                    self.announce().map_err(io::Error::other)?;
                    return Ok(count);
                }
            }
        }
    }

    /// Answers the sync that was read last, if it has no answer yet.
    fn answer(&mut self) -> Result<(), NextError> {
        let Some(callback) = self.unanswered else { return Ok(()) };
        if self.answered(callback) == Err(SendError::Full) {
            // What is wrong with the socket, the caller's own flush says.
            let _is_sent = self.flush();
            if self.answered(callback) == Err(SendError::Full) {
                return Err(NextError::OutFull);
            }
        }
        // Any other error is one that `next` has too: the end has failed.
        self.unanswered = None;
        Ok(())
    }

    /// The registry of a request before the sync is told of the globals first.
    fn answered(&mut self, callback: WlCallback) -> Result<(), SendError> {
        self.end.announce()?;
        callback.send_done(&self.end, self.serial)?;
        self.serial = self.serial.wrapping_add(1);
        Ok(())
    }
}

/// The callback that a request makes, if it is the sync of wl_display.
fn callback_of(request: &Request<'_>, display: Object) -> Option<WlCallback> {
    if request.target() != display || request.opcode() != wl_display::request::SYNC {
        return None;
    }
    match request.args().next() {
        Some(Value::NewId(callback)) => Some(WlCallback(callback)),
        _ => None,
    }
}
