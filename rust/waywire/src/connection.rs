//! One end of a connection, and the calls that a client and a server both have.

use crate::amounts::{Amounts, Sizes};
use crate::error::{Failed, TablesError};
use crate::report::Message;
use crate::sys;
use crate::tables::Tables;
use crate::writer::Writer;
use std::ops::Deref;
use std::os::fd::{BorrowedFd, OwnedFd};

/// One end of a connection: its objects, its inbox and its outbox. The role `R` says which end it
/// is: [`Client`](crate::Client) is `Connection<AsClient>`, [`Server`](crate::Server) is
/// `Connection<AsServer>`.
///
/// The calls of `Connection<R>` are those that both ends have. A function that needs only these
/// takes either end:
///
/// ```
/// use waywire::wayland::wl_display::WlDisplay;
/// use waywire::{Client, Connection, Failed, Server, Sizes, Tables};
///
/// /// Passes what waits at one end to the other.
/// fn pass<A, B>(from: &mut Connection<A>, to: &mut Connection<B>) -> Result<(), Failed> {
///     let (mut bytes, mut descriptors) = ([0; 4096], Vec::new());
///     let taken = from.take(&mut bytes, &mut descriptors, 28);
///     let fed = to.feed(&bytes[..taken.bytes], &mut descriptors)?;
///     assert_eq!(fed, taken);
///     Ok(())
/// }
///
/// # fn main() -> Result<(), Box<dyn std::error::Error>> {
/// let tables = Tables::core()?;
/// let mut client = Client::new(&tables, &Sizes::default())?;
/// let mut server = Server::new(&tables, &Sizes::default())?;
/// let callback = WlDisplay(client.display()).sync(&mut client)?;
/// pass(&mut client, &mut server)?;
/// assert!(server.next()?.is_some());
/// callback.send_done(&mut server, 7)?;
/// pass(&mut server, &mut client)?;
/// assert!(client.next()?.is_some());
/// # Ok(())
/// # }
/// ```
///
/// A descriptor that waits at an end belongs to it. Dropping the end closes what still waits.
///
/// A call that only the other end has does not compile:
///
/// ```compile_fail,E0599
/// # use waywire::{Server, Sizes, Tables};
/// # let tables = Tables::core().unwrap();
/// # let mut server = Server::new(&tables, &Sizes::default()).unwrap();
/// # let registry = server.display();
/// server.bind(registry, 1, "wl_seat", 9);
/// ```
#[derive(Debug)]
pub struct Connection<R> {
    pub(crate) writer: Writer<R>,
    /// What the end has read last. It never outlives the end, and is never another end's: nobody else gets
    /// the writer but by a `&`.
    pub(crate) reading: sys::Reading,
}

impl<R> Deref for Connection<R> {
    type Target = Writer<R>;

    #[inline]
    fn deref(&self) -> &Writer<R> {
        &self.writer
    }
}

/// The role of a [`Client`](crate::Client). It has no values, and only appears in types.
#[derive(Debug)]
pub enum AsClient {}

/// The role of a [`Server`](crate::Server). It has no values, and only appears in types.
#[derive(Debug)]
pub enum AsServer {}

impl<R> Connection<R> {
    /// A new connection of an end that was made for the role `R`.
    pub(crate) fn of(end: sys::End, tables: &Tables, sizes: &Sizes) -> Connection<R> {
        let reading = sys::Reading::nothing();
        Connection { writer: Writer::of(end, tables, sizes), reading }
    }

    /// Adds the interfaces of a text to the end's own tables, as [`Tables::read`] does.
    /// [`tables`](crate::Writer::tables) returns the new tables afterwards. Interfaces keep their places
    /// and messages their opcodes, so objects and globals stay what they are.
    ///
    /// A client does not remember a global that was announced before its interface was in the tables:
    /// [`bind_unannounced`](crate::Writer::bind_unannounced) binds it. A server can add globals of the
    /// new interfaces. The error is [`TablesError::FirstServerObject`] if the text has the first event
    /// by which the server makes an object (`N`): an end that was made with tables without such an
    /// event has no room for these objects. An error changes nothing.
    ///
    /// The proof about two ends covers only ends that keep their tables.
    ///
    /// ```
    /// # use waywire::{Client, Sizes, Tables, TablesError};
    /// let core = Tables::core().unwrap();
    /// let mut client = Client::new(&core, &Sizes::default()).unwrap();
    /// client.more_tables(b"interface wp_thing 2\nrequest destroy D\n").unwrap();
    /// assert!(client.tables().interface("wp_thing").is_some());
    /// assert!(core.interface("wp_thing").is_none());
    ///
    /// let first = client.more_tables(b"interface wp_maker 1\nevent made N(wp_thing)\n");
    /// assert_eq!(first, Err(TablesError::FirstServerObject));
    /// ```
    pub fn more_tables(&mut self, text: &[u8]) -> Result<(), TablesError> {
        // The end frees its tables with itself, and a clone of these may last longer.
        let more = self.writer.tables.read(text)?;
        self.writer.end.more_tables(text)?;
        self.writer.tables = more;
        Ok(())
    }

    /// What writes its messages.
    #[inline]
    pub fn writer(&self) -> &Writer<R> {
        &self.writer
    }

    /// The message that was read last, lent again.
    #[inline]
    pub(crate) fn last_read(&mut self) -> Message<'_, R> {
        Message { read: sys::Read::of(self) }
    }

    /// Moves received descriptors and bytes into the inbox: first as many descriptors as fit, and then,
    /// if all of them fitted, as many bytes as fit. The descriptors that it takes are removed from the
    /// list; feed the rest again later. An end that has failed takes nothing, which is an error.
    #[inline]
    pub fn feed(
        &mut self,
        bytes: &[u8],
        descriptors: &mut Vec<OwnedFd>,
    ) -> Result<Amounts, Failed> {
        self.writer.end.feed(bytes, descriptors)
    }

    /// How much [`take`](Connection::take) would take with a slice of this length, and at most so many
    /// descriptors.
    #[inline]
    pub fn goes(&self, bytes: usize, tokens: usize) -> Amounts {
        self.writer.end.goes(bytes, tokens)
    }

    /// Moves what waits to be sent into the slice, as much as fits, and appends at most so many
    /// descriptors to the list; also at a failed end. The descriptors of a message go with its first
    /// byte: send them together with these bytes. libwayland takes 28 with one `sendmsg`.
    ///
    /// If the message in front has more descriptors than `most`, nothing is taken, and each later call with
    /// this `most` takes nothing either. This never happens if `most` is at least
    /// [`MAX_ARGS`](crate::MAX_ARGS).
    #[inline]
    pub fn take(
        &mut self,
        bytes: &mut [u8],
        descriptors: &mut Vec<OwnedFd>,
        most: usize,
    ) -> Amounts {
        self.writer.end.take(bytes, descriptors, most)
    }

    /// What can go at one time, for `sendmsg`, also at a failed end. Nothing is taken out: after
    /// `n` bytes went call [`sent`](Connection::sent) with `n`, and after none do not call it.
    ///
    /// It borrows the end for itself, since the parts are valid until the end's next call.
    pub fn peek(&mut self) -> Waiting<'_> {
        Waiting(self.writer.end.peek())
    }

    /// Removes so many bytes from the outbox, or all bytes if fewer wait, and closes the descriptors of
    /// the messages that begin in them.
    pub fn sent(&mut self, bytes: usize) -> Amounts {
        self.writer.end.sent(bytes)
    }

    /// The free bytes of the inbox, for `recvmsg`: fill the first part first. The second part may be
    /// empty; at a failed end both are. [`received`](Connection::received) takes in what was written
    /// there.
    pub fn space(&mut self) -> [&mut [u8]; 2] {
        self.writer.end.space()
    }

    /// Takes in descriptors, and so many of the bytes that were written where
    /// [`space`](Connection::space) said, as [`feed`](Connection::feed) does. An end that has
    /// failed takes nothing, which is an error.
    ///
    /// If not all descriptors fit, no byte is taken in, and what was written stays there: read messages
    /// until the other descriptors fit, and then call this with these and the same number of bytes. Once
    /// bytes were taken in, anything written after them is lost: call `space` again.
    pub fn received(
        &mut self,
        bytes: usize,
        descriptors: &mut Vec<OwnedFd>,
    ) -> Result<Amounts, Failed> {
        self.writer.end.received(bytes, descriptors)
    }

    /// Gives up the end, and returns the descriptors that wait in it: first those that were fed and not
    /// reported, then those that were to be sent. Dropping the end would close them.
    ///
    /// The end has failed afterwards, and what waited to be sent is dropped, so first take what is still
    /// to be sent. Afterwards, discard what [`take`](Connection::take) returns: the stream has a gap.
    pub fn take_waiting_tokens(&mut self) -> Vec<OwnedFd> {
        self.writer.end.take_waiting_tokens()
    }
}

/// What waits in an end and can be sent at one time.
#[derive(Clone, Debug)]
pub struct Waiting<'a>(sys::Going<'a>);

impl<'a> Waiting<'a> {
    /// The bytes, in order. The second part may be empty.
    pub fn parts(&self) -> [&'a [u8]; 2] {
        self.0.parts
    }

    /// The descriptors that go with the first byte. No later byte here has descriptors, so all of them
    /// are sent if only one byte is.
    pub fn descriptors(&self) -> &[BorrowedFd<'a>] {
        self.0.descriptors()
    }

    /// Whether nothing waits.
    pub fn is_empty(&self) -> bool {
        self.0.parts[0].is_empty()
    }
}
