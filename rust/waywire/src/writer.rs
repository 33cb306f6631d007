//! What writes to the other end of a connection.

use crate::amounts::{Amounts, Announced, Sizes};
use crate::args::Arg;
use crate::connection::{AsClient, AsServer};
use crate::error::{GlobalError, SendError};
use crate::sys;
use crate::tables::{Interface, Object, Tables};
use std::marker::PhantomData;

/// What writes the messages of an end, and knows its objects: an end without its reading. It is lent from a
/// [`Connection`](crate::Connection), a [`Link`](crate::socket::Link), or a [`Message`](crate::Message),
/// and so each handler has one while a message is lent. It is shared: no call takes it by a `&mut`.
///
/// Typed calls take a [`ClientWriter`] for requests and a [`ServerWriter`] for events. A `&Client` or a
/// `&Link` coerces to it.
///
/// It belongs to one end, so it cannot be moved, and only one thread at a time uses it:
///
/// ```compile_fail,E0277
/// # use waywire::{Server, ServerWriter, Sizes, Tables};
/// # let tables = Tables::core().unwrap();
/// # let server = Server::new(&tables, &Sizes::default()).unwrap();
/// let writer: &ServerWriter = &server;
/// std::thread::scope(|threads| {
///     threads.spawn(|| writer.announce());
/// });
/// ```
#[derive(Debug)]
pub struct Writer<R> {
    pub(crate) end: sys::End,
    pub(crate) tables: Tables,
    pub(crate) sizes: Sizes,
    role: PhantomData<R>,
}

/// What writes a client's requests.
pub type ClientWriter = Writer<AsClient>;

/// What writes a server's events.
pub type ServerWriter = Writer<AsServer>;

impl<R> Writer<R> {
    /// The writer of an end that was made for the role `R`.
    pub(crate) fn of(end: sys::End, tables: &Tables, sizes: &Sizes) -> Writer<R> {
        Writer { end, tables: tables.clone(), sizes: *sizes, role: PhantomData }
    }

    /// Its tables: those with which it was made, or those of the last
    /// [`Client::more_tables`](crate::Client::more_tables).
    pub fn tables(&self) -> &Tables {
        &self.tables
    }

    /// wl_display, which every connection has.
    pub fn display(&self) -> Object {
        self.end.display()
    }

    /// The interface and version of an object, if the object is live; also at a failed end.
    #[inline]
    pub fn live(&self, object: Object) -> Option<(Interface, u32)> {
        self.end.live(object)
    }

    /// How many objects the end has: wl_display, those that are live, and at a client those that it
    /// destroyed and that have not ended yet. [`Incoming::Deleted`](crate::Incoming::Deleted) ends
    /// one that the client made; one that the server made ends when its id is used again.
    pub fn object_count(&self) -> usize {
        self.end.object_count()
    }

    /// The objects that [`object_count`](Writer::object_count) counts, in the order of their ids.
    pub fn objects(&self) -> impl Iterator<Item = Object> + '_ {
        let first = self.end.object_after(0);
        std::iter::successors(first, |last| self.end.object_after(last.id()))
    }

    /// Whether the end has failed. It fails for good when `next` reads a message at fault, and by
    /// [`take_waiting_tokens`](crate::Connection::take_waiting_tokens). A client also fails when it reads
    /// wl_display.error, and a server by [`post_error`](Writer::post_error). What
    /// waits in the outbox can still be taken; a server's wl_display.error is the last of it.
    pub fn has_failed(&self) -> bool {
        self.end.has_failed()
    }

    /// The free bytes and tokens of the inbox; zeros at a failed end.
    pub fn in_room(&self) -> Amounts {
        self.end.in_room()
    }

    /// The free bytes and descriptors of the outbox; also at a failed end. A wl_display.error takes no
    /// room: it has its own. This takes constant time, however much waits.
    pub fn out_room(&self) -> Amounts {
        self.end.out_room()
    }

    /// Whether nothing waits in the inbox or the outbox.
    pub fn is_drained(&self) -> bool {
        self.end.is_drained()
    }

    /// Writes a message, and returns the object that it makes, if it makes one. A client writes
    /// requests, a server events.
    ///
    /// At a client, an object that the request destroys is dead afterwards. Events for it may still
    /// come ([`Incoming::Discarded`](crate::Incoming::Discarded)), until
    /// [`Incoming::Deleted`](crate::Incoming::Deleted) ends it. That does not come for an object
    /// that the server made, which is dead until an event makes one with its id. wl_registry.bind
    /// is [`SendError::NoSuchMessage`]: [`bind`](Writer::bind) writes it.
    ///
    /// The end sends a duplicate of each descriptor. It owns the duplicate once the message is written;
    /// if the call is refused, the duplicate is closed. The caller's own descriptor stays open.
    ///
    /// At a server, an event that destroys its object is followed by its delete_id: both are
    /// written, or nothing. The events of wl_display and wl_registry are
    /// [`SendError::NoSuchMessage`]: other calls write them.
    #[inline]
    pub fn send(
        &self,
        target: Object,
        opcode: u16,
        args: &[Arg<'_>],
    ) -> Result<Option<Object>, SendError> {
        self.end.send(target, opcode, args)
    }

    /// Writes a message whose arguments are numbers alone (int, uint, fixed), or that has none, as
    /// [`send`](Writer::send) writes the same numbers, in fewer steps. Each number is a word: an
    /// int or a fixed number in 256ths is cast to `u32`. Any other message is
    /// [`SendError::WrongArgs`] at its first argument that is no number.
    #[inline]
    pub fn send_words(&self, target: Object, opcode: u16, words: &[u32]) -> Result<(), SendError> {
        self.end.send_words(target, opcode, words)
    }
}

impl ClientWriter {
    /// Binds a global that was announced, of this name and interface, and returns the new object.
    ///
    /// # Errors
    ///
    /// - [`SendError::Failed`], [`SendError::Stale`];
    /// - [`SendError::NoSuchMessage`] if `registry` is no wl_registry;
    /// - [`SendError::BadBind`] if the client remembers no global of this name, interface and version: see
    ///   [`Message::is_forgotten`](crate::Message::is_forgotten);
    /// - [`SendError::Full`], [`SendError::NoIds`], [`SendError::NoMemory`].
    pub fn bind(
        &self,
        registry: Object,
        name: u32,
        interface: &str,
        version: u32,
    ) -> Result<Object, SendError> {
        self.end.bind(registry, name, interface, version)
    }

    /// Binds a global whether or not it was announced, and leaves it to the server to judge the bind. So
    /// this can bind a global that the client does not remember, or that was withdrawn. What the client
    /// remembers of globals is not changed. The message has this version.
    ///
    /// At this end the object has the version that the tables have now, so no request and no event in
    /// them is too new for it. If you send a request that is newer than the bind, it is written, and the
    /// server ends the connection.
    ///
    /// Prefer [`bind`](Writer::bind): the proof about two ends does not cover this call, since their
    /// versions of the object may differ.
    ///
    /// # Errors
    ///
    /// Those of [`bind`](Writer::bind), but [`SendError::BadBind`] only if the tables have no such interface,
    /// or if the version is 0 or above theirs.
    pub fn bind_unannounced(
        &self,
        registry: Object,
        name: u32,
        interface: &str,
        version: u32,
    ) -> Result<Object, SendError> {
        self.end.bind_unannounced(registry, name, interface, version)
    }

    /// The object of the server that the last message made; `None` if it made none, or no message was
    /// read yet. It is also there if the report was [`Incoming::Discarded`](crate::Incoming::Discarded), so
    /// that you can destroy the object. A call that reads no message does not change it.
    pub fn made(&self) -> Option<Object> {
        self.end.made()
    }
}

impl ServerWriter {
    /// Adds a global and returns its name. [`announce`](Writer::announce) writes it to the registries.
    ///
    /// # Errors
    ///
    /// [`GlobalError::Failed`], [`GlobalError::BadGlobal`], [`GlobalError::TooMany`] and
    /// [`GlobalError::NoMemory`].
    pub fn add_global(&self, interface: Interface, version: u32) -> Result<u32, GlobalError> {
        self.end.add_global(interface.0, version)
    }

    /// Sets how many globals the server may add in its life, including those that it has added: 1,024
    /// unless this is called. Of a number above [`MOST_GLOBALS`](crate::MOST_GLOBALS), that many.
    pub fn allow_globals(&self, number: usize) {
        self.end.allow_globals(number);
    }

    /// Withdraws a global. It can still be bound, since a bind may be on its way.
    /// [`announce`](Writer::announce) writes global_remove to the registries that were told of it.
    ///
    /// # Errors
    ///
    /// [`GlobalError::Failed`] and [`GlobalError::NoSuchGlobal`].
    pub fn withdraw(&self, name: u32) -> Result<(), GlobalError> {
        self.end.withdraw(name)
    }

    /// Writes to each open registry which globals were added or withdrawn since the last call, as far
    /// as the events fit, and returns how many it wrote, and whether these were all. Call it after a
    /// request has made a registry, after a change of the globals, and after a take if not all events
    /// had fitted.
    ///
    /// # Errors
    ///
    /// Only [`SendError::Failed`]. It is no error if events do not fit: the next call continues there.
    pub fn announce(&self) -> Result<Announced, SendError> {
        self.end.announce()
    }

    /// Ends an object without its event, such as a callback that nobody waits for, and writes its delete_id.
    ///
    /// # Errors
    ///
    /// [`SendError::Failed`], [`SendError::Stale`], [`SendError::NotDroppable`] and [`SendError::Full`].
    pub fn drop_object(&self, object: Object) -> Result<(), SendError> {
        self.end.drop_object(object)
    }

    /// Ends an object when the caller says so, whatever its interface, and writes its delete_id if the
    /// client made it. What is proved about two ends together does not cover this call: only the caller
    /// knows that the client sends no more requests that name the object.
    ///
    /// # Errors
    ///
    /// [`SendError::Failed`], [`SendError::Stale`], [`SendError::NotDroppable`] for wl_display and
    /// registries, and [`SendError::Full`].
    pub fn end_object(&self, object: Object) -> Result<(), SendError> {
        self.end.end_object(object)
    }

    /// Ends the connection with wl_display.error about an object. At most 127 bytes of the text are
    /// written, and nothing from a NUL on. The outbox always has room for it. The server has failed
    /// afterwards: take what waits, and send it.
    ///
    /// # Errors
    ///
    /// [`SendError::Failed`] and [`SendError::Stale`].
    pub fn post_error(&self, object: Object, code: u32, text: &str) -> Result<(), SendError> {
        self.end.post_error(object, code, text)
    }
}
