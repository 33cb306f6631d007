//! The messages that an end reads.

use crate::args::Args;
use crate::connection::{AsClient, AsServer};
use crate::inspector::Sender;
use crate::sys;
use crate::tables::{Interface, Object, Tables};
use crate::writer::Writer;
use std::fmt;
use std::os::fd::{AsFd, BorrowedFd, OwnedFd};
use waywire_sys as ffi;

/// A message that was read: its target, its opcode and its arguments. Lent from the end, with what writes the
/// answer to it ([`writer`](Message::writer)).
///
/// Its arguments lend its descriptors, and [`take_descriptor`](Message::take_descriptor) takes one out.
/// Descriptors that nobody takes are closed when the end reads on, or with the end.
pub struct Message<'a, R> {
    pub(crate) read: sys::Read<'a, R>,
}

/// A message to a client.
pub type Event<'a> = Message<'a, AsClient>;

/// A message to a server.
pub type Request<'a> = Message<'a, AsServer>;

impl<'a, R> Message<'a, R> {
    #[inline]
    pub(crate) fn report(&self) -> &sys::Report {
        self.read.reading().report()
    }

    /// What writes the messages of the end that has read this one. It can be used while the message is lent.
    #[inline]
    pub fn writer(&self) -> &'a Writer<R> {
        self.read.writer()
    }

    /// The object that it is for.
    #[inline]
    pub fn target(&self) -> Object {
        self.report().target()
    }

    /// Its target's interface, also if the message destroyed the target.
    #[inline]
    pub fn interface(&self) -> Interface {
        self.report().interface()
    }

    /// The version of its target.
    #[inline]
    pub fn version(&self) -> u32 {
        self.report().version()
    }

    /// Which message of its target's interface it is.
    #[inline]
    pub fn opcode(&self) -> u16 {
        self.report().opcode()
    }

    /// The live object that the event's new object replaced: [`Client::replaced`](crate::Client::replaced).
    /// A request replaces none.
    #[inline]
    pub fn replaced(&self) -> Option<Object> {
        self.report().replaced()
    }

    /// Whether it is wl_registry.global and the client does not remember the global: it remembers
    /// 1,024 at a time, and none whose interface is not in the tables.
    /// [`Client::bind`](crate::Writer::bind) then refuses it, and
    /// [`Client::bind_unannounced`](crate::Writer::bind_unannounced) binds it.
    #[inline]
    pub fn is_forgotten(&self) -> bool {
        self.report().is_forgotten()
    }

    /// Its arguments, in order.
    #[inline]
    pub fn args(&self) -> Args<'_> {
        Args::of(self.read.reading())
    }

    /// Those of its descriptors that were not taken, in order: the same as in its arguments.
    pub fn descriptors(&self) -> impl Iterator<Item = BorrowedFd<'_>> {
        self.read.reading().held().iter().flatten().map(AsFd::as_fd)
    }

    /// Takes the first of its descriptors that were not taken yet.
    pub fn take_descriptor(&mut self) -> Option<OwnedFd> {
        self.read.reading_mut().held_mut().iter_mut().find_map(Option::take)
    }

    /// Its line, as `waywire trace` prints it: `<- wl_surface@4.enter(wl_output@7)`. `sender` is who wrote it.
    ///
    /// It differs from a trace in three ways: an object whose interface the signature leaves open is
    /// `unknown@id`, a descriptor has its own number, and two dots replace the arguments of a discarded
    /// event.
    pub fn line(&self, tables: &Tables, sender: Sender) -> String {
        self.report().line(&tables.0, sender)
    }
}

impl<R> fmt::Debug for Message<'_, R> {
    fn fmt(&self, f: &mut fmt::Formatter<'_>) -> fmt::Result {
        f.debug_struct("Message")
            .field("target", &self.target())
            .field("interface", &self.interface())
            .field("version", &self.version())
            .field("opcode", &self.opcode())
            .field("args", &self.args())
            .finish_non_exhaustive()
    }
}

/// What a client reads.
#[derive(Debug)]
#[non_exhaustive]
pub enum Incoming<'a> {
    /// An event for a live object.
    Event(Event<'a>),
    /// An event for an object that the client has destroyed; its arguments are left out. If it made an
    /// object, that object is open: [`Client::made`](crate::Writer::made). It may have replaced one:
    /// [`Client::replaced`](crate::Client::replaced).
    Discarded(Event<'a>),
    /// wl_display.delete_id: the object is gone, and its id is free again.
    Deleted(Object),
    /// wl_display.delete_id for an id that names no object, for 1, or for an id of the server. Nothing
    /// has changed.
    Stray {
        /// The id.
        id: u32,
    },
    /// wl_display.error: the server has ended the connection. The client has failed.
    Error(ProtocolError<'a>),
}

/// The contents of wl_display.error.
#[derive(Clone, Copy, Debug, PartialEq, Eq)]
pub struct ProtocolError<'a> {
    /// The id of the object that it is about.
    pub id: u32,
    /// That object, if the client knows it.
    pub named: Named,
    /// The interface of that object, if the client knows it.
    pub interface: Option<Interface>,
    /// Its code, whose meaning depends on the object's interface.
    pub code: u32,
    /// The text, which need not be UTF-8.
    pub text: &'a [u8],
}

/// The object that an id names.
#[derive(Clone, Copy, Debug, PartialEq, Eq)]
pub enum Named {
    /// None, or an unknown one.
    Null,
    /// A live object.
    Live(Object),
    /// An object that the client has destroyed already.
    Dead(Object),
}

impl fmt::Display for ProtocolError<'_> {
    fn fmt(&self, f: &mut fmt::Formatter<'_>) -> fmt::Result {
        write!(f, "error {} of object {}: ", self.code, self.id)?;
        f.write_str(&String::from_utf8_lossy(self.text))
    }
}

impl std::error::Error for ProtocolError<'_> {}

impl<'a> Incoming<'a> {
    /// What was read; `None` if no whole message waits.
    #[inline]
    pub(crate) fn of(read: Event<'a>) -> Option<Incoming<'a>> {
        let report = read.report();
        Some(match report.kind() {
            ffi::WAYWIRE_MESSAGE => Incoming::Event(read),
            ffi::WAYWIRE_DISCARDED => Incoming::Discarded(read),
            ffi::WAYWIRE_DELETED => Incoming::Deleted(report.target()),
            ffi::WAYWIRE_STRAY => Incoming::Stray { id: report.id() },
            ffi::WAYWIRE_ERROR => {
                let report = read.read.into_reading().report();
                Incoming::Error(ProtocolError {
                    id: report.id(),
                    named: report.named(),
                    interface: (report.version() != 0).then(|| report.interface()),
                    code: report.code(),
                    text: report.text(),
                })
            }
            _ => return None,
        })
    }
}
