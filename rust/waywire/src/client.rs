//! The client's end of a connection.

use crate::amounts::Sizes;
use crate::connection::{AsClient, Connection};
use crate::error::{NewError, NextError};
use crate::report::Incoming;
use crate::sys;
use crate::tables::{Object, Tables};

/// The client's end of a connection: its objects, its inbox and outbox, and the globals that were
/// announced to it. [`Connection`] has the calls that a server has too.
pub type Client = Connection<AsClient>;

impl Client {
    /// A client that has only wl_display, with an empty inbox and an empty outbox.
    pub fn new(tables: &Tables, sizes: &Sizes) -> Result<Client, NewError> {
        sys::End::new_client(&tables.0, sizes).map(|end| Connection::of(end, tables, sizes))
    }

    /// Reads the next message; `None` if no message is whole. If an event makes an object of the
    /// server, the client opens it, and [`made`](crate::Writer::made) returns it. If a live object had the
    /// same id, that object is gone, and [`replaced`](Client::replaced) returns it. Memory is allocated
    /// only for a new object whose id the server has never used, so never with tables without such
    /// events.
    // Not an iterator's: what it returns is lent from the client.
    #[inline]
    #[allow(clippy::should_implement_trait)]
    pub fn next(&mut self) -> Result<Option<Incoming<'_>>, NextError> {
        self.writer.end.next(&mut self.reading)?;
        Ok(Incoming::of(self.last_read()))
    }

    /// The live object that the last message replaced. Its id is now that of
    /// the object that [`made`](crate::Writer::made) returns. The report may have been
    /// [`Incoming::Discarded`]. `None` if the message replaced no object, or if the last call of
    /// [`next`](Client::next) read no message.
    ///
    /// Only an object of the server that no request of its version destroys can be replaced, such as a
    /// zwlr_output_head_v1 of version 2: the server destroys it on its own, and uses its id again. The
    /// old object is gone, and no later message names it, so drop here what belongs to it. While an
    /// event is lent, [`Message::replaced`](crate::Message::replaced) returns the same.
    pub fn replaced(&self) -> Option<Object> {
        self.reading.report().replaced()
    }
}
