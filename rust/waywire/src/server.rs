//! The server's end of a connection.

use crate::amounts::Sizes;
use crate::connection::{AsServer, Connection};
use crate::error::{NewError, NextError, Unanswered};
use crate::report::Request;
use crate::sys;
use crate::tables::Tables;
use waywire_sys as ffi;

/// The most globals that any server adds in its life: see
/// [`allow_globals`](crate::Writer::allow_globals).
pub const MOST_GLOBALS: usize = ffi::WAYWIRE_MOST_GLOBALS as usize;

/// The server's end of one connection: its objects, its inbox and outbox, and the globals that it
/// advertises. [`Connection`] has the calls that a client has too.
pub type Server = Connection<AsServer>;

impl Server {
    /// A server that has only wl_display, with an empty inbox, an empty outbox and no globals.
    pub fn new(tables: &Tables, sizes: &Sizes) -> Result<Server, NewError> {
        sys::End::new_server(&tables.0, sizes).map(|end| Connection::of(end, tables, sizes))
    }

    /// Reads the next request; `None` if no request is whole. An object that the request destroys is
    /// closed; if the client made it, its delete_id is written at once. Memory is allocated only for an
    /// object that the request makes.
    // Not an iterator's: what it returns is lent from the server.
    #[inline]
    #[allow(clippy::should_implement_trait)]
    pub fn next(&mut self) -> Result<Option<Request<'_>>, NextError> {
        self.writer.end.next(&mut self.reading)?;
        Ok(request(self.last_read()))
    }

    /// Reads the next request as [`next`](Server::next) does, but answers no fault: nothing changes,
    /// and the caller ends the connection with [`post_error`](crate::Writer::post_error), in its own words and
    /// about an object of its choice. Until then the same fault is returned again, except
    /// [`FaultKind::MissingDescriptor`](crate::FaultKind::MissingDescriptor), which ends if the
    /// descriptor comes. What is proved about two ends together does not cover this call.
    pub fn next_unanswered(&mut self) -> Result<Option<Request<'_>>, Unanswered<'_>> {
        match self.writer.end.next_unanswered(&mut self.reading) {
            Ok(()) => Ok(request(self.last_read())),
            Err(error) => Err(self.reading.report().unanswered(error)),
        }
    }
}

/// The request that was read, if one was.
#[inline]
fn request(read: Request<'_>) -> Option<Request<'_>> {
    (read.report().kind() == ffi::WAYWIRE_MESSAGE).then_some(read)
}
