//! The two halves of a connection that has read a message: what was read, and what writes the answer.

use super::Reading;
use crate::connection::Connection;
use crate::writer::Writer;
use std::marker::PhantomData;
use std::ptr::NonNull;

/// A connection that is lent for `'a`: its reading to be changed, its writer to be shared. It is one pointer, so a
/// message is as cheap to return as a borrow. It stays on its thread, since the writer may not be shared.
pub struct Read<'a, R> {
    at: NonNull<Connection<R>>,
    lent: PhantomData<&'a mut Connection<R>>,
}

impl<'a, R> Read<'a, R> {
    #[inline]
    pub fn of(connection: &'a mut Connection<R>) -> Read<'a, R> {
        Read { at: NonNull::from(connection), lent: PhantomData }
    }

    /// The writer, also while the reading is borrowed.
    #[inline]
    pub fn writer(&self) -> &'a Writer<R> {
        // SAFETY: the connection is borrowed for `'a` by this value alone. It never lends the writer, or the whole
        // connection, by a `&mut`; and `reading_mut` lends another field.
        unsafe { &(*self.at.as_ptr()).writer }
    }

    #[inline]
    pub fn reading(&self) -> &Reading {
        // SAFETY: the connection is borrowed for `'a` by this value alone, which is borrowed for the loan.
        unsafe { &(*self.at.as_ptr()).reading }
    }

    #[inline]
    pub fn reading_mut(&mut self) -> &mut Reading {
        // SAFETY: as in `reading`. Loans of the writer are of another field.
        unsafe { &mut (*self.at.as_ptr()).reading }
    }

    /// The reading for as long as the connection is lent.
    #[inline]
    pub fn into_reading(self) -> &'a mut Reading {
        // SAFETY: as in `reading_mut`; this value is used up.
        unsafe { &mut (*self.at.as_ptr()).reading }
    }
}
