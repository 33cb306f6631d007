//! What an end has read, with the descriptors that came with it.

use super::{ArgsOf, Report};
use crate::args::MAX_ARGS;
use std::os::fd::{FromRawFd, OwnedFd, RawFd};
use std::slice;

/// The most descriptors of a message.
const MOST: usize = MAX_ARGS;

/// The report of the last message that was read, and those of its descriptors that nobody has taken
/// yet. They are closed when the next one is read, or with the end.
#[derive(Debug)]
pub struct Reading {
    pub(super) report: Report,
    held: [Option<OwnedFd>; MOST],
    /// How many descriptors came.
    count: usize,
}

impl Reading {
    /// A reading that `next` is to fill.
    pub fn nothing() -> Reading {
        Reading { report: Report::nothing(), held: [const { None }; MOST], count: 0 }
    }

    #[inline]
    pub fn report(&self) -> &Report {
        &self.report
    }

    /// Closes the descriptors that nobody has taken.
    #[inline]
    pub(super) fn close(&mut self) {
        if self.count > 0 {
            self.close_all();
        }
    }

    #[cold]
    fn close_all(&mut self) {
        self.held[..self.count].fill_with(|| None);
        self.count = 0;
    }

    /// Takes over the descriptors of the report that an end has just written.
    ///
    /// # Safety
    ///
    /// The report is new, its tokens are descriptors that its end owned, and the reading holds none.
    #[inline]
    pub(super) unsafe fn hold(&mut self) {
        if self.report.0.token_count > 0 {
            // SAFETY: the caller says so.
            unsafe { self.hold_all() };
        }
    }

    /// The same, if it has descriptors.
    ///
    /// # Safety
    ///
    /// As for `hold`.
    #[cold]
    unsafe fn hold_all(&mut self) {
        self.count = self.report.0.token_count.min(MOST);
        for (held, token) in self.held.iter_mut().zip(self.report.tokens()) {
            // SAFETY: the end has given the descriptor away with the report, once.
            *held = Some(unsafe { OwnedFd::from_raw_fd(*token as RawFd) });
        }
    }

    /// The descriptors that nobody has taken, in order.
    pub fn held(&self) -> &[Option<OwnedFd>] {
        &self.held[..self.count]
    }

    /// The same, to be taken.
    pub fn held_mut(&mut self) -> &mut [Option<OwnedFd>] {
        &mut self.held[..self.count]
    }

    /// The arguments of the message, and its descriptors.
    #[inline]
    pub fn args(&self) -> (ArgsOf<'_>, slice::Iter<'_, Option<OwnedFd>>) {
        (self.report.args(), self.held[..self.count].iter())
    }

    /// The same, with its descriptors to be taken.
    #[inline]
    pub fn args_mut(&mut self) -> (ArgsOf<'_>, slice::IterMut<'_, Option<OwnedFd>>) {
        (self.report.args(), self.held[..self.count].iter_mut())
    }
}
