//! What `waywire` needs of the system and std does not have. It is no part of libwaywire.

use std::ffi::{c_int, c_ulong};

pub const F_SETFD: c_int = 2;
pub const FD_CLOEXEC: c_int = 1;
pub const F_DUPFD_CLOEXEC: c_int = 1030;
/// The process may open no more descriptors.
pub const EMFILE: c_int = 24;
/// More descriptors came than there was room for.
pub const EOVERFLOW: c_int = 75;
/// The kernel has no memory now.
pub const ENOMEM: c_int = 12;
/// The kernel has no room for a message now.
pub const ENOBUFS: c_int = 105;
/// Too many descriptors of this user are on their way now.
pub const ETOOMANYREFS: c_int = 109;
pub const POLLIN: i16 = 1;
pub const POLLOUT: i16 = 4;

/// `struct pollfd`.
#[derive(Clone, Copy, Debug)]
#[repr(C)]
pub struct pollfd {
    pub fd: c_int,
    pub events: i16,
    pub revents: i16,
}

extern "C" {
    pub fn fcntl(descriptor: c_int, command: c_int, ...) -> c_int;
    pub fn poll(descriptors: *mut pollfd, count: c_ulong, milliseconds: c_int) -> c_int;
}
