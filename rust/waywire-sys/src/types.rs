//! The types of waywire.h and waywire-socket.h.

use crate::numbers::MAX_ARGS;
use std::ffi::{c_char, c_void};
use std::marker::{PhantomData, PhantomPinned};

macro_rules! opaque {
    ($($(#[$comment:meta])* $name:ident)*) => {
        $(
            $(#[$comment])*
            #[derive(Debug)]
            #[repr(C)]
            pub struct $name {
                opaque: [u8; 0],
                // Bound to its place, and to no thread by its type alone.
                pinned: PhantomData<(*mut u8, PhantomPinned)>,
            }
        )*
    };
}

opaque! {
    /// The interfaces, with the signatures of their messages.
    waywire_tables
    /// A client or a server.
    waywire_end
    /// What prints and judges the messages between two ends.
    waywire_inspector
    /// A socket at which clients connect.
    waywire_listening_socket
}

/// A client.
#[derive(Clone, Copy, Debug)]
#[repr(C)]
pub struct waywire_client {
    pub end: *mut waywire_end,
}

/// A server.
#[derive(Clone, Copy, Debug)]
#[repr(C)]
pub struct waywire_server {
    pub end: *mut waywire_end,
}

/// An object: its id, and its birth, which distinguishes it from every other object that had this id.
#[derive(Clone, Copy, Debug, Default, PartialEq, Eq, Hash)]
#[repr(C)]
pub struct waywire_object {
    pub birth: u64,
    pub id: u32,
}

impl waywire_object {
    /// No object.
    pub const NONE: waywire_object = waywire_object { birth: 0, id: 0 };
}

/// One argument, of a call or of a report.
#[derive(Clone, Copy, Debug)]
#[repr(C)]
pub struct waywire_arg {
    pub kind: u32,
    pub i: i32,
    pub u: u32,
    pub object: waywire_object,
    pub bytes: *const c_void,
    pub length: usize,
}

impl waywire_arg {
    /// An argument without a kind. Its `bytes` are an empty string, as in the header: the library copies all
    /// arguments of a call if it is given a null pointer.
    pub const NONE: waywire_arg = waywire_arg {
        kind: 0,
        i: 0,
        u: 0,
        object: waywire_object::NONE,
        bytes: c"".as_ptr().cast(),
        length: 0,
    };
}

/// Numbers of bytes and of tokens.
#[derive(Clone, Copy, Debug, Default)]
#[repr(C)]
pub struct waywire_amounts {
    pub bytes: usize,
    pub tokens: usize,
}

/// One of the two parts in which bytes lie.
#[derive(Clone, Copy, Debug)]
#[repr(C)]
pub struct waywire_part {
    pub bytes: *mut c_void,
    pub length: usize,
}

/// The sizes of the outbox and the inbox of an end.
#[derive(Clone, Copy, Debug)]
#[repr(C)]
pub struct waywire_sizes {
    pub out_bytes: usize,
    pub out_tokens: usize,
    pub in_bytes: usize,
    pub in_tokens: usize,
    pub limit: u32,
}

/// What an end has read.
#[derive(Debug)]
#[repr(C)]
pub struct waywire_report {
    pub kind: u32,
    pub opcode: u32,
    pub target: waywire_object,
    pub arg_count: usize,
    pub tokens: *const u32,
    pub token_count: usize,
    pub id: u32,
    pub code: u32,
    pub named: u32,
    pub spelling: u32,
    pub text: *const c_char,
    pub text_length: usize,
    pub place: usize,
    pub offset: u64,
    pub replaced: waywire_object,
    pub interface: u16,
    pub forgotten: bool,
    pub version: u32,
    pub user: *mut c_void,
    pub replaced_user: *mut c_void,
    pub args: [waywire_arg; MAX_ARGS],
}

/// What tables say about a message.
#[derive(Clone, Copy, Debug, Default)]
#[repr(C)]
pub struct waywire_message {
    pub since: u32,
    pub destroys: u32,
    pub destroyed: usize,
    pub arg_count: usize,
}

/// What tables say about an argument.
#[derive(Clone, Copy, Debug, Default)]
#[repr(C)]
pub struct waywire_kind {
    pub kind: u32,
    pub nullable: bool,
    pub interface: u16,
}

/// One message, decoded by its signature.
#[derive(Clone, Copy, Debug)]
#[repr(C)]
pub struct waywire_decoded {
    pub target: u32,
    pub opcode: u16,
    pub size: u16,
    pub name: *const c_char,
    pub name_length: usize,
    pub arg_count: usize,
    pub place: usize,
    pub spelling: u32,
    pub interfaces: [u16; MAX_ARGS],
    pub args: [waywire_arg; MAX_ARGS],
}

/// The parts of an inspector's verdict.
#[derive(Clone, Copy, Debug, Default)]
#[repr(C)]
pub struct waywire_judgement {
    pub requests: usize,
    pub events: usize,
    pub left_to_server: usize,
    pub left_to_client: usize,
    pub index: usize,
    pub offset: usize,
    pub place: usize,
    pub fault: u32,
    pub spelling: u32,
    pub sender: u32,
}

/// What is known of an id.
#[derive(Clone, Copy, Debug)]
#[repr(C)]
pub struct waywire_known {
    pub birth: u64,
    pub version: u32,
    pub interface: u16,
    pub is_known: bool,
    pub is_ending: bool,
}

/// A message that an inspector follows.
#[derive(Clone, Copy, Debug)]
#[repr(C)]
pub struct waywire_followed {
    pub number: u64,
    pub index: usize,
    pub offset: usize,
    pub bytes: *const u8,
    pub length: usize,
    pub descriptor_count: usize,
    pub object: waywire_known,
    pub target: u32,
    pub opcode: u16,
    pub size: u16,
    pub made: u32,
    pub made_version: u32,
    pub destroyed: u32,
    pub deleted: u32,
    pub made_interface: u16,
    pub is_read: bool,
}
