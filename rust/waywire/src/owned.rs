//! Messages in memory of their own.

use crate::args::{Fixed, Value};
use crate::report::Message;
use crate::tables::{Interface, Object};
use crate::typed::Readable;
use std::ffi::{CStr, CString};
use std::os::fd::{AsFd, OwnedFd};

/// A message in memory of its own, with its descriptors, to be kept while its end reads on. Its descriptors
/// are closed when it is dropped.
#[derive(Debug)]
pub struct OwnedMessage {
    /// The object that it is for.
    pub target: Object,
    /// The interface of that object.
    pub interface: Interface,
    /// The version of that object.
    pub version: u32,
    /// Which message of the interface it is.
    pub opcode: u16,
    /// Whether it is wl_registry.global and the client does not remember the global:
    /// [`Message::is_forgotten`].
    pub is_forgotten: bool,
    /// Its arguments, in order.
    pub args: Vec<OwnedValue>,
}

/// An argument of an owned message: a [`Value`] with its bytes.
#[derive(Debug)]
pub enum OwnedValue {
    /// A signed number.
    Int(i32),
    /// An unsigned number.
    Uint(u32),
    /// A number in 256ths.
    Fixed(Fixed),
    /// A string, or the null string. It need not be UTF-8.
    Str(Option<CString>),
    /// A live object, or null.
    Object(Option<Object>),
    /// An object that this end has destroyed already: the event was written before.
    Dead(Object),
    /// The object that the message makes.
    NewId(Object),
    /// The object that wl_registry.bind makes, its interface and its version.
    Bound {
        /// The name of its interface.
        interface: CString,
        /// Its version.
        version: u32,
        /// The object.
        object: Object,
    },
    /// Bytes.
    Array(Vec<u8>),
    /// A file descriptor; `None` if it was taken before.
    Fd(Option<OwnedFd>),
}

impl OwnedValue {
    /// The same, lent.
    pub fn value(&self) -> Value<'_> {
        self.with(match self {
            OwnedValue::Fd(fd) => fd.as_ref().map(AsFd::as_fd),
            _ => None,
        })
    }

    /// The same, lent, except for its descriptor, which is taken out.
    pub(crate) fn taken(&mut self) -> Value<'_, OwnedFd> {
        let fd = match self {
            OwnedValue::Fd(fd) => fd.take(),
            _ => None,
        };
        self.with(fd)
    }

    fn with<D>(&self, fd: Option<D>) -> Value<'_, D> {
        match self {
            OwnedValue::Int(number) => Value::Int(*number),
            OwnedValue::Uint(number) => Value::Uint(*number),
            OwnedValue::Fixed(number) => Value::Fixed(*number),
            OwnedValue::Str(text) => Value::Str(text.as_deref()),
            OwnedValue::Object(object) => Value::Object(*object),
            OwnedValue::Dead(object) => Value::Dead(*object),
            OwnedValue::NewId(object) => Value::NewId(*object),
            OwnedValue::Bound { interface, version, object } => {
                Value::Bound { interface, version: *version, object: *object }
            }
            OwnedValue::Array(bytes) => Value::Array(bytes),
            OwnedValue::Fd(_) => Value::Fd(fd),
        }
    }
}

impl From<Value<'_, OwnedFd>> for OwnedValue {
    fn from(value: Value<'_, OwnedFd>) -> OwnedValue {
        match value {
            Value::Int(number) => OwnedValue::Int(number),
            Value::Uint(number) => OwnedValue::Uint(number),
            Value::Fixed(number) => OwnedValue::Fixed(number),
            Value::Str(text) => OwnedValue::Str(text.map(CStr::to_owned)),
            Value::Object(object) => OwnedValue::Object(object),
            Value::Dead(object) => OwnedValue::Dead(object),
            Value::NewId(object) => OwnedValue::NewId(object),
            Value::Bound { interface, version, object } => {
                OwnedValue::Bound { interface: interface.to_owned(), version, object }
            }
            Value::Array(bytes) => OwnedValue::Array(bytes.to_vec()),
            Value::Fd(fd) => OwnedValue::Fd(fd),
        }
    }
}

impl<R> Message<'_, R> {
    /// A copy in memory of its own, to be kept while the end reads on. To answer a message needs no copy: see
    /// [`writer`](Message::writer). The descriptors among the arguments move into the copy.
    ///
    /// A [discarded](crate::Incoming::Discarded) event has no arguments, so its copy has no descriptors: they
    /// are closed when the end reads on. [`take_descriptor`](Message::take_descriptor) takes them before.
    pub fn into_owned(mut self) -> OwnedMessage {
        OwnedMessage {
            target: self.target(),
            interface: self.interface(),
            version: self.version(),
            opcode: self.opcode(),
            is_forgotten: self.is_forgotten(),
            args: self.take_args().map(OwnedValue::from).collect(),
        }
    }
}
