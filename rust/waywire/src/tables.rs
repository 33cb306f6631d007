//! The interfaces that ends know, and their objects.

use crate::error::{NewError, TablesError};
use crate::inspector::Sender;
use crate::sys;
use std::cmp::Ordering;
use std::fmt;
use waywire_sys::waywire_object;

/// An object: its id and its birth. Only both together identify it, since ids are used again.
///
/// It is a plain value. Every call refuses an object that is gone, so a value that is kept too long does
/// no harm. The client makes objects with ids from 1 on, the server with ids from 0xff000000 on, and each
/// end counts the births of both ranges separately. Keep an object together with its end, since no call
/// can distinguish it from an object of another connection.
///
/// Objects are ordered by their ids, and those with the same id by their births.
#[derive(Clone, Copy, PartialEq, Eq, Hash)]
pub struct Object(pub(crate) waywire_object);

impl Object {
    /// The id on the wire.
    pub fn id(self) -> u32 {
        self.0.id
    }

    /// The number of the object among all objects of its range that its end ever had; wl_display is 0.
    pub fn birth(self) -> u64 {
        self.0.birth
    }

    pub(crate) const NONE: Object = Object(waywire_object::NONE);
}

impl Ord for Object {
    fn cmp(&self, other: &Object) -> Ordering {
        (self.id(), self.birth()).cmp(&(other.id(), other.birth()))
    }
}

impl PartialOrd for Object {
    fn partial_cmp(&self, other: &Object) -> Option<Ordering> {
        Some(self.cmp(other))
    }
}

impl fmt::Debug for Object {
    fn fmt(&self, f: &mut fmt::Formatter<'_>) -> fmt::Result {
        write!(f, "{}/{}", self.id(), self.birth())
    }
}

/// An interface: its index in the tables.
#[derive(Clone, Copy, Debug, PartialEq, Eq, Hash)]
pub struct Interface(pub(crate) u16);

/// The interfaces, with the signatures of their messages.
///
/// They never change, and any number of threads may use them at the same time. Make them once (some 19 KB)
/// for all ends, which keep them as long as they need them. A clone refers to the same tables.
#[derive(Clone, Debug)]
pub struct Tables(pub(crate) sys::Tables);

impl Tables {
    /// The interfaces of the core protocol, wayland.xml without data transfer.
    pub fn core() -> Result<Tables, NewError> {
        sys::Tables::core().map(Tables)
    }

    /// The same for a server whose caller ends objects itself, with
    /// [`Writer::end_object`](crate::Writer::end_object), and judges which events an object's version
    /// has: no request destroys an object, except those of wl_fixes, and every event is there from
    /// version 1 on.
    pub fn core_unended() -> Result<Tables, NewError> {
        sys::Tables::core_unended().map(Tables)
    }

    /// These interfaces, followed by those that a text declares.
    ///
    /// `waywire-tables-from-xml` makes such a text from the XML of a protocol.
    ///
    /// ```
    /// # use waywire::{Tables, TablesError};
    /// let core = Tables::core().unwrap();
    /// let text = b"interface wp_thing 2\nrequest destroy D\n";
    /// let more = core.read(text).unwrap();
    /// let thing = more.interface("wp_thing").unwrap();
    /// assert_eq!(more.version(thing), Some(2));
    /// assert_eq!(core.read(b"nonsense").unwrap_err(), TablesError::BadLine { line: 1 });
    /// ```
    pub fn read(&self, text: &[u8]) -> Result<Tables, TablesError> {
        self.0.read(text).map(Tables)
    }

    /// The interface of this name.
    pub fn interface(&self, name: &str) -> Option<Interface> {
        self.0.interface(name).map(Interface)
    }

    /// The name of an interface. `None` if it is from larger tables, and these do not have its index.
    pub fn name(&self, interface: Interface) -> Option<&str> {
        self.0.name(interface.0)
    }

    /// The newest version of an interface. `None` if it is from larger tables, and these do not have its
    /// index.
    pub fn version(&self, interface: Interface) -> Option<u32> {
        self.0.version(interface.0)
    }

    /// The message of an interface with this opcode: a request or an event, depending on the sender. `None`
    /// if there is no such message.
    ///
    /// ```
    /// # use waywire::wayland::wl_surface;
    /// # use waywire::{ArgKind, Destroys, Sender, Tables};
    /// let tables = Tables::core().unwrap();
    /// let surface = tables.interface("wl_surface").unwrap();
    /// let opcode = wl_surface::request::FRAME;
    /// let frame = tables.message(surface, Sender::Client, opcode).unwrap();
    /// assert_eq!((frame.name, frame.since, frame.destroys), ("frame", 1, Destroys::Nothing));
    /// assert_eq!(frame.kinds, [ArgKind::NewId { interface: tables.interface("wl_callback") }]);
    /// ```
    pub fn message(
        &self,
        interface: Interface,
        sender: Sender,
        opcode: u16,
    ) -> Option<Signature<'_>> {
        self.0.message(interface.0, sender, opcode)
    }
}

/// What tables say of a message.
#[derive(Clone, Debug, PartialEq, Eq)]
pub struct Signature<'a> {
    /// Its name.
    pub name: &'a str,
    /// The first version of its interface that has it.
    pub since: u32,
    /// What it destroys.
    pub destroys: Destroys,
    /// The kinds of its arguments, in order.
    pub kinds: Vec<ArgKind>,
}

/// What a message destroys.
#[derive(Clone, Copy, Debug, PartialEq, Eq)]
pub enum Destroys {
    /// No object.
    Nothing,
    /// Its target.
    Target,
    /// The object that an argument names.
    Arg {
        /// The argument's index, counted from 0.
        place: usize,
    },
}

/// The kind of an argument. The interface `None` stands for any interface.
#[derive(Clone, Copy, Debug, PartialEq, Eq)]
pub enum ArgKind {
    /// A signed number.
    Int,
    /// An unsigned number.
    Uint,
    /// A number in 256ths.
    Fixed,
    /// A string.
    Str {
        /// Whether it may be the null string.
        nullable: bool,
    },
    /// An object.
    Object {
        /// Whether it may be null.
        nullable: bool,
        /// Its interface.
        interface: Option<Interface>,
    },
    /// A new object that the client makes.
    NewId {
        /// Its interface. Only wl_registry.bind has none here: the bytes name it.
        interface: Option<Interface>,
    },
    /// A new object that the server makes.
    NewByServer {
        /// Its interface.
        interface: Option<Interface>,
    },
    /// Bytes.
    Array,
    /// A file descriptor.
    Fd,
}

#[cfg(test)]
mod tests {
    use super::{waywire_object, Object};

    #[test]
    fn objects_are_ordered_by_id() {
        let object = |id, birth| Object(waywire_object { birth, id });
        let mut objects = [object(3, 2), object(2, 9), object(3, 1), object(1, 0)];
        objects.sort();
        assert_eq!(objects, [object(1, 0), object(2, 9), object(3, 1), object(3, 2)]);
    }
}
