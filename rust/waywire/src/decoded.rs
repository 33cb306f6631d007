//! One message, decoded by its signature.

use crate::args::Fixed;
use crate::error::FaultKind;
use crate::inspector::Sender;
use crate::sys;
use crate::tables::{Interface, Tables};

/// The message at the front of some bytes, decoded by its signature in the tables.
///
/// Nothing is judged: no object is looked up, and a message that breaks a rule of its session is decoded
/// like any other.
///
/// ```
/// # use waywire::{Decoded, Sender, Spelled, Tables};
/// # fn main() -> Result<(), Box<dyn std::error::Error>> {
/// let tables = Tables::core()?;
/// let display = tables.interface("wl_display").unwrap();
///
/// // wl_display.sync with the new id 2.
/// let bytes = [1, 0, 0, 0, 0, 0, 12, 0, 2, 0, 0, 0];
/// let sync = Decoded::of(&tables, display, 1, Sender::Client, &bytes).unwrap();
/// assert_eq!((sync.name(), sync.size(), sync.fault()), ("sync", 12, None));
/// let interface = tables.interface("wl_callback");
/// let made = Spelled::NewId { id: 2, interface, by_server: false };
/// assert_eq!(sync.args().collect::<Vec<_>>(), [made]);
/// # Ok(())
/// # }
/// ```
#[derive(Clone, Debug)]
pub struct Decoded<'a>(pub(crate) sys::Decoded<'a>);

/// An argument as it is in the bytes; an object is only an id.
#[derive(Clone, Copy, Debug, PartialEq)]
pub enum Spelled<'a> {
    /// A signed number.
    Int(i32),
    /// An unsigned number.
    Uint(u32),
    /// A number in 256ths.
    Fixed(Fixed),
    /// A string without its NUL, or the null string. Its bytes need not be UTF-8.
    Str(Option<&'a [u8]>),
    /// An object.
    Object {
        /// Its id; 0 is null.
        id: u32,
        /// The interface that the signature requires; `None` if any will do.
        interface: Option<Interface>,
    },
    /// A new object.
    NewId {
        /// Its id.
        id: u32,
        /// Its interface.
        interface: Option<Interface>,
        /// Whether the server makes it.
        by_server: bool,
    },
    /// The new object of wl_registry.bind, whose interface is named in the bytes.
    Bound {
        /// The name of its interface.
        name: &'a [u8],
        /// Its version.
        version: u32,
        /// Its id.
        id: u32,
        /// Its interface, if the tables have one of that name.
        interface: Option<Interface>,
    },
    /// Bytes.
    Array(&'a [u8]),
    /// A file descriptor, which is not among the bytes.
    Fd,
}

impl<'a> Decoded<'a> {
    /// Decodes the message at the front of the bytes: a request or an event, depending on the sender, for an
    /// object of this interface and version. [`u32::MAX`] accepts messages of every version. Bytes after the
    /// message are ignored. `None` for an interface of larger tables, whose index these tables do not have.
    pub fn of(
        tables: &'a Tables,
        interface: Interface,
        version: u32,
        sender: Sender,
        bytes: &'a [u8],
    ) -> Option<Decoded<'a>> {
        sys::Decoded::new(&tables.0, interface.0, version, sender, bytes).map(Decoded)
    }

    /// Why the bytes are no such message: [`FaultKind::BadSize`], [`FaultKind::UnknownMessage`],
    /// [`FaultKind::BadArgument`] or [`FaultKind::TrailingBytes`]. `None` if they are one.
    pub fn fault(&self) -> Option<FaultKind> {
        self.0.fault()
    }

    /// The id of the object that it is for; 0 if there are fewer than 8 bytes.
    pub fn target(&self) -> u32 {
        self.0.target()
    }

    /// Which message of its target's interface it is; 0 if there are fewer than 8 bytes.
    pub fn opcode(&self) -> u16 {
        self.0.opcode()
    }

    /// The length of the whole message, as its header says; 0 if there are fewer than 8 bytes.
    pub fn size(&self) -> u16 {
        self.0.size()
    }

    /// Its name; empty if the interface has no such message.
    pub fn name(&self) -> &'a str {
        self.0.name()
    }

    /// Its arguments in order; if one is at fault, those before it.
    pub fn args(&self) -> impl Iterator<Item = Spelled<'a>> + '_ {
        (0..self.0.len()).filter_map(|place| self.0.arg(place))
    }
}
