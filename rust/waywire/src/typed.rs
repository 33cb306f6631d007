//! What typed calls use, in modules of `stubs-from-xml --rust` such as [`wayland`](crate::wayland).

use crate::args::{Arg, Args, Fixed, TakenArgs, Value};
use crate::error::SendError;
use crate::owned::{OwnedMessage, OwnedValue};
use crate::report::Message;
use crate::tables::{Interface, Object, Tables};
use crate::writer::{ClientWriter, ServerWriter, Writer};
use std::ffi::CStr;
use std::fmt::{self, Debug, Formatter};
use std::hash::Hash;
use std::os::fd::OwnedFd;

/// An object whose interface the compiler knows.
///
/// It is a plain value, as [`Object`] is, and can be made from any object. The end knows which interface
/// the object really has, and checks each call by that.
pub trait Handle: Copy + Eq + Hash + Debug {
    /// The name of the interface.
    const NAME: &'static str;
    /// Its newest version.
    const VERSION: u32;

    /// This object, as one of the interface.
    fn of(object: Object) -> Self;

    /// The object.
    fn object(self) -> Object;
}

/// Writes a value of an enum of a protocol: the name of its constant, or its type and number if it
/// has none.
pub fn write_value(
    f: &mut Formatter<'_>,
    of: &str,
    value: u32,
    names: &[(&str, u32)],
) -> fmt::Result {
    match names.iter().find(|(_, it)| *it == value) {
        Some((name, _)) => f.write_str(name),
        None => write!(f, "{of}({value})"),
    }
}

/// Writes bits of a protocol: the names of the constants that they are joined of, and the bits that
/// have none as `write_value` does.
pub fn write_bits(
    f: &mut Formatter<'_>,
    of: &str,
    value: u32,
    names: &[(&str, u32)],
) -> fmt::Result {
    if value == 0 || names.iter().any(|(_, it)| *it == value) {
        return write_value(f, of, value, names);
    }
    let (mut left, mut between) = (value, "");
    for (name, bits) in names {
        if *bits != 0 && left & bits == *bits {
            write!(f, "{between}{name}")?;
            left &= !bits;
            between = " | ";
        }
    }
    if left == 0 {
        Ok(())
    } else {
        write!(f, "{between}{of}({left})")
    }
}

/// A message that was read, whether its end lends it or it is owned.
pub trait Readable {
    /// The object that it is for.
    fn target(&self) -> Object;

    /// Its target's interface.
    fn interface(&self) -> Interface;

    /// Which message of that interface it is.
    fn opcode(&self) -> u16;

    /// Its arguments, in order. They lend its descriptors.
    fn args(&self) -> impl Iterator<Item = Value<'_>>;

    /// Its arguments, in order. Each descriptor is taken out of the message with its argument.
    fn take_args(&mut self) -> impl Iterator<Item = Value<'_, OwnedFd>>;
}

impl<R> Readable for Message<'_, R> {
    #[inline]
    fn target(&self) -> Object {
        Message::target(self)
    }

    #[inline]
    fn interface(&self) -> Interface {
        Message::interface(self)
    }

    #[inline]
    fn opcode(&self) -> u16 {
        Message::opcode(self)
    }

    #[inline]
    fn args(&self) -> impl Iterator<Item = Value<'_>> {
        let args: Args<'_> = Message::args(self);
        args
    }

    #[inline]
    fn take_args(&mut self) -> impl Iterator<Item = Value<'_, OwnedFd>> {
        TakenArgs::of(self.read.reading_mut())
    }
}

impl Readable for OwnedMessage {
    fn target(&self) -> Object {
        self.target
    }

    fn interface(&self) -> Interface {
        self.interface
    }

    fn opcode(&self) -> u16 {
        self.opcode
    }

    fn args(&self) -> impl Iterator<Item = Value<'_>> {
        self.args.iter().map(OwnedValue::value)
    }

    fn take_args(&mut self) -> impl Iterator<Item = Value<'_, OwnedFd>> {
        self.args.iter_mut().map(OwnedValue::taken)
    }
}

/// A handler for the events that a client reads. [`event_handler!`](crate::event_handler) implements it for
/// a type that has the `Events` of some interfaces.
pub trait EventHandler {
    /// Calls the method for an event, by the interface of its object. If the handler has no `Events` for
    /// that interface, or these have no such event with such arguments, it calls nothing and returns false.
    fn dispatch_event(&mut self, client: &ClientWriter, event: &mut impl Readable) -> bool;
}

/// A handler for the requests that a server reads. [`request_handler!`](crate::request_handler) implements
/// it for a type that has the `Requests` of some interfaces.
pub trait RequestHandler {
    /// Calls the method for a request, by the interface of its object. If the handler has no `Requests`
    /// for that interface, or these have no such request with such arguments, it calls nothing and returns
    /// false.
    fn dispatch_request(&mut self, server: &ServerWriter, request: &mut impl Readable) -> bool;
}

/// Takes no event: each is dropped, with its descriptors closed.
impl EventHandler for () {
    fn dispatch_event(&mut self, _client: &ClientWriter, _event: &mut impl Readable) -> bool {
        false
    }
}

/// Takes no request: each is dropped, with its descriptors closed.
impl RequestHandler for () {
    fn dispatch_request(&mut self, _server: &ServerWriter, _request: &mut impl Readable) -> bool {
        false
    }
}

/// Makes a type an [`EventHandler`](crate::EventHandler) for the `Events` of these interfaces. Name each
/// interface by its module. Parameters of the type come before it.
///
/// ```
/// use std::ffi::CStr;
/// use waywire::wayland::wl_registry::{self, WlRegistry};
/// use waywire::wayland::wl_seat;
/// use waywire::ClientWriter;
///
/// struct Told<'a>(&'a mut Vec<u32>);
///
/// impl wl_registry::Events for Told<'_> {
///     fn global(
///         &mut self,
///         _: &ClientWriter,
///         _: WlRegistry,
///         name: u32,
///         _: &CStr,
///         _: u32,
///     ) {
///         self.0.push(name);
///     }
/// }
///
/// impl wl_seat::Events for Told<'_> {}
///
/// waywire::event_handler!(['a] Told<'a>: wl_registry, wl_seat);
/// ```
#[macro_export]
macro_rules! event_handler {
    ([$($parameters:tt)*] $handler:ty: $($($segment:ident)::+),+ $(,)?) => {
        impl<$($parameters)*> $crate::EventHandler for $handler {
            fn dispatch_event(
                &mut self,
                client: &$crate::ClientWriter,
                event: &mut impl $crate::Readable,
            ) -> bool {
                match client.tables().name($crate::Readable::interface(event)) {
                    $(Some($($segment)::+::NAME) => {
                        $($segment)::+::handle_event(self, client, event)
                    })+
                    _ => false,
                }
            }
        }
    };
    ($handler:ty: $($($segment:ident)::+),+ $(,)?) => {
        $crate::event_handler!([] $handler: $($($segment)::+),+);
    };
}

/// Makes a type a [`RequestHandler`](crate::RequestHandler) for the `Requests` of these interfaces, as
/// [`event_handler!`](crate::event_handler) does for events.
#[macro_export]
macro_rules! request_handler {
    ([$($parameters:tt)*] $handler:ty: $($($segment:ident)::+),+ $(,)?) => {
        impl<$($parameters)*> $crate::RequestHandler for $handler {
            fn dispatch_request(
                &mut self,
                server: &$crate::ServerWriter,
                request: &mut impl $crate::Readable,
            ) -> bool {
                match server.tables().name($crate::Readable::interface(request)) {
                    $(Some($($segment)::+::NAME) => {
                        $($segment)::+::handle_request(self, server, request)
                    })+
                    _ => false,
                }
            }
        }
    };
    ($handler:ty: $($($segment:ident)::+),+ $(,)?) => {
        $crate::request_handler!([] $handler: $($($segment)::+),+);
    };
}

/// Whether a message is for an object of the interface of this name.
#[inline]
pub fn is_for(tables: &Tables, message: &impl Readable, name: &str) -> bool {
    tables.name(message.interface()) == Some(name)
}

/// Writes a message that makes no object.
#[inline]
pub fn send<R>(
    writer: &Writer<R>,
    target: Object,
    opcode: u16,
    args: &[Arg<'_>],
) -> Result<(), SendError> {
    writer.send(target, opcode, args).map(drop)
}

/// Writes a message whose arguments are numbers alone, given as their words.
#[inline]
pub fn send_words<R>(
    writer: &Writer<R>,
    target: Object,
    opcode: u16,
    words: &[u32],
) -> Result<(), SendError> {
    writer.send_words(target, opcode, words)
}

/// Writes a message that makes an object.
#[inline]
pub fn make<T: Handle, R>(
    writer: &Writer<R>,
    target: Object,
    opcode: u16,
    args: &[Arg<'_>],
) -> Result<T, SendError> {
    writer.send(target, opcode, args)?.map(T::of).ok_or(SendError::NoSuchMessage)
}

/// The arguments of a message, read one after the other. A call returns `None` if the next argument is of
/// another kind.
pub struct Fields<I>(I);

/// The arguments of a message. Each descriptor is taken out of the message as it is read.
#[inline]
pub fn fields<M: Readable>(message: &mut M) -> Fields<impl Iterator<Item = Value<'_, OwnedFd>>> {
    Fields(message.take_args())
}

/// The calls for arguments that are one kind of value.
macro_rules! fields {
    ($($(#[$doc:meta])* $name:ident: $kind:ident -> $result:ty;)*) => {
        $(
            $(#[$doc])*
            #[inline]
            pub fn $name(&mut self) -> Option<$result> {
                match self.0.next()? {
                    Value::$kind(found) => Some(found),
                    _ => None,
                }
            }
        )*
    };
}

impl<'a, I: Iterator<Item = Value<'a, OwnedFd>>> Fields<I> {
    fields! {
        /// A signed number.
        int: Int -> i32;
        /// An unsigned number.
        uint: Uint -> u32;
        /// A number in 256ths.
        fixed: Fixed -> Fixed;
        /// A string, or the null string.
        nullable_string: Str -> Option<&'a CStr>;
        /// Bytes.
        array: Array -> &'a [u8];
        /// The object that the message makes.
        new_object: NewId -> Object;
    }

    /// `None` if an argument is left: then the message has more arguments than were read.
    #[inline]
    pub fn none_left(&mut self) -> Option<()> {
        self.0.next().is_none().then_some(())
    }

    /// A descriptor, unless it was taken before.
    #[inline]
    pub fn fd(&mut self) -> Option<OwnedFd> {
        match self.0.next()? {
            Value::Fd(found) => found,
            _ => None,
        }
    }

    /// A string.
    #[inline]
    pub fn string(&mut self) -> Option<&'a CStr> {
        self.nullable_string()?
    }

    /// An object, or null. It may be one that this end has destroyed already.
    #[inline]
    pub fn nullable_object(&mut self) -> Option<Option<Object>> {
        match self.0.next()? {
            Value::Object(found) => Some(found),
            Value::Dead(object) => Some(Some(object)),
            _ => None,
        }
    }

    /// An object. It may be one that this end has destroyed already.
    #[inline]
    pub fn object(&mut self) -> Option<Object> {
        self.nullable_object()?
    }

    /// The object that wl_registry.bind makes; its interface and version were read before.
    #[inline]
    pub fn bound(&mut self) -> Option<(&'a CStr, u32, Object)> {
        match self.0.next()? {
            Value::Bound { interface, version, object } => Some((interface, version, object)),
            _ => None,
        }
    }
}
