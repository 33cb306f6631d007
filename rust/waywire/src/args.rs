//! The arguments of messages.

use crate::sys::{self, ArgOf};
use crate::tables::Object;
use std::ffi::CStr;
use std::fmt;
use std::os::fd::{AsFd, AsRawFd, BorrowedFd, OwnedFd};
use std::slice;
use waywire_sys as ffi;

/// The most arguments that a message can have, and so the most descriptors.
pub const MAX_ARGS: usize = ffi::WAYWIRE_MAX_ARGS as usize;

/// A number in 256ths. It is displayed as an [`f64`], with the same options.
#[derive(Clone, Copy, Default, PartialEq, Eq, Hash, PartialOrd, Ord)]
pub struct Fixed(i32);

impl Fixed {
    /// The number of this many 256ths.
    pub fn from_raw(raw: i32) -> Fixed {
        Fixed(raw)
    }

    /// How many 256ths it is.
    pub fn raw(self) -> i32 {
        self.0
    }
}

impl From<Fixed> for f64 {
    #[inline]
    fn from(number: Fixed) -> f64 {
        f64::from(number.0) / 256.0
    }
}

/// The nearest number that can be represented.
impl From<f64> for Fixed {
    #[inline]
    fn from(number: f64) -> Fixed {
        // A cast ends at the greatest and the least.
        Fixed((number * 256.0).round() as i32)
    }
}

impl fmt::Display for Fixed {
    fn fmt(&self, f: &mut fmt::Formatter<'_>) -> fmt::Result {
        fmt::Display::fmt(&f64::from(*self), f)
    }
}

impl fmt::Debug for Fixed {
    fn fmt(&self, f: &mut fmt::Formatter<'_>) -> fmt::Result {
        fmt::Display::fmt(self, f)
    }
}

/// An argument of a call.
#[derive(Clone, Copy, Debug)]
pub enum Arg<'a> {
    /// A signed number.
    Int(i32),
    /// An unsigned number.
    Uint(u32),
    /// A number in 256ths.
    Fixed(Fixed),
    /// A string without its NUL, or the null string.
    Str(Option<&'a [u8]>),
    /// An object, or null.
    Object(Option<Object>),
    /// Stands for the object that the message makes.
    NewId,
    /// Bytes.
    Array(&'a [u8]),
    /// A file descriptor. The end sends a duplicate of it, and closes the duplicate once it was sent.
    Fd(BorrowedFd<'a>),
}

impl<'a> From<&'a str> for Arg<'a> {
    #[inline]
    fn from(text: &'a str) -> Arg<'a> {
        Arg::Str(Some(text.as_bytes()))
    }
}

impl<'a> From<BorrowedFd<'a>> for Arg<'a> {
    #[inline]
    fn from(fd: BorrowedFd<'a>) -> Self {
        Arg::Fd(fd)
    }
}

impl From<Object> for Arg<'_> {
    #[inline]
    fn from(object: Object) -> Self {
        Arg::Object(Some(object))
    }
}

/// An argument of a message that was read. `D` is the type of a file descriptor: a [`BorrowedFd`] if the
/// message lends it, an [`OwnedFd`] if it is taken out of the message.
#[derive(Clone, Copy, Debug)]
pub enum Value<'a, D = BorrowedFd<'a>> {
    /// A signed number.
    Int(i32),
    /// An unsigned number.
    Uint(u32),
    /// A number in 256ths.
    Fixed(Fixed),
    /// A string, or the null string. It need not be UTF-8: [`CStr::to_str`] says whether it is.
    Str(Option<&'a CStr>),
    /// A live object, or null.
    Object(Option<Object>),
    /// An object that this end has destroyed already: the event was written before.
    Dead(Object),
    /// The object that the message makes.
    NewId(Object),
    /// The object that wl_registry.bind makes, its interface and its version.
    Bound {
        /// The name of its interface.
        interface: &'a CStr,
        /// Its version.
        version: u32,
        /// The object.
        object: Object,
    },
    /// Bytes.
    Array(&'a [u8]),
    /// A file descriptor; `None` if it was taken out of the message before.
    Fd(Option<D>),
}

/// Descriptors are equal if they have the same number.
impl<D: AsRawFd> PartialEq for Value<'_, D> {
    fn eq(&self, other: &Self) -> bool {
        let number = |it: &Option<D>| it.as_ref().map(AsRawFd::as_raw_fd);
        match (self, other) {
            (Value::Int(one), Value::Int(other)) => one == other,
            (Value::Uint(one), Value::Uint(other)) => one == other,
            (Value::Fixed(one), Value::Fixed(other)) => one == other,
            (Value::Str(one), Value::Str(other)) => one == other,
            (Value::Object(one), Value::Object(other)) => one == other,
            (Value::Dead(one), Value::Dead(other)) => one == other,
            (Value::NewId(one), Value::NewId(other)) => one == other,
            (Value::Array(one), Value::Array(other)) => one == other,
            (Value::Fd(one), Value::Fd(other)) => number(one) == number(other),
            (
                Value::Bound { interface: one, version: its, object: made },
                Value::Bound { interface: other, version, object },
            ) => one == other && its == version && made == object,
            _ => false,
        }
    }
}

/// The value of an argument. `next` returns the next descriptor of the message.
#[inline]
fn value<'a, D>(arg: &ArgOf<'a>, next: impl FnOnce() -> Option<D>) -> Value<'a, D> {
    match arg.kind() {
        ffi::WAYWIRE_INT => Value::Int(arg.int()),
        ffi::WAYWIRE_UINT => Value::Uint(arg.uint()),
        ffi::WAYWIRE_FIXED => Value::Fixed(Fixed(arg.int())),
        ffi::WAYWIRE_STRING => Value::Str(Some(arg.text())),
        ffi::WAYWIRE_NULL_STRING => Value::Str(None),
        ffi::WAYWIRE_OBJECT => Value::Object(Some(arg.object())),
        ffi::WAYWIRE_NULL_OBJECT => Value::Object(None),
        ffi::WAYWIRE_DEAD_OBJECT => Value::Dead(arg.object()),
        ffi::WAYWIRE_NEW => Value::NewId(arg.object()),
        ffi::WAYWIRE_BOUND => {
            Value::Bound { interface: arg.text(), version: arg.uint(), object: arg.object() }
        }
        ffi::WAYWIRE_ARRAY => Value::Array(arg.bytes()),
        ffi::WAYWIRE_FD => Value::Fd(next()),
        // No report has another kind.
        other => unreachable!("an argument of kind {other}"),
    }
}

/// The arguments of a message, in order. It is an iterator that lends the descriptors of the message. A
/// copy of it can be used to begin again.
#[derive(Clone)]
pub struct Args<'a> {
    args: sys::ArgsOf<'a>,
    held: slice::Iter<'a, Option<OwnedFd>>,
}

impl<'a> Args<'a> {
    #[inline]
    pub(crate) fn of(reading: &'a sys::Reading) -> Args<'a> {
        let (args, held) = reading.args();
        Args { args, held }
    }

    /// Whether no argument is left.
    pub fn is_empty(&self) -> bool {
        self.len() == 0
    }
}

impl<'a> Iterator for Args<'a> {
    type Item = Value<'a>;

    #[inline]
    fn next(&mut self) -> Option<Value<'a>> {
        let arg = self.args.next()?;
        Some(value(&arg, || self.held.next()?.as_ref().map(AsFd::as_fd)))
    }

    fn size_hint(&self) -> (usize, Option<usize>) {
        self.args.size_hint()
    }
}

/// The same, which takes the descriptors out of the message.
pub(crate) struct TakenArgs<'a> {
    args: sys::ArgsOf<'a>,
    held: slice::IterMut<'a, Option<OwnedFd>>,
}

impl<'a> TakenArgs<'a> {
    #[inline]
    pub(crate) fn of(reading: &'a mut sys::Reading) -> TakenArgs<'a> {
        let (args, held) = reading.args_mut();
        TakenArgs { args, held }
    }
}

impl<'a> Iterator for TakenArgs<'a> {
    type Item = Value<'a, OwnedFd>;

    #[inline]
    fn next(&mut self) -> Option<Value<'a, OwnedFd>> {
        let arg = self.args.next()?;
        Some(value(&arg, || self.held.next()?.take()))
    }
}

impl ExactSizeIterator for Args<'_> {}

impl fmt::Debug for Args<'_> {
    fn fmt(&self, f: &mut fmt::Formatter<'_>) -> fmt::Result {
        f.debug_list().entries(self.clone()).finish()
    }
}

#[cfg(test)]
mod tests {
    use super::Fixed;

    #[test]
    fn fixed_numbers_are_displayed() {
        let number = Fixed::from_raw(384);
        assert_eq!((format!("{number}"), format!("{number:6.2}")), ("1.5".into(), "  1.50".into()));
        assert_eq!((format!("{number:?}"), Fixed::default().raw()), ("1.5".into(), 0));
    }
}
