//! The call that takes one message apart.

use super::tables::interface_or_any;
use super::{fault_kind, lent, Tables, NO_ARG};
use crate::args::{Fixed, MAX_ARGS};
use crate::decoded::Spelled;
use crate::error::FaultKind;
use crate::inspector::Sender;
use std::marker::PhantomData;
use std::ptr;
use waywire_sys as ffi;

/// A message that was decoded. Its name lies in the tables, its strings and arrays in the bytes, and both
/// are borrowed for `'a`.
#[derive(Clone, Debug)]
pub struct Decoded<'a> {
    raw: ffi::waywire_decoded,
    fault: Option<FaultKind>,
    lent: PhantomData<&'a [u8]>,
}

// SAFETY: it only lends a name of tables and slices of bytes, which nobody changes as long as `'a` lasts, and
// nothing here writes through the pointers. The header says so of both: tables never change, and any thread
// may read what the pointers of an inspector lead to, until a call that may change the inspector. Such a call
// takes the inspector by a `&mut`.
unsafe impl Send for Decoded<'_> {}
// SAFETY: as for `Send`.
unsafe impl Sync for Decoded<'_> {}

impl<'a> Decoded<'a> {
    /// `None` past the tables.
    pub fn new(
        tables: &'a Tables,
        interface: u16,
        version: u32,
        sender: Sender,
        bytes: &'a [u8],
    ) -> Option<Decoded<'a>> {
        let (at, from, length) = (bytes.as_ptr().cast(), sender.number(), bytes.len());
        // SAFETY: the tables are the library's, and all else lasts longer than the call. The name lies in
        // the tables, and all else in the bytes, which both are borrowed for `'a`.
        unsafe {
            Decoded::by(|decoded| {
                ffi::waywire_tables_decode(
                    tables.at(),
                    interface,
                    version,
                    from,
                    at,
                    length,
                    decoded,
                )
            })
        }
    }

    /// What a call of the library decodes, which returns its status. `None` if nothing is decoded.
    ///
    /// # Safety
    ///
    /// The call writes what the library decodes. The name lies in tables, and strings and arrays lie in
    /// bytes, which all stay as they are as long as `'a` lasts.
    pub unsafe fn by(
        take_apart: impl FnOnce(*mut ffi::waywire_decoded) -> u32,
    ) -> Option<Decoded<'a>> {
        let mut raw = ffi::waywire_decoded {
            target: 0,
            opcode: 0,
            size: 0,
            name: ptr::null(),
            name_length: 0,
            arg_count: 0,
            place: 0,
            spelling: 0,
            interfaces: [0; MAX_ARGS],
            args: [NO_ARG; MAX_ARGS],
        };
        let status = take_apart(&mut raw);
        let fault = match status {
            ffi::WAYWIRE_OK => None,
            ffi::WAYWIRE_FAULT_BAD_SIZE..=ffi::WAYWIRE_FAULT_TOO_MANY_OBJECTS => {
                Some(fault_kind(status, raw.place, raw.spelling))
            }
            _ => return None,
        };
        Some(Decoded { raw, fault, lent: PhantomData })
    }

    pub fn fault(&self) -> Option<FaultKind> {
        self.fault
    }

    pub fn target(&self) -> u32 {
        self.raw.target
    }

    pub fn opcode(&self) -> u16 {
        self.raw.opcode
    }

    pub fn size(&self) -> u16 {
        self.raw.size
    }

    pub fn name(&self) -> &'a str {
        // SAFETY: the name lies in the tables, which are borrowed for `'a`.
        let bytes = unsafe { lent::<'a, u8>(self.raw.name.cast(), self.raw.name_length) };
        std::str::from_utf8(bytes).unwrap_or("")
    }

    pub fn len(&self) -> usize {
        self.raw.arg_count
    }

    pub fn arg(&self, place: usize) -> Option<Spelled<'a>> {
        let arg = self.raw.args[..self.raw.arg_count].get(place)?;
        // SAFETY: they lie in the bytes that were decoded, which are borrowed for `'a`.
        let bytes = unsafe { lent::<'a, u8>(arg.bytes.cast(), arg.length) };
        let interface = interface_or_any(self.raw.interfaces[place]);
        let id = arg.object.id;
        Some(match arg.kind {
            ffi::WAYWIRE_INT => Spelled::Int(arg.i),
            ffi::WAYWIRE_UINT => Spelled::Uint(arg.u),
            ffi::WAYWIRE_FIXED => Spelled::Fixed(Fixed::from_raw(arg.i)),
            ffi::WAYWIRE_STRING => Spelled::Str(Some(bytes)),
            ffi::WAYWIRE_NULL_STRING => Spelled::Str(None),
            ffi::WAYWIRE_OBJECT | ffi::WAYWIRE_NULL_OBJECT => Spelled::Object { id, interface },
            ffi::WAYWIRE_NEW => Spelled::NewId { id, interface, by_server: false },
            ffi::WAYWIRE_NEW_BY_SERVER => Spelled::NewId { id, interface, by_server: true },
            ffi::WAYWIRE_BOUND => Spelled::Bound { name: bytes, version: arg.u, id, interface },
            ffi::WAYWIRE_ARRAY => Spelled::Array(bytes),
            // No argument has another kind.
            _ => Spelled::Fd,
        })
    }
}
