//! The calls of tables.

use super::lent;
use crate::error::{NewError, TablesError};
use crate::inspector::Sender;
use crate::tables::{ArgKind, Destroys, Interface, Signature};
use std::ffi::CString;
use std::ptr::{self, NonNull};
use std::sync::Arc;
use waywire_sys as ffi;

/// A call of the library that makes core tables.
type MakeCore = unsafe extern "C" fn(*mut *mut ffi::waywire_tables) -> u32;

/// The interface that an index names, `None` where it stands for any.
pub fn interface_or_any(index: u16) -> Option<Interface> {
    (u32::from(index) != ffi::WAYWIRE_ANY_INTERFACE).then_some(Interface(index))
}

fn arg_kind(raw: &ffi::waywire_kind) -> ArgKind {
    let (nullable, interface) = (raw.nullable, interface_or_any(raw.interface));
    match raw.kind {
        ffi::WAYWIRE_INT => ArgKind::Int,
        ffi::WAYWIRE_UINT => ArgKind::Uint,
        ffi::WAYWIRE_FIXED => ArgKind::Fixed,
        ffi::WAYWIRE_STRING => ArgKind::Str { nullable },
        ffi::WAYWIRE_OBJECT => ArgKind::Object { nullable, interface },
        ffi::WAYWIRE_NEW => ArgKind::NewId { interface },
        ffi::WAYWIRE_NEW_BY_SERVER => ArgKind::NewByServer { interface },
        ffi::WAYWIRE_ARRAY => ArgKind::Array,
        // No tables have another kind.
        _ => ArgKind::Fd,
    }
}

/// Why no tables were read from a text.
pub(super) fn tables_error(status: u32, line: usize, rule: u32) -> TablesError {
    match status {
        ffi::WAYWIRE_BAD_LINE => TablesError::BadLine { line },
        ffi::WAYWIRE_BAD_TABLE => TablesError::BadTable { line, rule },
        ffi::WAYWIRE_FIRST_SERVER_OBJECT => TablesError::FirstServerObject,
        _ => TablesError::NoMemory,
    }
}

/// Tables as the library has them, freed when they are dropped. Ends keep what they need of them.
#[derive(Debug)]
struct OwnTables(NonNull<ffi::waywire_tables>);

impl Drop for OwnTables {
    fn drop(&mut self) {
        // SAFETY: the tables are the library's, and freed here alone.
        unsafe { ffi::waywire_tables_free(self.0.as_ptr()) }
    }
}

// SAFETY: the header says so: any threads may use tables at once, and any may free them.
unsafe impl Send for OwnTables {}
// SAFETY: as for `Send`.
unsafe impl Sync for OwnTables {}

/// Tables, which go with the last of their clones.
#[derive(Clone, Debug)]
pub struct Tables(Arc<OwnTables>);

impl Tables {
    /// Tables that the library made.
    fn owned(made: NonNull<ffi::waywire_tables>) -> Tables {
        Tables(Arc::new(OwnTables(made)))
    }

    pub fn at(&self) -> *mut ffi::waywire_tables {
        self.0 .0.as_ptr()
    }

    pub fn core() -> Result<Tables, NewError> {
        Tables::core_by(ffi::waywire_tables_core)
    }

    pub fn core_unended() -> Result<Tables, NewError> {
        Tables::core_by(ffi::waywire_tables_core_unended)
    }

    fn core_by(call: MakeCore) -> Result<Tables, NewError> {
        let mut made = ptr::null_mut();
        // SAFETY: `made` can be written.
        let _status = unsafe { call(&mut made) };
        NonNull::new(made).map(Tables::owned).ok_or(NewError::NoMemory)
    }

    pub fn read(&self, text: &[u8]) -> Result<Tables, TablesError> {
        let (mut more, mut line, mut rule) = (ptr::null_mut(), 0, 0);
        // SAFETY: the tables are the library's, and all else lasts longer than the call.
        let status = unsafe {
            ffi::waywire_tables_read(
                self.at(),
                text.as_ptr().cast(),
                text.len(),
                &mut more,
                &mut line,
                &mut rule,
            )
        };
        match (status, NonNull::new(more)) {
            (ffi::WAYWIRE_OK, Some(more)) => Ok(Tables::owned(more)),
            _ => Err(tables_error(status, line, rule)),
        }
    }

    pub fn interface(&self, name: &str) -> Option<u16> {
        let name = CString::new(name).ok()?;
        let mut interface = 0;
        // SAFETY: the tables are the library's, and all else lasts longer than the call.
        let status =
            unsafe { ffi::waywire_tables_interface(self.at(), name.as_ptr(), &mut interface) };
        (status == ffi::WAYWIRE_OK).then_some(interface)
    }

    pub fn name(&self, interface: u16) -> Option<&str> {
        let (mut name, mut length) = (ptr::null(), 0);
        // SAFETY: the tables are the library's, and all else lasts longer than the call.
        let status =
            unsafe { ffi::waywire_tables_name(self.at(), interface, &mut name, &mut length) };
        if status != ffi::WAYWIRE_OK {
            return None;
        }
        // SAFETY: names last as long as the tables, from which this one is borrowed.
        let bytes = unsafe { lent::<u8>(name.cast(), length) };
        std::str::from_utf8(bytes).ok()
    }

    pub fn version(&self, interface: u16) -> Option<u32> {
        let mut version = 0;
        // SAFETY: the tables are the library's, and `version` can be written.
        let status = unsafe { ffi::waywire_tables_version(self.at(), interface, &mut version) };
        (status == ffi::WAYWIRE_OK).then_some(version)
    }

    pub fn message(&self, interface: u16, sender: Sender, opcode: u16) -> Option<Signature<'_>> {
        let (mut message, mut name, mut length) = (ffi::waywire_message::default(), ptr::null(), 0);
        // SAFETY: the tables are the library's, and all else lasts longer than the call.
        let status = unsafe {
            ffi::waywire_tables_message(
                self.at(),
                interface,
                sender.number(),
                opcode,
                &mut message,
                &mut name,
                &mut length,
            )
        };
        if status != ffi::WAYWIRE_OK {
            return None;
        }
        // SAFETY: names last as long as the tables, from which this one is borrowed.
        let name = std::str::from_utf8(unsafe { lent::<u8>(name.cast(), length) }).ok()?;
        Some(Signature {
            name,
            since: message.since,
            destroys: match message.destroys {
                ffi::WAYWIRE_DESTROYS_TARGET => Destroys::Target,
                ffi::WAYWIRE_DESTROYS_ARG => Destroys::Arg { place: message.destroyed },
                _ => Destroys::Nothing,
            },
            kinds: (0..message.arg_count)
                .filter_map(|index| self.kind(interface, sender, opcode, index))
                .collect(),
        })
    }

    fn kind(&self, interface: u16, sender: Sender, opcode: u16, index: usize) -> Option<ArgKind> {
        let mut kind = ffi::waywire_kind::default();
        // SAFETY: the tables are the library's, and `kind` can be written.
        let status = unsafe {
            ffi::waywire_tables_kind(
                self.at(),
                interface,
                sender.number(),
                opcode,
                index,
                &mut kind,
            )
        };
        (status == ffi::WAYWIRE_OK).then(|| arg_kind(&kind))
    }
}
