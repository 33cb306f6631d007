//! The calls of an inspector.

use super::decoded::Decoded;
use super::tables::interface_or_any;
use super::{fault_kind, lent, Tables};
use crate::error::{NewError, NoMemory};
use crate::inspector::{Judgement, Known, Made, Sender, UndeservedDelete};
use crate::tables::Interface;
use std::ptr::{self, NonNull};
use waywire_sys as ffi;

fn judged(raw: &ffi::waywire_judgement) -> Judgement {
    if raw.fault == ffi::WAYWIRE_OK {
        return Judgement::Lawful {
            requests: raw.requests,
            events: raw.events,
            left_to_server: raw.left_to_server,
            left_to_client: raw.left_to_client,
        };
    }
    let sender =
        if raw.sender == ffi::WAYWIRE_FROM_CLIENT { Sender::Client } else { Sender::Server };
    let fault = fault_kind(raw.fault, raw.place, raw.spelling);
    Judgement::Broken { sender, index: raw.index, offset: raw.offset, fault }
}

const NOT_KNOWN: ffi::waywire_known =
    ffi::waywire_known { birth: 0, version: 0, interface: 0, is_known: false, is_ending: false };

fn known(raw: &ffi::waywire_known) -> Option<Known> {
    raw.is_known.then_some(Known {
        birth: raw.birth,
        interface: Interface(raw.interface),
        version: raw.version,
        is_ending: raw.is_ending,
    })
}

const NO_MESSAGE: ffi::waywire_followed = ffi::waywire_followed {
    number: 0,
    index: 0,
    offset: 0,
    bytes: ptr::null(),
    length: 0,
    descriptor_count: 0,
    object: NOT_KNOWN,
    target: 0,
    opcode: 0,
    size: 0,
    made: 0,
    made_version: 0,
    destroyed: 0,
    deleted: 0,
    made_interface: 0,
    is_read: false,
};

/// A message in front of a sender's bytes, and the inspector that both are borrowed from.
#[derive(Clone, Copy, Debug)]
pub struct Followed<'a> {
    inspector: &'a Inspector,
    sender: Sender,
    raw: ffi::waywire_followed,
}

impl<'a> Followed<'a> {
    pub fn sender(&self) -> Sender {
        self.sender
    }

    pub fn number(&self) -> u64 {
        self.raw.number
    }

    pub fn index(&self) -> usize {
        self.raw.index
    }

    pub fn offset(&self) -> usize {
        self.raw.offset
    }

    pub fn bytes(&self) -> &'a [u8] {
        // SAFETY: they are lent until the next `follow`, which takes the inspector by a `&mut`, and
        // it is borrowed for `'a`.
        unsafe { lent(self.raw.bytes, self.raw.length) }
    }

    pub fn target(&self) -> u32 {
        self.raw.target
    }

    pub fn opcode(&self) -> u16 {
        self.raw.opcode
    }

    pub fn size(&self) -> u16 {
        self.raw.size
    }

    pub fn object(&self) -> Option<Known> {
        known(&self.raw.object)
    }

    pub fn is_read(&self) -> bool {
        self.raw.is_read
    }

    pub fn made(&self) -> Option<Made> {
        let interface = interface_or_any(self.raw.made_interface);
        let (id, version) = (self.raw.made, self.raw.made_version);
        interface.filter(|_| id != 0).map(|interface| Made { id, interface, version })
    }

    pub fn destroyed(&self) -> Option<u32> {
        (self.raw.destroyed != 0).then_some(self.raw.destroyed)
    }

    pub fn deleted(&self) -> Option<u32> {
        (self.raw.deleted != 0).then_some(self.raw.deleted)
    }

    pub fn descriptor_count(&self) -> usize {
        self.raw.descriptor_count
    }

    /// `None` if nothing is known of the object.
    pub fn decoded(&self) -> Option<Decoded<'a>> {
        let (at, sender) = (self.inspector.0.as_ptr(), self.sender.number());
        // SAFETY: the message is one of this inspector's, which is borrowed since. Names lie in its
        // tables, which last as long as it does, and the rest in the bytes, which it keeps until it is no
        // longer borrowed.
        unsafe {
            Decoded::by(|decoded| ffi::waywire_inspector_decode(at, sender, &self.raw, decoded))
        }
    }
}

/// An inspector, freed when it is dropped.
#[derive(Debug)]
pub struct Inspector(NonNull<ffi::waywire_inspector>);

// SAFETY: the header says so: an inspector is bound to no thread, and used by one call at a time, which
// it is since it is not `Sync`.
unsafe impl Send for Inspector {}

impl Drop for Inspector {
    fn drop(&mut self) {
        // SAFETY: the inspector is the library's, and freed here alone.
        unsafe { ffi::waywire_inspector_free(self.0.as_ptr()) }
    }
}

impl Inspector {
    pub fn new(tables: &Tables, limit: u32) -> Result<Inspector, NewError> {
        let mut made = ptr::null_mut();
        // SAFETY: the tables are the library's and lent for the call, and `made` is local.
        match unsafe { ffi::waywire_inspector_new(tables.at(), limit, &mut made) } {
            ffi::WAYWIRE_BAD_SIZES => Err(NewError::BadSizes),
            _ => NonNull::new(made).map(Inspector).ok_or(NewError::NoMemory),
        }
    }

    pub fn pass(&mut self, sender: Sender, bytes: &[u8], tokens: usize) -> Result<(), NoMemory> {
        let from = sender.number();
        let (at, bytes, length) = (self.0.as_ptr(), bytes.as_ptr().cast(), bytes.len());
        // SAFETY: the inspector is the library's, and lives as long as `self`; the slices are lent for the
        // call.
        match unsafe { ffi::waywire_inspector_pass(at, from, bytes, length, tokens) } {
            ffi::WAYWIRE_OK => Ok(()),
            _ => Err(NoMemory),
        }
    }

    pub fn lines(&self) -> &[u8] {
        let mut length = 0;
        // SAFETY: the inspector is the library's, and lives as long as `self`; `length` is local.
        let lines = unsafe { ffi::waywire_inspector_lines(self.0.as_ptr(), &mut length) };
        // SAFETY: they are lent until the next `pass` or `verdict`, which take the inspector by a
        // `&mut`, and this borrows it.
        unsafe { lent(lines.cast(), length) }
    }

    /// The line of the verdict, and whether a message breaks a rule.
    pub fn verdict(&mut self) -> Result<(&[u8], bool), NoMemory> {
        let (mut line, mut length, mut broken) = (ptr::null(), 0, false);
        let at = self.0.as_ptr();
        // SAFETY: the inspector is the library's, and lives as long as `self`; what is written is local.
        match unsafe { ffi::waywire_inspector_verdict(at, &mut line, &mut length, &mut broken) } {
            // SAFETY: as in `lines`.
            ffi::WAYWIRE_OK => Ok((unsafe { lent(line.cast(), length) }, broken)),
            _ => Err(NoMemory),
        }
    }

    pub fn judgement(&self) -> Judgement {
        let mut judgement = ffi::waywire_judgement::default();
        // SAFETY: the inspector is the library's, and lives as long as `self`; what is written is local.
        unsafe { ffi::waywire_inspector_judgement(self.0.as_ptr(), &mut judgement) };
        judged(&judgement)
    }

    pub fn judged_count(&self) -> u64 {
        // SAFETY: the inspector is the library's, and lives as long as `self`.
        unsafe { ffi::waywire_inspector_judged(self.0.as_ptr()) }
    }

    pub fn undeserved(&self) -> Option<UndeservedDelete> {
        let mut id = 0;
        // SAFETY: the inspector is the library's, and lives as long as `self`; `id` is local.
        let number = unsafe { ffi::waywire_inspector_undeserved(self.0.as_ptr(), &mut id) };
        (number != 0).then_some(UndeservedDelete { number, id })
    }

    pub fn follow(&mut self, sender: Sender, bytes: &[u8]) -> Result<(), NoMemory> {
        let (from, at, length) = (sender.number(), bytes.as_ptr().cast(), bytes.len());
        // SAFETY: the inspector is the library's, and lives as long as `self`; the bytes are lent for the
        // call.
        match unsafe { ffi::waywire_inspector_follow(self.0.as_ptr(), from, at, length) } {
            ffi::WAYWIRE_OK => Ok(()),
            _ => Err(NoMemory),
        }
    }

    pub fn ahead(&self, sender: Sender) -> Option<Followed<'_>> {
        let mut raw = NO_MESSAGE;
        // SAFETY: the inspector is the library's, and lives as long as `self`; what is written is local.
        let status =
            unsafe { ffi::waywire_inspector_ahead(self.0.as_ptr(), sender.number(), &mut raw) };
        (status == ffi::WAYWIRE_OK).then_some(Followed { inspector: self, sender, raw })
    }

    pub fn go_past(&mut self, sender: Sender) -> Result<(), NoMemory> {
        // SAFETY: the inspector is the library's, and lives as long as `self`.
        match unsafe { ffi::waywire_inspector_go_past(self.0.as_ptr(), sender.number()) } {
            ffi::WAYWIRE_OK => Ok(()),
            _ => Err(NoMemory),
        }
    }

    pub fn object(&self, id: u32) -> Option<Known> {
        let mut found = NOT_KNOWN;
        // SAFETY: the inspector is the library's, and lives as long as `self`; what is written is local.
        unsafe { ffi::waywire_inspector_object(self.0.as_ptr(), id, &mut found) };
        known(&found)
    }

    pub fn id_count(&self, maker: Sender) -> usize {
        // SAFETY: the inspector is the library's, and lives as long as `self`.
        unsafe { ffi::waywire_inspector_id_count(self.0.as_ptr(), maker.number()) }
    }

    /// The newest version, 0 if there is none.
    pub fn announced(&self, name: u32, interface: Option<Interface>) -> u32 {
        let index = interface.map_or(ffi::WAYWIRE_ANY_INTERFACE as u16, |it| it.0);
        // SAFETY: the inspector is the library's, and lives as long as `self`.
        unsafe { ffi::waywire_inspector_announced(self.0.as_ptr(), name, index) }
    }
}
