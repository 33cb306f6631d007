//! The clipboard: keeps which source is the selection, tells each device of it by an offer, and
//! hands the descriptors of readers to the source's client. The text itself does not pass here.

use crate::client::{Action, Client, ClientId, Session};
use crate::Compositor;
use std::ffi::{CStr, CString};
use std::os::fd::OwnedFd;
use waywire::{Object, ObjectMap, SendError, ServerWriter};

/// The most types of one source, and the longest name of a type: others are not offered. All types
/// of an offer fit an outbox then.
const MOST_TYPES: usize = 64;
const LONGEST_TYPE: usize = 255;

/// Whether an event was written.
pub type Sent = Result<(), SendError>;

/// What differs between the two protocols of a clipboard: rules, and the events of their objects.
pub trait Protocol {
    /// A device hears of the selection only while its client has the focus.
    fn needs_focus(&self) -> bool;

    /// The error of a device for which a source is set that was the selection before, if it is one.
    fn used_source(&self) -> Option<u32>;

    fn send_data_offer(&self, to: &ServerWriter, device: Object) -> Result<Object, SendError>;

    fn send_offer(&self, to: &ServerWriter, offer: Object, kind: &CStr) -> Sent;

    fn send_selection(&self, to: &ServerWriter, device: Object, offer: Option<Object>) -> Sent;

    fn send_send(&self, to: &ServerWriter, source: Object, kind: &CStr, fd: OwnedFd) -> Sent;

    fn send_cancelled(&self, to: &ServerWriter, source: Object) -> Sent;
}

/// A source that is selected, or that was.
#[derive(Clone, Copy, PartialEq, Eq)]
pub struct Selection {
    client: ClientId,
    source: Object,
}

/// What a client has copied, by the types in which it can write it.
struct Source {
    protocol: &'static dyn Protocol,
    types: Vec<CString>,
    was_set: bool,
}

/// The devices that hear of the selection.
struct Device {
    protocol: &'static dyn Protocol,
    object: Object,
    /// The last change of the selection that it knows.
    told: u64,
}

/// The clipboard's objects of a client.
#[derive(Default)]
pub struct Board {
    sources: ObjectMap<Object, Source>,
    devices: Vec<Device>,
    /// What each offer is of.
    offers: ObjectMap<Object, Selection>,
}

/// What the requests do.
impl Board {
    pub fn add_source(&mut self, object: Object, protocol: &'static dyn Protocol) {
        self.sources.insert(object, Source { protocol, types: Vec::new(), was_set: false });
    }

    pub fn add_type(&mut self, source: Object, kind: &CStr) {
        if let Some(it) = self.sources.get_mut(source) {
            if it.types.len() < MOST_TYPES && kind.to_bytes().len() <= LONGEST_TYPE {
                it.types.push(kind.to_owned());
            }
        }
    }

    pub fn drop_source(&mut self, object: Object) {
        self.sources.remove(object);
    }

    /// A device of version 1 has no destructor, and goes with its client.
    pub fn add_device(&mut self, object: Object, protocol: &'static dyn Protocol) {
        self.devices.push(Device { protocol, object, told: 0 });
    }

    pub fn drop_device(&mut self, object: Object) {
        self.devices.retain(|it| it.object != object);
    }

    pub fn drop_offer(&mut self, object: Object) {
        self.offers.remove(object);
    }
}

impl Client {
    /// A program of GTK sets its source once more when that has got more types.
    pub fn set_source(&mut self, server: &ServerWriter, device: Object, source: Option<Object>) {
        if let Some(it) = source.and_then(|it| self.board.sources.get_mut(it)) {
            let used = it.protocol.used_source().filter(|_| it.was_set);
            it.was_set = true;
            if let Some(code) = used {
                let why = "the source was used before";
                self.must(server.post_error(device, code, why));
                return self.fail(why);
            }
        }
        self.action = Some(Action::Select(source));
    }

    pub fn ask_for(&mut self, offer: Object, kind: &CStr, fd: OwnedFd) {
        if let Some(offered) = self.board.offers.get(offer).copied() {
            self.action = Some(Action::Receive { offered, kind: kind.to_owned(), fd });
        }
    }

    /// Tells devices of what is offered, or that nothing is.
    fn tell(
        &mut self,
        server: &ServerWriter,
        change: u64,
        offered: &Option<Offered>,
        chosen: impl Fn(&Device) -> bool,
    ) {
        let Board { devices, offers, .. } = &mut self.board;
        let sent = devices.iter_mut().filter(|it| chosen(it)).try_for_each(|device| {
            device.told = change;
            let offer = match offered {
                Some(it) => Some(device.make_offer(server, it)?),
                None => None,
            };
            if let (Some(offer), Some(it)) = (offer, offered) {
                offers.insert(offer, it.selection);
            }
            device.protocol.send_selection(server, device.object, offer)
        });
        self.must(sent);
    }
}

/// The selection, and its types.
struct Offered {
    selection: Selection,
    types: Vec<CString>,
}

impl Device {
    fn make_offer(&self, server: &ServerWriter, offered: &Offered) -> Result<Object, SendError> {
        let offer = self.protocol.send_data_offer(server, self.object)?;
        for kind in &offered.types {
            self.protocol.send_offer(server, offer, kind)?;
        }
        Ok(offer)
    }
}

impl Compositor {
    fn change_selection(&mut self, selection: Option<Selection>) {
        self.selection = selection;
        self.change += 1;
    }

    /// Selects a source of a client. The one before is cancelled.
    pub fn select(&mut self, client: ClientId, source: Option<Object>) {
        let selection = source.map(|source| Selection { client, source });
        if let Some(before) = self.selection.filter(|it| selection != Some(*it)) {
            if let Some((owner, protocol)) = self.owner_of(before) {
                owner.client.must(protocol.send_cancelled(&owner.link, before.source));
            }
        }
        self.change_selection(selection);
    }

    /// The client of a source, and the source's protocol, unless the source is gone.
    fn owner_of(&mut self, it: Selection) -> Option<(&mut Session, &'static dyn Protocol)> {
        let session = self.clients.get_mut(&it.client)?;
        let protocol = session.client.board.sources.get(it.source)?.protocol;
        Some((session, protocol))
    }

    /// Sends the reader's descriptor to the client of the source. If that source is not the
    /// selection any more, or its client has no room, the descriptor is closed, and the reader
    /// finds an empty text.
    pub fn receive(&mut self, offered: Selection, kind: &CStr, fd: OwnedFd) {
        if self.selection != Some(offered) {
            return;
        }
        if let Some((owner, protocol)) = self.owner_of(offered) {
            let _is_sent = protocol.send_send(&owner.link, offered.source, kind, fd);
            owner.flush();
        }
    }

    /// Ends the selection if its source is gone: destroyed, or gone with its client.
    pub fn find_selection(&mut self) {
        if self.selection.is_some() && self.offered().is_none() {
            self.change_selection(None);
        }
    }

    fn offered(&self) -> Option<Offered> {
        let selection = self.selection?;
        let client = &self.clients.get(&selection.client)?.client;
        let source = client.board.sources.get(selection.source)?;
        Some(Offered { selection, types: source.types.clone() })
    }

    /// Tells the devices that do not know the selection, each once its client has read what was
    /// written before. If one client sets many selections while another reads nothing, the other
    /// is told of the last one only, and its outbox does not fill up.
    pub fn tell_selection(&mut self) {
        let (offered, change, focus) = (self.offered(), self.change, self.focus);
        for (id, session) in &mut self.clients {
            session.flush();
            let Session { link, client } = session;
            if !link.wants_write() {
                let has_focus = focus == Some(*id);
                client.tell(link, change, &offered, |it| {
                    it.told != change && (has_focus || !it.protocol.needs_focus())
                });
            }
        }
    }

    /// Tells those of a client that is about to get the focus.
    pub fn tell_selection_at_focus(&mut self, id: ClientId) {
        let (offered, change) = (self.offered(), self.change);
        let Session { link, client } = self.session(id);
        client.tell(link, change, &offered, |it| it.protocol.needs_focus());
    }
}
