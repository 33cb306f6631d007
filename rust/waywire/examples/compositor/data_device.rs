//! The clipboard of wl_data_device_manager, which the client that has the focus can use. Nothing is
//! dragged: a source that should be is cancelled. A source's serial is not looked at.

use crate::client::Client;
use crate::clipboard::{Protocol, Sent};
use std::ffi::CStr;
use std::os::fd::OwnedFd;
use waywire::data_device::wl_data_device::{self as device, WlDataDevice};
use waywire::data_device::wl_data_device_manager::{self as manager, WlDataDeviceManager};
use waywire::data_device::wl_data_offer::{self as offer, WlDataOffer};
use waywire::data_device::wl_data_source::{self as source, WlDataSource};
use waywire::wayland::wl_seat::WlSeat;
use waywire::wayland::wl_surface::WlSurface;
use waywire::{Object, SendError, ServerWriter};

/// A protocol's clipboard, by its typed calls: its events, and the requests of all objects but a
/// device. In its module are the names `manager`, `source`, `device` and `offer` of their modules.
macro_rules! clipboard {
    ($protocol:ident: $manager:ident $source:ident $device:ident $offer:ident;
        needs_focus: $needs_focus:expr, used_source: $used_source:expr) => {
        struct $protocol;

        impl Protocol for $protocol {
            fn needs_focus(&self) -> bool {
                $needs_focus
            }

            fn used_source(&self) -> Option<u32> {
                $used_source
            }

            fn send_data_offer(
                &self,
                to: &ServerWriter,
                device: Object,
            ) -> Result<Object, SendError> {
                $device(device).send_data_offer(to).map(|it| it.0)
            }

            fn send_offer(&self, to: &ServerWriter, offer: Object, kind: &CStr) -> Sent {
                $offer(offer).send_offer(to, kind.to_bytes())
            }

            fn send_selection(
                &self,
                to: &ServerWriter,
                device: Object,
                it: Option<Object>,
            ) -> Sent {
                $device(device).send_selection(to, it.map($offer))
            }

            fn send_send(
                &self,
                to: &ServerWriter,
                source: Object,
                kind: &CStr,
                fd: OwnedFd,
            ) -> Sent {
                $source(source).send_send(to, kind.to_bytes(), fd)
            }

            fn send_cancelled(&self, to: &ServerWriter, source: Object) -> Sent {
                $source(source).send_cancelled(to)
            }
        }

        impl manager::Requests for Client {
            fn create_data_source(&mut self, _: &ServerWriter, _: $manager, source: $source) {
                self.board.add_source(source.0, &$protocol);
            }

            fn get_data_device(
                &mut self,
                _: &ServerWriter,
                _: $manager,
                device: $device,
                _: WlSeat,
            ) {
                self.board.add_device(device.0, &$protocol);
            }
        }

        impl source::Requests for Client {
            fn offer(&mut self, _: &ServerWriter, source: $source, kind: &CStr) {
                self.board.add_type(source.0, kind);
            }

            fn destroy(&mut self, _: &ServerWriter, source: $source) {
                self.board.drop_source(source.0);
            }
        }

        impl offer::Requests for Client {
            fn receive(&mut self, _: &ServerWriter, offer: $offer, kind: &CStr, fd: OwnedFd) {
                self.ask_for(offer.0, kind, fd);
            }

            fn destroy(&mut self, _: &ServerWriter, offer: $offer) {
                self.board.drop_offer(offer.0);
            }
        }
    };
}
pub(crate) use clipboard;

clipboard!(DataDevice: WlDataDeviceManager WlDataSource WlDataDevice WlDataOffer;
    needs_focus: true, used_source: None);

impl device::Requests for Client {
    fn start_drag(
        &mut self,
        server: &ServerWriter,
        _: WlDataDevice,
        source: Option<WlDataSource>,
        _: WlSurface,
        _: Option<WlSurface>,
        _: u32,
    ) {
        if let Some(source) = source {
            self.must(source.send_cancelled(server));
        }
    }

    fn set_selection(
        &mut self,
        server: &ServerWriter,
        device: WlDataDevice,
        source: Option<WlDataSource>,
        _: u32,
    ) {
        self.set_source(server, device.0, source.map(|it| it.0));
    }

    fn release(&mut self, _: &ServerWriter, device: WlDataDevice) {
        self.board.drop_device(device.0);
    }
}
