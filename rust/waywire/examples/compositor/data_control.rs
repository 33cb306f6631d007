//! The clipboard of zwlr_data_control_manager_v1, for programs without a window: each can use it at
//! any time.

use crate::client::Client;
use crate::clipboard::{Protocol, Sent};
use crate::data_device::clipboard;
use crate::wlr_data_control_unstable_v1::{
    zwlr_data_control_device_v1 as device, zwlr_data_control_manager_v1 as manager,
    zwlr_data_control_offer_v1 as offer, zwlr_data_control_source_v1 as source,
};
use device::{Error, ZwlrDataControlDeviceV1};
use manager::ZwlrDataControlManagerV1;
use offer::ZwlrDataControlOfferV1;
use source::ZwlrDataControlSourceV1;
use std::ffi::CStr;
use std::os::fd::OwnedFd;
use waywire::wayland::wl_seat::WlSeat;
use waywire::{Object, Readable, SendError, ServerWriter};

/// The name of its global.
pub const MANAGER: &str = manager::NAME;

clipboard!(DataControl: ZwlrDataControlManagerV1 ZwlrDataControlSourceV1 ZwlrDataControlDeviceV1
    ZwlrDataControlOfferV1;
    needs_focus: false, used_source: Some(Error::USED_SOURCE.0));

/// Calls the method for a request, if its object is of this protocol.
pub fn dispatch(client: &mut Client, server: &ServerWriter, request: &mut impl Readable) -> bool {
    manager::dispatch_request(client, server, request)
        || source::dispatch_request(client, server, request)
        || device::dispatch_request(client, server, request)
        || offer::dispatch_request(client, server, request)
}

impl device::Requests for Client {
    fn set_selection(
        &mut self,
        server: &ServerWriter,
        device: ZwlrDataControlDeviceV1,
        source: Option<ZwlrDataControlSourceV1>,
    ) {
        self.set_source(server, device.0, source.map(|it| it.0));
    }

    fn destroy(&mut self, _: &ServerWriter, device: ZwlrDataControlDeviceV1) {
        self.board.drop_device(device.0);
    }
}
