//! One client: its connection and its objects. It handles its own requests, and answers them. What concerns other
//! clients too, it leaves to the compositor as an action.

use crate::clipboard::{Board, Selection};
#[cfg(data_control)]
use crate::data_control;
use crate::seat::Seat;
use crate::window::Windows;
use crate::xdg_shell::{xdg_surface, xdg_wm_base};
use crate::Failure;
use std::ffi::{CStr, CString};
use std::os::fd::OwnedFd;
use std::os::unix::net::UnixStream;
use std::time::Instant;
use waywire::data_device::{wl_data_device, wl_data_device_manager, wl_data_offer, wl_data_source};
use waywire::socket::Link;
use waywire::wayland::wl_display;
use waywire::wayland::wl_output::{self, Mode, Subpixel, Transform, WlOutput};
use waywire::wayland::wl_registry::{self, WlRegistry};
use waywire::wayland::wl_seat::{self, Capability, WlSeat};
use waywire::wayland::wl_shm::{self, Format, WlShm};
use waywire::wayland::{
    wl_buffer, wl_compositor, wl_keyboard, wl_pointer, wl_shm_pool, wl_subcompositor, wl_surface,
};
use waywire::{AsServer, Object, RequestHandler, SendError, Server, ServerWriter, Sizes, Tables};

const GLOBALS: &[(&str, u32)] = &[
    (wl_compositor::NAME, 4),
    (wl_subcompositor::NAME, 1),
    (wl_shm::NAME, 1),
    (wl_seat::NAME, 5),
    (wl_output::NAME, 2),
    (xdg_wm_base::NAME, 1),
    (wl_data_device_manager::NAME, 3),
    #[cfg(data_control)]
    (data_control::MANAGER, 1),
];

/// The most objects of a client: as many as a server's connection in C allows.
const MOST_OBJECTS: usize = 50_000;

/// Counts all clients that came.
pub type ClientId = u64;

/// What a request does beyond its own client.
pub enum Action {
    /// The client's window gets the keyboard and the pointer.
    Focus,
    /// This source of the client is the selection from here on; `None` is no selection.
    Select(Option<Object>),
    /// The client that has offered something is to write it to a descriptor, in some type.
    Receive { offered: Selection, kind: CString, fd: OwnedFd },
}

/// A client, and the connection to it.
pub struct Session {
    pub link: Link<AsServer>,
    pub client: Client,
}

/// What is known of a client. It handles the requests.
pub struct Client {
    pub windows: Windows,
    pub seat: Seat,
    pub board: Board,
    /// What the last request leaves to be done.
    pub action: Option<Action>,
    /// Whether it has sent anything.
    pub has_asked: bool,
    /// Why the client is to be ended.
    pub failure: Option<Failure>,
    began: Instant,
    serial: u32,
}

impl Session {
    /// The client at a socket, with all globals.
    pub fn new(tables: &Tables, socket: UnixStream, began: Instant) -> Result<Session, Failure> {
        let server = Server::new(tables, &Sizes::default())?;
        for (interface, version) in GLOBALS {
            let interface = tables.interface(interface).ok_or("no such interface")?;
            server.add_global(interface, *version)?;
        }
        let client = Client {
            windows: Windows::default(),
            seat: Seat::default(),
            board: Board::default(),
            action: None,
            has_asked: false,
            failure: None,
            began,
            serial: 0,
        };
        Ok(Session { link: Link::new(server, socket)?, client })
    }

    /// Sends what was written for the client, as far as it reads.
    pub fn flush(&mut self) {
        if let Err(why) = self.link.flush() {
            self.client.fail(why);
        }
    }

    /// Reads one request, if one has come.
    pub fn serve_next(&mut self) -> Result<bool, Failure> {
        if self.link.object_count() > MOST_OBJECTS {
            let display = self.link.display();
            self.link.post_error(display, wl_display::Error::NO_MEMORY.0, "too many objects")?;
            return Err("it has too many objects".into());
        }
        let Some(mut request) = self.link.next()? else {
            return Ok(false);
        };
        let server = request.writer();
        let _is_known = self.client.dispatch_request(server, &mut request);
        #[cfg(data_control)]
        data_control::dispatch(&mut self.client, server, &mut request);
        // It may have made a registry.
        self.link.announce()?;
        self.link.flush()?;
        Ok(self.client.failure.is_none())
    }
}

impl Client {
    /// Ends the client later. The first reason counts.
    pub fn fail(&mut self, why: impl Into<Failure>) {
        self.failure.get_or_insert(why.into());
    }

    /// Ends the client if an event was refused, for example because the client does not read and
    /// has no room. It is no failure if the event's object is gone, or older than the event.
    pub fn must(&mut self, sent: Result<(), SendError>) {
        match sent {
            Ok(()) | Err(SendError::Stale | SendError::TooOld) => {}
            Err(why) => self.fail(why),
        }
    }

    pub fn next_serial(&mut self) -> u32 {
        self.serial += 1;
        self.serial
    }

    pub fn milliseconds(&self) -> u32 {
        self.began.elapsed().as_millis() as u32
    }
}

waywire::request_handler!(
    Client: wl_registry,
    wl_shm,
    wl_shm_pool,
    wl_buffer,
    wl_compositor,
    wl_surface,
    xdg_wm_base,
    xdg_surface,
    wl_seat,
    wl_keyboard,
    wl_pointer,
    wl_data_device_manager,
    wl_data_source,
    wl_data_device,
    wl_data_offer,
);

impl wl_registry::Requests for Client {
    fn bind(
        &mut self,
        server: &ServerWriter,
        _: WlRegistry,
        _: u32,
        interface: &CStr,
        _: u32,
        object: Object,
    ) {
        self.must(match interface.to_str() {
            Ok(wl_shm::NAME) => tell_formats(server, WlShm(object)),
            Ok(wl_seat::NAME) => {
                WlSeat(object).send_capabilities(server, Capability::POINTER | Capability::KEYBOARD)
            }
            Ok(wl_output::NAME) => tell_output(server, WlOutput(object)),
            _ => Ok(()),
        });
    }
}

fn tell_formats(server: &ServerWriter, shm: WlShm) -> Result<(), SendError> {
    shm.send_format(server, Format::ARGB8888)?;
    shm.send_format(server, Format::XRGB8888)
}

fn tell_output(server: &ServerWriter, output: WlOutput) -> Result<(), SendError> {
    output.send_geometry(server, 0, 0, 340, 190, Subpixel::UNKNOWN, "", "", Transform::NORMAL)?;
    output.send_mode(server, Mode::CURRENT, 1280, 720, 60_000)?;
    output.send_done(server)
}
