//! A client: prints the text that is copied. It opens a window, since a compositor tells only the
//! client that has the keyboard focus what is copied.
//!
//!     paste

use std::collections::HashMap;
use std::ffi::{CStr, CString};
use std::io::Write;
use std::os::unix::net::UnixStream;
use std::time::Duration;
use std::{env, fs, io, process};
use waywire::data_device::wl_data_device::{self, WlDataDevice};
use waywire::data_device::wl_data_device_manager::WlDataDeviceManager;
use waywire::data_device::wl_data_offer::{self, WlDataOffer};
use waywire::socket::{self, Link};
use waywire::wayland::wl_compositor::WlCompositor;
use waywire::wayland::wl_display::WlDisplay;
use waywire::wayland::wl_registry::{self, WlRegistry};
use waywire::wayland::wl_seat::WlSeat;
use waywire::wayland::wl_shm::{Format, WlShm};
use waywire::{AsClient, ClientWriter, Handle, ObjectMap, SendError, Sizes, Tables};
use xdg_shell::xdg_surface::{self, XdgSurface};
use xdg_shell::xdg_wm_base::{self, XdgWmBase};

#[path = "protocols/xdg_shell.rs"]
#[rustfmt::skip]
mod xdg_shell;

const SIDE: i32 = 64;
/// How long the compositor may take to answer, and the text to come.
const WAIT: Option<Duration> = Some(Duration::from_secs(120));
/// Types of text that can be printed, the best first.
const TYPES: [&str; 3] = ["text/plain;charset=utf-8", "UTF8_STRING", "text/plain"];

type Failure = Box<dyn std::error::Error>;

/// What is known from the compositor's events.
#[derive(Default)]
struct Told {
    /// The names of its globals, by their interfaces.
    names: HashMap<CString, u32>,
    is_configured: bool,
    /// The types of each offer.
    offers: ObjectMap<WlDataOffer, Vec<CString>>,
    /// What is copied, once that is known; `Some(None)` is nothing.
    selection: Option<Option<WlDataOffer>>,
    /// Why an answer was not written.
    failure: Option<SendError>,
}

impl wl_registry::Events for Told {
    fn global(&mut self, _: &ClientWriter, _: WlRegistry, name: u32, interface: &CStr, _: u32) {
        self.names.insert(interface.to_owned(), name);
    }
}

impl xdg_wm_base::Events for Told {
    fn ping(&mut self, client: &ClientWriter, base: XdgWmBase, serial: u32) {
        self.failure = base.pong(client, serial).err();
    }
}

impl xdg_surface::Events for Told {
    fn configure(&mut self, client: &ClientWriter, surface: XdgSurface, serial: u32) {
        self.failure = surface.ack_configure(client, serial).err();
        self.is_configured = true;
    }
}

impl wl_data_device::Events for Told {
    fn data_offer(&mut self, _: &ClientWriter, _: WlDataDevice, offer: WlDataOffer) {
        self.offers.insert(offer, Vec::new());
    }

    fn selection(&mut self, _: &ClientWriter, _: WlDataDevice, offer: Option<WlDataOffer>) {
        self.selection = Some(offer);
    }
}

impl wl_data_offer::Events for Told {
    fn offer(&mut self, _: &ClientWriter, offer: WlDataOffer, kind: &CStr) {
        self.offers.get_or_default(offer).push(kind.to_owned());
    }
}

waywire::event_handler!(Told: wl_registry, xdg_wm_base, xdg_surface, wl_data_device, wl_data_offer);

struct Client {
    link: Link<AsClient>,
    told: Told,
    registry: WlRegistry,
}

impl Client {
    /// Connects, and learns the compositor's globals.
    fn connect() -> Result<Client, Failure> {
        let tables = Tables::core()?.read(xdg_shell::TABLES)?.read(waywire::data_device::TABLES)?;
        let client = waywire::Client::new(&tables, &Sizes::default())?;
        let mut link = Link::new(client, socket::connect(None)?)?;
        let mut told = Told::default();
        let registry = WlDisplay(link.display()).get_registry(&link)?;
        link.round_trip(&mut told, WAIT)?;
        Ok(Client { link, told, registry })
    }

    fn bind<T: Handle>(&mut self) -> Result<T, Failure> {
        let name = self.told.names.get(CString::new(T::NAME)?.as_c_str());
        let name = name.ok_or_else(|| format!("the compositor has no {}", T::NAME))?;
        Ok(self.registry.bind(&self.link, *name, 1)?)
    }

    /// Dispatches events until this is known.
    fn until<T>(&mut self, told: impl Fn(&Told) -> Option<T>) -> Result<T, Failure> {
        loop {
            if let Some(found) = told(&self.told) {
                return Ok(found);
            }
            if self.link.dispatch(&mut self.told, WAIT)? == 0 {
                return Err("the compositor does not answer".into());
            }
            if let Some(why) = self.told.failure.take() {
                return Err(why.into());
            }
        }
    }

    /// Opens a window with a black picture, which may give it the focus.
    fn open_window(&mut self) -> Result<(), Failure> {
        let (compositor, shm) = (self.bind::<WlCompositor>()?, self.bind::<WlShm>()?);
        let base: XdgWmBase = self.bind()?;
        let surface = compositor.create_surface(&self.link)?;
        let xdg_surface = base.get_xdg_surface(&self.link, surface)?;
        xdg_surface.get_toplevel(&self.link)?.set_title(&self.link, "waywire")?;
        surface.commit(&self.link)?;
        self.until(|told| told.is_configured.then_some(()))?;

        let path = env::temp_dir().join(format!("waywire-paste-{}", process::id()));
        let memory = fs::File::options().read(true).write(true).create_new(true).open(&path)?;
        fs::remove_file(&path)?;
        memory.set_len((SIDE * SIDE * 4) as u64)?;
        let pool = shm.create_pool(&self.link, memory, SIDE * SIDE * 4)?;
        let format = Format::XRGB8888;
        let buffer = pool.create_buffer(&self.link, 0, SIDE, SIDE, SIDE * 4, format)?;
        surface.attach(&self.link, Some(buffer), 0, 0)?;
        Ok(surface.commit(&self.link)?)
    }

    /// Prints the text that is copied. The other end of the pair goes to the client that has copied
    /// it, and is closed here, so the text ends when that client closes its own.
    fn paste(&mut self) -> Result<(), Failure> {
        let selection = self.until(|told| told.selection)?;
        let types = selection.and_then(|it| self.told.offers.get(it));
        let is_offered = |kind: &str| {
            types.is_some_and(|it| it.iter().any(|it| it.to_bytes() == kind.as_bytes()))
        };
        let kind = TYPES.into_iter().find(|it| is_offered(it));
        let (Some(offer), Some(kind)) = (selection, kind) else {
            return Err("no text is copied".into());
        };
        let (mut text, other) = UnixStream::pair()?;
        offer.receive(&self.link, kind, other)?;
        self.link.round_trip(&mut self.told, WAIT)?;
        text.set_read_timeout(WAIT)?;
        let mut output = io::stdout().lock();
        io::copy(&mut text, &mut output)?;
        output.flush()?;
        Ok(offer.destroy(&self.link)?)
    }
}

fn main() -> Result<(), Failure> {
    let mut client = Client::connect()?;
    let (manager, seat) = (client.bind::<WlDataDeviceManager>()?, client.bind::<WlSeat>()?);
    manager.get_data_device(&client.link, seat)?;
    client.open_window()?;
    client.paste()
}
