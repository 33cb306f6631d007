//! A client: opens a window of one colour, and closes it once the compositor has taken the picture in.

use std::{collections::HashMap, env, error::Error, ffi::CStr, fs, io::Write, process};
use waywire::wayland::wl_shm::{Format, WlShm};
use waywire::wayland::{wl_compositor::WlCompositor, wl_display::WlDisplay, wl_registry};
use waywire::{socket, Client, ClientWriter, Handle, Sizes, Tables};
use xdg_shell::{xdg_surface, xdg_wm_base::XdgWmBase};

#[path = "protocols/xdg_shell.rs"]
#[rustfmt::skip]
mod xdg_shell;

const SIDE: i32 = 64;
/// The bytes of a pixel: blue, green, red.
const PIXEL: [u8; 4] = [0x99, 0x66, 0x33, 0xff];

/// The names of the compositor's globals, and whether the window may show a picture.
#[derive(Default)]
struct Window(HashMap<String, u32>, bool);

impl wl_registry::Events for Window {
    fn global(
        &mut self,
        _: &ClientWriter,
        _: wl_registry::WlRegistry,
        name: u32,
        interface: &CStr,
        _: u32,
    ) {
        self.0.insert(interface.to_string_lossy().into(), name);
    }
}

impl xdg_surface::Events for Window {
    fn configure(&mut self, client: &ClientWriter, it: xdg_surface::XdgSurface, serial: u32) {
        self.1 = it.ack_configure(client, serial).is_ok();
    }
}
waywire::event_handler!(Window: wl_registry, xdg_surface);

fn main() -> Result<(), Box<dyn Error>> {
    let tables = Tables::core()?.read(xdg_shell::TABLES)?;
    let client = Client::new(&tables, &Sizes::default())?;
    let mut link = socket::Link::new(client, socket::connect(None)?)?;
    let mut window = Window::default();
    let registry = WlDisplay(link.display()).get_registry(&link)?;
    link.round_trip(&mut window, None)?;
    let name = |it: &str| window.0.get(it).copied().ok_or("a global is missing");
    let compositor: WlCompositor = registry.bind(&link, name(WlCompositor::NAME)?, 1)?;
    let shm: WlShm = registry.bind(&link, name(WlShm::NAME)?, 1)?;
    let base: XdgWmBase = registry.bind(&link, name(XdgWmBase::NAME)?, 1)?;
    let surface = compositor.create_surface(&link)?;
    base.get_xdg_surface(&link, surface)?.get_toplevel(&link)?.set_title(&link, "waywire")?;
    surface.commit(&link)?;
    while !window.1 {
        link.dispatch(&mut window, None)?;
    }
    let path = env::temp_dir().join(format!("waywire-window-{}", process::id()));
    let mut memory = fs::File::options().read(true).write(true).create_new(true).open(&path)?;
    fs::remove_file(&path)?;
    memory.write_all(&PIXEL.repeat((SIDE * SIDE) as usize))?;
    let pool = shm.create_pool(&link, memory, SIDE * SIDE * 4)?;
    let buffer = pool.create_buffer(&link, 0, SIDE, SIDE, SIDE * 4, Format::XRGB8888)?;
    surface.attach(&link, Some(buffer), 0, 0)?;
    surface.commit(&link)?;
    Ok(link.round_trip(&mut window, None)?)
}
