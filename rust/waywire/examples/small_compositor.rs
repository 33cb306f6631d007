//! A compositor without a screen, in one file: serves several clients, which open windows over
//! xdg-shell. It prints a line for each picture, and asks for the next one 60 times a second.
//!
//!     small_compositor NAME
//!
//! The name is that of its socket in XDG_RUNTIME_DIR, or a path that begins with a slash. The
//! compositor ends with its last client. The folder `compositor` has a longer one.

use std::os::{fd::AsFd, unix::net::UnixStream};
use std::time::{Duration, Instant};
use std::{env, error::Error, ffi::CStr, io, mem, path::Path};
use waywire::socket::{self, has_gone, Came, Link, Listener};
use waywire::wayland::wl_compositor;
use waywire::wayland::wl_registry::{self, WlRegistry};
use waywire::wayland::wl_shm::{self, Format, WlShm};
use waywire::wayland::wl_surface::{self, WlSurface};
use waywire::wayland::{wl_buffer::WlBuffer, wl_callback::WlCallback};
use waywire::{AsServer, Object, ObjectMap, SendError, Server, ServerWriter, Sizes, Tables};
use xdg_shell::xdg_surface::{self, XdgSurface};
use xdg_shell::xdg_toplevel::XdgToplevel;
use xdg_shell::xdg_wm_base::{self, XdgWmBase};

#[path = "protocols/xdg_shell.rs"]
#[rustfmt::skip]
mod xdg_shell;

const GLOBALS: [(&str, u32); 3] =
    [(wl_compositor::NAME, 4), (wl_shm::NAME, 1), (xdg_wm_base::NAME, 1)];
/// The time between two frames.
const FRAME: Duration = Duration::from_millis(16);

/// What is known of a client. It handles the client's requests.
#[derive(Default)]
struct Client {
    number: usize,
    attached: ObjectMap<WlSurface, WlBuffer>,
    surfaces: ObjectMap<XdgSurface, WlSurface>,
    /// Windows that wait for the first commit of their surface, which is answered by a configure.
    new: ObjectMap<WlSurface, (XdgSurface, XdgToplevel)>,
    /// What is told when the next frame begins.
    frames: Vec<WlCallback>,
    /// Why an event was refused.
    refusal: Option<SendError>,
}

impl Client {
    /// An event must be written, unless its object is gone.
    fn must(&mut self, sent: Result<(), SendError>) {
        self.refusal = self.refusal.or(sent.err().filter(|it| *it != SendError::Stale));
    }
}

// A method that is not written does nothing, and closes descriptors. So it is with wl_shm.create_pool:
// there is no screen, and nobody reads the pictures.
waywire::request_handler!(Client: wl_registry, wl_surface, xdg_wm_base, xdg_surface);

impl wl_registry::Requests for Client {
    fn bind(&mut self, to: &ServerWriter, _: WlRegistry, _: u32, kind: &CStr, _: u32, it: Object) {
        if kind.to_str() == Ok(wl_shm::NAME) {
            self.must(WlShm(it).send_format(to, Format::ARGB8888));
            self.must(WlShm(it).send_format(to, Format::XRGB8888));
        }
    }
}

impl wl_surface::Requests for Client {
    fn attach(&mut self, _: &ServerWriter, to: WlSurface, it: Option<WlBuffer>, _: i32, _: i32) {
        match it {
            Some(buffer) => self.attached.insert(to, buffer),
            None => self.attached.remove(to),
        };
    }

    fn frame(&mut self, _: &ServerWriter, _: WlSurface, callback: WlCallback) {
        self.frames.push(callback);
    }

    fn commit(&mut self, server: &ServerWriter, surface: WlSurface) {
        if let Some((window, toplevel)) = self.new.remove(surface) {
            self.must(toplevel.send_configure(server, 0, 0, []));
            self.must(window.send_configure(server, 1));
        }
        if let Some(buffer) = self.attached.remove(surface) {
            println!("client {} shows a picture", self.number);
            self.must(buffer.send_release(server));
        }
    }
}

impl xdg_wm_base::Requests for Client {
    fn get_xdg_surface(&mut self, _: &ServerWriter, _: XdgWmBase, it: XdgSurface, of: WlSurface) {
        self.surfaces.insert(it, of);
    }
}

impl xdg_surface::Requests for Client {
    fn get_toplevel(&mut self, _: &ServerWriter, it: XdgSurface, toplevel: XdgToplevel) {
        if let Some(surface) = self.surfaces.get(it) {
            self.new.insert(*surface, (it, toplevel));
        }
    }
}

/// The connection to a client at a socket.
fn link(tables: &Tables, socket: UnixStream) -> Result<Link<AsServer>, Box<dyn Error>> {
    let server = Server::new(tables, &Sizes::default())?;
    for (name, version) in GLOBALS {
        server.add_global(tables.interface(name).ok_or("no such interface")?, version)?;
    }
    Ok(Link::new(server, socket)?)
}

/// Reads a client's requests, and answers them. Returns whether the client is still there.
fn serve(link: &mut Link<AsServer>, client: &mut Client, frame: Option<u32>) -> io::Result<bool> {
    let came = link.fill()?;
    let served = link.dispatch(client);
    if let Some(milliseconds) = frame {
        for callback in mem::take(&mut client.frames) {
            client.must(callback.send_done(link, milliseconds));
        }
    }
    // If a request is at fault, this sends the client the reason.
    link.flush()?;
    served?;
    client.refusal.map_or(Ok(came != Came::End), |why| Err(io::Error::other(why)))
}

fn main() -> Result<(), Box<dyn Error>> {
    let name = env::args_os().nth(1).ok_or("the socket's name is wanted")?;
    let listener = Listener::bind(Some(Path::new(&name)))?;
    let tables = Tables::core()?.read(xdg_shell::TABLES)?;
    let (mut clients, mut count) = (Vec::<(Link<AsServer>, Client)>::new(), 0);
    let (began, mut last) = (Instant::now(), Instant::now());
    while count == 0 || !clients.is_empty() {
        let links = clients.iter().map(|(link, _)| link.awaited());
        socket::wait_many(links.chain([(listener.as_fd(), false)]), Some(FRAME))?;
        match listener.accept() {
            Ok(socket) => {
                let client = Client { number: count, ..Client::default() };
                clients.push((link(&tables, socket)?, client));
                count += 1;
            }
            Err(error) if error.kind() == io::ErrorKind::WouldBlock => {}
            Err(error) => return Err(error.into()),
        }
        let frame = (last.elapsed() >= FRAME).then(|| began.elapsed().as_millis() as u32);
        last = if frame.is_some() { Instant::now() } else { last };
        clients.retain_mut(|(link, client)| match serve(link, client, frame) {
            Err(why) if !has_gone(&why) => {
                eprintln!("client {} is ended: {why}", client.number);
                false
            }
            served => served.unwrap_or(false),
        });
    }
    Ok(())
}
