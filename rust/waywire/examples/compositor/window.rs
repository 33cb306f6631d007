//! Surfaces, their buffers, and windows over xdg-shell: prints the first pixel of each picture that
//! is committed to a surface.

use crate::client::{Action, Client};
use crate::xdg_shell::xdg_popup::XdgPopup;
use crate::xdg_shell::xdg_positioner::XdgPositioner;
use crate::xdg_shell::xdg_surface::{self, XdgSurface};
use crate::xdg_shell::xdg_toplevel::XdgToplevel;
use crate::xdg_shell::xdg_wm_base::{self, XdgWmBase};
use std::fs::File;
use std::mem;
use std::os::fd::OwnedFd;
use std::os::unix::fs::FileExt;
use std::rc::Rc;
use waywire::wayland::wl_buffer::{self, WlBuffer};
use waywire::wayland::wl_callback::WlCallback;
use waywire::wayland::wl_compositor::{self, WlCompositor};
use waywire::wayland::wl_shm::{self, Format, WlShm};
use waywire::wayland::wl_shm_pool::{self, WlShmPool};
use waywire::wayland::wl_surface::{self, WlSurface};
use waywire::{ObjectMap, ServerWriter};

/// The buffers and surfaces of a client.
#[derive(Default)]
pub struct Windows {
    pools: ObjectMap<WlShmPool, Rc<File>>,
    pictures: ObjectMap<WlBuffer, Picture>,
    surfaces: ObjectMap<WlSurface, Surface>,
    roles: ObjectMap<XdgSurface, WlSurface>,
    /// Windows that wait for the first commit of their surface, which is answered by a configure.
    new: ObjectMap<WlSurface, (XdgSurface, XdgToplevel)>,
    /// The last window that has shown a picture.
    shown: Option<Window>,
}

/// A surface that is shown as a window.
#[derive(Clone, Copy)]
pub struct Window {
    pub surface: WlSurface,
    pub toplevel: XdgToplevel,
}

/// A buffer: its memory, and where its first pixel is in that.
struct Picture {
    memory: Rc<File>,
    offset: i32,
    width: i32,
    height: i32,
}

#[derive(Default)]
struct Surface {
    attached: Option<WlBuffer>,
    frames: Vec<WlCallback>,
    toplevel: Option<XdgToplevel>,
    /// Whether it has had the focus as a window.
    is_shown: bool,
}

impl Client {
    /// The last window that has shown a picture, if that is still there.
    pub fn window(&self, server: &ServerWriter) -> Option<Window> {
        let is_live = |it: &Window| {
            server.live(it.surface.0).is_some() && server.live(it.toplevel.0).is_some()
        };
        self.windows.shown.filter(is_live)
    }

    fn show(&mut self, server: &ServerWriter, buffer: WlBuffer) {
        let Some(picture) = self.windows.pictures.get(buffer) else { return };
        let mut pixel = [0; 4];
        if picture.memory.read_exact_at(&mut pixel, picture.offset as u64).is_ok() {
            let (width, height) = (picture.width, picture.height);
            let pixel = u32::from_le_bytes(pixel);
            println!("a picture of {width} by {height}, its first pixel {pixel:08x}");
        }
        self.must(buffer.send_release(server));
    }
}

impl wl_shm::Requests for Client {
    fn create_pool(
        &mut self,
        _: &ServerWriter,
        _: WlShm,
        pool: WlShmPool,
        fd: OwnedFd,
        _size: i32,
    ) {
        self.windows.pools.insert(pool, Rc::new(fd.into()));
    }
}

impl wl_shm_pool::Requests for Client {
    fn create_buffer(
        &mut self,
        _: &ServerWriter,
        pool: WlShmPool,
        buffer: WlBuffer,
        offset: i32,
        width: i32,
        height: i32,
        _stride: i32,
        _format: Format,
    ) {
        if let Some(memory) = self.windows.pools.get(pool) {
            let picture = Picture { memory: Rc::clone(memory), offset, width, height };
            self.windows.pictures.insert(buffer, picture);
        }
    }

    fn destroy(&mut self, _: &ServerWriter, pool: WlShmPool) {
        self.windows.pools.remove(pool);
    }
}

impl wl_buffer::Requests for Client {
    fn destroy(&mut self, _: &ServerWriter, buffer: WlBuffer) {
        self.windows.pictures.remove(buffer);
    }
}

impl wl_compositor::Requests for Client {
    fn create_surface(&mut self, _: &ServerWriter, _: WlCompositor, surface: WlSurface) {
        self.windows.surfaces.insert(surface, Surface::default());
    }
}

impl wl_surface::Requests for Client {
    fn attach(
        &mut self,
        _: &ServerWriter,
        surface: WlSurface,
        buffer: Option<WlBuffer>,
        _x: i32,
        _y: i32,
    ) {
        self.windows.surfaces.get_or_default(surface).attached = buffer;
    }

    fn frame(&mut self, _: &ServerWriter, surface: WlSurface, callback: WlCallback) {
        self.windows.surfaces.get_or_default(surface).frames.push(callback);
    }

    /// A new window gets the focus once it has a picture.
    fn commit(&mut self, server: &ServerWriter, surface: WlSurface) {
        if let Some((xdg_surface, toplevel)) = self.windows.new.remove(surface) {
            self.must(toplevel.send_configure(server, 0, 0, []));
            let serial = self.next_serial();
            self.must(xdg_surface.send_configure(server, serial));
        }
        let it = self.windows.surfaces.get_or_default(surface);
        let (attached, frames) = (it.attached.take(), mem::take(&mut it.frames));
        let is_new = attached.is_some() && !it.is_shown;
        let toplevel = it.toplevel.filter(|it| is_new && server.live(it.0).is_some());
        if let Some(toplevel) = toplevel {
            it.is_shown = true;
            self.windows.shown = Some(Window { surface, toplevel });
            self.action = Some(Action::Focus);
        }
        if let Some(buffer) = attached {
            self.show(server, buffer);
        }
        let time = self.milliseconds();
        for callback in frames {
            self.must(callback.send_done(server, time));
        }
    }

    fn destroy(&mut self, _: &ServerWriter, surface: WlSurface) {
        self.windows.surfaces.remove(surface);
    }
}

impl xdg_wm_base::Requests for Client {
    fn get_xdg_surface(
        &mut self,
        _: &ServerWriter,
        _: XdgWmBase,
        xdg_surface: XdgSurface,
        surface: WlSurface,
    ) {
        self.windows.roles.insert(xdg_surface, surface);
    }
}

impl xdg_surface::Requests for Client {
    fn get_toplevel(&mut self, _: &ServerWriter, xdg_surface: XdgSurface, toplevel: XdgToplevel) {
        if let Some(surface) = self.windows.roles.get(xdg_surface) {
            let it = self.windows.surfaces.get_or_default(*surface);
            (it.toplevel, it.is_shown) = (Some(toplevel), false);
            self.windows.new.insert(*surface, (xdg_surface, toplevel));
        }
    }

    /// There is no place for menus: each is closed at once.
    fn get_popup(
        &mut self,
        server: &ServerWriter,
        _: XdgSurface,
        popup: XdgPopup,
        _: Option<XdgSurface>,
        _: XdgPositioner,
    ) {
        self.must(popup.send_popup_done(server));
    }

    fn destroy(&mut self, _: &ServerWriter, xdg_surface: XdgSurface) {
        self.windows.roles.remove(xdg_surface);
    }
}
