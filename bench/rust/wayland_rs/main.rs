//! Sends messages between a client and a server of wayland-rs in one process, so that the
//! instructions of a message can be counted: the work of bench/c/libwayland.c.
//!
//!     wayland_rs damage|motion|surface|title BATCH TIMES
//!
//! The messages of the case are written BATCH times, then flushed over a socket pair, then read.
//! Each handler is a closure that counts, as the dispatcher in C is a function that counts.
//!
//! A server of wayland-rs 0.29 reads 8 KB at once. If a client has sent more, and these 8 KB end
//! within a message, the server ends the client. So at most four titles are flushed before they are
//! read: as many as a client's buffer of 4 KB holds.

use std::cell::{Cell, RefCell};
use std::os::unix::io::IntoRawFd;
use std::os::unix::net::UnixStream;
use std::rc::Rc;
use std::time::Duration;
use wayland_client::protocol::{
    wl_compositor, wl_pointer, wl_registry, wl_seat, wl_shell, wl_shell_surface, wl_surface,
};
use wayland_client::{Display, EventQueue, Main};
use wayland_server as server;
use wayland_server::protocol as served;

const TITLES_AT_ONCE: usize = 4;

/// How much both ends have read, and the server's pointer.
#[derive(Clone, Default)]
struct Seen {
    requests: Rc<Cell<usize>>,
    events: Rc<Cell<usize>>,
    pointer: Rc<RefCell<Option<server::Main<served::wl_pointer::WlPointer>>>>,
}

fn one_more(count: &Cell<usize>) {
    count.set(count.get() + 1);
}

impl Seen {
    fn add_globals(&self, display: &mut server::Display) {
        let seen = self.clone();
        display.create_global::<served::wl_compositor::WlCompositor, _>(
            4,
            server::Filter::new(move |(it, _): (server::Main<_>, u32), _, _| {
                seen.serve_compositor(&it)
            }),
        );
        let seen = self.clone();
        display.create_global::<served::wl_seat::WlSeat, _>(
            5,
            server::Filter::new(move |(it, _): (server::Main<_>, u32), _, _| seen.serve_seat(&it)),
        );
        let seen = self.clone();
        display.create_global::<served::wl_shell::WlShell, _>(
            1,
            server::Filter::new(move |(it, _): (server::Main<_>, u32), _, _| seen.serve_shell(&it)),
        );
    }

    fn serve_compositor(&self, compositor: &server::Main<served::wl_compositor::WlCompositor>) {
        let requests = self.requests.clone();
        compositor.quick_assign(move |_, request, _| {
            one_more(&requests);
            if let served::wl_compositor::Request::CreateSurface { id } = request {
                let requests = requests.clone();
                id.quick_assign(move |_, _, _| one_more(&requests));
            }
        });
    }

    fn serve_seat(&self, seat: &server::Main<served::wl_seat::WlSeat>) {
        let seen = self.clone();
        seat.quick_assign(move |_, request, _| {
            one_more(&seen.requests);
            if let served::wl_seat::Request::GetPointer { id } = request {
                id.quick_assign(|_, _, _| ());
                *seen.pointer.borrow_mut() = Some(id);
            }
        });
    }

    fn serve_shell(&self, shell: &server::Main<served::wl_shell::WlShell>) {
        let requests = self.requests.clone();
        shell.quick_assign(move |_, request, _| {
            one_more(&requests);
            let served::wl_shell::Request::GetShellSurface { id, .. } = request else { return };
            let requests = requests.clone();
            id.quick_assign(move |_, _, _| one_more(&requests));
        });
    }
}

struct Ends {
    server: server::Display,
    client: Display,
    queue: EventQueue,
    seen: Seen,
}

impl Ends {
    fn open() -> Ends {
        let (at_server, at_client) = UnixStream::pair().unwrap();
        at_client.set_nonblocking(true).unwrap();
        at_server.set_nonblocking(true).unwrap();
        let seen = Seen::default();
        let mut server = server::Display::new();
        seen.add_globals(&mut server);
        // SAFETY: both descriptors are connected sockets, which the ends take over.
        let client = unsafe {
            server.create_client(at_server.into_raw_fd(), &mut ());
            Display::from_fd(at_client.into_raw_fd()).unwrap()
        };
        let queue = client.create_event_queue();
        Ends { server, client, queue, seen }
    }

    fn up(&mut self) {
        self.client.flush().unwrap();
        self.server.dispatch(Duration::ZERO, &mut ()).unwrap();
    }

    fn down(&mut self) {
        self.server.flush_clients(&mut ());
        self.queue.prepare_read().expect("no event waits").read_events().unwrap();
        self.queue.dispatch_pending(&mut (), |_, _, _| ()).unwrap();
    }
}

/// The objects that send the messages: the client's, and the server's pointer.
struct Objects {
    compositor: Main<wl_compositor::WlCompositor>,
    surface: Main<wl_surface::WlSurface>,
    shell_surface: Main<wl_shell_surface::WlShellSurface>,
    _pointer: Main<wl_pointer::WlPointer>,
    served_pointer: server::Main<served::wl_pointer::WlPointer>,
}

impl Objects {
    fn open(ends: &mut Ends) -> Objects {
        let registry = ends.client.attach(ends.queue.token()).get_registry();
        let names = Rc::new(RefCell::new(Vec::new()));
        let found = names.clone();
        registry.quick_assign(move |_, event, _| {
            if let wl_registry::Event::Global { name, interface, .. } = event {
                found.borrow_mut().push((interface, name));
            }
        });
        ends.up();
        ends.down();
        let name = |interface: &str| {
            names.borrow().iter().find(|it| it.0 == interface).expect("a global").1
        };
        let compositor = registry.bind::<wl_compositor::WlCompositor>(4, name("wl_compositor"));
        let seat = registry.bind::<wl_seat::WlSeat>(5, name("wl_seat"));
        let shell = registry.bind::<wl_shell::WlShell>(1, name("wl_shell"));
        let surface = compositor.create_surface();
        let shell_surface = shell.get_shell_surface(&surface);
        let pointer = seat.get_pointer();
        let events = ends.seen.events.clone();
        pointer.quick_assign(move |_, _, _| one_more(&events));
        ends.up();
        let served_pointer = ends.seen.pointer.take().expect("a pointer");
        Objects { compositor, surface, shell_surface, _pointer: pointer, served_pointer }
    }
}

/// Writes so many messages of the case, and reads them at the other end.
fn exchange(ends: &mut Ends, objects: &Objects, case: &str, count: usize, title: &str) {
    let (requests, events) = (ends.seen.requests.get(), ends.seen.events.get());
    if case == "motion" {
        for place in 0..count {
            objects.served_pointer.motion(place as u32, 1.0, 2.0);
        }
        ends.down();
        assert_eq!(ends.seen.events.get() - events, count);
        return;
    }
    for place in 0..count {
        match case {
            "surface" => objects.compositor.create_surface().destroy(),
            "title" => objects.shell_surface.set_title(title.to_owned()),
            _ => objects.surface.damage(1, 2, 3, 4),
        }
        if case == "title" && place % TITLES_AT_ONCE == TITLES_AT_ONCE - 1 && place + 1 < count {
            ends.up();
        }
    }
    ends.up();
    let of_one = if case == "surface" { 2 } else { 1 };
    assert_eq!(ends.seen.requests.get() - requests, of_one * count);
    if case == "surface" {
        ends.down();
    }
}

fn main() {
    let words: Vec<String> = std::env::args().collect();
    let (case, batch) = (words[1].as_str(), words[2].parse().unwrap());
    let times: usize = words[3].parse().unwrap();
    let title = "a".repeat(1000);
    let mut ends = Ends::open();
    let objects = Objects::open(&mut ends);
    for _ in 0..times {
        exchange(&mut ends, &objects, case, batch, &title);
    }
}
