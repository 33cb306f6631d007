//! A client and a server of wayland-rs in two processes, over a socket pair: the work of
//! bench/c/sockets.h, but for its `clients`.
//!
//!     sockets damage|motion|frame|sync|latency COUNT TIMES
//!
//! The server is this program with the word `serve`, and has the socket as its standard input.

use std::cell::{Cell, RefCell};
use std::os::fd::OwnedFd;
use std::os::unix::io::IntoRawFd;
use std::os::unix::net::UnixStream;
use std::process::{Command, Stdio};
use std::rc::Rc;
use std::time::{Duration, Instant};
use wayland_client::protocol::{
    wl_callback, wl_compositor, wl_pointer, wl_registry, wl_seat, wl_surface,
};
use wayland_client::{Display, EventQueue, Main};
use wayland_server as server;
use wayland_server::protocol as served;

/// What the server answers a commit with: so many motions, and done to the callback.
#[derive(Clone, Default)]
struct Served {
    burst: u32,
    pointer: Rc<RefCell<Option<server::Main<served::wl_pointer::WlPointer>>>>,
    awaited: Rc<RefCell<Option<server::Main<served::wl_callback::WlCallback>>>>,
    damages: Rc<Cell<u64>>,
}

impl Served {
    fn hear(&self, request: served::wl_surface::Request) {
        match request {
            served::wl_surface::Request::Damage { .. } => self.damages.set(self.damages.get() + 1),
            served::wl_surface::Request::Frame { callback } => {
                *self.awaited.borrow_mut() = Some(callback)
            }
            served::wl_surface::Request::Commit => self.answer(),
            _ => (),
        }
    }

    fn answer(&self) {
        if let Some(pointer) = &*self.pointer.borrow() {
            for time in 0..self.burst {
                pointer.motion(time, 1.0, 2.0);
            }
        }
        if let Some(callback) = self.awaited.take() {
            callback.done(0);
        }
    }

    fn serve_compositor(&self, compositor: &server::Main<served::wl_compositor::WlCompositor>) {
        let served = self.clone();
        compositor.quick_assign(move |_, request, _| {
            if let served::wl_compositor::Request::CreateSurface { id } = request {
                let served = served.clone();
                id.quick_assign(move |_, request, _| served.hear(request));
            }
        });
    }

    fn serve_seat(&self, seat: &server::Main<served::wl_seat::WlSeat>) {
        let served = self.clone();
        seat.quick_assign(move |_, request, _| {
            if let served::wl_seat::Request::GetPointer { id } = request {
                id.quick_assign(|_, _, _| ());
                *served.pointer.borrow_mut() = Some(id);
            }
        });
    }
}

fn serve(burst: u32) {
    let served = Served { burst, ..Served::default() };
    let mut display = server::Display::new();
    let serving = served.clone();
    display.create_global::<served::wl_compositor::WlCompositor, _>(
        4,
        server::Filter::new(move |(it, _): (server::Main<_>, u32), _, _| {
            serving.serve_compositor(&it)
        }),
    );
    display.create_global::<served::wl_seat::WlSeat, _>(
        5,
        server::Filter::new(move |(it, _): (server::Main<_>, u32), _, _| served.serve_seat(&it)),
    );
    // SAFETY: standard input is the connected socket, which the client takes over.
    let client = unsafe { display.create_client(0, &mut ()) };
    while client.alive() {
        display.flush_clients(&mut ());
        display.dispatch(Duration::from_secs(1), &mut ()).unwrap();
    }
}

struct Client {
    display: Display,
    queue: EventQueue,
    surface: Main<wl_surface::WlSurface>,
    _pointer: Main<wl_pointer::WlPointer>,
    motions: Rc<Cell<u64>>,
    answers: Rc<Cell<u64>>,
}

fn one_more(count: &Cell<u64>) {
    count.set(count.get() + 1);
}

impl Client {
    fn open(socket: UnixStream) -> Client {
        // SAFETY: the descriptor is a connected socket, which the display takes over.
        let display = unsafe { Display::from_fd(socket.into_raw_fd()).unwrap() };
        let mut queue = display.create_event_queue();
        let registry = display.attach(queue.token()).get_registry();
        let names = Rc::new(RefCell::new(Vec::new()));
        let found = names.clone();
        registry.quick_assign(move |_, event, _| {
            if let wl_registry::Event::Global { name, interface, .. } = event {
                found.borrow_mut().push((interface, name));
            }
        });
        queue.sync_roundtrip(&mut (), |_, _, _| ()).unwrap();
        let name = |interface: &str| {
            names.borrow().iter().find(|it| it.0 == interface).expect("a global").1
        };
        let compositor = registry.bind::<wl_compositor::WlCompositor>(4, name("wl_compositor"));
        let seat = registry.bind::<wl_seat::WlSeat>(5, name("wl_seat"));
        let (surface, pointer) = (compositor.create_surface(), seat.get_pointer());
        let (motions, answers) = (Rc::new(Cell::new(0)), Rc::new(Cell::new(0)));
        let seen = motions.clone();
        pointer.quick_assign(move |_, _, _| one_more(&seen));
        queue.sync_roundtrip(&mut (), |_, _, _| ()).unwrap();
        Client { display, queue, surface, _pointer: pointer, motions, answers }
    }

    /// Dispatches until so many motions and answers have come.
    fn wait(&mut self, motions: u64, answers: u64) {
        while self.motions.get() < motions || self.answers.get() < answers {
            self.queue.dispatch(&mut (), |_, _, _| ()).unwrap();
        }
    }

    fn listen(&self, callback: &Main<wl_callback::WlCallback>) {
        let answers = self.answers.clone();
        callback.quick_assign(move |_, _, _| one_more(&answers));
    }

    fn sync(&mut self) {
        self.listen(&self.display.attach(self.queue.token()).sync());
        self.wait(0, self.answers.get() + 1);
    }

    fn damage(&mut self, count: u64) {
        for _ in 0..count {
            self.surface.damage(1, 2, 3, 4);
        }
        self.sync();
    }

    fn motion(&mut self, count: u64) {
        self.surface.commit();
        self.wait(self.motions.get() + count, 0);
    }

    fn frame(&mut self, count: u64) {
        self.listen(&self.surface.frame());
        self.surface.damage(0, 0, 100, 100);
        self.surface.commit();
        self.wait(self.motions.get() + count, self.answers.get() + 1);
    }

    fn print_latency(&mut self, times: usize) {
        let mut taken: Vec<_> = (0..times)
            .map(|_| {
                let before = Instant::now();
                self.sync();
                before.elapsed().as_nanos()
            })
            .collect();
        taken.sort_unstable();
        println!("{} {}", taken[times / 2], taken[times * 99 / 100]);
    }
}

fn main() {
    let words: Vec<String> = std::env::args().collect();
    let count: u64 = words[2].parse().unwrap();
    if words[1] == "serve" {
        return serve(count as u32);
    }
    let times: usize = words[3].parse().unwrap();
    let (at_client, at_server) = UnixStream::pair().unwrap();
    at_client.set_nonblocking(true).unwrap();
    at_server.set_nonblocking(true).unwrap();
    let mut server = Command::new(&words[0])
        .args(["serve", &words[2]])
        .stdin(Stdio::from(OwnedFd::from(at_server)))
        .spawn()
        .unwrap();
    let mut client = Client::open(at_client);
    match words[1].as_str() {
        "damage" => (0..times).for_each(|_| client.damage(count)),
        "motion" => (0..times).for_each(|_| client.motion(count)),
        "frame" => (0..times).for_each(|_| client.frame(count)),
        "sync" => (0..times).for_each(|_| client.sync()),
        _ => client.print_latency(times),
    }
    client.sync();
    drop(client);
    server.wait().unwrap();
}
