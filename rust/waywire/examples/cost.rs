//! Sends messages between a client and a server in one process, and reads them, so that the
//! instructions of a message can be counted (bench/rust/run.py). The same as bench/c/calls.c.
//!
//!     cost damage|motion|surface|title BATCH TIMES

use std::hint::black_box;
use waywire::wayland::wl_compositor::{self, WlCompositor};
use waywire::wayland::wl_pointer::WlPointer;
use waywire::wayland::wl_shell_surface::WlShellSurface;
use waywire::wayland::wl_surface::WlSurface;
use waywire::wayland::{wl_display, wl_seat, wl_shell};
use waywire::{Arg, Client, Connection, Fixed, Object, Server, Sizes, Tables};

/// Room for 100 of any of the messages.
const SIZES: Sizes =
    Sizes { out_bytes: 131_072, out_tokens: 64, in_bytes: 131_072, in_tokens: 64, limit: 0 };

struct Pair {
    client: Client,
    server: Server,
    bytes: Box<[u8]>,
}

/// Carries what waits at one end to the other.
fn carry<A, B>(from: &mut Connection<A>, to: &mut Connection<B>, bytes: &mut [u8]) {
    let mut none = Vec::new();
    let taken = from.take(bytes, &mut none, 0);
    assert_eq!(to.feed(&bytes[..taken.bytes], &mut none), Ok(taken));
}

impl Pair {
    fn up(&mut self) {
        carry(&mut self.client, &mut self.server, &mut self.bytes);
    }

    fn down(&mut self) {
        carry(&mut self.server, &mut self.client, &mut self.bytes);
    }

    fn make(&mut self, target: Object, opcode: u16) -> Object {
        self.client.send(target, opcode, &[Arg::NewId]).unwrap().unwrap()
    }

    fn request(&mut self) {
        black_box(self.server.next().unwrap().expect("a request"));
    }

    fn event(&mut self) {
        black_box(self.client.next().unwrap().expect("an event"));
    }
}

/// The objects to which the messages are sent.
struct Objects {
    compositor: Object,
    surface: Object,
    shell_surface: Object,
    pointer: Object,
}

fn open() -> (Pair, Objects) {
    let tables = Tables::core().unwrap();
    let mut pair = Pair {
        client: Client::new(&tables, &SIZES).unwrap(),
        server: Server::new(&tables, &SIZES).unwrap(),
        bytes: vec![0; SIZES.in_bytes].into_boxed_slice(),
    };
    let globals = [("wl_compositor", 6), ("wl_seat", 9), ("wl_shell", 1)];
    for (name, version) in globals {
        pair.server.add_global(tables.interface(name).unwrap(), version).unwrap();
    }
    let display = pair.client.display();
    let registry = pair.make(display, wl_display::request::GET_REGISTRY);
    pair.up();
    pair.request();
    pair.server.announce().unwrap();
    pair.down();
    globals.iter().for_each(|_| pair.event());
    let compositor = pair.client.bind(registry, 1, "wl_compositor", 6).unwrap();
    let seat = pair.client.bind(registry, 2, "wl_seat", 9).unwrap();
    let shell = pair.client.bind(registry, 3, "wl_shell", 1).unwrap();
    let surface = pair.make(compositor, wl_compositor::request::CREATE_SURFACE);
    let pointer = pair.make(seat, wl_seat::request::GET_POINTER);
    let args = [Arg::NewId, Arg::Object(Some(surface))];
    let made = pair.client.send(shell, wl_shell::request::GET_SHELL_SURFACE, &args);
    let shell_surface = made.unwrap().unwrap();
    pair.up();
    (0..6).for_each(|_| pair.request());
    (pair, Objects { compositor, surface, shell_surface, pointer })
}

/// What a case sends, and how many requests and events are read for it.
type Case = (fn(&mut Pair, &Objects), usize, usize);

fn send_damage(pair: &mut Pair, objects: &Objects) {
    WlSurface(objects.surface).damage(&pair.client, 1, 2, 3, 4).unwrap();
}

fn send_motion(pair: &mut Pair, objects: &Objects) {
    let [x, y] = [256, 77].map(Fixed::from_raw);
    WlPointer(objects.pointer).send_motion(&pair.server, 1, x, y).unwrap();
}

fn send_surface(pair: &mut Pair, objects: &Objects) {
    let made = WlCompositor(objects.compositor).create_surface(&pair.client).unwrap();
    made.destroy(&pair.client).unwrap();
}

fn send_title(pair: &mut Pair, objects: &Objects) {
    let title = &[b'a'; 1000];
    WlShellSurface(objects.shell_surface).set_title(&pair.client, title).unwrap();
}

fn main() {
    let words: Vec<String> = std::env::args().collect();
    let (send, requests, events): Case = match words[1].as_str() {
        "damage" => (send_damage, 1, 0),
        "motion" => (send_motion, 0, 1),
        "surface" => (send_surface, 2, 1),
        "title" => (send_title, 1, 0),
        other => panic!("no case is called {other}"),
    };
    let (batch, times): (usize, usize) = (words[2].parse().unwrap(), words[3].parse().unwrap());
    let (mut pair, objects) = open();
    for _ in 0..times {
        (0..batch).for_each(|_| send(&mut pair, &objects));
        if requests > 0 {
            pair.up();
        }
        (0..batch * requests).for_each(|_| pair.request());
        if events > 0 {
            pair.down();
        }
        (0..batch * events).for_each(|_| pair.event());
    }
}
