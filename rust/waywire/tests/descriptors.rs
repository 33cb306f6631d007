//! Every descriptor is closed once: those that handlers do not take, that refused calls were lent, of
//! messages that are leaked or dispatched twice, and those that wait in an end.

// A message has no drop of its own, so to leak one is nothing special. These tests stay right if it gets one.
#![allow(clippy::forget_non_drop)]

mod common;

use common::{number_of, numbered};
use std::os::fd::{AsFd, OwnedFd};
use std::os::unix::net::UnixStream;
use std::sync::{Mutex, MutexGuard};
use std::{fs, mem};
use waywire::socket::{self, Link};
use waywire::wayland::wl_display::WlDisplay;
use waywire::wayland::wl_keyboard::{self, KeymapFormat, WlKeyboard};
use waywire::wayland::wl_registry::WlRegistry;
use waywire::wayland::wl_seat::WlSeat;
use waywire::wayland::wl_shm::{self, WlShm};
use waywire::{
    Amounts, Arg, Client, ClientWriter, Connection, Event, EventHandler, Handle, Incoming,
    SendError, Server, Sizes, Tables, Value,
};

/// The tests count the descriptors of the process, one after the other.
fn alone() -> MutexGuard<'static, ()> {
    static LOCK: Mutex<()> = Mutex::new(());
    LOCK.lock().unwrap_or_else(|it| it.into_inner())
}

fn open_descriptors() -> usize {
    fs::read_dir("/proc/self/fd").unwrap().count()
}

/// Two ends with nothing between, and a seat and a shm that both have.
struct Pair {
    client: Client,
    server: Server,
    seat: WlSeat,
    shm: WlShm,
}

fn carry<A, B>(from: &mut Connection<A>, to: &mut Connection<B>) {
    let (mut bytes, mut descriptors) = ([0; 4096], Vec::new());
    let taken = from.take(&mut bytes, &mut descriptors, 28);
    assert_eq!(to.feed(&bytes[..taken.bytes], &mut descriptors), Ok(taken));
    assert!(descriptors.is_empty());
}

impl Pair {
    fn new() -> Pair {
        let tables = Tables::core().unwrap();
        let mut client = Client::new(&tables, &Sizes::default()).unwrap();
        let mut server = Server::new(&tables, &Sizes::default()).unwrap();
        for name in [WlSeat::NAME, WlShm::NAME] {
            server.add_global(tables.interface(name).unwrap(), 1).unwrap();
        }
        let registry: WlRegistry = WlDisplay(client.display()).get_registry(&client).unwrap();
        carry(&mut client, &mut server);
        while server.next().unwrap().is_some() {}
        server.announce().unwrap();
        carry(&mut server, &mut client);
        while client.next().unwrap().is_some() {}
        let seat = registry.bind(&client, 1, 1).unwrap();
        let shm = registry.bind(&client, 2, 1).unwrap();
        let mut pair = Pair { client, server, seat, shm };
        pair.serve();
        pair
    }

    /// Carries the requests to the server, which reads them.
    fn serve(&mut self) {
        carry(&mut self.client, &mut self.server);
        while self.server.next().unwrap().is_some() {}
    }

    fn keyboard(&mut self) -> WlKeyboard {
        let keyboard = self.seat.get_keyboard(&self.client).unwrap();
        self.serve();
        keyboard
    }

    /// Sends a keyboard's client a keymap with this number.
    fn send_keymap(&mut self, keyboard: WlKeyboard, number: u32) {
        let map = numbered(number);
        keyboard.send_keymap(&self.server, KeymapFormat::XKB_V1, map, 1).unwrap();
        carry(&mut self.server, &mut self.client);
    }

    /// The event that the client reads next.
    fn event(&mut self) -> Event<'_> {
        match self.client.next().unwrap() {
            Some(Incoming::Event(event)) => event,
            other => panic!("{other:?}"),
        }
    }
}

/// A handler that does nothing.
struct Empty;

impl wl_keyboard::Events for Empty {}

waywire::event_handler!(Empty: wl_keyboard);

/// A handler that keeps the keymaps.
#[derive(Default)]
struct Keeping(Vec<OwnedFd>);

impl wl_keyboard::Events for Keeping {
    fn keymap(&mut self, _: &ClientWriter, _: WlKeyboard, _: KeymapFormat, fd: OwnedFd, _: u32) {
        self.0.push(fd);
    }
}

waywire::event_handler!(Keeping: wl_keyboard);

impl Keeping {
    fn numbers(&self) -> Vec<u32> {
        self.0.iter().map(|it| number_of(it.as_fd())).collect()
    }
}

#[test]
fn an_empty_handler_leaks_nothing() {
    let _alone = alone();
    let mut pair = Pair::new();
    let before = open_descriptors();
    let mut taken = 0;
    for number in 0..20 {
        let keyboard = pair.keyboard();
        pair.send_keymap(keyboard, number);
    }
    assert_eq!(open_descriptors(), before + 20);
    while let Some(incoming) = pair.client.next().unwrap() {
        let Incoming::Event(mut event) = incoming else { continue };
        taken += u32::from(Empty.dispatch_event(event.writer(), &mut event));
    }
    assert_eq!((taken, open_descriptors()), (20, before));
}

#[test]
fn events_that_nobody_takes_leak_nothing() {
    let _alone = alone();
    let mut pair = Pair::new();
    let keyboard = pair.keyboard();
    let before = open_descriptors();
    pair.send_keymap(keyboard, 1);
    pair.send_keymap(keyboard, 2);
    let mut event = pair.event();
    assert!(!().dispatch_event(event.writer(), &mut event));
    mem::forget(pair.event());
    assert!(pair.client.next().unwrap().is_none());
    assert_eq!(open_descriptors(), before);
    pair.send_keymap(keyboard, 3);
    mem::forget(pair.event());
    assert_eq!(open_descriptors(), before + 1);
    drop(pair);
    assert_eq!(open_descriptors(), before);
}

/// A message to a keyboard that the client has released comes without its arguments.
#[test]
fn a_discarded_event_leaks_nothing() {
    let _alone = alone();
    let text = b"interface wp_source 1\nrequest destroy D\nevent send h\n";
    let tables = Tables::core().unwrap().read(text).unwrap();
    let mut client = Client::new(&tables, &Sizes::default()).unwrap();
    let mut server = Server::new(&tables, &Sizes::default()).unwrap();
    server.add_global(tables.interface("wp_source").unwrap(), 1).unwrap();
    let registry = WlDisplay(client.display()).get_registry(&client).unwrap();
    carry(&mut client, &mut server);
    while server.next().unwrap().is_some() {}
    server.announce().unwrap();
    carry(&mut server, &mut client);
    while client.next().unwrap().is_some() {}
    let source = client.bind(registry.0, 1, "wp_source", 1).unwrap();
    carry(&mut client, &mut server);
    assert!(server.next().unwrap().is_some());
    let before = open_descriptors();
    for number in [5, 6] {
        server.send(source, 0, &[numbered(number).as_fd().into()]).unwrap();
    }
    client.send(source, 0, &[]).unwrap();
    carry(&mut server, &mut client);
    match client.next().unwrap() {
        Some(Incoming::Discarded(mut event)) => {
            assert_eq!(event.descriptors().map(number_of).collect::<Vec<_>>(), [5]);
            assert_eq!((event.target(), event.args().count()), (source, 0));
            assert_eq!(number_of(event.take_descriptor().unwrap().as_fd()), 5);
            assert!(event.take_descriptor().is_none());
        }
        other => panic!("{other:?}"),
    }
    assert!(matches!(client.next().unwrap(), Some(Incoming::Discarded(_))));
    assert!(client.next().unwrap().is_none());
    assert_eq!(open_descriptors(), before);
}

#[test]
fn a_refused_call_leaks_nothing() {
    let _alone = alone();
    let mut pair = Pair::new();
    let keyboard = pair.keyboard();
    let lent = numbered(7);
    let before = open_descriptors();
    let create_pool = wl_shm::request::CREATE_POOL;
    let fd = Arg::from(lent.as_fd());
    for args in [&[fd; 30][..], &[fd], &[Arg::NewId, fd, fd], &[Arg::NewId, fd]] {
        let refused = pair.client.send(pair.shm.0, create_pool, args);
        assert!(matches!(refused, Err(SendError::WrongArgs { .. })));
    }
    let refused = pair.server.send(keyboard.0, wl_keyboard::event::ENTER, &[fd]);
    assert!(matches!(refused, Err(SendError::WrongArgs { .. })));
    // What is given by value is closed, what is lent stays.
    assert_eq!(keyboard.send_keymap(&pair.server, KeymapFormat::XKB_V1, numbered(8), 1), Ok(()));
    while pair.shm.create_pool(&pair.client, &lent, 1).is_ok() {}
    let full = pair.shm.create_pool(&pair.client, numbered(9), 1);
    assert_eq!(full, Err(SendError::Full));
    assert_eq!(pair.client.take_waiting_tokens().len(), 64);
    let failed = pair.shm.create_pool(&pair.client, numbered(9), 1);
    assert_eq!(failed, Err(SendError::Failed));
    assert_eq!(number_of(lent.as_fd()), 7);
    assert_eq!(open_descriptors(), before + 1);
    drop(pair);
    assert_eq!(open_descriptors(), before);
}

extern "C" {
    fn getrlimit(resource: i32, limits: *mut [u64; 2]) -> i32;
    fn setrlimit(resource: i32, limits: *const [u64; 2]) -> i32;
}

const RLIMIT_NOFILE: i32 = 7;
const EMFILE: i32 = 24;
const EOVERFLOW: i32 = 75;

/// The process may open no more descriptors.
#[test]
fn a_descriptor_that_is_not_duplicated_is_an_error() {
    let _alone = alone();
    let pair = Pair::new();
    let lent = numbered(7);
    let mut limits = [0; 2];
    // SAFETY: the calls read and write the two numbers.
    let refused = unsafe {
        assert_eq!(getrlimit(RLIMIT_NOFILE, &mut limits), 0);
        assert_eq!(setrlimit(RLIMIT_NOFILE, &[4, limits[1]]), 0);
        let refused = pair.shm.create_pool(&pair.client, &lent, 1);
        assert_eq!(setrlimit(RLIMIT_NOFILE, &limits), 0);
        refused.unwrap_err()
    };
    assert_eq!(refused, SendError::NotDuplicated { error: EMFILE });
    assert!(refused.to_string().starts_with("a descriptor is not duplicated: "));
    assert!(pair.shm.create_pool(&pair.client, &lent, 1).is_ok());
}

/// A link that has lost descriptors reads nothing more: its end has failed.
#[test]
fn lost_descriptors_fail_the_end() {
    let _alone = alone();
    let (its, other) = UnixStream::pair().unwrap();
    let client = Client::new(&Tables::core().unwrap(), &Sizes::default()).unwrap();
    let mut link = Link::new(client, its).unwrap();
    let lent = numbered(7);
    let before = open_descriptors();
    let too_many = [lent.as_fd(); socket::MOST_DESCRIPTORS + 1];
    socket::send(&other, [&[0; 8], &[]], &too_many).unwrap();
    assert_eq!(link.fill().unwrap_err().raw_os_error(), Some(EOVERFLOW));
    assert!(link.has_failed());
    socket::send(&other, [&[0; 8], &[]], &[]).unwrap();
    assert!(link.fill().is_err());
    assert_eq!(open_descriptors(), before);
}

/// Nothing is closed twice: what would be is in the place of descriptors that are new.
#[test]
fn a_message_gives_each_descriptor_once() {
    let _alone = alone();
    let mut pair = Pair::new();
    let keyboard = pair.keyboard();
    let before = open_descriptors();
    (1..5).for_each(|it| pair.send_keymap(keyboard, it));
    let mut kept = Keeping::default();

    let mut event = pair.event();
    assert!(kept.dispatch_event(event.writer(), &mut event));
    assert!(!kept.dispatch_event(event.writer(), &mut event));
    assert!(event.args().any(|it| it == Value::Fd(None)));
    assert!(event.take_descriptor().is_none() && event.descriptors().next().is_none());
    mem::forget(event);
    assert_eq!(kept.numbers(), [1]);

    let mut owned = pair.event().into_owned();
    assert!(kept.dispatch_event(&pair.client, &mut owned));
    assert!(!kept.dispatch_event(&pair.client, &mut owned));
    drop(owned);
    assert_eq!(kept.numbers(), [1, 2]);

    // One that is closed by the next read, and one that is taken out and closed here.
    mem::forget(pair.event());
    let mut event = pair.event();
    drop(event.take_descriptor());
    let new: Vec<OwnedFd> = (0..8).map(numbered).collect();
    assert!(pair.client.next().unwrap().is_none());
    drop(pair);
    let numbers = new.iter().map(|it| number_of(it.as_fd()));
    assert_eq!(numbers.collect::<Vec<_>>(), (0..8).collect::<Vec<_>>());
    assert_eq!(kept.numbers(), [1, 2]);
    assert_eq!(open_descriptors(), before + 8 + 2);
}

/// What waits in the outbox and in the inbox is closed with the end, or given up.
#[test]
fn what_waits_is_closed_with_its_end() {
    let _alone = alone();
    let before = open_descriptors();
    let mut pair = Pair::new();
    pair.shm.create_pool(&pair.client, numbered(1), 1).unwrap();
    carry(&mut pair.client, &mut pair.server);
    pair.shm.create_pool(&pair.client, numbered(2), 1).unwrap();
    assert_eq!(open_descriptors(), before + 2);
    drop(pair);
    assert_eq!(open_descriptors(), before);

    let mut pair = Pair::new();
    pair.shm.create_pool(&pair.client, numbered(1), 1).unwrap();
    pair.shm.create_pool(&pair.client, numbered(2), 1).unwrap();
    let waiting = pair.client.peek();
    assert_eq!(waiting.descriptors().iter().map(|it| number_of(*it)).collect::<Vec<_>>(), [1]);
    // The first byte takes the descriptor of its message, and no other.
    assert_eq!(pair.client.sent(1), Amounts { bytes: 1, tokens: 1 });
    assert_eq!(open_descriptors(), before + 1);
    assert!(pair.client.peek().descriptors().is_empty());
    // More than there is: all goes.
    let all = pair.client.sent(usize::MAX);
    assert_eq!((all.tokens, open_descriptors()), (1, before));
    assert_eq!(pair.client.sent(1), Amounts::default());

    let mut fed: Vec<OwnedFd> = (0..262).map(numbered).collect();
    assert_eq!(pair.server.feed(&[], &mut fed), Ok(Amounts { bytes: 0, tokens: 256 }));
    assert_eq!(fed.iter().map(|it| number_of(it.as_fd())).next(), Some(256));
    assert_eq!(pair.server.received(0, &mut fed), Ok(Amounts::default()));
    assert_eq!((fed.len(), open_descriptors()), (6, before + 262));
    let waited = pair.server.take_waiting_tokens();
    let numbers = waited.iter().map(|it| number_of(it.as_fd()));
    assert_eq!(numbers.collect::<Vec<_>>(), (0..256).collect::<Vec<_>>());
    assert!(pair.server.feed(&[], &mut fed).is_err());
    assert_eq!(fed.len(), 6);
    drop((waited, fed));
    assert_eq!(open_descriptors(), before);
}
