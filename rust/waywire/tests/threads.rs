//! Tables that threads share, and ends that go from one thread to another.

use std::thread;
use waywire::socket::{Link, Listener};
use waywire::wayland::wl_display;
use waywire::{
    Arg, AsClient, AsServer, Client, Decoded, Inspector, Object, ObjectMap, OwnedMessage, Server,
    Sizes, Tables,
};

fn may_go_and_be_shared<T: Send + Sync>() {}

fn may_go<T: Send>() {}

/// A client and a server with nothing between.
struct Pair {
    client: Client,
    server: Server,
}

impl Pair {
    fn new(tables: &Tables) -> Pair {
        let sizes = Sizes::default();
        let client = Client::new(tables, &sizes).unwrap();
        Pair { client, server: Server::new(tables, &sizes).unwrap() }
    }

    /// Sends a request, and reads it.
    fn asks(&mut self) {
        let (mut bytes, display) = ([0; 64], self.client.display());
        let new = [Arg::NewId];
        let made = self.client.send(display, wl_display::request::SYNC, &new).unwrap();
        let taken = self.client.take(&mut bytes, &mut Vec::new(), 0);
        assert_eq!(self.server.feed(&bytes[..taken.bytes], &mut Vec::new()), Ok(taken));
        let asked = self.server.next().unwrap().unwrap().opcode();
        assert_eq!(asked, wl_display::request::SYNC);
        assert!(self.server.live(made.unwrap()).is_some());
        assert_eq!(self.client.object_count(), self.server.object_count());
    }
}

#[test]
fn tables_and_ends_may_go_to_other_threads() {
    may_go_and_be_shared::<Tables>();
    may_go_and_be_shared::<Decoded<'_>>();
    may_go::<Client>();
    may_go::<Server>();
    may_go::<Inspector>();
    may_go::<Link<AsClient>>();
    may_go::<Link<AsServer>>();
    may_go::<Listener>();
    may_go_and_be_shared::<OwnedMessage>();
    may_go_and_be_shared::<ObjectMap<Object, u32>>();
}

#[test]
fn threads_share_tables_and_hand_ends_on() {
    let tables = Tables::core().unwrap();
    let mut pairs: Vec<Pair> = thread::scope(|threads| {
        let work = |number: u32| {
            let text = format!("interface wp_thing{number} {number}\nrequest destroy D\n");
            let more = tables.read(text.as_bytes()).unwrap();
            let thing = more.interface(&format!("wp_thing{number}")).unwrap();
            assert_eq!(more.version(thing), Some(number));
            assert_eq!(tables.name(tables.interface("wl_seat").unwrap()), Some("wl_seat"));
            let mut pair = Pair::new(&more);
            drop(more);
            pair.asks();
            pair
        };
        let works = (1..5).map(|number| threads.spawn(move || work(number)));
        let started: Vec<_> = works.collect();
        started.into_iter().map(|it| it.join().unwrap()).collect()
    });
    pairs.push(Pair::new(&tables));
    drop(tables);
    for pair in &mut pairs {
        pair.asks();
    }
}
