//! Tables that grow at an end with objects, and binds that the server judges.

use waywire::wayland::wl_display;
use waywire::{
    Arg, Client, Connection, FaultKind, Incoming, Interface, NextError, Object, SendError, Server,
    Sizes, Tables, TablesError, Value,
};

/// Both have an event by which the server makes an object.
const FIRST: &[u8] = b"interface maker 1\nevent made N(thing)\n\
    interface thing 3\nrequest set u\nrequest put u @3\nevent told u @2\n";
const SECOND: &[u8] = b"extend thing 4\nrequest turn i @4\nevent turned i @4\n\
    interface later 7\nrequest make n(thing)\nevent made N(later)\n";

const SET: u16 = 0;
const PUT: u16 = 1;
const TURN: u16 = 2;
const TURNED: u16 = 1;

/// A client that can be given more tables, and a server that has them already.
struct Pair {
    client: Client,
    server: Server,
    registry: Object,
}

/// Carries what waits at one end to the other.
fn carry<A, B>(from: &mut Connection<A>, to: &mut Connection<B>) {
    let (mut bytes, mut descriptors) = ([0; 4096], Vec::new());
    let taken = from.take(&mut bytes, &mut descriptors, 28);
    assert_eq!(to.feed(&bytes[..taken.bytes], &mut descriptors), Ok(taken));
}

impl Pair {
    /// The server has told of a thing (name 1) and of a later one (name 2), whose interface the client
    /// lacks.
    fn new() -> Pair {
        let few = Tables::core().unwrap().read(FIRST).unwrap();
        let all = few.read(SECOND).unwrap();
        let mut client = Client::new(&few, &Sizes::default()).unwrap();
        let mut server = Server::new(&all, &Sizes::default()).unwrap();
        for (name, version) in [("thing", 3), ("later", 7)] {
            server.add_global(all.interface(name).unwrap(), version).unwrap();
        }
        let get = wl_display::request::GET_REGISTRY;
        let registry = client.send(client.display(), get, &[Arg::NewId]).unwrap().unwrap();
        carry(&mut client, &mut server);
        assert!(server.next().unwrap().is_some());
        assert_eq!(server.announce().map(|told| told.count), Ok(2));
        carry(&mut server, &mut client);
        for is_forgotten in [false, true] {
            let Some(Incoming::Event(global)) = client.next().unwrap() else { panic!("no global") };
            assert_eq!(global.is_forgotten(), is_forgotten);
        }
        Pair { client, server, registry }
    }

    fn bind_unannounced(&mut self, interface: &str, version: u32) -> Result<Object, SendError> {
        self.client.bind_unannounced(self.registry, 2, interface, version)
    }

    /// What the server reads, and the version that it then gives an object.
    fn version_at_server(&mut self, object: Object) -> Option<u32> {
        carry(&mut self.client, &mut self.server);
        while self.server.next().unwrap().is_some() {}
        self.server.live(object).map(|it| it.1)
    }
}

fn place(client: &Client, name: &str) -> Interface {
    client.tables().interface(name).unwrap()
}

#[test]
fn what_is_there_stays() {
    let mut pair = Pair::new();
    let thing = pair.client.bind(pair.registry, 1, "thing", 1).unwrap();
    let before = place(&pair.client, "thing");
    assert_eq!(pair.bind_unannounced("later", 5), Err(SendError::BadBind));

    pair.client.more_tables(SECOND).unwrap();
    assert_eq!(place(&pair.client, "thing"), before);
    assert_eq!(pair.client.tables().version(before), Some(4));
    assert_eq!(pair.client.live(thing), Some((before, 1)));
    assert_eq!(pair.client.send(thing, SET, &[Arg::Uint(5)]), Ok(None));
    for opcode in [PUT, TURN] {
        assert_eq!(pair.client.send(thing, opcode, &[Arg::Uint(5)]), Err(SendError::TooOld));
    }
    assert_eq!(pair.version_at_server(thing), Some(1));
    let newest = pair.client.bind(pair.registry, 1, "thing", 3).unwrap();
    assert_eq!(pair.client.live(newest), Some((before, 3)));
    assert_eq!(pair.client.send(newest, PUT, &[Arg::Uint(5)]), Ok(None));
    assert_eq!(pair.version_at_server(newest), Some(3));
}

#[test]
fn a_forgotten_global_is_bound() {
    let mut pair = Pair::new();
    pair.client.more_tables(SECOND).unwrap();
    let bound = pair.client.bind(pair.registry, 2, "later", 5);
    assert_eq!(bound, Err(SendError::BadBind));

    let later = pair.bind_unannounced("later", 5).unwrap();
    assert_eq!(pair.client.live(later), Some((place(&pair.client, "later"), 7)));
    let child = pair.client.send(later, 0, &[Arg::NewId]).unwrap().unwrap();
    assert_eq!(pair.client.live(child), Some((place(&pair.client, "thing"), 7)));
    pair.client.send(child, TURN, &[Arg::Int(-5)]).unwrap();
    assert_eq!(pair.version_at_server(later), Some(5));
    assert_eq!(pair.version_at_server(child), Some(5));

    pair.server.send(child, TURNED, &[Arg::Int(-7)]).unwrap();
    let made = pair.server.send(later, 0, &[Arg::NewId]).unwrap();
    carry(&mut pair.server, &mut pair.client);
    let Some(Incoming::Event(turned)) = pair.client.next().unwrap() else { panic!("no event") };
    assert_eq!((turned.target(), turned.opcode(), turned.version()), (child, TURNED, 7));
    assert_eq!(turned.args().collect::<Vec<_>>(), [Value::Int(-7)]);
    assert!(pair.client.next().unwrap().is_some());
    assert_eq!(pair.client.made(), made);
}

/// A request that is too new for the server's object is its fault, and not refused here.
#[test]
fn the_server_judges_versions() {
    let mut pair = Pair::new();
    pair.client.more_tables(SECOND).unwrap();
    let later = pair.bind_unannounced("later", 1).unwrap();
    let child = pair.client.send(later, 0, &[Arg::NewId]).unwrap().unwrap();
    assert_eq!(pair.version_at_server(child), Some(1));
    pair.client.send(child, TURN, &[Arg::Int(1)]).unwrap();
    carry(&mut pair.client, &mut pair.server);
    match pair.server.next() {
        Err(NextError::Fault(fault)) => assert_eq!(fault.kind, FaultKind::UnknownMessage),
        other => panic!("{other:?}"),
    }
}

#[test]
fn an_unannounced_bind_is_refused() {
    let mut pair = Pair::new();
    let display = pair.client.display();
    for (interface, version) in
        [("nothing", 1), ("", 1), ("thing\0", 1), ("thing", 0), ("thing", 4)]
    {
        assert_eq!(pair.bind_unannounced(interface, version), Err(SendError::BadBind));
    }
    let wrong = pair.client.bind_unannounced(display, 2, "thing", 1);
    assert_eq!(wrong, Err(SendError::NoSuchMessage));
    let thing = pair.bind_unannounced("thing", 3).unwrap();
    assert_eq!(pair.client.bind_unannounced(thing, 2, "no", 1), Err(SendError::NoSuchMessage));

    let sizes = Sizes { out_bytes: 12, ..Sizes::default() };
    let mut narrow = Client::new(pair.client.tables(), &sizes).unwrap();
    let get = wl_display::request::GET_REGISTRY;
    let registry = narrow.send(narrow.display(), get, &[Arg::NewId]).unwrap().unwrap();
    let unwritten = narrow.bind_unannounced(registry, 1, "thing", 1);
    assert_eq!(unwritten, Err(SendError::Full));
    drop(narrow.take_waiting_tokens());
    let unwritten = narrow.bind_unannounced(registry, 1, "thing", 1);
    assert_eq!(unwritten, Err(SendError::Failed));
}

#[test]
fn a_text_is_refused() {
    let mut client = Client::new(&Tables::core().unwrap(), &Sizes::default()).unwrap();
    client.more_tables(b"").unwrap();
    client.more_tables(b"interface other 1\nrequest ask u\n").unwrap();
    for (text, why) in [
        (&b"interface maker 1\n\nnonsense\n"[..], TablesError::BadLine { line: 3 }),
        (b"interface maker 1\ninterface other 1\n", TablesError::BadTable { line: 2, rule: 1 }),
        (b"interface maker 1\nextend wl_display 2\n", TablesError::BadTable { line: 2, rule: 2 }),
        (FIRST, TablesError::FirstServerObject),
    ] {
        assert_eq!(client.more_tables(text), Err(why));
        assert_eq!(client.tables().interface("maker"), None);
        assert!(client.tables().interface("other").is_some());
        assert!(client.is_drained() && client.object_count() == 1);
    }
    let text = TablesError::FirstServerObject.to_string();
    assert_eq!(text, "first event by which the server makes an object");
    client.more_tables(b"interface maker 1\n").unwrap();
    assert!(client.tables().interface("maker").is_some());
}

/// A server tells a client that is connected of a global whose interface both got later.
#[test]
fn a_late_global_is_told() {
    let few = Tables::core().unwrap().read(FIRST).unwrap();
    let mut client = Client::new(&few, &Sizes::default()).unwrap();
    let mut server = Server::new(&few, &Sizes::default()).unwrap();
    let get = wl_display::request::GET_REGISTRY;
    let registry = client.send(client.display(), get, &[Arg::NewId]).unwrap().unwrap();
    carry(&mut client, &mut server);
    assert!(server.next().unwrap().is_some());

    assert_eq!(server.more_tables(b"nonsense"), Err(TablesError::BadLine { line: 1 }));
    assert_eq!(server.tables().interface("later"), None);
    server.more_tables(SECOND).unwrap();
    client.more_tables(SECOND).unwrap();
    let later = server.tables().interface("later").unwrap();
    let name = server.add_global(later, 7).unwrap();
    assert_eq!(server.announce().map(|told| told.count), Ok(1));
    carry(&mut server, &mut client);
    let Some(Incoming::Event(global)) = client.next().unwrap() else { panic!("no global") };
    assert!(!global.is_forgotten());
    let bound = client.bind(registry, name, "later", 7).unwrap();
    carry(&mut client, &mut server);
    assert!(server.next().unwrap().is_some());
    assert_eq!(server.live(bound), Some((later, 7)));
}

/// Tables that a client had stay for those that use them, and those that it has for those that keep them.
#[test]
fn tables_last_as_long_as_they_are_used() {
    let few = Tables::core().unwrap().read(FIRST).unwrap();
    let mut one = Client::new(&few, &Sizes::default()).unwrap();
    let other = Client::new(&few, &Sizes::default()).unwrap();
    drop(few);
    let old = one.tables().clone();
    one.more_tables(SECOND).unwrap();
    one.more_tables(b"interface last 1\n").unwrap();
    let new = one.tables().clone();
    drop(one);
    assert_eq!(old.interface("later"), None);
    assert!(new.interface("later").is_some() && new.interface("last").is_some());
    drop(old);
    let sync = other.send(other.display(), wl_display::request::SYNC, &[Arg::NewId]);
    assert!(sync.unwrap().is_some());
    assert_eq!(other.tables().interface("later"), None);
}
