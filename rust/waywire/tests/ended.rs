//! What a server's caller does in place of the library: it ends objects, answers faults in its own words,
//! and asks whether all was announced.

use waywire::wayland::{wl_compositor, wl_display, wl_registry, wl_surface};
use waywire::{
    Amounts, Announced, Arg, Client, Connection, FaultKind, GlobalError, Incoming, NextError,
    Object, SendError, Server, Sizes, Tables, Unanswered, Value, MOST_GLOBALS,
};

/// Carries what waits at one end to the other.
fn carry<A, B>(from: &mut Connection<A>, to: &mut Connection<B>) {
    let (mut bytes, mut descriptors) = ([0; 4096], Vec::new());
    let taken = from.take(&mut bytes, &mut descriptors, 28);
    assert_eq!(to.feed(&bytes[..taken.bytes], &mut descriptors), Ok(taken));
}

/// A client of the core, a server with the tables where no request destroys, and a wl_compositor.
struct Pair {
    client: Client,
    server: Server,
    registry: Object,
    compositor: Object,
}

impl Pair {
    fn new() -> Pair {
        let (core, unended) = (Tables::core().unwrap(), Tables::core_unended().unwrap());
        let mut client = Client::new(&core, &Sizes::default()).unwrap();
        let mut server = Server::new(&unended, &Sizes::default()).unwrap();
        let interface = unended.interface("wl_compositor").unwrap();
        assert_eq!(server.add_global(interface, 6), Ok(1));
        let get = wl_display::request::GET_REGISTRY;
        let registry = client.send(client.display(), get, &[Arg::NewId]).unwrap().unwrap();
        carry(&mut client, &mut server);
        assert!(server.next_unanswered().unwrap().is_some());
        assert_eq!(server.announce(), Ok(Announced { count: 1, all: true }));
        carry(&mut server, &mut client);
        assert!(client.next().unwrap().is_some());
        let compositor = client.bind(registry, 1, "wl_compositor", 6).unwrap();
        carry(&mut client, &mut server);
        assert!(server.next_unanswered().unwrap().is_some());
        Pair { client, server, registry, compositor }
    }
}

#[test]
fn an_object_lasts_until_its_caller_ends_it() {
    let mut pair = Pair::new();
    let create = wl_compositor::request::CREATE_SURFACE;
    let surface = pair.client.send(pair.compositor, create, &[Arg::NewId]).unwrap().unwrap();
    pair.client.send(surface, wl_surface::request::DESTROY, &[]).unwrap();
    carry(&mut pair.client, &mut pair.server);
    let made = match pair.server.next().unwrap().unwrap().args().next() {
        Some(Value::NewId(made)) => made,
        other => panic!("{other:?}"),
    };
    assert_eq!(pair.server.next().unwrap().unwrap().target(), made);
    assert!(pair.server.live(made).is_some());
    let scale = wl_surface::event::PREFERRED_BUFFER_SCALE;
    assert_eq!(pair.server.send(made, scale, &[Arg::Int(2)]), Ok(None));
    assert_eq!(pair.server.end_object(made), Ok(()));
    assert_eq!(pair.server.end_object(made), Err(SendError::Stale));
    assert_eq!(pair.server.end_object(pair.server.display()), Err(SendError::NotDroppable));
    assert_eq!(pair.server.end_object(pair.registry), Err(SendError::NotDroppable));
    carry(&mut pair.server, &mut pair.client);
    assert!(matches!(pair.client.next(), Ok(Some(Incoming::Discarded(_)))));
    assert!(matches!(pair.client.next(), Ok(Some(Incoming::Deleted(it))) if it == surface));
}

/// What is left of a fault: the kind, the target, the opcode and the bytes.
fn left(read: Unanswered<'_>) -> (FaultKind, u32, u16, Vec<u8>) {
    let NextError::Fault(fault) = read.error else { panic!("{read:?}") };
    (fault.kind, read.target, read.opcode, read.message.to_vec())
}

#[test]
fn a_fault_is_the_callers_to_answer() {
    let mut pair = Pair::new();
    let commit = [99, 0, 0, 0, 6, 0, 8, 0];
    assert!(pair.server.feed(&commit, &mut Vec::new()).is_ok());
    for _ in 0..2 {
        let found = left(pair.server.next_unanswered().unwrap_err());
        assert_eq!(found, (FaultKind::UnknownObject, 99, 6, commit.to_vec()));
        assert!(!pair.server.has_failed());
        assert_eq!(pair.server.goes(9, 0), Amounts::default());
    }
    let text = format!("{}{}", "invalid object 99: ", "x".repeat(200));
    assert_eq!(pair.server.post_error(pair.server.display(), 0, &text), Ok(()));
    let failed = pair.server.next_unanswered().unwrap_err();
    assert_eq!((failed.error, failed.message), (NextError::Failed, &[][..]));
    carry(&mut pair.server, &mut pair.client);
    match pair.client.next() {
        Ok(Some(Incoming::Error(error))) => assert_eq!(error.text, &text.as_bytes()[..127]),
        other => panic!("{other:?}"),
    };
}

#[test]
fn a_refused_bind_has_its_bytes() {
    let mut pair = Pair::new();
    let mut bind = vec![2, 0, 0, 0, 0, 0, 40, 0, 7, 0, 0, 0, 14, 0, 0, 0];
    bind.extend_from_slice(b"wl_compositor\0\0\0\x09\0\0\0\x04\0\0\0");
    assert!(pair.server.feed(&bind, &mut Vec::new()).is_ok());
    let found = left(pair.server.next_unanswered().unwrap_err());
    assert_eq!(found, (FaultKind::BadBind, 2, wl_registry::request::BIND, bind));
}

#[test]
fn not_all_is_announced() {
    let tables = Tables::core().unwrap();
    let sizes = Sizes { out_bytes: 80, ..Sizes::default() };
    let mut server = Server::new(&tables, &sizes).unwrap();
    for _ in 0..3 {
        server.add_global(tables.interface("wl_seat").unwrap(), 9).unwrap();
    }
    let get_registry = [1, 0, 0, 0, 1, 0, 12, 0, 2, 0, 0, 0];
    assert!(server.feed(&get_registry, &mut Vec::new()).is_ok());
    assert!(server.next().unwrap().is_some());
    assert_eq!(server.announce(), Ok(Announced { count: 2, all: false }));
    let mut bytes = [0; 80];
    assert_eq!(server.take(&mut bytes, &mut Vec::new(), 0).bytes, 56);
    assert_eq!(server.announce(), Ok(Announced { count: 1, all: true }));
}

#[test]
fn a_server_adds_as_many_globals_as_it_is_allowed() {
    let tables = Tables::core().unwrap();
    let mut server = Server::new(&tables, &Sizes::default()).unwrap();
    let seat = tables.interface("wl_seat").unwrap();
    let add_all = |server: &Server| {
        (0..=MOST_GLOBALS).take_while(|_| server.add_global(seat, 9).is_ok()).count()
    };
    assert_eq!(add_all(&server), 1024);
    assert_eq!(server.add_global(seat, 9), Err(GlobalError::TooMany));
    server.allow_globals(1025);
    assert_eq!(server.add_global(seat, 9), Ok(1025));
    assert_eq!(server.add_global(seat, 9), Err(GlobalError::TooMany));
    server.allow_globals(usize::MAX);
    assert_eq!(add_all(&server), MOST_GLOBALS - 1025);
    assert_eq!(server.withdraw(4096), Ok(()));
    assert_eq!(server.add_global(seat, 9), Err(GlobalError::TooMany));
    let get_registry = [1, 0, 0, 0, 1, 0, 12, 0, 2, 0, 0, 0];
    assert!(server.feed(&get_registry, &mut Vec::new()).is_ok());
    assert!(server.next().unwrap().is_some());
    let (mut bytes, mut told) = (vec![0; 65536], 0);
    loop {
        let announced = server.announce().unwrap();
        told += announced.count;
        if announced.all {
            break;
        }
        while server.take(&mut bytes, &mut Vec::new(), 0).bytes > 0 {}
    }
    assert_eq!(told, MOST_GLOBALS - 1);
    assert_eq!(server.announce(), Ok(Announced { count: 0, all: true }));
}
