//! Two ends with nothing between: the demonstration's session, whose bytes are those of the pair in
//! Rattle, and what calls and reports say of objects, refusals and tables. That each message passes
//! is tested with the typed calls (tests/every_typed_call.py).

mod common;

use common::{number_of, numbered, repository};
use std::fs;
use std::os::fd::AsFd;
use waywire::wayland::{
    wl_callback, wl_compositor, wl_display, wl_registry, wl_shm, wl_subcompositor, wl_surface,
};
use waywire::{
    Announced, Arg, ArgKind, Client, Connection, Decoded, Destroys, Failed, FaultKind, Incoming,
    NextError, Object, SendError, Sender, Server, Sizes, Spelled, Tables, Value,
};

/// A client and a server with nothing between.
struct Pair {
    tables: Tables,
    client: Client,
    server: Server,
    registry: Object,
}

/// Carries what waits at one end to the other, and returns its bytes.
fn carry<A, B>(from: &mut Connection<A>, to: &mut Connection<B>) -> Vec<u8> {
    let (mut bytes, mut descriptors) = ([0; 4096], Vec::new());
    let taken = from.take(&mut bytes, &mut descriptors, 28);
    assert_eq!(descriptors.len(), taken.tokens);
    assert_eq!(to.feed(&bytes[..taken.bytes], &mut descriptors), Ok(taken));
    bytes[..taken.bytes].to_vec()
}

impl Pair {
    fn new(tables: &Tables) -> Pair {
        let client = Client::new(tables, &Sizes::default()).unwrap();
        let server = Server::new(tables, &Sizes::default()).unwrap();
        let opcode = wl_display::request::GET_REGISTRY;
        let registry = client.send(client.display(), opcode, &[Arg::NewId]).unwrap().unwrap();
        let mut pair = Pair { tables: tables.clone(), client, server, registry };
        pair.carry_to_server();
        assert!(pair.server.next().unwrap().is_some());
        pair
    }

    fn carry_to_server(&mut self) -> Vec<u8> {
        carry(&mut self.client, &mut self.server)
    }

    fn carry_to_client(&mut self) -> Vec<u8> {
        carry(&mut self.server, &mut self.client)
    }

    /// An object of an interface at its newest version, which both ends have.
    fn object(&mut self, interface: &str) -> Object {
        match interface {
            "wl_display" => return self.client.display(),
            "wl_registry" => return self.registry,
            _ => {}
        }
        let place = self.tables.interface(interface).unwrap();
        let version = self.tables.version(place).unwrap();
        let name = self.server.add_global(place, version).unwrap();
        assert_eq!(self.server.announce(), Ok(Announced { count: 1, all: true }));
        self.carry_to_client();
        while self.client.next().unwrap().is_some() {}
        let bound = self.client.bind(self.registry, name, interface, version).unwrap();
        self.carry_to_server();
        assert!(self.server.next().unwrap().is_some());
        assert_eq!(self.server.live(bound), Some((place, version)));
        bound
    }
}

/// The bytes of each direction of a recording.
fn streams(text: &str) -> [String; 2] {
    let mut streams = [String::new(), String::new()];
    for line in text.lines().filter(|it| !it.starts_with('#')) {
        let bytes = line[2..].split(' ').next().unwrap();
        streams[usize::from(line.starts_with('<'))] += bytes.trim_matches('-');
    }
    streams
}

fn hex(bytes: &[u8]) -> String {
    bytes.iter().map(|it| format!("{it:02x}")).collect()
}

#[test]
fn the_demonstration_is_that_of_the_pair() {
    let tables = Tables::core().unwrap();
    let client = Client::new(&tables, &Sizes::default()).unwrap();
    let server = Server::new(&tables, &Sizes::default()).unwrap();
    for (name, version) in [("wl_compositor", 6), ("wl_seat", 9)] {
        server.add_global(tables.interface(name).unwrap(), version).unwrap();
    }
    let display = client.display();
    let opcode = wl_display::request::GET_REGISTRY;
    let registry = client.send(display, opcode, &[Arg::NewId]).unwrap().unwrap();
    let mut pair = Pair { tables, client, server, registry };
    let mut passed = [String::new(), String::new()];

    let turn = |pair: &mut Pair, passed: &mut [String; 2]| {
        passed[0] += &hex(&pair.carry_to_server());
        let mut callbacks = Vec::new();
        while let Some(asked) = pair.server.next().unwrap() {
            if (asked.target(), asked.opcode()) == (display, wl_display::request::SYNC) {
                let Some(Value::NewId(callback)) = asked.args().next() else { panic!() };
                callbacks.push(callback);
            }
        }
        pair.server.announce().unwrap();
        for callback in callbacks {
            pair.server.send(callback, wl_callback::event::DONE, &[Arg::Uint(1)]).unwrap();
        }
        passed[1] += &hex(&pair.carry_to_client());
        while pair.client.next().unwrap().is_some() {}
    };
    turn(&mut pair, &mut passed);
    let compositor = pair.client.bind(registry, 1, "wl_compositor", 6).unwrap();
    pair.client.bind(registry, 2, "wl_seat", 9).unwrap();
    pair.client.send(display, wl_display::request::SYNC, &[Arg::NewId]).unwrap();
    turn(&mut pair, &mut passed);
    let opcode = wl_compositor::request::CREATE_SURFACE;
    let surface = pair.client.send(compositor, opcode, &[Arg::NewId]).unwrap().unwrap();
    pair.client.send(surface, wl_surface::request::COMMIT, &[]).unwrap();
    pair.client.send(surface, wl_surface::request::DESTROY, &[]).unwrap();
    turn(&mut pair, &mut passed);

    let recorded = repository().join("tests/rattle/test_sweeps/data/demonstration.rec");
    assert_eq!(passed, streams(&fs::read_to_string(recorded).unwrap()));
    assert!(pair.client.is_drained() && pair.server.is_drained());
}

#[test]
fn refusals_name_their_place() {
    let tables = Tables::core().unwrap();
    let mut pair = Pair::new(&tables);
    let subcompositor = pair.object("wl_subcompositor");
    let compositor = pair.object("wl_compositor");
    let opcode = wl_compositor::request::CREATE_SURFACE;
    let surface = pair.client.send(compositor, opcode, &[Arg::NewId]).unwrap().unwrap();
    let opcode = wl_subcompositor::request::GET_SUBSURFACE;
    let args = [Arg::NewId, surface.into(), compositor.into()];
    let refused = pair.client.send(subcompositor, opcode, &args).unwrap_err();
    assert_eq!(refused, SendError::BadObject { place: 2 });
    let text = "argument is no live object of its interface, argument 2";
    assert_eq!(refused.to_string(), text);
    let refused = pair.client.send(surface, wl_surface::request::COMMIT, &[Arg::Int(1); 30]);
    assert_eq!(refused, Err(SendError::WrongArgs { place: 0 }));

    let mut pair = Pair::new(&tables);
    pair.server.feed(&[9, 0, 0, 0, 0, 0, 8, 0], &mut Vec::new()).unwrap();
    assert!(!pair.server.has_failed());
    let refused = pair.server.next().unwrap_err();
    assert_eq!(refused.to_string(), "message at byte 12: unknown object");
    assert!(pair.server.has_failed() && !pair.client.has_failed());
    assert_eq!(pair.server.next().unwrap_err().to_string(), "this end has failed");
    assert_eq!(pair.server.feed(&[], &mut Vec::new()), Err(Failed));
    assert_eq!(Failed.to_string(), "this end has failed");
}

/// Going through the objects of an end.
#[test]
fn objects_are_listed() {
    let mut pair = Pair::new(&Tables::core().unwrap());
    let surface = pair.object("wl_surface");
    for objects in [pair.client.objects().collect::<Vec<_>>(), pair.server.objects().collect()] {
        assert_eq!(objects.len(), pair.client.object_count());
        assert_eq!(objects[..2], [pair.client.display(), pair.registry]);
        assert!(objects.contains(&surface));
    }
    pair.client.send(surface, wl_surface::request::COMMIT, &[]).unwrap();
    pair.client.send(surface, wl_surface::request::DESTROY, &[]).unwrap();
    pair.carry_to_server();
    let commit = pair.server.next().unwrap().unwrap();
    let wanted = format!("-> wl_surface@{}.commit()", surface.id());
    assert_eq!(commit.line(&pair.tables, Sender::Client), wanted);
    assert_eq!(pair.server.next().unwrap().unwrap().target(), surface);
    assert!(!pair.server.objects().any(|it| it == surface));
    assert!(pair.client.objects().any(|it| it == surface));
}

/// Objects that the server makes, also by an event for an object that the client has destroyed.
#[test]
fn an_event_makes_an_object() {
    let text = b"interface dev 1\nrequest release D\nevent made N(off)\n\
        interface off 1\nrequest destroy D\n";
    let mut pair = Pair::new(&Tables::core().unwrap().read(text).unwrap());
    let dev = pair.object("dev");
    assert_eq!(pair.client.made(), None);
    let first = pair.server.send(dev, 0, &[Arg::NewId]).unwrap().unwrap();
    let second = pair.server.send(dev, 0, &[Arg::NewId]).unwrap().unwrap();
    assert_eq!((first.id(), second.id()), (0xff00_0000, 0xff00_0001));
    pair.carry_to_client();
    match pair.client.next() {
        Ok(Some(Incoming::Event(event))) => {
            assert_eq!(event.args().next(), Some(Value::NewId(first)))
        }
        other => panic!("{other:?}"),
    }
    assert_eq!(pair.client.made(), Some(first));
    pair.client.send(dev, 0, &[]).unwrap();
    assert!(
        matches!(pair.client.next(), Ok(Some(Incoming::Discarded(event))) if event.target() == dev)
    );
    assert_eq!(pair.client.made(), Some(second));
    pair.client.send(first, 0, &[]).unwrap();
    assert_eq!(pair.client.objects().collect::<Vec<_>>()[3..], [first, second]);
    assert_eq!(pair.client.object_count(), 5);
    pair.carry_to_server();
    while pair.server.next().unwrap().is_some() {}
    assert_eq!(pair.server.objects().collect::<Vec<_>>()[2..], [second]);
    assert_eq!(pair.carry_to_client().len(), 12);
    assert!(matches!(pair.client.next(), Ok(Some(Incoming::Deleted(object))) if object == dev));
    assert_eq!(pair.client.made(), None);
}

/// Live objects of the server that others replace. Our server never does that, so the events are
/// bytes of their own.
#[test]
fn an_event_replaces_an_object() {
    let text = b"interface dev 2\nrequest release D\nevent made N(off)\n\
        interface late 3\nevent made N(off)\n\
        interface off 3\nrequest destroy D @3\n";
    let mut pair = Pair::new(&Tables::core().unwrap().read(text).unwrap());
    let (dev, late) = (pair.object("dev"), pair.object("late"));
    let comes = |client: &mut Client, maker: Object| {
        let maker = maker.id().to_le_bytes();
        client.feed(&[&maker[..], &[0, 0, 12, 0, 0, 0, 0, 255]].concat(), &mut Vec::new()).unwrap();
    };
    // What the event for a live maker has made, and what that has replaced.
    let makes = |client: &mut Client, maker| {
        comes(client, maker);
        let replaced = match client.next() {
            Ok(Some(Incoming::Event(event))) => event.replaced(),
            other => panic!("{other:?}"),
        };
        assert_eq!(client.replaced(), replaced);
        (client.made().unwrap(), replaced)
    };
    let client = &mut pair.client;
    assert_eq!(client.replaced(), None);
    let (first, replaced) = makes(client, dev);
    assert_eq!(replaced, None);

    let (second, replaced) = makes(client, dev);
    assert_eq!(replaced, Some(first));
    assert_eq!((second.id(), client.live(first)), (first.id(), None));
    assert!(client.objects().any(|it| it == second) && !client.objects().any(|it| it == first));
    assert_eq!(client.replaced(), Some(first));
    assert!(client.next().unwrap().is_none());
    assert_eq!((client.replaced(), client.made()), (None, Some(second)));

    client.send(dev, 0, &[]).unwrap();
    comes(client, dev);
    assert!(matches!(client.next(), Ok(Some(Incoming::Discarded(_)))));
    assert_eq!(client.replaced(), Some(second));

    // A request can end the next one.
    let third = client.made().unwrap();
    let (fourth, replaced) = makes(client, late);
    assert_eq!(replaced, Some(third));
    client.send(fourth, 0, &[]).unwrap();
    let (fifth, replaced) = makes(client, late);
    assert_eq!((replaced, client.live(fifth).map(|it| it.1)), (None, Some(3)));
    comes(client, late);
    match client.next() {
        Err(NextError::Fault(fault)) => assert_eq!(fault.kind, FaultKind::BadNewId { place: 0 }),
        other => panic!("{other:?}"),
    }
    assert_eq!(client.replaced(), None);
}

/// What tables say of messages, and messages that are decoded by it.
#[test]
fn messages_are_taken_apart() {
    let tables = Tables::core().unwrap();
    let interface = |name| tables.interface(name).unwrap();
    let registry = interface("wl_registry");
    let bind = tables.message(registry, Sender::Client, wl_registry::request::BIND).unwrap();
    assert_eq!((bind.name, bind.since, bind.destroys), ("bind", 1, Destroys::Nothing));
    assert_eq!(bind.kinds, [ArgKind::Uint, ArgKind::NewId { interface: None }]);
    assert_eq!(tables.message(registry, Sender::Client, 1), None);

    let mut pair = Pair::new(&tables);
    let shm = pair.object("wl_shm");
    let descriptor = numbered(77);
    let new = [Arg::NewId, descriptor.as_fd().into(), Arg::Int(-5)];
    let pool = pair.client.send(shm, wl_shm::request::CREATE_POOL, &new).unwrap().unwrap();
    let bytes = pair.carry_to_server();
    let asked = pair.server.next().unwrap().unwrap();
    assert_eq!(asked.descriptors().map(number_of).collect::<Vec<_>>(), [77]);
    let create = Decoded::of(&tables, interface("wl_shm"), 1, Sender::Client, &bytes).unwrap();
    assert_eq!((create.name(), create.fault()), ("create_pool", None));
    assert_eq!((create.target(), usize::from(create.size())), (shm.id(), bytes.len()));
    let made = Spelled::NewId {
        id: pool.id(),
        interface: tables.interface("wl_shm_pool"),
        by_server: false,
    };
    assert_eq!(create.args().collect::<Vec<_>>(), [made, Spelled::Fd, Spelled::Int(-5)]);

    let short = Decoded::of(&tables, interface("wl_shm"), 1, Sender::Client, &bytes[..7]).unwrap();
    assert_eq!((short.fault(), short.target()), (Some(FaultKind::BadSize), 0));
    let cut = [9, 0, 0, 0, 0, 0, 8, 0];
    let cut = Decoded::of(&tables, registry, 1, Sender::Client, &cut).unwrap();
    assert_eq!(cut.fault(), Some(FaultKind::BadArgument { place: 0, spelling: 1 }));
    assert_eq!((cut.name(), cut.args().count()), ("bind", 0));
}
