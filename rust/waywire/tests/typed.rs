//! Typed calls that no generated test covers: globals and binds, events for objects that are gone,
//! messages of other interfaces. And what goes from end to end without a buffer between.

use std::ffi::{CStr, CString};
use waywire::wayland::{
    wl_compositor, wl_display, wl_output, wl_registry, wl_seat, wl_shell, wl_shell_surface, wl_shm,
    wl_surface,
};
use waywire::{
    Amounts, Client, ClientWriter, Connection, EventHandler, Handle, Incoming, Object,
    OwnedMessage, OwnedValue, RequestHandler, Server, ServerWriter, Sizes, Tables, Value,
};

/// All that handlers were called with.
#[derive(Default)]
struct Seen(Vec<String>);

impl wl_registry::Events for Seen {
    fn global(
        &mut self,
        _: &ClientWriter,
        _registry: wl_registry::WlRegistry,
        name: u32,
        interface: &CStr,
        version: u32,
    ) {
        self.0.push(format!("global {name} {} {version}", interface.to_str().unwrap()));
    }

    fn global_remove(&mut self, _: &ClientWriter, _registry: wl_registry::WlRegistry, name: u32) {
        self.0.push(format!("global_remove {name}"));
    }
}

impl wl_registry::Requests for Seen {
    fn bind(
        &mut self,
        _: &ServerWriter,
        _registry: wl_registry::WlRegistry,
        name: u32,
        interface: &CStr,
        version: u32,
        id: Object,
    ) {
        let interface = interface.to_str().unwrap();
        self.0.push(format!("bind {name} {interface} {version} {id:?}"));
    }
}

impl wl_surface::Events for Seen {
    fn enter(
        &mut self,
        _: &ClientWriter,
        surface: wl_surface::WlSurface,
        output: wl_output::WlOutput,
    ) {
        self.0.push(format!("enter {:?} {:?}", surface.0, output.0));
    }
}

impl wl_shm::Requests for Seen {
    fn release(&mut self, _: &ServerWriter, _shm: wl_shm::WlShm) {
        self.0.push("release".into());
    }
}

waywire::event_handler!(Seen: wl_registry, wl_surface);
waywire::request_handler!(Seen: wl_registry, wl_shm);

/// Two ends, and what passes between them without a buffer of its own.
struct Pair {
    tables: Tables,
    client: Client,
    server: Server,
    registry: wl_registry::WlRegistry,
}

/// Copies the bytes of the first parts into the second, and says how many they were.
fn copy(from: [&[u8]; 2], to: [&mut [u8]; 2]) -> usize {
    let bytes = from.concat();
    let [first, second] = to;
    let here = bytes.len().min(first.len());
    first[..here].copy_from_slice(&bytes[..here]);
    second[..bytes.len() - here].copy_from_slice(&bytes[here..]);
    bytes.len()
}

/// Passes all that waits at one end to the other.
fn carry<A, B>(from: &mut Connection<A>, to: &mut Connection<B>) {
    loop {
        let waiting = from.peek();
        if waiting.is_empty() {
            return;
        }
        let lent = waiting.descriptors().iter();
        let mut descriptors: Vec<_> = lent.map(|it| it.try_clone_to_owned().unwrap()).collect();
        let count = copy(waiting.parts(), to.space());
        let amounts = Amounts { bytes: count, tokens: descriptors.len() };
        assert_eq!(to.received(count, &mut descriptors), Ok(amounts));
        assert_eq!(from.sent(count), amounts);
    }
}

impl Pair {
    fn new(globals: &[&str]) -> Pair {
        let tables = Tables::core().unwrap();
        let mut client = Client::new(&tables, &Sizes::default()).unwrap();
        let mut server = Server::new(&tables, &Sizes::default()).unwrap();
        for interface in globals {
            let place = tables.interface(interface).unwrap();
            server.add_global(place, tables.version(place).unwrap()).unwrap();
        }
        let registry = wl_display::WlDisplay(client.display()).get_registry(&client).unwrap();
        carry(&mut client, &mut server);
        assert!(server.next().unwrap().is_some());
        server.announce().unwrap();
        Pair { tables, client, server, registry }
    }

    /// The events that came, as the handler of registries and surfaces saw them.
    fn events(&mut self) -> Vec<String> {
        let mut seen = Seen::default();
        carry(&mut self.server, &mut self.client);
        while let Some(incoming) = self.client.next().unwrap() {
            let Incoming::Event(mut event) = incoming else { continue };
            assert!(seen.dispatch_event(event.writer(), &mut event));
        }
        seen.0
    }

    fn bind<T: Handle>(&mut self, name: u32) -> T {
        let version = T::VERSION;
        let bound: T = self.registry.bind(&self.client, name, version).unwrap();
        let mut seen = Seen::default();
        carry(&mut self.client, &mut self.server);
        let mut message = self.server.next().unwrap().unwrap();
        assert!(wl_registry::dispatch_request(&mut seen, message.writer(), &mut message));
        assert_eq!(seen.0, [format!("bind {name} {} {version} {:?}", T::NAME, bound.object())]);
        bound
    }
}

#[test]
fn globals_come_and_are_bound() {
    let mut pair = Pair::new(&["wl_seat", "wl_shm"]);
    let seat = format!("global 1 wl_seat {}", wl_seat::VERSION);
    assert_eq!(pair.events(), [seat, format!("global 2 wl_shm {}", wl_shm::VERSION)]);
    pair.bind::<wl_seat::WlSeat>(1);
    pair.server.withdraw(2).unwrap();
    pair.server.announce().unwrap();
    assert_eq!(pair.events(), ["global_remove 2"]);
}

#[test]
fn an_event_may_name_an_object_that_is_gone() {
    let mut pair = Pair::new(&["wl_compositor", "wl_output"]);
    assert_eq!(pair.events().len(), 2);
    let compositor: wl_compositor::WlCompositor = pair.bind(1);
    let output: wl_output::WlOutput = pair.bind(2);
    let surface = compositor.create_surface(&pair.client).unwrap();
    carry(&mut pair.client, &mut pair.server);
    assert!(pair.server.next().unwrap().is_some());
    surface.send_enter(&pair.server, output).unwrap();
    output.release(&pair.client).unwrap();
    assert_eq!(pair.events(), [format!("enter {:?} {:?}", surface.0, output.0)]);
    assert!(pair.client.live(output.0).is_none());
}

#[test]
fn a_message_of_another_interface_is_not_dispatched() {
    let mut pair = Pair::new(&["wl_shm"]);
    assert_eq!(pair.events().len(), 1);
    let shm: wl_shm::WlShm = pair.bind(1);
    shm.create_pool(&pair.client, std::io::stdin(), 4096).unwrap();
    carry(&mut pair.client, &mut pair.server);
    let mut message = pair.server.next().unwrap().unwrap().into_owned();
    assert_eq!(message.opcode, wl_shm::request::CREATE_POOL);
    let mut seen = Seen::default();
    assert!(!wl_registry::dispatch_request(&mut seen, &pair.server, &mut message));
    assert!(!().dispatch_request(&pair.server, &mut message));
    assert!(seen.dispatch_request(&pair.server, &mut message));
    assert!(!wl_shm::dispatch_request(&mut seen, &pair.server, &mut message));
    assert_eq!(seen.0, [""; 0]);
}

/// Tables of a user may have other arguments for a message than the typed calls.
#[test]
fn a_message_with_more_arguments_is_not_dispatched() {
    let pair = Pair::new(&[]);
    let message = |interface, opcode, args| OwnedMessage {
        target: pair.registry.0,
        interface: pair.tables.interface(interface).unwrap(),
        version: 1,
        opcode,
        is_forgotten: false,
        args,
    };
    let mut seen = Seen::default();
    let two = vec![OwnedValue::Uint(1), OwnedValue::Uint(2)];
    let mut event = message("wl_registry", wl_registry::event::GLOBAL_REMOVE, two);
    assert!(!seen.dispatch_event(&pair.client, &mut event));
    let one = vec![OwnedValue::Uint(1)];
    let mut request = message("wl_shm", wl_shm::request::RELEASE, one);
    assert!(!seen.dispatch_request(&pair.server, &mut request));
    assert_eq!(seen.0, [""; 0]);
    event.args.pop();
    assert!(seen.dispatch_event(&pair.client, &mut event));
    request.args.pop();
    assert!(seen.dispatch_request(&pair.server, &mut request));
    assert_eq!(seen.0, ["global_remove 1", "release"]);
}

/// The client does not remember a global whose interface its tables lack, also in a copy.
#[test]
fn a_copy_says_what_is_forgotten() {
    let more = Tables::core().unwrap().read(b"interface wp_thing 1\nrequest destroy D\n").unwrap();
    let mut server = Server::new(&more, &Sizes::default()).unwrap();
    let mut client = Client::new(&Tables::core().unwrap(), &Sizes::default()).unwrap();
    for name in ["wl_seat", "wp_thing"] {
        server.add_global(more.interface(name).unwrap(), 1).unwrap();
    }
    wl_display::WlDisplay(client.display()).get_registry(&client).unwrap();
    carry(&mut client, &mut server);
    assert!(server.next().unwrap().is_some());
    server.announce().unwrap();
    carry(&mut server, &mut client);
    for is_forgotten in [false, true] {
        match client.next().unwrap() {
            Some(Incoming::Event(event)) => {
                assert_eq!(event.into_owned().is_forgotten, is_forgotten);
            }
            other => panic!("{other:?}"),
        }
    }
}

/// Answers with all that fits, while what it was given is lent.
#[derive(Default)]
struct Answering {
    pings: u32,
    titles: Vec<CString>,
}

impl wl_shell_surface::Requests for Answering {
    fn set_title(
        &mut self,
        server: &ServerWriter,
        shell_surface: wl_shell_surface::WlShellSurface,
        title: &CStr,
    ) {
        let seat = server.tables().interface("wl_seat").unwrap();
        server.add_global(seat, 1).unwrap();
        assert!(server.announce().unwrap().all);
        while shell_surface.send_ping(server, self.pings).is_ok() {
            self.pings += 1;
        }
        assert!(server.live(shell_surface.0).is_some());
        self.titles.push(title.to_owned());
    }
}

waywire::request_handler!(Answering: wl_shell_surface);

/// Binds the first global that it hears of, by the name that is lent.
#[derive(Default)]
struct Binding(Option<(CString, wl_shell::WlShell)>);

impl wl_registry::Events for Binding {
    fn global(
        &mut self,
        client: &ClientWriter,
        registry: wl_registry::WlRegistry,
        name: u32,
        interface: &CStr,
        version: u32,
    ) {
        let bound = registry.bind(client, name, version).unwrap();
        while wl_display::WlDisplay(client.display()).sync(client).is_ok() {}
        self.0 = Some((interface.to_owned(), bound));
    }
}

waywire::event_handler!(Binding: wl_registry);

/// What a client's handler is given stays as it is while the handler fills the outbox.
#[test]
fn a_clients_handler_answers() {
    let mut pair = Pair::new(&["wl_shell"]);
    carry(&mut pair.server, &mut pair.client);
    let mut binding = Binding::default();
    let Some(Incoming::Event(mut event)) = pair.client.next().unwrap() else { panic!() };
    assert!(binding.dispatch_event(event.writer(), &mut event));
    assert!(event.args().any(|it| it == Value::Str(Some(c"wl_shell"))));
    let (interface, shell) = binding.0.unwrap();
    assert_eq!(interface.to_str(), Ok(wl_shell::NAME));
    let mut bytes = [0; 4096];
    let taken = pair.client.take(&mut bytes, &mut Vec::new(), 0);
    assert_eq!(pair.server.feed(&bytes[..taken.bytes], &mut Vec::new()), Ok(taken));
    let bind = pair.server.next().unwrap().unwrap();
    assert_eq!(bind.opcode(), wl_registry::request::BIND);
    assert!(pair.server.live(shell.0).is_some());
}

/// The same at a server, with a string that is not UTF-8.
#[test]
fn a_servers_handler_answers() {
    let mut pair = Pair::new(&["wl_shell", "wl_compositor"]);
    assert_eq!(pair.events().len(), 2);
    let shell: wl_shell::WlShell = pair.bind(1);
    let compositor: wl_compositor::WlCompositor = pair.bind(2);
    let surface = compositor.create_surface(&pair.client).unwrap();
    let shell_surface = shell.get_shell_surface(&pair.client, surface).unwrap();
    let titles = [c"a title", c"\xff\xfe"];
    for title in titles {
        shell_surface.set_title(&pair.client, title.to_bytes()).unwrap();
    }
    carry(&mut pair.client, &mut pair.server);
    let mut answering = Answering::default();
    let mut gone = vec![0; Sizes::default().out_bytes];
    while let Some(mut request) = pair.server.next().unwrap() {
        if answering.dispatch_request(request.writer(), &mut request) {
            let lent = Value::Str(Some(titles[answering.titles.len() - 1]));
            assert!(request.args().eq([lent]));
        }
        pair.server.take(&mut gone, &mut Vec::new(), 0);
    }
    assert_eq!(answering.titles, titles);
    assert!(answering.titles[0].to_str().is_ok() && answering.titles[1].to_str().is_err());
    // Those of two outboxes.
    assert!(answering.pings as usize > gone.len() / 12);
}

#[test]
fn bits_are_joined() {
    use wl_seat::Capability;
    let both = Capability::POINTER | Capability::KEYBOARD;
    assert_eq!(both, Capability(3));
    assert!(both.contains(Capability::KEYBOARD) && !both.contains(Capability::TOUCH));
}

#[test]
fn values_are_printed_by_name() {
    use wl_seat::Capability;
    use wl_shell_surface::Resize;
    use wl_shm::Format;
    let printed = [
        format!("{:?}", Format::ARGB8888),
        format!("{:?}", Format(5)),
        format!("{:?}", Capability::POINTER | Capability::TOUCH),
        format!("{:?}", Capability::KEYBOARD | Capability(72)),
        format!("{:?}", Capability(8)),
        format!("{:?}", Capability(0)),
        format!("{:?}", Resize::TOP | Resize::LEFT),
        format!("{:?}", Resize::NONE),
    ];
    let wanted = [
        "ARGB8888",
        "Format(5)",
        "POINTER | TOUCH",
        "KEYBOARD | Capability(72)",
        "Capability(8)",
        "Capability(0)",
        "TOP_LEFT",
        "NONE",
    ];
    assert_eq!(printed, wanted);
}
