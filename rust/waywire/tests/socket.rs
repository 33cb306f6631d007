//! Links between ends in one process: time limits, what is said as a connection ends, a socket that takes
//! no more, and the names of sockets.

mod common;

use common::{number_of, numbered};
use std::ffi::CStr;
use std::io::{self, ErrorKind, Read};
use std::os::fd::{AsFd, AsRawFd, OwnedFd};
use std::os::unix::net::UnixStream;
use std::path::{Path, PathBuf};
use std::time::{Duration, Instant};
use std::{env, fs, thread};
use waywire::socket::{
    self, has_gone, is_temporary, BindError, Came, ConnectError, Link, Listener, PostedError,
};
use waywire::wayland::wl_callback::{self, WlCallback};
use waywire::wayland::wl_display::{self, WlDisplay};
use waywire::wayland::wl_registry::{self, WlRegistry};
use waywire::wayland::wl_shm::{self, WlShm};
use waywire::{
    Amounts, AsClient, AsServer, Client, ClientWriter, InboxFull, Incoming, NextError, Object,
    SendError, Server, ServerWriter, Sizes, Tables,
};

const SOON: Option<Duration> = Some(Duration::from_millis(20));
const LONG: Option<Duration> = Some(Duration::from_secs(600));

fn pair() -> (Link<AsClient>, Link<AsServer>) {
    let tables = Tables::core().unwrap();
    let (its, other) = UnixStream::pair().unwrap();
    let client = Client::new(&tables, &Sizes::default()).unwrap();
    let server = Server::new(&tables, &Sizes::default()).unwrap();
    (Link::new(client, its).unwrap(), Link::new(server, other).unwrap())
}

/// Serves until the client goes. The link answers each sync.
fn serve(server: &mut Link<AsServer>) {
    while server.wait(LONG).unwrap() == Came::Something {
        while server.next().unwrap().is_some() {
            server.announce().unwrap();
        }
    }
}

/// The names of the announced globals.
#[derive(Default)]
struct Told(Vec<u32>);

impl wl_registry::Events for Told {
    fn global(&mut self, _: &ClientWriter, _: WlRegistry, name: u32, _: &CStr, _: u32) {
        self.0.push(name);
    }
}

waywire::event_handler!(Told: wl_registry);

#[test]
fn a_round_trip_dispatches() {
    let (mut client, mut server) = pair();
    let seat = server.tables().interface("wl_seat").unwrap();
    assert_eq!(server.add_global(seat, 1), Ok(1));
    let server = thread::spawn(move || serve(&mut server));
    let mut told = Told::default();
    WlDisplay(client.display()).get_registry(&client).unwrap();
    client.round_trip(&mut told, LONG).unwrap();
    assert_eq!(told.0, [1]);
    WlDisplay(client.display()).get_registry(&client).unwrap();
    assert_eq!(client.dispatch(&mut told, LONG).unwrap(), 1);
    assert_eq!(told.0, [1, 1]);
    assert_eq!(client.dispatch(&mut told, SOON).unwrap(), 0);
    drop(client);
    server.join().unwrap();
}

/// The callbacks that were done.
#[derive(Default)]
struct Done(Vec<WlCallback>);

impl wl_callback::Events for Done {
    fn done(&mut self, _: &ClientWriter, callback: WlCallback, _: u32) {
        self.0.push(callback);
    }
}

waywire::event_handler!(Done: wl_callback);

/// A round trip finds room in a full outbox, and the handler does not hear of its callback.
#[test]
fn a_round_trip_makes_room() {
    let tables = Tables::core().unwrap();
    let (its, other) = UnixStream::pair().unwrap();
    let sizes = Sizes { out_bytes: 4096, ..Sizes::default() };
    let mut client = Link::new(Client::new(&tables, &sizes).unwrap(), its).unwrap();
    let server = Server::new(&tables, &Sizes::default()).unwrap();
    let mut server = Link::new(server, other).unwrap();
    let display = WlDisplay(client.display());
    let callbacks: Vec<_> = (0..4096 / 12).map(|_| display.sync(&client).unwrap()).collect();
    assert_eq!(display.sync(&client), Err(SendError::Full));
    let server = thread::spawn(move || serve(&mut server));
    let mut done = Done::default();
    client.round_trip(&mut done, LONG).unwrap();
    assert!(done.0 == callbacks);
    drop(client);
    server.join().unwrap();
}

/// A server's link answers a sync once the registry of the request before has its globals. An answer without
/// room is not forgotten.
#[test]
fn a_link_answers_syncs() {
    let tables = Tables::core().unwrap();
    let (its, other) = UnixStream::pair().unwrap();
    let sizes = Sizes { out_bytes: 4096, ..Sizes::default() };
    let mut client = Link::new(Client::new(&tables, &Sizes::default()).unwrap(), its).unwrap();
    let mut server = Link::new(Server::new(&tables, &sizes).unwrap(), other).unwrap();
    server.add_global(tables.interface("wl_seat").unwrap(), 1).unwrap();
    let display = WlDisplay(client.display());
    display.get_registry(&client).unwrap();
    display.sync(&client).unwrap();
    client.flush().unwrap();
    assert_eq!(server.wait(LONG).unwrap(), Came::Something);
    assert_eq!(server.next().unwrap().unwrap().opcode(), wl_display::request::GET_REGISTRY);
    assert!(server.next().unwrap().is_none());
    server.flush().unwrap();
    let mut told = Told::default();
    assert_eq!((client.dispatch(&mut told, LONG).unwrap(), &told.0[..]), (3, &[1][..]));
    // The client reads nothing, until the socket takes no more.
    let mut asked = 0;
    let refused = loop {
        asked += (0..200).filter(|_| display.sync(&client).is_ok()).count();
        client.flush().unwrap();
        server.fill().unwrap();
        match server.next() {
            Ok(read) => assert!(read.is_none()),
            Err(why) => break why,
        }
    };
    assert_eq!(refused, NextError::OutFull);
    let mut done = Done::default();
    while done.0.len() < asked {
        client.flush().unwrap();
        client.dispatch(&mut done, SOON).unwrap();
        match server.next() {
            Ok(None) => drop(server.fill().unwrap()),
            Ok(Some(_)) => panic!("a sync has no other answer"),
            Err(why) => assert_eq!(why, NextError::OutFull),
        }
        server.flush().unwrap();
    }
    assert_eq!(done.0.len(), asked);
}

/// Tells each shm as many formats as half of an outbox holds.
#[derive(Default)]
struct Formats(Vec<WlShm>);

impl wl_registry::Requests for Formats {
    fn bind(
        &mut self,
        server: &ServerWriter,
        _: WlRegistry,
        _: u32,
        interface: &CStr,
        _: u32,
        object: Object,
    ) {
        assert_eq!(interface.to_str(), Ok(wl_shm::NAME));
        for format in 0..2048 / 12 {
            WlShm(object).send_format(server, wl_shm::Format(format)).unwrap();
        }
        self.0.push(WlShm(object));
    }
}

impl wl_shm::Events for Formats {
    fn format(&mut self, _: &ClientWriter, shm: WlShm, _: wl_shm::Format) {
        self.0.push(shm);
    }
}

waywire::request_handler!(Formats: wl_registry);
waywire::event_handler!(Formats: wl_shm);

/// A server's link gives a handler its requests, and room for the answers.
#[test]
fn a_handler_answers_through_its_link() {
    let tables = Tables::core().unwrap();
    let (its, other) = UnixStream::pair().unwrap();
    let sizes = Sizes { out_bytes: 4096, ..Sizes::default() };
    let mut client = Link::new(Client::new(&tables, &Sizes::default()).unwrap(), its).unwrap();
    let mut server = Link::new(Server::new(&tables, &sizes).unwrap(), other).unwrap();
    server.add_global(tables.interface(wl_shm::NAME).unwrap(), 1).unwrap();
    let registry = WlDisplay(client.display()).get_registry(&client).unwrap();
    client.flush().unwrap();
    let mut served = Formats::default();
    assert_eq!(server.dispatch(&mut served).unwrap(), 0);
    assert_eq!(server.wait(LONG).unwrap(), Came::Something);
    assert_eq!(server.dispatch(&mut served).unwrap(), 1);
    server.flush().unwrap();
    let mut told = Formats::default();
    assert_eq!(client.dispatch(&mut told, LONG).unwrap(), 1);
    let bound: Vec<WlShm> = (0..5).map(|_| registry.bind(&client, 1, 1).unwrap()).collect();
    client.flush().unwrap();
    assert_eq!(server.fill().unwrap(), Came::Something);
    assert_eq!(server.dispatch(&mut served).unwrap(), 5);
    assert_eq!(served.0, bound);
    server.flush().unwrap();
    while told.0.len() < 5 * (2048 / 12) {
        assert!(client.dispatch(&mut told, LONG).unwrap() > 0);
    }
    drop(client);
    assert_eq!(server.wait(LONG).unwrap(), Came::End);
}

/// Takes its time with each event.
struct Slow;

impl wl_registry::Events for Slow {
    fn global(&mut self, _: &ClientWriter, _: WlRegistry, _: u32, _: &CStr, _: u32) {
        thread::sleep(SOON.unwrap());
    }
}

waywire::event_handler!(Slow: wl_registry);

/// A server that announces globals without end, and answers no sync. It stays open to the end of the
/// test, also if it has announced all of them before the client reads.
#[test]
fn a_round_trip_ends_in_time_while_events_come() {
    let (mut client, mut server) = pair();
    WlDisplay(client.display()).get_registry(&client).unwrap();
    client.flush().unwrap();
    let telling = thread::spawn(move || {
        let seat = server.tables().interface("wl_seat").unwrap();
        assert_eq!(server.wait(LONG).unwrap(), Came::Something);
        assert!(server.next().unwrap().is_some());
        for _ in 0..1000 {
            if server.add_global(seat, 1).is_err()
                || server.announce().is_err()
                || server.flush().is_err()
            {
                break;
            }
            thread::sleep(SOON.unwrap() / 4);
        }
        server
    });
    let ended = client.round_trip(&mut Slow, SOON).unwrap_err();
    assert_eq!(ended.kind(), ErrorKind::TimedOut);
    drop(client);
    telling.join().unwrap();
}

#[test]
fn waiting_ends_in_time() {
    let (mut client, mut server) = pair();
    let began = Instant::now();
    assert_eq!(server.wait(SOON).unwrap(), Came::Nothing);
    assert_eq!(server.fill().unwrap(), Came::Nothing);
    assert_eq!(client.dispatch(&mut (), SOON).unwrap(), 0);
    let callback = WlDisplay(client.display()).sync(&client).unwrap();
    client.flush().unwrap();
    assert_eq!(server.wait(LONG).unwrap(), Came::Something);
    assert!(server.next_or_sync().unwrap().is_some());
    callback.send_done(&server, 0).unwrap();
    server.flush().unwrap();
    // The callback that has ended is not that of the round trip.
    assert_eq!(client.round_trip(&mut (), SOON).unwrap_err().kind(), ErrorKind::TimedOut);
    assert!(began.elapsed() >= 3 * SOON.unwrap());
    assert_eq!(socket::wait([client.awaited(), server.awaited()], LONG).unwrap(), [false, true]);
    let many = [&client, &client].map(|it| it.awaited()).into_iter().chain([server.awaited()]);
    assert_eq!(socket::wait_many(many, LONG).unwrap(), [false, false, true]);
    assert_eq!(socket::wait_many([client.awaited()], SOON).unwrap(), [false]);
    drop(server);
    let ended = client.round_trip(&mut (), LONG).unwrap_err();
    assert!(has_gone(&ended), "{ended}");
}

/// An end that closed before it had read all has closed, though the socket is reset.
#[test]
fn an_end_that_has_not_read_all_has_closed() {
    let (mut client, server) = pair();
    WlDisplay(client.display()).sync(&client).unwrap();
    assert!(client.flush().unwrap());
    drop(server);
    assert_eq!(client.fill().unwrap(), Came::End);
    assert_eq!(client.wait(LONG).unwrap(), Came::End);
    let ended = client.dispatch(&mut (), LONG).unwrap_err();
    assert_eq!(ended.kind(), ErrorKind::UnexpectedEof);
}

#[test]
fn what_ends_a_connection_is_said() {
    let (mut client, mut server) = pair();
    let display = server.display();
    server.post_error(display, 3, "no memory").unwrap();
    assert!(server.flush().unwrap());
    assert!(server.fill().is_err());
    drop(server);
    let posted = client.round_trip(&mut (), LONG).unwrap_err();
    let posted: &PostedError = posted.get_ref().unwrap().downcast_ref().unwrap();
    assert_eq!((posted.id, posted.code), (1, 3));
    assert_eq!(posted.interface.as_deref(), Some("wl_display"));
    assert_eq!(posted.to_string(), "wl_display@1: error 3: no memory");
    assert_eq!(WlDisplay(client.display()).sync(&client), Err(SendError::Failed));

    // An error about an object that the client does not know.
    let (mut client, server) = pair();
    let error = [1, 0, 0, 0, 0, 0, 24, 0, 9, 0, 0, 0, 2, 0, 0, 0, 4, 0, 0, 0];
    socket::send(&server, [&error, b"bad\0"], &[]).unwrap();
    let posted = client.dispatch(&mut (), LONG).unwrap_err();
    let posted: &PostedError = posted.get_ref().unwrap().downcast_ref().unwrap();
    assert_eq!((posted.id, &posted.interface), (9, &None));
    assert_eq!(posted.to_string(), "object@9: error 2: bad");

    let (mut client, mut server) = pair();
    let display = server.display();
    server.post_error(display, 0, "").unwrap();
    server.flush().unwrap();
    assert_eq!(client.wait(LONG).unwrap(), Came::Something);
    let of_display = client.tables().interface("wl_display");
    match client.next().unwrap() {
        Some(Incoming::Error(error)) => {
            assert_eq!((error.id, error.interface), (1, of_display));
        }
        other => panic!("{other:?}"),
    }

    let (mut client, server) = pair();
    socket::send(&server, [&[9, 0, 0, 0], &[0, 0, 8, 0]], &[]).unwrap();
    let fault = client.dispatch(&mut (), LONG).unwrap_err();
    assert!(matches!(
        fault.get_ref().unwrap().downcast_ref(),
        Some(NextError::Fault(fault)) if fault.offset == 0
    ));
}

/// What the socket does not take goes on waiting, and goes as the other end reads.
#[test]
fn a_socket_that_takes_no_more_is_waited_for() {
    let (mut client, mut server) = pair();
    let mut syncs = 0;
    let display = WlDisplay(client.display());
    while client.flush().unwrap() {
        while display.sync(&client).is_ok() {
            syncs += 1;
        }
    }
    let Sizes { out_bytes, out_tokens, .. } = Sizes::default();
    assert!(client.wants_write() && client.out_room().bytes < out_bytes);
    assert_eq!(client.wait(SOON).unwrap(), Came::Nothing);
    let reader = thread::spawn(move || {
        let mut came = 0;
        while came < syncs && server.wait(LONG).unwrap() == Came::Something {
            while server.next_or_sync().unwrap().is_some() {
                came += 1;
            }
        }
        let display = server.display();
        server.post_error(display, 0, "all is read").unwrap();
        server.flush().unwrap();
        came
    });
    // It keeps sending while it waits.
    assert_eq!(client.wait(LONG).unwrap(), Came::Something);
    assert!(!client.wants_write());
    assert_eq!(client.out_room(), Amounts { bytes: out_bytes, tokens: out_tokens });
    assert_eq!(reader.join().unwrap(), syncs);
}

/// A link needs room for any message, and for what libwayland sends at once.
#[test]
fn a_link_with_too_little_room_is_refused() {
    let tables = Tables::core().unwrap();
    let is_refused = |sizes: Sizes| {
        let (its, other) = UnixStream::pair().unwrap();
        let client = Link::new(Client::new(&tables, &sizes).unwrap(), its);
        let server = Link::new(Server::new(&tables, &sizes).unwrap(), other);
        assert_eq!(client.is_err(), server.is_err());
        client.is_err()
    };
    let least =
        Sizes { out_bytes: 8192, out_tokens: 20, in_bytes: 8192, in_tokens: 48, limit: 8192 };
    assert!(!is_refused(least));
    assert!(!is_refused(Sizes { out_bytes: 4096, in_bytes: 4096, limit: 0, ..least }));
    assert!(is_refused(Sizes { out_bytes: 8191, ..least }));
    assert!(is_refused(Sizes { out_bytes: 4095, limit: 0, ..least }));
    assert!(is_refused(Sizes { out_tokens: 19, ..least }));
    assert!(is_refused(Sizes { in_tokens: 47, ..least }));
}

/// The socket stays open, and what waits goes on waiting.
#[test]
fn a_link_is_taken_apart() {
    let (client, mut server) = pair();
    WlDisplay(client.display()).sync(&client).unwrap();
    let (end, its) = client.into_parts();
    assert!(!end.is_drained());
    assert_eq!(server.fill().unwrap(), Came::Nothing);
    let mut client = Link::new(end, its).unwrap();
    assert!(client.flush().unwrap());
    assert_eq!(server.fill().unwrap(), Came::Something);
    assert!(server.next_or_sync().unwrap().is_some());
}

/// Descriptors that belong to no message fill the inbox, and the next call that fills says so.
#[test]
fn a_full_inbox_is_an_error() {
    let tables = Tables::core().unwrap();
    let (its, other) = UnixStream::pair().unwrap();
    let sizes = Sizes { in_tokens: 48, ..Sizes::default() };
    let mut client = Link::new(Client::new(&tables, &sizes).unwrap(), its).unwrap();
    let given = numbered(1);
    socket::send(&other, [&[1, 0, 0, 0], &[]], &[given.as_fd(); 28]).unwrap();
    assert_eq!(client.fill().unwrap(), Came::Something);
    let full = client.fill().unwrap_err();
    assert!(full.get_ref().is_some_and(|it| it.is::<InboxFull>()) && !is_temporary(&full));
    socket::send(&other, [&[0], &[]], &[]).unwrap();
    let full = client.dispatch(&mut (), LONG).unwrap_err();
    assert!(full.get_ref().is_some_and(|it| it.is::<InboxFull>()));
}

#[test]
fn some_errors_pass() {
    let passes = |number| is_temporary(&io::Error::from_raw_os_error(number));
    // ENOBUFS, ENOMEM, ETOOMANYREFS; EPIPE, EMFILE.
    assert!([105, 12, 109].into_iter().all(passes) && ![32, 24].into_iter().any(passes));
    assert!(is_temporary(&io::Error::other(NextError::NoMemory)));
    assert!(is_temporary(&io::Error::other(SendError::Full)));
    assert!(!is_temporary(&io::Error::other(NextError::Failed)));
    assert!(!is_temporary(&ErrorKind::UnexpectedEof.into()));
}

#[test]
fn descriptors_go_with_the_first_byte() {
    let (its, other) = UnixStream::pair().unwrap();
    let given = [numbered(1), numbered(2)];
    let lent = [given[0].as_fd(), given[1].as_fd()];
    assert_eq!(socket::send(&its, [b"ab", b"c"], &lent).unwrap(), 3);
    let too_many = [lent[0]; 254];
    assert_eq!(
        socket::send(&its, [b"a", b""], &too_many).unwrap_err().kind(),
        ErrorKind::InvalidInput
    );
    let (mut first, mut second, mut came) = ([0; 2], [0; 2], Vec::<OwnedFd>::new());
    assert_eq!(socket::receive(&other, [&mut first, &mut second], &mut came).unwrap(), 3);
    assert_eq!((&first, second[0]), (b"ab", b'c'));
    assert_eq!(came.iter().map(|it| number_of(it.as_fd())).collect::<Vec<_>>(), [1, 2]);
    let nothing = socket::receive(&other, [&mut first, &mut []], &mut came);
    assert_eq!(nothing.unwrap_err().kind(), ErrorKind::WouldBlock);
    drop(its);
    assert_eq!(socket::receive(&other, [&mut first, &mut []], &mut came).unwrap(), 0);
}

fn folder() -> PathBuf {
    let folder = env::temp_dir().join(format!("waywire-socket-{}", std::process::id()));
    fs::create_dir_all(&folder).unwrap();
    folder
}

/// If no compositor is there, the error names the path that was tried.
fn no_compositor_is_there() {
    let error = |name: Option<&str>| socket::connect(name.map(Path::new)).unwrap_err();
    let missing = "No such file or directory (os error 2)";
    env::set_var("XDG_RUNTIME_DIR", "/nowhere");
    env::remove_var("WAYLAND_DISPLAY");
    assert_eq!(error(None).to_string(), format!("cannot connect to /nowhere/wayland-0: {missing}"));
    env::set_var("WAYLAND_DISPLAY", "wayland-7");
    assert_eq!(error(None).to_string(), format!("cannot connect to /nowhere/wayland-7: {missing}"));
    assert_eq!(error(Some("it")).to_string(), format!("cannot connect to /nowhere/it: {missing}"));
    assert_eq!(error(Some("/a/b")).to_string(), format!("cannot connect to /a/b: {missing}"));
    let named = error(Some("/a/b"));
    assert_eq!(named.kind(), ErrorKind::NotFound);
    let named: &ConnectError = named.get_ref().unwrap().downcast_ref().unwrap();
    assert_eq!((named.path.to_str(), named.error.raw_os_error()), (Some("/a/b"), Some(2)));
    for folder in [Some("nowhere"), None] {
        folder.map_or_else(
            || env::remove_var("XDG_RUNTIME_DIR"),
            |it| env::set_var("XDG_RUNTIME_DIR", it),
        );
        let said = "cannot connect to wayland-7: XDG_RUNTIME_DIR is not set to an absolute path";
        assert_eq!(error(None).to_string(), said);
        assert_eq!(error(Some("/a/b")).to_string(), format!("cannot connect to /a/b: {missing}"));
    }
}

/// A server takes the first name that is free. If it gets none, the error names the path.
fn servers_take_names() {
    let error = |name: Option<&str>| Listener::bind(name.map(Path::new)).unwrap_err();
    env::set_var("XDG_RUNTIME_DIR", folder());
    let taken: Vec<Listener> = (0..32).map(|_| Listener::bind(None).unwrap()).collect();
    let names: Vec<String> = (1..33).map(|it| format!("wayland-{it}")).collect();
    assert!(taken.iter().map(Listener::name).eq(names.iter().map(String::as_str)));
    let its = socket::connect(Some(Path::new("wayland-3"))).unwrap();
    assert!(taken[2].accept().is_ok());
    let used = |name: &str| {
        let path = folder().join(name);
        format!("cannot listen at {}: Address already in use (os error 98)", path.display())
    };
    let all = error(None);
    assert_eq!((all.kind(), all.to_string()), (ErrorKind::AddrInUse, used("wayland-32")));
    assert_eq!(error(Some("wayland-3")).to_string(), used("wayland-3"));
    drop((taken, its));
    assert_eq!(Listener::bind(None).unwrap().name(), "wayland-1");
    assert_eq!(fs::read_dir(folder()).unwrap().count(), 0);
    let empty = error(Some(""));
    assert_eq!(empty.kind(), ErrorKind::InvalidInput);
    env::remove_var("XDG_RUNTIME_DIR");
    let missing = error(Some("it"));
    assert_eq!(missing.kind(), ErrorKind::NotFound);
    let said = "cannot listen at it: XDG_RUNTIME_DIR is not set to an absolute path";
    assert_eq!(missing.to_string(), said);
    let missing: &BindError = missing.get_ref().unwrap().downcast_ref().unwrap();
    assert_eq!(missing.path, Path::new("it"));
}

/// One test of all names, since it changes the environment.
#[test]
fn sockets_have_names() {
    // A process with this number that was killed may have left it.
    let _ = fs::remove_dir_all(folder());
    let path = folder().join("named");
    let listener = Listener::bind(Some(&path)).unwrap();
    assert_eq!(listener.name(), path.as_os_str());
    assert_eq!(listener.accept().unwrap_err().kind(), ErrorKind::WouldBlock);
    assert_eq!(Listener::bind(Some(&path)).unwrap_err().kind(), ErrorKind::AddrInUse);
    let its = socket::connect(Some(&path)).unwrap();
    let other = listener.accept_next().unwrap();
    socket::send(&its, [b"a", b""], &[]).unwrap();
    assert_eq!(socket::receive(&other, [&mut [0; 8], &mut []], &mut Vec::new()).unwrap(), 1);
    drop(listener);
    assert_eq!(fs::read_dir(folder()).unwrap().count(), 0);
    assert_eq!(socket::connect(Some(&path)).unwrap_err().kind(), ErrorKind::NotFound);
    servers_take_names();
    fs::remove_dir(folder()).unwrap();
    no_compositor_is_there();

    // The socket that a parent has opened. Its number still belongs to `its` here.
    let (its, mut other) = UnixStream::pair().unwrap();
    other.set_read_timeout(LONG).unwrap();
    env::set_var("WAYLAND_SOCKET", its.as_raw_fd().to_string());
    let client = Client::new(&Tables::core().unwrap(), &Sizes::default()).unwrap();
    let link = Link::new(client, socket::connect(None).unwrap()).unwrap();
    assert_eq!(env::var_os("WAYLAND_SOCKET"), None);
    assert_ne!(link.socket().as_raw_fd(), its.as_raw_fd());
    WlDisplay(link.display()).sync(&link).unwrap();
    drop(link);
    let mut all = Vec::new();
    assert_eq!(other.read_to_end(&mut all).unwrap(), 12);
    assert!(its.peer_addr().is_ok());
    env::set_var("WAYLAND_SOCKET", "none");
    assert_eq!(socket::connect(None).unwrap_err().kind(), ErrorKind::InvalidInput);
    env::set_var("WAYLAND_SOCKET", i32::MAX.to_string());
    assert!(socket::connect(None).is_err());
    env::remove_var("WAYLAND_SOCKET");
}
