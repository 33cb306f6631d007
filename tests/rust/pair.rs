//! What the tests that tests/every_typed_call.py writes share: a pair of ends with objects of any
//! interface, and values at the corners of their types.

#![allow(dead_code)]

pub use std::ffi::CStr;
use std::fs::File;
use std::io::Write;
use std::os::fd::{AsFd, OwnedFd};
use std::os::unix::fs::FileExt;
use std::sync::OnceLock;
use waywire::wayland::wl_registry::WlRegistry;
use waywire::{
    Announced, Client, Connection, Fixed, Handle, Incoming, Object, OwnedMessage, Server, Sizes,
    Tables,
};

static TABLES: OnceLock<Tables> = OnceLock::new();

pub const INTS: [i32; 3] = [i32::MIN, i32::MAX, 0];
pub const UINTS: [u32; 3] = [0, u32::MAX, 1];
pub const TEXTS: [&CStr; 3] = [c"", c"a text of more than one word", c"\x01\xff\""];
pub const NULLABLE_TEXTS: [Option<&CStr>; 3] = [Some(TEXTS[0]), Some(TEXTS[1]), None];

pub fn fixed(corner: usize) -> Fixed {
    Fixed::from_raw([i32::MIN, i32::MAX, -1][corner])
}

/// A descriptor of a file without a name, which says this number.
pub fn numbered(number: usize) -> OwnedFd {
    let path = std::env::temp_dir().join(format!("waywire-typed-{}", std::process::id()));
    let mut file = File::options().read(true).write(true).create_new(true).open(&path).unwrap();
    std::fs::remove_file(&path).unwrap();
    file.write_all(&[number as u8]).unwrap();
    file.into()
}

/// The number that a descriptor says.
pub fn number_of(descriptor: &OwnedFd) -> u8 {
    let mut bytes = [0];
    let file = File::from(descriptor.as_fd().try_clone_to_owned().unwrap());
    file.read_exact_at(&mut bytes, 0).unwrap();
    bytes[0]
}

/// The tables of all pairs, of which one has been made.
pub fn tables() -> &'static Tables {
    TABLES.get().unwrap()
}

/// Arguments as a text, to be compared.
#[macro_export]
macro_rules! said {
    ($($it:expr),*) => {
        [$(format!("{:?}", $it)),*].join(", ")
    };
}

/// Carries what waits at one end to the other.
fn carry<A, B>(from: &mut Connection<A>, to: &mut Connection<B>) {
    let (mut bytes, mut descriptors) = ([0; 4096], Vec::new());
    let taken = from.take(&mut bytes, &mut descriptors, 28);
    assert_eq!(to.feed(&bytes[..taken.bytes], &mut descriptors), Ok(taken));
}

/// A client and a server with nothing between.
pub struct Pair {
    pub client: Client,
    pub server: Server,
    registry: WlRegistry,
}

impl Pair {
    /// A pair over the core and the tables of all these texts.
    pub fn new(texts: &[&[u8]]) -> Pair {
        let tables = TABLES.get_or_init(|| {
            texts.iter().fold(Tables::core().unwrap(), |tables, it| tables.read(it).unwrap())
        });
        let client = Client::new(tables, &Sizes::default()).unwrap();
        let server = Server::new(tables, &Sizes::default()).unwrap();
        let display = waywire::wayland::wl_display::WlDisplay(client.display());
        let registry = display.get_registry(&client).unwrap();
        let mut pair = Pair { client, server, registry };
        assert_eq!(pair.request().target, display.0);
        pair
    }

    /// An object of an interface, of its newest version, that both ends have.
    pub fn handle<T: Handle>(&mut self) -> T {
        T::of(self.object(T::NAME))
    }

    pub fn object(&mut self, interface: &str) -> Object {
        match interface {
            "wl_display" => return self.client.display(),
            "wl_registry" => return self.registry.0,
            _ => {}
        }
        let tables = tables();
        let place = tables.interface(interface).unwrap();
        let version = tables.version(place).unwrap();
        let name = self.server.add_global(place, version).unwrap();
        assert_eq!(self.server.announce(), Ok(Announced { count: 1, all: true }));
        carry(&mut self.server, &mut self.client);
        while self.client.next().unwrap().is_some() {}
        let bound = self.client.bind(self.registry.0, name, interface, version).unwrap();
        assert_eq!(self.request().target, self.registry.0);
        bound
    }

    /// The request that was written, as the server reads it.
    pub fn request(&mut self) -> OwnedMessage {
        carry(&mut self.client, &mut self.server);
        self.server.next().unwrap().unwrap().into_owned()
    }

    /// The event that was written, as the client reads it.
    pub fn event(&mut self) -> OwnedMessage {
        carry(&mut self.server, &mut self.client);
        match self.client.next().unwrap() {
            Some(Incoming::Event(event)) => event.into_owned(),
            other => panic!("{other:?}"),
        }
    }
}
