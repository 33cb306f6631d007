//! A proxy: takes one client, passes all on between it and the compositor, message by message, and
//! prints the line of each.
//!
//!     proxy NAME [TABLES..]
//!
//! The name is that of its socket in XDG_RUNTIME_DIR, or a path that begins with a slash. The proxy is
//! a server towards the client and a client towards the compositor. Each object has a twin at the other
//! end. Globals whose interfaces the tables do not have are not offered. The tables are those of the core
//! and of xdg-shell, and the text of each file that is named.

use std::collections::HashMap;
use std::ffi::CStr;
use std::path::{Path, PathBuf};
use waywire::socket::{self, has_gone, Came, Link, Listener};
use waywire::wayland::wl_display;
use waywire::{
    Arg, AsClient, AsServer, Client, Destroys, Incoming, Message, Object, OwnedMessage, OwnedValue,
    SendError, Sender, Server, Sizes, Tables, Value,
};

#[path = "protocols/xdg_shell.rs"]
#[rustfmt::skip]
mod xdg_shell;

type Failure = Box<dyn std::error::Error>;

/// The first id of a compositor's range: it makes objects with ids from here on.
const FIRST_SERVER_ID: u32 = 0xff00_0000;

struct Proxy {
    tables: Tables,
    client_side: Link<AsServer>,
    compositor_side: Link<AsClient>,
    /// Of the objects that the client knows, those that the compositor knows, and the other way.
    to_compositor: HashMap<Object, Object>,
    to_client: HashMap<Object, Object>,
    /// The proxy's own registry, and the compositor's names of the globals by the server's.
    registry: Object,
    names: HashMap<u32, u32>,
}

/// The arguments of the call that passes a message on, and the object that it makes here.
type Call<'a> = (Vec<Arg<'a>>, Option<Object>);

/// The call that passes a message on; `None` if it names an object without a twin. The descriptors are
/// lent: they are closed with the message.
fn call<'a>(message: &'a OwnedMessage, twins: &HashMap<Object, Object>) -> Option<Call<'a>> {
    let mut made = None;
    let args = message.args.iter().map(|it| {
        Some(match it.value() {
            Value::Int(number) => Arg::Int(number),
            Value::Uint(number) => Arg::Uint(number),
            Value::Fixed(number) => Arg::Fixed(number),
            Value::Str(text) => Arg::Str(text.map(CStr::to_bytes)),
            Value::Array(bytes) => Arg::Array(bytes),
            Value::Object(None) => Arg::Object(None),
            Value::Object(Some(object)) | Value::Dead(object) => Arg::from(*twins.get(&object)?),
            Value::NewId(object) => {
                made = Some(object);
                Arg::NewId
            }
            Value::Fd(descriptor) => Arg::Fd(descriptor?),
            Value::Bound { .. } => return None,
        })
    });
    Some((args.collect::<Option<Vec<_>>>()?, made))
}

/// A message in memory of its own: it is passed on by the proxy, which has both ends.
fn printed<R>(message: Message<'_, R>, tables: &Tables, sender: Sender) -> OwnedMessage {
    println!("{}", message.line(tables, sender));
    message.into_owned()
}

impl Proxy {
    fn twins(&mut self, of_client: Object, of_compositor: Object) {
        self.to_compositor.insert(of_client, of_compositor);
        self.to_client.insert(of_compositor, of_client);
    }

    fn pass_request(&mut self, passed: &OwnedMessage) -> Result<(), Failure> {
        let target = *self.to_compositor.get(&passed.target).ok_or("a target without a twin")?;
        if let [OwnedValue::Uint(name), OwnedValue::Bound { interface, version, object }] =
            &passed.args[..]
        {
            let interface = interface.to_str()?;
            let name = self.names[name];
            let compositor = &mut self.compositor_side;
            let bound = match compositor.bind(target, name, interface, *version) {
                // Written before the client read that the global is gone: the compositor judges it.
                Err(SendError::BadBind) => {
                    compositor.bind_unannounced(target, name, interface, *version)?
                }
                bound => bound?,
            };
            self.twins(*object, bound);
            return Ok(());
        }
        let (args, made) = call(passed, &self.to_compositor).ok_or("an object without a twin")?;
        let twin = self.compositor_side.send(target, passed.opcode, &args)?;
        if let (Some(here), Some(there)) = (made, twin) {
            self.twins(here, there);
        }
        // No delete_id comes for an object of the compositor's that the request has ended.
        if target.id() >= FIRST_SERVER_ID && self.compositor_side.live(target).is_none() {
            self.forget(target);
        }
        Ok(())
    }

    fn forget(&mut self, of_compositor: Object) {
        if let Some(twin) = self.to_client.remove(&of_compositor) {
            self.to_compositor.remove(&twin);
        }
    }

    fn pass_event(&mut self, passed: &OwnedMessage) -> Result<(), Failure> {
        if passed.target == self.registry {
            return self.told(passed);
        }
        // What the client has destroyed meanwhile gets no more events.
        let Some(&target) = self.to_client.get(&passed.target) else {
            return Ok(());
        };
        let Some((args, made)) = call(passed, &self.to_client) else {
            return Ok(());
        };
        match self.client_side.send(target, passed.opcode, &args) {
            Ok(twin) => {
                if let (Some(there), Some(here)) = (made, twin) {
                    self.twins(here, there);
                }
                Ok(())
            }
            Err(SendError::Stale | SendError::BadObject { .. }) => Ok(()),
            // `announce` writes to the registries of the client.
            Err(SendError::NoSuchMessage) => Ok(()),
            Err(error) => Err(error.into()),
        }
    }

    /// Destroys an object of the compositor that the client does not know.
    fn keep_or_destroy(&mut self, made: Object) -> Result<(), Failure> {
        let compositor = &mut self.compositor_side;
        let (false, Some((interface, version))) =
            (self.to_client.contains_key(&made), compositor.live(made))
        else {
            return Ok(());
        };
        for opcode in 0..=u16::MAX {
            let Some(it) = self.tables.message(interface, Sender::Client, opcode) else {
                return Ok(());
            };
            let ends = it.destroys == Destroys::Target && it.kinds.is_empty();
            if ends && it.since <= version {
                compositor.send(made, opcode, &[])?;
                return Ok(());
            }
        }
        Ok(())
    }

    /// A global of the compositor is offered, if the tables have its interface, or withdrawn. Its
    /// name is kept, since a bind may be on its way.
    fn told(&mut self, passed: &OwnedMessage) -> Result<(), Failure> {
        let server = &mut self.client_side;
        match &passed.args[..] {
            [OwnedValue::Uint(name), OwnedValue::Str(Some(text)), OwnedValue::Uint(version)] => {
                let Some(interface) = self.tables.interface(text.to_str()?) else {
                    return Ok(());
                };
                let version = self.tables.version(interface).unwrap_or(1).min(*version);
                self.names.insert(server.add_global(interface, version)?, *name);
            }
            [OwnedValue::Uint(name)] => {
                if let Some((own, _)) = self.names.iter().find(|(_, it)| *it == name) {
                    server.withdraw(*own)?;
                }
            }
            _ => {}
        }
        server.announce()?;
        Ok(())
    }

    fn read_client(&mut self) -> Result<(), Failure> {
        // The link itself would answer a sync, which is the compositor's to answer.
        while let Some(request) = self.client_side.next_or_sync()? {
            let passed = printed(request, &self.tables, Sender::Client);
            self.pass_request(&passed)?;
            self.client_side.announce()?;
        }
        Ok(())
    }

    fn read_compositor(&mut self) -> Result<(), Failure> {
        while let Some(incoming) = self.compositor_side.next()? {
            match incoming {
                Incoming::Event(event) => {
                    let passed = printed(event, &self.tables, Sender::Server);
                    self.pass_event(&passed)?;
                }
                Incoming::Deleted(object) => self.forget(object),
                Incoming::Error(error) => {
                    let text = String::from_utf8_lossy(error.text).into_owned();
                    let display = self.client_side.display();
                    self.client_side.post_error(display, error.code, &text)?;
                }
                _ => {}
            }
            if let Some(made) = self.compositor_side.made() {
                self.keep_or_destroy(made)?;
            }
            if let Some(replaced) = self.compositor_side.replaced() {
                self.forget(replaced);
            }
        }
        Ok(())
    }

    /// Passes messages on until one of the two goes.
    fn run(&mut self) -> Result<(), Failure> {
        loop {
            self.client_side.flush()?;
            self.compositor_side.flush()?;
            let awaited = [self.client_side.awaited(), self.compositor_side.awaited()];
            let [client, compositor] = socket::wait(awaited, None)?;
            if client {
                if self.client_side.fill()? == Came::End {
                    return Ok(());
                }
                self.read_client()?;
            }
            if compositor {
                if self.compositor_side.fill()? == Came::End {
                    return Ok(());
                }
                self.read_compositor()?;
            }
        }
    }

    /// Reads until the compositor's globals are known, before the client asks for them.
    fn learn(&mut self) -> Result<(), Failure> {
        let display = self.compositor_side.display();
        let synced =
            self.compositor_side.send(display, wl_display::request::SYNC, &[Arg::NewId])?;
        while synced.is_some_and(|it| self.compositor_side.live(it).is_some()) {
            if self.compositor_side.wait(None)? == Came::End {
                return Err("the compositor has gone".into());
            }
            self.read_compositor()?;
        }
        Ok(())
    }
}

/// These tables and those of a file's text.
fn with_file(tables: &Tables, file: &Path) -> Result<Tables, Failure> {
    Ok(tables.read(&std::fs::read(file)?)?)
}

fn main() -> Result<(), Failure> {
    let mut words = std::env::args_os().skip(1);
    let name = words.next().ok_or("the socket's name is wanted")?;
    let mut tables = Tables::core()?.read(xdg_shell::TABLES)?;
    for file in words.map(PathBuf::from) {
        tables = with_file(&tables, &file).map_err(|why| format!("{}: {why}", file.display()))?;
    }
    let listener = Listener::bind(Some(Path::new(&name)))?;
    let server = Server::new(&tables, &Sizes::default())?;
    let client = Client::new(&tables, &Sizes::default())?;
    let registry = client
        .send(client.display(), wl_display::request::GET_REGISTRY, &[Arg::NewId])?
        .ok_or("get_registry makes an object")?;
    let displays = (server.display(), client.display());
    let mut proxy = Proxy {
        tables,
        client_side: Link::new(server, listener.accept_next()?)?,
        compositor_side: Link::new(client, socket::connect(None)?)?,
        to_compositor: HashMap::new(),
        to_client: HashMap::new(),
        registry,
        names: HashMap::new(),
    };
    proxy.twins(displays.0, displays.1);
    match proxy.learn().and_then(|()| proxy.run()) {
        Err(error) if error.downcast_ref().is_some_and(has_gone) => Ok(()),
        ended => ended,
    }
}
