//! A compositor without a screen: serves several clients, lets them open windows over xdg-shell and
//! copy and paste, and prints the first pixel of each picture that they commit. Once a window has
//! shown a picture, the compositor plays a script at it.
//!
//!     compositor [--stay] NAME [SCRIPT]
//!
//! The name is that of its socket in XDG_RUNTIME_DIR, or a path that begins with a slash. The
//! compositor ends with its last client. Its exit status is 1 if it has ended a client, for example
//! for a request that breaks a rule. With --stay it runs until a signal ends it; its socket is then
//! left behind, and the next server with this name replaces it.
//!
//! The script is a file with one event per line, which may grow while it is played: `key CODE` and
//! `button CODE` press and release what has that number in linux/input-event-codes.h, `modifiers
//! MASK` holds modifiers down (Shift is 1, Ctrl 4), `motion X Y` moves the pointer over the window,
//! and `close` asks the window to close.
//!
//! - `main.rs`: the clients, in one loop
//! - `client.rs`: one client, and its globals
//! - `window.rs`: surfaces, their buffers, and windows
//! - `seat.rs`: the keyboard and the pointer: which window has them, and the script
//! - `clipboard.rs`: which source is selected, who is told, and where a reader's descriptor goes
//! - `data_device.rs`, `data_control.rs`: the clipboard's two protocols. The second is built if its
//!   file is installed.

mod client;
mod clipboard;
#[cfg(data_control)]
mod data_control;
mod data_device;
mod seat;
mod window;
#[cfg(data_control)]
#[path = "../protocols/wlr_data_control_unstable_v1.rs"]
#[rustfmt::skip]
mod wlr_data_control_unstable_v1;
#[path = "../protocols/xdg_shell.rs"]
#[rustfmt::skip]
mod xdg_shell;

use client::{Action, Client, ClientId, Session};
use clipboard::Selection;
use seat::Script;
use std::collections::BTreeMap;
use std::ffi::OsString;
use std::io;
use std::os::fd::AsFd;
use std::path::Path;
use std::process::ExitCode;
use std::time::{Duration, Instant};
use waywire::socket::{self, has_gone, Came, Listener};
use waywire::Tables;

/// The time between two lines of the script.
const STEP: Duration = Duration::from_millis(100);
/// The most clients at a time. Another takes the place of the oldest that has never asked for
/// anything; if all have, it waits.
const MOST_CLIENTS: usize = 64;
/// If a client cannot be accepted, the next try comes within this time.
const PAUSE: Duration = Duration::from_secs(1);

type Failure = Box<dyn std::error::Error>;

struct Compositor {
    tables: Tables,
    began: Instant,
    /// By their ids: the last is the newest.
    clients: BTreeMap<ClientId, Session>,
    next_id: ClientId,
    /// The client that has the keyboard and the pointer, over its window.
    focus: Option<ClientId>,
    selection: Option<Selection>,
    /// The number of the selection's last change.
    change: u64,
    /// Whether the last client could not be accepted.
    pauses: bool,
    has_ended_a_client: bool,
}

impl Compositor {
    fn new() -> Result<Compositor, Failure> {
        let tables = Tables::core()?.read(xdg_shell::TABLES)?.read(waywire::data_device::TABLES)?;
        #[cfg(data_control)]
        let tables = tables.read(wlr_data_control_unstable_v1::TABLES)?;
        Ok(Compositor {
            tables,
            began: Instant::now(),
            clients: BTreeMap::new(),
            next_id: 0,
            focus: None,
            selection: None,
            change: 1,
            pauses: false,
            has_ended_a_client: false,
        })
    }

    /// A client that is still there.
    fn session(&mut self, id: ClientId) -> &mut Session {
        self.clients.get_mut(&id).expect("a client that is still there")
    }

    fn client(&mut self, id: ClientId) -> &mut Client {
        &mut self.session(id).client
    }

    /// Serves clients until none is left of those that came, or without an end.
    fn run(
        &mut self,
        listener: &Listener,
        mut script: Option<Script>,
        stays: bool,
    ) -> Result<(), Failure> {
        let limit = script.as_ref().map(|_| STEP);
        while stays || self.next_id == 0 || !self.clients.is_empty() {
            self.serve(listener, limit)?;
            self.settle();
            if let (Some(script), Some(id)) = (&mut script, self.focus) {
                if let Some(line) = script.next_line()? {
                    let Session { link, client } = self.session(id);
                    client.play(link, line);
                }
            }
        }
        Ok(())
    }

    /// Waits for requests, at most until the limit, and does what they ask for.
    ///
    /// The listener is ready as long as a client waits there. If the client cannot be accepted, no call
    /// would wait any more. So the next call leaves the listener out, and the one after that tries again.
    fn serve(&mut self, listener: &Listener, limit: Option<Duration>) -> Result<(), Failure> {
        let ids: Vec<ClientId> = self.clients.keys().copied().collect();
        self.clients.values_mut().for_each(Session::flush);
        let links = self.clients.values().map(|it| it.link.awaited());
        let accepts = self.has_place() && !self.pauses;
        let awaited = links.chain(accepts.then(|| (listener.as_fd(), false)));
        let limit = if self.pauses { Some(limit.unwrap_or(PAUSE).min(PAUSE)) } else { limit };
        let ready = socket::wait_many(awaited, limit)?;
        for (id, _) in ids.iter().zip(&ready).filter(|(_, is_ready)| **is_ready) {
            if let Err(why) = self.serve_client(*id) {
                self.client(*id).fail(why);
            }
        }
        self.pauses = ready.get(ids.len()) == Some(&true) && !self.accept(listener)?;
        Ok(())
    }

    /// Reads all requests that a client has sent.
    fn serve_client(&mut self, id: ClientId) -> Result<(), Failure> {
        match self.session(id).link.fill()? {
            Came::End => return Err(io::Error::from(io::ErrorKind::UnexpectedEof).into()),
            Came::Something => self.client(id).has_asked = true,
            Came::Nothing => {}
        }
        while self.session(id).serve_next()? {
            match self.client(id).action.take() {
                Some(Action::Focus) => self.focus_on(id),
                Some(Action::Select(source)) => self.select(id, source),
                Some(Action::Receive { offered, kind, fd }) => self.receive(offered, &kind, fd),
                None => {}
            }
        }
        Ok(())
    }

    /// The oldest client that has never asked for anything.
    fn find_idle(&self) -> Option<ClientId> {
        self.clients.iter().find(|(_, it)| !it.client.has_asked).map(|(id, _)| *id)
    }

    /// Whether another client can be served.
    fn has_place(&self) -> bool {
        self.clients.len() < MOST_CLIENTS || self.find_idle().is_some()
    }

    /// Takes in a client that waits, if there is a place. Returns false if that fails, for example
    /// because the process has no descriptor left; then the client still waits.
    fn accept(&mut self, listener: &Listener) -> Result<bool, Failure> {
        if !self.has_place() {
            return Ok(true);
        }
        match listener.accept() {
            Ok(socket) => {
                if let (true, Some(id)) = (self.clients.len() >= MOST_CLIENTS, self.find_idle()) {
                    self.client(id).fail("it has asked for nothing, and gives way to another");
                }
                let session = Session::new(&self.tables, socket, self.began)?;
                self.clients.insert(self.next_id, session);
                self.next_id += 1;
                Ok(true)
            }
            Err(error) => Ok(error.kind() == io::ErrorKind::WouldBlock),
        }
    }

    /// Ends the clients that have failed, and tells the others what has changed by that.
    fn settle(&mut self) {
        loop {
            self.end_clients();
            self.find_focus();
            self.find_selection();
            self.tell_selection();
            if self.clients.values().all(|it| it.client.failure.is_none()) {
                return;
            }
        }
    }

    /// Ends the clients that have failed, with all their objects. Prints why, unless the client has
    /// closed its connection.
    fn end_clients(&mut self) {
        self.clients.retain(|_, session| {
            let Some(why) = &session.client.failure else { return true };
            if !why.downcast_ref().is_some_and(has_gone) {
                eprintln!("a client has ended: {why}");
                self.has_ended_a_client = true;
            }
            false
        });
    }
}

/// Serves until the end. Returns whether it has ended a client.
fn serve(words: &[OsString], stays: bool) -> Result<bool, Failure> {
    let name = words.first().ok_or("the socket's name is wanted")?;
    let script = words.get(1).map(|it| Script::open(Path::new(it))).transpose()?;
    let listener = Listener::bind(Some(Path::new(name)))?;
    let mut compositor = Compositor::new()?;
    compositor.run(&listener, script, stays)?;
    Ok(compositor.has_ended_a_client)
}

fn main() -> ExitCode {
    let mut words: Vec<OsString> = std::env::args_os().skip(1).collect();
    let stays = words.first().is_some_and(|it| it == "--stay");
    words.drain(..usize::from(stays));
    match serve(&words, stays) {
        Ok(false) => ExitCode::SUCCESS,
        Ok(true) => ExitCode::FAILURE,
        Err(why) => {
            eprintln!("compositor: {why}");
            ExitCode::FAILURE
        }
    }
}
