//! The message layer of Wayland for clients and servers, over libwaywire.
//!
//! The ends of libwaywire are proved: whatever requests and events two of them write, in whatever
//! order, and however the bytes between them are cut, each reads exactly the messages that the other
//! wrote, and every object in them arrives as the one that its writer meant. This holds for two ends
//! that begin together and keep their tables, with a transport that delivers bytes in order and each
//! descriptor in time, up to the first error that the server posts. What the C calls add to these ends
//! is proved in part. This crate adds Rust's types, and is tested. Its only dependency is `waywire-sys`,
//! which finds the library.
//!
//! It is for Linux on x86-64. The library needs the instructions of x86-64-v2 (SSE4.2, from 2009 on).
//!
//! # The loop
//!
//! An end, a [`Client`] or a [`Server`], turns calls into bytes and bytes into messages. Both are
//! a [`Connection`], which has the calls that they share. What writes messages is its [`Writer`].
//!
//! 1. [`send`](Writer::send) and the like write a message; it waits in the end's outbox.
//! 2. [`take`](Connection::take) moves out what waits, for the socket.
//! 3. [`feed`](Connection::feed) takes in what came from the socket, in any cut.
//! 4. [`next`](Client::next) reads one message, until it returns `None`.
//!
//! [`socket`] does steps 2 and 3 with a Unix socket: a [`socket::Link`] is an end with its socket. The
//! event loop is yours.
//!
//! ```
//! use waywire::wayland::{wl_callback, wl_display};
//! use waywire::{Arg, Client, Incoming, Server, Sizes, Tables, Value};
//!
//! # fn main() -> Result<(), Box<dyn std::error::Error>> {
//! let tables = Tables::core()?;
//! let mut client = Client::new(&tables, &Sizes::default())?;
//! let mut server = Server::new(&tables, &Sizes::default())?;
//!
//! let callback = client
//!     .send(client.display(), wl_display::request::SYNC, &[Arg::NewId])?
//!     .expect("sync makes an object");
//!
//! let (mut bytes, mut descriptors) = ([0; 4096], Vec::new());
//! let taken = client.take(&mut bytes, &mut descriptors, 28);
//! server.feed(&bytes[..taken.bytes], &mut descriptors)?;
//! let asked = server.next()?.expect("a whole request came");
//! assert_eq!(asked.opcode(), wl_display::request::SYNC);
//! // Each end names its own objects: this one is the server's, for the same object as the client's.
//! let Some(Value::NewId(made)) = asked.args().next() else { panic!("sync makes an object") };
//!
//! server.send(made, wl_callback::event::DONE, &[Arg::Uint(7)])?;
//! let taken = server.take(&mut bytes, &mut descriptors, 28);
//! client.feed(&bytes[..taken.bytes], &mut descriptors)?;
//! match client.next()? {
//!     Some(Incoming::Event(done)) => assert_eq!(done.target(), callback),
//!     other => panic!("{other:?}"),
//! }
//! # Ok(())
//! # }
//! ```
//!
//! # File descriptors
//!
//! Every file descriptor has one owner, and is closed once:
//!
//! - **Sent.** A call lends its descriptor ([`Arg::Fd`]; typed calls take `impl AsFd`). The end sends a
//!   duplicate, and closes that once it has gone, or at once if the call is refused.
//! - **Received.** A typed handler gets each descriptor as an [`OwnedFd`](std::os::fd::OwnedFd);
//!   [`Message::take_descriptor`] and [`Message::into_owned`] take them, too. From a discarded event, only
//!   `take_descriptor` does. A descriptor that nobody takes is closed at the end's next `next`, whether or
//!   not that reads a message.
//! - **Waiting.** What waits in an end is closed when the end is dropped.
//!
//! # Typed calls
//!
//! [`wayland`] has a type for the objects of each interface of the core, with a method for each of its
//! messages; [`data_device`] has those of clipboards and of drag and drop, whose tables an end reads from
//! [`data_device::TABLES`]. `stubs-from-xml --rust` makes such modules for other protocols. Incoming messages are dispatched
//! to a handler: to the [`Events`](wayland::wl_callback::Events) of an interface at a client, and to the
//! [`Requests`](wayland::wl_display::Requests) of an interface at a server.
//!
//! ```
//! use waywire::wayland::wl_callback::{self, WlCallback};
//! use waywire::wayland::wl_display::{self, WlDisplay};
//! use waywire::{Client, ClientWriter, EventHandler, Incoming, RequestHandler};
//! use waywire::{Server, ServerWriter, Sizes, Tables};
//!
//! /// Answers each sync.
//! struct Answering;
//!
//! impl wl_display::Requests for Answering {
//!     fn sync(&mut self, server: &ServerWriter, _display: WlDisplay, callback: WlCallback) {
//!         callback.send_done(server, 7).expect("there is room");
//!     }
//! }
//!
//! // Each request goes to the `Requests` of its object's interface.
//! waywire::request_handler!(Answering: wl_display);
//!
//! /// The data of the last callback.
//! struct Told(u32);
//!
//! impl wl_callback::Events for Told {
//!     fn done(&mut self, _client: &ClientWriter, _callback: WlCallback, data: u32) {
//!         self.0 = data;
//!     }
//! }
//!
//! waywire::event_handler!(Told: wl_callback);
//!
//! # fn main() -> Result<(), Box<dyn std::error::Error>> {
//! let tables = Tables::core()?;
//! let mut client = Client::new(&tables, &Sizes::default())?;
//! let mut server = Server::new(&tables, &Sizes::default())?;
//! # let (mut bytes, mut descriptors) = ([0; 4096], Vec::new());
//! WlDisplay(client.display()).sync(&client)?;
//! # let taken = client.take(&mut bytes, &mut descriptors, 28);
//! # server.feed(&bytes[..taken.bytes], &mut descriptors)?;
//! // .. the bytes go to the server
//! let mut asked = server.next()?.expect("a whole request came");
//! assert!(Answering.dispatch_request(asked.writer(), &mut asked));
//! # let taken = server.take(&mut bytes, &mut descriptors, 28);
//! # client.feed(&bytes[..taken.bytes], &mut descriptors)?;
//! // .. and others to the client
//! let mut told = Told(0);
//! if let Some(Incoming::Event(mut event)) = client.next()? {
//!     assert!(told.dispatch_event(event.writer(), &mut event));
//! }
//! assert_eq!(told.0, 7);
//! # Ok(())
//! # }
//! ```
//!
//! - A handler answers with the [`Writer`] that it gets; the message is still lent meanwhile, and nothing is
//!   copied. A method that you do not write does nothing.
//! - A string is a [`CStr`](std::ffi::CStr). The protocol wants UTF-8, but no end checks it: `to_str` does, and
//!   `to_bytes` is what came.
//! - Data of a handler for its objects are in an [`ObjectMap`].
//!
//! # Loans
//!
//! What `next` returns is lent from the end until its next call. To keep it longer does not compile:
//!
//! ```compile_fail,E0499
//! # use waywire::{Client, Sizes, Tables};
//! # let tables = Tables::core().unwrap();
//! # let mut client = Client::new(&tables, &Sizes::default()).unwrap();
//! let first = client.next();
//! let second = client.next();
//! drop(first);
//! ```
//!
//! # Threads
//!
//! Any number of threads may use [`Tables`] at the same time. An end or an [`Inspector`] may move to another
//! thread ([`Send`]), but only one thread at a time uses it: it is not [`Sync`]. So is a
//! [`Link`](socket::Link). A [`Message`] and a `&Writer` stay on their thread; an [`OwnedMessage`] may go.
//!
//! ```
//! # use waywire::{Client, Sizes, Tables};
//! # fn main() -> Result<(), Box<dyn std::error::Error>> {
//! let tables = Tables::core()?;
//! let made = std::thread::scope(|threads| {
//!     threads.spawn(|| Client::new(&tables, &Sizes::default())).join()
//! });
//! let client = made.expect("the thread ends")?;
//! drop(tables);
//! assert!(client.live(client.display()).is_some());
//! # Ok(())
//! # }
//! ```
//!
//! ```compile_fail,E0277
//! # use waywire::{Server, Sizes, Tables};
//! # let tables = Tables::core().unwrap();
//! # let mut server = Server::new(&tables, &Sizes::default()).unwrap();
//! let request = server.next();
//! std::thread::scope(|threads| {
//!     threads.spawn(move || request);
//! });
//! ```
//!
//! ```compile_fail,E0277
//! # use waywire::{Server, Sizes, Tables};
//! # let tables = Tables::core().unwrap();
//! # let server = Server::new(&tables, &Sizes::default()).unwrap();
//! std::thread::scope(|threads| {
//!     threads.spawn(|| server.in_room());
//! });
//! ```

#![deny(unsafe_code, unsafe_op_in_unsafe_fn, clippy::undocumented_unsafe_blocks)]

#[cfg(not(all(target_os = "linux", target_arch = "x86_64", target_pointer_width = "64")))]
compile_error!("waywire is for Linux on x86-64");

// The generated modules name this package as a user's do.
extern crate self as waywire;

mod amounts;
mod args;
mod client;
mod connection;
#[rustfmt::skip]
pub mod data_device;
mod decoded;
mod error;
mod inspector;
mod map;
mod owned;
mod report;
mod server;
pub mod socket;
#[allow(unsafe_code)]
mod sys;
mod tables;
pub mod typed;
#[rustfmt::skip]
pub mod wayland;
mod writer;

pub use amounts::{Amounts, Announced, Sizes};
pub use args::{Arg, Args, Fixed, Value, MAX_ARGS};
pub use client::Client;
pub use connection::{AsClient, AsServer, Connection, Waiting};
pub use decoded::{Decoded, Spelled};
pub use error::{
    Failed, Fault, FaultKind, GlobalError, InboxFull, NewError, NextError, NoMemory, SendError,
    TablesError, TooSmall, Unanswered,
};
pub use inspector::{
    Followed, Inspector, Judgement, Known, Made, Sender, UndeservedDelete, Verdict,
};
pub use map::{Key, ObjectMap};
pub use owned::{OwnedMessage, OwnedValue};
pub use report::{Event, Incoming, Message, Named, ProtocolError, Request};
pub use server::{Server, MOST_GLOBALS};
pub use tables::{ArgKind, Destroys, Interface, Object, Signature, Tables};
pub use typed::{EventHandler, Handle, Readable, RequestHandler};
pub use writer::{ClientWriter, ServerWriter, Writer};
