//! Judges a session between a client and a server while it goes on.

use crate::decoded::Decoded;
use crate::error::{FaultKind, NewError, NoMemory};
use crate::sys;
use crate::tables::{Interface, Tables};
use std::fmt;
use waywire_sys as ffi;

/// Who sent a piece.
#[derive(Clone, Copy, Debug, PartialEq, Eq, Hash)]
pub enum Sender {
    /// The client: requests.
    Client,
    /// The server: events.
    Server,
}

/// Judges what passes between a client and a server, piece by piece, as it passes.
///
/// For the pieces so far, it says the same as the commands `waywire trace` and `waywire check` for a
/// recording of them. Its memory grows with the number of open objects and the bytes of messages that
/// are not whole yet, and not with the length of the session.
///
/// ```
/// # use waywire::{Inspector, Sender, Tables};
/// # fn main() -> Result<(), Box<dyn std::error::Error>> {
/// let tables = Tables::core()?;
/// let mut inspector = Inspector::new(&tables, Inspector::USUAL_LIMIT)?;
///
/// // wl_display.sync with the new id 2, in two pieces.
/// inspector.pass(Sender::Client, &[1, 0, 0, 0, 0, 0], 0)?;
/// assert_eq!(inspector.lines(), b"");
/// inspector.pass(Sender::Client, &[12, 0, 2, 0, 0, 0], 0)?;
/// assert_eq!(inspector.lines(), b"-> wl_display@1.sync(new id wl_callback@2)\n");
/// let verdict = inspector.verdict()?;
/// assert_eq!(verdict.to_string(), "lawful: 1 requests, 0 events, 0 and 0 bytes left");
///
/// // Nothing has the id 9.
/// inspector.pass(Sender::Client, &[9, 0, 0, 0, 0, 0, 8, 0], 0)?;
/// let verdict = inspector.verdict()?;
/// assert!(verdict.is_broken());
/// assert_eq!(verdict.to_string(), "broken: > message 2 at byte 12: F2 unknown object");
/// # Ok(())
/// # }
/// ```
///
/// The lines are lent until the next piece or verdict. Keeping them longer does not compile:
///
/// ```compile_fail,E0502
/// # use waywire::{Inspector, Sender, Tables};
/// # let tables = Tables::core().unwrap();
/// # let mut inspector = Inspector::new(&tables, Inspector::USUAL_LIMIT).unwrap();
/// let lines = inspector.lines();
/// inspector.pass(Sender::Server, &[], 0);
/// drop(lines);
/// ```
///
/// # Following
///
/// Apart from judging, an inspector follows the messages one by one, also those after a message that
/// breaks a rule, and those of interfaces that the tables lack. It guesses nothing: if a message could
/// not be read, and may have put another object at an id, nothing is known of that id from then on.
/// For each piece call [`pass`](Inspector::pass) and [`follow`](Inspector::follow), and then
/// [`ahead`](Inspector::ahead) and [`go_past`](Inspector::go_past) until no message is in front.
///
/// ```
/// # use waywire::{Inspector, Sender, Spelled, Tables};
/// # fn main() -> Result<(), Box<dyn std::error::Error>> {
/// # let tables = Tables::core()?;
/// # let mut inspector = Inspector::new(&tables, Inspector::USUAL_LIMIT)?;
/// // A request for an object that never was, and wl_display.sync with the new id 2.
/// let piece = [9, 0, 0, 0, 0, 0, 8, 0, 1, 0, 0, 0, 0, 0, 12, 0, 2, 0, 0, 0];
/// inspector.pass(Sender::Client, &piece, 0)?;
/// inspector.follow(Sender::Client, &piece)?;
/// let mut names = Vec::new();
/// while let Some(message) = inspector.ahead(Sender::Client) {
///     names.push(message.decoded().map(|it| it.name().to_string()));
///     inspector.go_past(Sender::Client)?;
/// }
/// assert_eq!(names, [None, Some("sync".to_string())]);
/// assert_eq!(inspector.judged_count(), 0);
/// let callback = inspector.object(2).expect("it is made");
/// assert_eq!((callback.birth, tables.name(callback.interface)), (2, Some("wl_callback")));
/// # Ok(())
/// # }
/// ```
#[derive(Debug)]
pub struct Inspector(sys::Inspector);

impl Inspector {
    /// The limit unless both ends use another: the default of a [`Client`](crate::Client) and a
    /// [`Server`](crate::Server).
    pub const USUAL_LIMIT: u32 = ffi::WAYWIRE_USUAL_LIMIT;

    /// An inspector that has seen nothing.
    ///
    /// `limit` is the length of the longest message in bytes, with its header: a multiple of 4 from
    /// 4,096 to 65,532. Any other limit is [`NewError::BadSizes`].
    pub fn new(tables: &Tables, limit: u32) -> Result<Inspector, NewError> {
        sys::Inspector::new(&tables.0, limit).map(Inspector)
    }

    /// Judges the messages that a piece completes. A piece is some bytes of a sender, cut anywhere, and
    /// the number of descriptors that came with them.
    ///
    /// After a message that breaks a rule, or a wl_display.error, nothing more is judged and no line is
    /// printed. If memory runs out, pass the piece again.
    pub fn pass(&mut self, sender: Sender, bytes: &[u8], tokens: usize) -> Result<(), NoMemory> {
        self.0.pass(sender, bytes, tokens)
    }

    /// The lines of the messages that the last piece completed, each ended by a line feed. Before the
    /// first piece there are none. A message that breaks a rule has no line.
    pub fn lines(&self) -> &[u8] {
        self.0.lines()
    }

    /// The verdict on all pieces so far.
    pub fn verdict(&mut self) -> Result<Verdict<'_>, NoMemory> {
        let (line, is_broken) = self.0.verdict()?;
        Ok(Verdict { line, is_broken })
    }

    /// The verdict on all pieces so far, in parts.
    pub fn judgement(&self) -> Judgement {
        self.0.judgement()
    }

    /// How many messages were judged, in both directions. All of them are lawful, and they are the first
    /// ones that passed.
    pub fn judged_count(&self) -> u64 {
        self.0.judged_count()
    }

    /// The first judged wl_display.delete_id that nothing asked for. If there is one, a request that
    /// breaks a rule after it may be the server's fault.
    pub fn undeserved(&self) -> Option<UndeservedDelete> {
        self.0.undeserved()
    }

    /// Takes the bytes of a piece. They follow the bytes of the same sender that
    /// [`go_past`](Inspector::go_past) has not passed yet.
    pub fn follow(&mut self, sender: Sender, bytes: &[u8]) -> Result<(), NoMemory> {
        self.0.follow(sender, bytes)
    }

    /// The message in front of a sender's bytes, as soon as it is whole, or its header has a size that
    /// no message may have.
    pub fn ahead(&self, sender: Sender) -> Option<Followed<'_>> {
        self.0.ahead(sender).map(Followed)
    }

    /// Goes past that message, if one is there: what it makes, destroys and frees is known from then
    /// on. After a message of a bad size, no more messages of its sender are found. If memory runs out,
    /// nothing has changed.
    pub fn go_past(&mut self, sender: Sender) -> Result<(), NoMemory> {
        self.0.go_past(sender)
    }

    /// What is known of an id, after the messages that [`go_past`](Inspector::go_past) has passed.
    pub fn object(&self, id: u32) -> Option<Known> {
        self.0.object(id)
    }

    /// How many ids of a sender may be known: of the client, the ids below this number; of the server,
    /// this many ids from 0xff000000 on. No other id is known.
    pub fn id_count(&self, maker: Sender) -> usize {
        self.0.id_count(maker)
    }

    /// The newest version in which a global of this name was announced with this interface; the
    /// interface `None` stands for all interfaces that the tables lack.
    pub fn announced(&self, name: u32, interface: Option<Interface>) -> Option<u32> {
        Some(self.0.announced(name, interface)).filter(|&version| version != 0)
    }
}

/// A verdict in parts.
#[derive(Clone, Copy, Debug, PartialEq, Eq)]
pub enum Judgement {
    /// No message breaks a rule.
    Lawful {
        /// How many requests were judged.
        requests: usize,
        /// How many events were judged.
        events: usize,
        /// Bytes of the client after its last judged message.
        left_to_server: usize,
        /// Bytes of the server after its last judged message.
        left_to_client: usize,
    },
    /// A message breaks a rule.
    Broken {
        /// Who sent it.
        sender: Sender,
        /// Its number among those of its sender, from 1.
        index: usize,
        /// Where it begins in the bytes of its sender.
        offset: usize,
        /// The rule.
        fault: FaultKind,
    },
}

/// A delete_id that nothing asked for: its object was not ending and no event of its interface ends it,
/// or its id had no object. The rules allow it.
#[derive(Clone, Copy, Debug, PartialEq, Eq)]
pub struct UndeservedDelete {
    /// The number of the message among those of both directions, from 1.
    pub number: u64,
    /// The id that it takes back.
    pub id: u32,
}

/// What is known of an id.
#[derive(Clone, Copy, Debug, PartialEq, Eq)]
pub struct Known {
    /// The number of the message that made the object; 0 for wl_display.
    pub birth: u64,
    /// The object's interface.
    pub interface: Interface,
    /// Its version.
    pub version: u32,
    /// Whether it was destroyed while its id is not free yet.
    pub is_ending: bool,
}

/// An object that a message makes.
#[derive(Clone, Copy, Debug, PartialEq, Eq)]
pub struct Made {
    /// Its id.
    pub id: u32,
    /// Its interface.
    pub interface: Interface,
    /// Its version.
    pub version: u32,
}

/// A message that an inspector follows: lent from it.
#[derive(Clone, Copy, Debug)]
pub struct Followed<'a>(sys::Followed<'a>);

impl<'a> Followed<'a> {
    /// Who sent it.
    pub fn sender(&self) -> Sender {
        self.0.sender()
    }

    /// Its number among the messages of both senders, from 1. It was judged if
    /// [`judged_count`](Inspector::judged_count) is at least this.
    pub fn number(&self) -> u64 {
        self.0.number()
    }

    /// Its number among those of its sender, from 1, as in a verdict.
    pub fn index(&self) -> usize {
        self.0.index()
    }

    /// Where it begins in the bytes of its sender.
    pub fn offset(&self) -> usize {
        self.0.offset()
    }

    /// Its bytes. If its size is one that no message may have, all bytes that came.
    pub fn bytes(&self) -> &'a [u8] {
        self.0.bytes()
    }

    /// The id of the object that it is for.
    pub fn target(&self) -> u32 {
        self.0.target()
    }

    /// Which message of its target's interface it is.
    pub fn opcode(&self) -> u16 {
        self.0.opcode()
    }

    /// The length of the whole message in bytes, as its header says.
    pub fn size(&self) -> u16 {
        self.0.size()
    }

    /// The object that it is for, as known before the message.
    pub fn object(&self) -> Option<Known> {
        self.0.object()
    }

    /// Whether its object is known, the tables have the message, and it names only known objects.
    pub fn is_read(&self) -> bool {
        self.0.is_read()
    }

    /// The object that it makes.
    pub fn made(&self) -> Option<Made> {
        self.0.made()
    }

    /// The id of the object that it destroys, or may have destroyed.
    pub fn destroyed(&self) -> Option<u32> {
        self.0.destroyed()
    }

    /// The id that it frees, if it is a wl_display.delete_id.
    pub fn deleted(&self) -> Option<u32> {
        self.0.deleted()
    }

    /// How many descriptors it has, if it was read.
    pub fn descriptor_count(&self) -> usize {
        self.0.descriptor_count()
    }

    /// The message with its name and its arguments, decoded with the inspector's tables and what is
    /// known of its object. `None` if nothing is known of the object.
    pub fn decoded(&self) -> Option<Decoded<'a>> {
        self.0.decoded().map(Decoded)
    }
}

/// The verdict on a session as a text, lent from its inspector.
///
/// It is displayed without the line feed.
#[derive(Clone, Copy, Debug, PartialEq, Eq)]
pub struct Verdict<'a> {
    line: &'a [u8],
    is_broken: bool,
}

impl<'a> Verdict<'a> {
    /// The line that `waywire check` prints, ended by a line feed.
    pub fn line(&self) -> &'a [u8] {
        self.line
    }

    /// Whether a message breaks a rule; the line names that rule.
    pub fn is_broken(&self) -> bool {
        self.is_broken
    }
}

impl fmt::Display for Verdict<'_> {
    fn fmt(&self, f: &mut fmt::Formatter<'_>) -> fmt::Result {
        f.write_str(String::from_utf8_lossy(self.line).trim_end())
    }
}
