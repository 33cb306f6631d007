//! The messages of a recording, followed by an inspector with all tables and with few.

mod common;

use common::repository;
use std::fs;
use waywire::{FaultKind, Followed, Inspector, Judgement, Sender, Spelled, Tables};

/// A session with a clipboard, in which the server makes objects.
const RECORDING: &str = "examples/copy_and_paste.rec";
const TEXTS: [&str; 3] = ["xdg-shell", "xdg-output", "data-device"];
const FIRST_SERVER_ID: u32 = 0xff00_0000;

fn tables_of(names: &[&str]) -> Tables {
    names.iter().fold(Tables::core().unwrap(), |tables, name| {
        let path = repository().join(format!("protocols/{name}.tables"));
        tables.read(&fs::read(path).unwrap()).unwrap()
    })
}

/// A piece: who sent it, its bytes, and how many descriptors came with it.
type Piece = (Sender, Vec<u8>, usize);

fn pieces() -> Vec<Piece> {
    let text = fs::read_to_string(repository().join(RECORDING)).unwrap();
    let lines = text.lines().filter(|line| line.starts_with(['>', '<']));
    lines
        .map(|line| {
            let mut words = line.split(' ');
            let sender = if words.next() == Some(">") { Sender::Client } else { Sender::Server };
            let digits = words.next().unwrap().as_bytes().chunks(2);
            let bytes = digits.map(|it| std::str::from_utf8(it).unwrap());
            let bytes = bytes.map(|it| u8::from_str_radix(it, 16).unwrap()).collect();
            let count = words.next().map_or(0, |it| it[1..].parse().unwrap());
            (sender, bytes, count)
        })
        .collect()
}

/// The beginning of a message's line in a trace, as far as it is known.
fn front_of(tables: &Tables, message: &Followed<'_>) -> String {
    let arrow = if message.sender() == Sender::Client { "->" } else { "<-" };
    let interface = message.object().and_then(|it| tables.name(it.interface));
    let name = message.decoded().filter(|it| it.fault().is_none()).map(|it| it.name());
    let named = name.map_or(String::new(), |it| format!(".{it}("));
    format!("{arrow} {}@{}{named}", interface.unwrap_or("unknown"), message.target())
}

/// Passes and follows a piece, and hands on what is in front with the inspector.
fn give(
    inspector: &mut Inspector,
    (sender, bytes, count): &Piece,
    mut each: impl FnMut(&Inspector, Followed<'_>),
) {
    inspector.pass(*sender, bytes, *count).unwrap();
    inspector.follow(*sender, bytes).unwrap();
    while let Some(message) = inspector.ahead(*sender) {
        each(inspector, message);
        inspector.go_past(*sender).unwrap();
    }
}

#[test]
fn judged_messages_are_followed_as_they_are_printed() {
    let tables = tables_of(&TEXTS);
    let mut inspector = Inspector::new(&tables, Inspector::USUAL_LIMIT).unwrap();
    let (mut number, mut made_by_server, mut offsets) = (0, 0, [0; 2]);
    for piece in pieces() {
        let mut fronts = Vec::new();
        give(&mut inspector, &piece, |inspector, message| {
            number += 1;
            assert_eq!(message.number(), number);
            assert!(message.is_read() && number <= inspector.judged_count());
            assert_eq!(message.bytes().len(), usize::from(message.size()));
            let offset = &mut offsets[usize::from(message.sender() == Sender::Server)];
            assert_eq!(message.offset(), *offset);
            *offset += message.bytes().len();
            let decoded = message.decoded().unwrap();
            assert_eq!((decoded.target(), decoded.opcode()), (message.target(), message.opcode()));
            let fds = decoded.args().filter(|it| *it == Spelled::Fd).count();
            assert_eq!(fds, message.descriptor_count());
            made_by_server += u32::from(message.made().is_some_and(|it| it.id >= FIRST_SERVER_ID));
            fronts.push(front_of(&tables, &message));
        });
        let lines = String::from_utf8(inspector.lines().to_vec()).unwrap();
        assert_eq!(lines.lines().count(), fronts.len());
        for (line, front) in lines.lines().zip(&fronts) {
            assert!(line.starts_with(front), "{line}, not {front}");
        }
    }
    assert!(made_by_server > 1);
    let Judgement::Lawful { requests, events, left_to_server: 0, left_to_client: 0 } =
        inspector.judgement()
    else {
        panic!("{:?}", inspector.judgement());
    };
    assert_eq!((requests + events) as u64, number);
}

/// The newest objects, by id and birth, and what is announced.
#[test]
fn objects_are_known_until_they_are_freed() {
    let tables = tables_of(&TEXTS);
    let mut inspector = Inspector::new(&tables, Inspector::USUAL_LIMIT).unwrap();
    let display = inspector.object(1).unwrap();
    assert_eq!((display.birth, tables.name(display.interface)), (0, Some("wl_display")));
    for piece in pieces() {
        let mut after = Vec::new();
        give(&mut inspector, &piece, |inspector, message| {
            if let Some(made) = message.made() {
                after.push((made.id, Some((message.number(), made.interface, made.version))));
            }
            if let Some(id) = message.destroyed() {
                assert!(inspector.object(id).is_some_and(|it| !it.is_ending));
            }
            after.extend(message.deleted().map(|id| (id, None)));
        });
        for (at, &(id, wanted)) in after.iter().enumerate() {
            if after[at + 1..].iter().all(|it| it.0 != id) {
                let known = inspector.object(id).map(|it| (it.birth, it.interface, it.version));
                assert_eq!(known, wanted, "{id}");
            }
        }
    }
    let count = inspector.id_count(Sender::Client) as u32;
    assert!(inspector.object(count).is_none() && inspector.object(count - 1).is_some());
    let server_count = inspector.id_count(Sender::Server) as u32;
    assert!(server_count > 0 && inspector.object(FIRST_SERVER_ID + server_count).is_none());
    let compositor = tables.interface("wl_compositor");
    assert_eq!(inspector.announced(1, compositor), Some(4));
    assert_eq!(inspector.announced(1, tables.interface("wl_shm")), None);
    assert_eq!(inspector.announced(1, None), None);
}

/// The core's tables lack what the client binds: the judging ends there, and the following goes on.
#[test]
fn what_is_not_judged_is_followed() {
    let (all, few) = (tables_of(&TEXTS), tables_of(&[]));
    let mut inspectors = [&all, &few].map(|it| Inspector::new(it, Inspector::USUAL_LIMIT).unwrap());
    let mut fronts = [Vec::new(), Vec::new()];
    for piece in pieces() {
        for (inspector, (fronts, tables)) in
            inspectors.iter_mut().zip(fronts.iter_mut().zip([&all, &few]))
        {
            give(inspector, &piece, |_, message| {
                fronts.push((front_of(tables, &message), message.target(), message.object()));
            });
        }
    }
    let [known, unjudged] = fronts;
    assert_eq!(known.len(), unjudged.len());
    let mut counts = [0; 2];
    for ((line, id, _), (front, its, object)) in known.iter().zip(&unjudged) {
        assert_eq!(id, its);
        let is_named = front.ends_with('(');
        assert!(if is_named { line == front } else { object.is_none() }, "{front}, not {line}");
        counts[usize::from(is_named)] += 1;
    }
    let judged = inspectors[1].judged_count();
    assert!(counts[0] > 0 && counts[1] > judged, "{counts:?}, {judged}");
    let Judgement::Broken { sender: Sender::Client, index, fault: FaultKind::BadBind, .. } =
        inspectors[1].judgement()
    else {
        panic!("{:?}", inspectors[1].judgement());
    };
    assert!(index as u64 <= judged + 1);
    assert!(inspectors[1].verdict().unwrap().is_broken());
}

/// If a header has a size that no message may have, the message has all bytes that came, and none follows it.
#[test]
fn a_bad_size_ends_a_direction() {
    let tables = tables_of(&[]);
    let mut inspector = Inspector::new(&tables, Inspector::USUAL_LIMIT).unwrap();
    let bytes = [1, 0, 0, 0, 0, 0, 6, 0, 9, 9];
    inspector.follow(Sender::Client, &bytes[..7]).unwrap();
    assert!(inspector.ahead(Sender::Client).is_none());
    inspector.follow(Sender::Client, &bytes[7..]).unwrap();
    let message = inspector.ahead(Sender::Client).unwrap();
    assert_eq!((message.bytes(), message.size(), message.is_read()), (&bytes[..], 6, false));
    assert_eq!(message.decoded().unwrap().fault(), Some(FaultKind::BadSize));
    inspector.go_past(Sender::Client).unwrap();
    inspector.follow(Sender::Client, &[1, 0, 0, 0, 0, 0, 12, 0, 2, 0, 0, 0]).unwrap();
    assert!(inspector.ahead(Sender::Client).is_none());
    assert!(inspector.ahead(Sender::Server).is_none());
}
