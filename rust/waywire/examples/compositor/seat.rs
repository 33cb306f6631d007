//! The keyboard and the pointer: which window has them, and what a script does with them.

use crate::client::{Client, ClientId, Session};
use crate::{Compositor, Failure, STEP};
use std::fs::File;
use std::io::{BufRead, BufReader};
use std::mem;
use std::path::Path;
use std::str::FromStr;
use std::time::Instant;
use waywire::wayland::wl_keyboard::{self, KeyState, KeymapFormat, WlKeyboard};
use waywire::wayland::wl_pointer::{self, ButtonState, WlPointer};
use waywire::wayland::wl_seat::{self, WlSeat};
use waywire::wayland::wl_surface::WlSurface;
use waywire::{Fixed, SendError, ServerWriter};

/// The keyboards and the pointers of a client.
#[derive(Default)]
pub struct Seat {
    keyboards: Vec<WlKeyboard>,
    pointers: Vec<WlPointer>,
    /// The surface that was entered last, until it is left. It may be gone.
    entered: Option<WlSurface>,
    /// The modifiers that are held down.
    modifiers: u32,
}

impl Compositor {
    /// Gives the keyboard and the pointer to a client's window. Before that, the client is told of
    /// the selection.
    pub fn focus_on(&mut self, id: ClientId) {
        self.take_focus();
        self.focus = Some(id);
        self.tell_selection_at_focus(id);
        let Session { link, client } = self.session(id);
        client.enter(link);
    }

    /// Takes them from the client that has them.
    fn take_focus(&mut self) {
        if let Some(session) = self.focus.take().and_then(|it| self.clients.get_mut(&it)) {
            session.client.leave(&session.link);
        }
    }

    /// Gives them to the newest client with a window, if the window that had them is gone.
    pub fn find_focus(&mut self) {
        let has_window = |id: &ClientId| self.clients.get(id).is_some_and(Session::has_window);
        if self.focus.is_some_and(|it| has_window(&it)) {
            return;
        }
        match self.clients.keys().rev().copied().find(has_window) {
            Some(id) => self.focus_on(id),
            None => self.take_focus(),
        }
    }
}

impl Session {
    fn has_window(&self) -> bool {
        self.client.window(&self.link).is_some()
    }
}

impl Client {
    fn enter(&mut self, server: &ServerWriter) {
        let Some(window) = self.window(server) else { return };
        self.seat.entered = Some(window.surface);
        for keyboard in self.seat.keyboards.clone() {
            self.enter_keyboard(server, keyboard);
        }
        for pointer in self.seat.pointers.clone() {
            self.enter_pointer(server, pointer);
        }
    }

    /// The surface that has the focus, if it is still there.
    fn entered(&self, server: &ServerWriter) -> Option<WlSurface> {
        self.seat.entered.filter(|it| server.live(it.0).is_some())
    }

    fn enter_keyboard(&mut self, server: &ServerWriter, keyboard: WlKeyboard) {
        let Some(surface) = self.entered(server) else { return };
        let (serial, modifiers) = (self.next_serial(), self.seat.modifiers);
        self.must(keyboard.send_enter(server, serial, surface, []));
        self.must(keyboard.send_modifiers(server, serial, modifiers, 0, 0, 0));
    }

    fn enter_pointer(&mut self, server: &ServerWriter, pointer: WlPointer) {
        let Some(surface) = self.entered(server) else { return };
        let (serial, at) = (self.next_serial(), Fixed::from(1.0));
        self.must(pointer.send_enter(server, serial, surface, at, at));
        self.must(pointer.send_frame(server));
    }

    fn leave(&mut self, server: &ServerWriter) {
        let entered = self.entered(server);
        self.seat.entered = None;
        let Some(surface) = entered else { return };
        let serial = self.next_serial();
        self.each_keyboard(|it| it.send_leave(server, serial, surface));
        self.each_pointer(server, |it| it.send_leave(server, serial, surface));
    }

    /// Sends an event to each keyboard.
    fn each_keyboard(&mut self, send: impl Fn(WlKeyboard) -> Result<(), SendError>) {
        for keyboard in self.seat.keyboards.clone() {
            self.must(send(keyboard));
        }
    }

    /// Sends an event to each pointer, and ends its frame.
    fn each_pointer(
        &mut self,
        server: &ServerWriter,
        send: impl Fn(WlPointer) -> Result<(), SendError>,
    ) {
        for pointer in self.seat.pointers.clone() {
            self.must(send(pointer));
            self.must(pointer.send_frame(server));
        }
    }
}

impl wl_seat::Requests for Client {
    fn get_keyboard(&mut self, server: &ServerWriter, _: WlSeat, keyboard: WlKeyboard) {
        self.seat.keyboards.push(keyboard);
        match File::open("/dev/null") {
            Ok(nothing) => {
                let kind = KeymapFormat::NO_KEYMAP;
                self.must(keyboard.send_keymap(server, kind, nothing, 0));
            }
            Err(error) => self.fail(error),
        }
        self.must(keyboard.send_repeat_info(server, 0, 0));
        self.enter_keyboard(server, keyboard);
    }

    fn get_pointer(&mut self, server: &ServerWriter, _: WlSeat, pointer: WlPointer) {
        self.seat.pointers.push(pointer);
        self.enter_pointer(server, pointer);
    }
}

impl wl_keyboard::Requests for Client {
    fn release(&mut self, _: &ServerWriter, keyboard: WlKeyboard) {
        self.seat.keyboards.retain(|it| *it != keyboard);
    }
}

impl wl_pointer::Requests for Client {
    fn set_cursor(
        &mut self,
        _: &ServerWriter,
        _: WlPointer,
        _: u32,
        _: Option<WlSurface>,
        _: i32,
        _: i32,
    ) {
        println!("a cursor");
    }

    fn release(&mut self, _: &ServerWriter, pointer: WlPointer) {
        self.seat.pointers.retain(|it| *it != pointer);
    }
}

/// A line of a script.
pub enum Line {
    Key(u32),
    Button(u32),
    Modifiers(u32),
    Motion(f64, f64),
    Close,
}

impl FromStr for Line {
    type Err = Failure;

    fn from_str(line: &str) -> Result<Line, Failure> {
        let words: Vec<&str> = line.split_whitespace().collect();
        Ok(match words[..] {
            ["key", code] => Line::Key(code.parse()?),
            ["button", code] => Line::Button(code.parse()?),
            ["modifiers", mask] => Line::Modifiers(mask.parse()?),
            ["motion", x, y] => Line::Motion(x.parse()?, y.parse()?),
            ["close"] => Line::Close,
            _ => return Err(format!("the script has {line:?}").into()),
        })
    }
}

/// A file with lines, which may grow.
pub struct Script {
    file: BufReader<File>,
    line: String,
    last: Instant,
}

impl Script {
    pub fn open(path: &Path) -> Result<Script, Failure> {
        let file = File::open(path).map_err(|why| format!("{}: {why}", path.display()))?;
        Ok(Script { file: BufReader::new(file), line: String::new(), last: Instant::now() })
    }

    /// The next line, if there is a whole one and a step has passed since the last.
    pub fn next_line(&mut self) -> Result<Option<Line>, Failure> {
        if self.last.elapsed() < STEP {
            return Ok(None);
        }
        self.last = Instant::now();
        self.file.read_line(&mut self.line)?;
        if !self.line.ends_with('\n') {
            return Ok(None);
        }
        mem::take(&mut self.line).parse().map(Some)
    }
}

impl Client {
    /// Plays a line at the client's window.
    pub fn play(&mut self, server: &ServerWriter, line: Line) {
        let (time, serial) = (self.milliseconds(), self.next_serial());
        match line {
            Line::Key(code) => {
                for state in [KeyState::PRESSED, KeyState::RELEASED] {
                    self.each_keyboard(|it| it.send_key(server, serial, time, code, state));
                }
            }
            Line::Button(code) => {
                for state in [ButtonState::PRESSED, ButtonState::RELEASED] {
                    self.each_pointer(server, |it| {
                        it.send_button(server, serial, time, code, state)
                    });
                }
            }
            Line::Modifiers(mask) => {
                self.seat.modifiers = mask;
                self.each_keyboard(|it| it.send_modifiers(server, serial, mask, 0, 0, 0));
            }
            Line::Motion(x, y) => {
                self.each_pointer(server, |it| it.send_motion(server, time, x.into(), y.into()));
            }
            Line::Close => {
                if let Some(window) = self.window(server) {
                    self.must(window.toplevel.send_close(server));
                }
            }
        }
    }
}
