//! A service in small: reads a recorded pass from standard input, a script as docs/CONSOLE.md has it, and writes the
//! bytes that its drains hand over to standard output. A line that cannot be read, or that the seat refuses, is told
//! on standard error, and the pass goes on.

use operator_seat::{
    Dialect, Error, Event, Key, Layout, Leds, Modifiers, Named, Place, RawEvent, Request, Requests,
    Seat,
};
use std::io::{self, BufRead, Write};

fn key_named(word: &str) -> Option<Key<'_>> {
    if let Some((kind, rest)) = word.split_once(':') {
        return match kind {
            "text" => Some(Key::Composed(rest.as_bytes())),
            "phys" => Place::by_name(rest).map(Key::Physical),
            "numpad" => rest.parse().ok().map(Key::Numpad),
            "function" => rest.parse().ok().map(Key::Function),
            "raw" => rest.parse().ok().map(Key::RawCode),
            _ => None,
        };
    }
    if let Some(hex) = word.strip_prefix("U+") {
        return char::from_u32(u32::from_str_radix(hex, 16).ok()?).map(Key::Char);
    }
    let mut characters = word.chars();
    if let (Some(c), None) = (characters.next(), characters.next()) {
        return Some(Key::Char(c));
    }
    let named = match word {
        "Escape" | "Esc" => return Some(Key::Char('\x1b')),
        "Enter" | "Return" => return Some(Key::Char('\r')),
        "Tab" => return Some(Key::Char('\t')),
        "Backspace" => return Some(Key::Char('\x08')),
        "Delete" | "Del" => return Some(Key::Char('\x7f')),
        "Space" => return Some(Key::Char(' ')),
        "Up" => "UpArrow",
        "Down" => "DownArrow",
        "Left" => "LeftArrow",
        "Right" => "RightArrow",
        "PgUp" => "PageUp",
        "PgDn" => "PageDown",
        "Ins" => "Insert",
        other => other,
    };
    if let Some(digit) = named.strip_prefix("Numpad") {
        return digit.parse().ok().map(Key::Numpad);
    }
    if let Some(Ok(number)) = named.strip_prefix('F').map(str::parse) {
        return Some(Key::Function(number));
    }
    Named::by_name(named).map(Key::Named)
}

fn modifiers_named(word: &str) -> Option<Modifiers> {
    word.split('|').try_fold(Modifiers::NONE, |all, name| {
        let one = match name {
            "SHIFT" => Modifiers::SHIFT,
            "ALT" => Modifiers::ALT,
            "CTRL" => Modifiers::CTRL,
            "SUPER" => Modifiers::SUPER,
            _ => return None,
        };
        Some(all | one)
    })
}

fn event_of<'a>(mut words: impl Iterator<Item = &'a str>) -> Option<Event<'a>> {
    let mut event = Event::press(key_named(words.next()?)?);
    let mut raw_key = None;
    let mut raw_modifiers = Modifiers::NONE;
    let mut place = None;
    while let Some(word) = words.next() {
        match word {
            "release" => event.down = false,
            "caps" => event.leds = event.leds | Leds::CAPS_LOCK,
            "num" => event.leds = event.leds | Leds::NUM_LOCK,
            "on" => place = Some(Place::by_name(words.next()?)?),
            "raw" => raw_key = Some(key_named(words.next()?)?),
            word if raw_key.is_some() => raw_modifiers = modifiers_named(word)?,
            word => event.modifiers = modifiers_named(word)?,
        }
    }
    if raw_key.is_some() || place.is_some() {
        event.raw = Some(RawEvent {
            key: raw_key.unwrap_or(event.key),
            modifiers: if raw_key.is_some() {
                raw_modifiers
            } else {
                event.modifiers
            },
            leds: event.leds,
            place,
        });
    }
    Some(event)
}

enum Fault {
    Unreadable,
    Refused(Error),
}

impl From<Error> for Fault {
    fn from(error: Error) -> Fault {
        Fault::Refused(error)
    }
}

fn number<N: std::str::FromStr>(word: Option<&str>) -> Result<N, Fault> {
    word.and_then(|word| word.parse().ok())
        .ok_or(Fault::Unreadable)
}

struct Pass<O: Write> {
    seat: Seat,
    requests: Requests,
    out: O,
}

impl<O: Write> Pass<O> {
    fn ask(&mut self, request: Request) -> Result<(), Error> {
        match request {
            Request::Push(flags) => self.seat.push(flags),
            Request::Pop(count) => self.seat.pop(count as usize),
            Request::Set(flags, mode) => self.seat.set(flags, mode),
            Request::Query => self.seat.query().map(drop),
        }
    }

    fn line(&mut self, line: &str) -> Result<(), Fault> {
        let mut words = line.split_whitespace();
        match words.next() {
            None | Some("#") => {}
            Some("open") => {
                let (Some("ring"), Some(dialect), Some(layout)) =
                    (words.next(), words.next(), words.next())
                else {
                    return Err(Fault::Unreadable);
                };
                let dialect = if dialect == "frame" {
                    Dialect::Frames
                } else {
                    Dialect::Kitty
                };
                let layout = if layout == "bare" {
                    Layout::Bare
                } else {
                    Layout::Us
                };
                self.seat = Seat::open(layout, dialect);
            }
            Some("key") => {
                let event = event_of(words).ok_or(Fault::Unreadable)?;
                self.seat.key(&event)?;
            }
            Some("push") => self.seat.push(number(words.next())?)?,
            Some("pop") => self.seat.pop(number(words.next())?)?,
            Some("set") => {
                let flags = number(words.next())?;
                self.seat.set(flags, number(words.next())?)?;
            }
            Some("screen") => self.seat.screen(number(words.next())?)?,
            Some("query") => {
                self.seat.query()?;
            }
            Some("request") => {
                // The bytes after a misfit, or after a request that the seat refuses, are read too.
                let mut first = Ok(());
                for byte in words.next().unwrap_or("").replace("ESC", "\x1b").bytes() {
                    let asked = match self.requests.feed(byte) {
                        Ok(Some(request)) => self.ask(request),
                        Ok(None) => Ok(()),
                        Err(misfit) => Err(misfit),
                    };
                    first = first.and(asked);
                }
                first?;
            }
            Some("drain") => {
                let mut buffer = vec![0; number::<usize>(words.next())?.min(4096)];
                let count = self.seat.drain(&mut buffer)?;
                self.out
                    .write_all(&buffer[..count])
                    .expect("standard output takes the bytes");
            }
            Some(word) if word.starts_with('#') => {}
            Some(_) => return Err(Fault::Unreadable),
        }
        Ok(())
    }
}

fn main() -> io::Result<()> {
    let mut pass = Pass {
        seat: Seat::open(Layout::Us, Dialect::Kitty),
        requests: Requests::new(),
        out: io::stdout().lock(),
    };
    for (at, line) in io::stdin().lock().lines().enumerate() {
        match pass.line(&line?) {
            Ok(()) => {}
            Err(Fault::Unreadable) => eprintln!("{}: unreadable", at + 1),
            Err(Fault::Refused(error)) => eprintln!("{}: {error}", at + 1),
        }
    }
    pass.out.flush()
}
