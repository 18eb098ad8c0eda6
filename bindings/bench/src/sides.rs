//! Both sides: each holds the events of a class in its own form, made before anything is measured.

use crate::classes::{Case, Class};
use operator_seat::raw::{self, EventNumbers};
use operator_seat::{Dialect, Event, Key, Layout, Leds, Modifiers, RawEvent};
use original::{
    Handled, KeyCode, KeyEvent, KeyboardLedStatus, KittyKeyboardFlags, PhysKeyCode, RawKeyEvent,
};
use std::hint::black_box;

/// One of the two ways from a class of events to their bytes.
pub trait Side {
    /// Encodes each event once.
    fn pass(&mut self);

    /// The bytes of the event at this place.
    fn bytes(&mut self, at: usize) -> Vec<u8>;
}

/// The two sides of a class, ours first.
pub fn both(class: &Class) -> [Box<dyn Side>; 2] {
    [Box::new(Exported::of(class)), Box::new(Original::of(class))]
}

pub fn assert_agreement(class: &Class) {
    let [mut ours, mut theirs] = both(class);
    for (at, case) in class.cases.iter().enumerate() {
        let (here, there) = (ours.bytes(at), theirs.bytes(at));
        let shown = [&here, &there].map(|bytes| bytes.escape_ascii().to_string());
        assert_eq!(shown[0], shown[1], "flags {}, {:?}", case.flags, case.event);
        assert!(
            !here.is_empty(),
            "silent: flags {}, {:?}",
            case.flags,
            case.event
        );
    }
}

struct Numbered {
    flags: u32,
    numbers: EventNumbers,
    text: &'static [u8],
    raw_text: &'static [u8],
}

/// The events as `seat_encode` takes them, and the row that it writes to.
pub struct Exported {
    cases: Vec<Numbered>,
    out: [u8; 512],
}

impl Exported {
    fn of(class: &Class) -> Exported {
        let numbered = |case: &Case| Numbered {
            flags: case.flags,
            numbers: case.event.numbers(),
            text: case.event.key.text(),
            raw_text: case.event.raw_text(),
        };
        Exported {
            cases: class.cases.iter().map(numbered).collect(),
            out: [0; 512],
        }
    }
}

impl Numbered {
    fn encode(&self, out: &mut [u8; 512]) -> usize {
        // References and slices, valid for their lengths and apart: all that the export trusts.
        let answer = unsafe {
            raw::seat_encode(
                Layout::Us as u32,
                Dialect::Kitty as u32,
                self.flags,
                &self.numbers,
                self.text.as_ptr(),
                self.text.len(),
                self.raw_text.as_ptr(),
                self.raw_text.len(),
                out,
            )
        };
        assert_eq!(answer.refusal, 0);
        answer.value
    }
}

impl Side for Exported {
    fn pass(&mut self) {
        for case in &self.cases {
            let count = black_box(case).encode(&mut self.out);
            black_box((count, &self.out));
        }
    }

    fn bytes(&mut self, at: usize) -> Vec<u8> {
        let count = self.cases[at].encode(&mut self.out);
        self.out[..count].to_vec()
    }
}

/// The events as the original has them.
pub struct Original {
    cases: Vec<(KittyKeyboardFlags, KeyEvent)>,
}

impl Original {
    fn of(class: &Class) -> Original {
        let typed = |case: &Case| {
            let flags = KittyKeyboardFlags::from_bits(case.flags as u16).expect("listed settings");
            (flags, key_event(&case.event))
        };
        Original {
            cases: class.cases.iter().map(typed).collect(),
        }
    }
}

impl Side for Original {
    fn pass(&mut self) {
        for case in &self.cases {
            let (flags, event) = black_box(case);
            black_box(event.encode_kitty(*flags));
        }
    }

    fn bytes(&mut self, at: usize) -> Vec<u8> {
        let (flags, event) = &self.cases[at];
        event.encode_kitty(*flags).into_bytes()
    }
}

fn key_code(key: Key) -> KeyCode {
    match key {
        Key::Char(c) => KeyCode::Char(c),
        Key::Composed(text) => {
            KeyCode::Composed(String::from_utf8(text.to_vec()).expect("the text is UTF-8"))
        }
        Key::RawCode(code) => KeyCode::RawCode(code),
        Key::Physical(place) => KeyCode::Physical(phys_key_code(place)),
        Key::Numpad(digit) => KeyCode::Numpad(digit),
        Key::Function(number) => KeyCode::Function(number),
        Key::Named(named) => {
            KeyCode::try_from(format!("{named:?}").as_str()).expect("the original has this name")
        }
    }
}

fn phys_key_code(place: operator_seat::Place) -> PhysKeyCode {
    PhysKeyCode::try_from(format!("{place:?}").as_str()).expect("the original has this name")
}

fn modifier_bits(modifiers: Modifiers) -> original::Modifiers {
    original::Modifiers::from_bits(modifiers.0).expect("named bits")
}

fn light_bits(leds: Leds) -> KeyboardLedStatus {
    KeyboardLedStatus::from_bits(leds.0).expect("named bits")
}

fn raw_key_event(raw: &RawEvent, down: bool) -> RawKeyEvent {
    RawKeyEvent {
        key: key_code(raw.key),
        modifiers: modifier_bits(raw.modifiers),
        leds: light_bits(raw.leds),
        phys_code: raw.place.map(phys_key_code),
        raw_code: 0,
        repeat_count: 1,
        key_is_down: down,
        handled: Handled::new(),
    }
}

fn key_event(event: &Event) -> KeyEvent {
    KeyEvent {
        key: key_code(event.key),
        modifiers: modifier_bits(event.modifiers),
        leds: light_bits(event.leds),
        repeat_count: 1,
        key_is_down: event.down,
        raw: event.raw.as_ref().map(|raw| raw_key_event(raw, event.down)),
    }
}
