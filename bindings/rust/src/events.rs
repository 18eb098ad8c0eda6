//! Key events, and the numbers that they cross as.

use crate::numbered::{Named, Place};
use crate::raw::{EventNumbers, KeyNumbers, RawNumbers};
use std::ops::BitOr;

/// A key by what it means.
#[derive(Clone, Copy, Debug, PartialEq, Eq)]
pub enum Key<'a> {
    /// The decoded character. Backspace is U+0008, Tab U+0009, Enter U+000D, Escape U+001B, Delete U+007F.
    Char(char),
    /// Text from an input method: bytes that should be UTF-8, of at most 32 characters.
    Composed(&'a [u8]),
    /// A code that only the operating system knows.
    RawCode(u32),
    Physical(Place),
    /// A digit of the keypad, 0 to 9.
    Numpad(u8),
    /// A function key, 1 to 35.
    Function(u8),
    Named(Named),
}

impl<'a> Key<'a> {
    fn numbers(self) -> KeyNumbers {
        let (kind, value) = match self {
            Key::Char(c) => (0, u32::from(c)),
            Key::Composed(_) => (1, 0),
            Key::RawCode(code) => (2, code),
            Key::Physical(place) => (3, place as u32),
            Key::Numpad(digit) => (39, u32::from(digit)),
            Key::Function(number) => (46, u32::from(number)),
            Key::Named(named) => (named as u32, 0),
        };
        KeyNumbers { kind, value }
    }

    /// The text that crosses beside the numbers, which only a composed key has.
    pub fn text(self) -> &'a [u8] {
        match self {
            Key::Composed(text) => text,
            _ => &[],
        }
    }
}

/// Modifier keys that are held, as bits.
#[derive(Clone, Copy, Debug, Default, PartialEq, Eq)]
pub struct Modifiers(pub u16);

impl Modifiers {
    pub const NONE: Modifiers = Modifiers(0);
    pub const SHIFT: Modifiers = Modifiers(1 << 1);
    pub const ALT: Modifiers = Modifiers(1 << 2);
    pub const CTRL: Modifiers = Modifiers(1 << 3);
    pub const SUPER: Modifiers = Modifiers(1 << 4);
    pub const LEFT_ALT: Modifiers = Modifiers(1 << 5);
    pub const RIGHT_ALT: Modifiers = Modifiers(1 << 6);
    pub const LEADER: Modifiers = Modifiers(1 << 7);
    pub const LEFT_CTRL: Modifiers = Modifiers(1 << 8);
    pub const RIGHT_CTRL: Modifiers = Modifiers(1 << 9);
    pub const LEFT_SHIFT: Modifiers = Modifiers(1 << 10);
    pub const RIGHT_SHIFT: Modifiers = Modifiers(1 << 11);
    pub const ENHANCED_KEY: Modifiers = Modifiers(1 << 12);
}

impl BitOr for Modifiers {
    type Output = Modifiers;

    fn bitor(self, other: Modifiers) -> Modifiers {
        Modifiers(self.0 | other.0)
    }
}

/// Lights that are on, as bits.
#[derive(Clone, Copy, Debug, Default, PartialEq, Eq)]
pub struct Leds(pub u8);

impl Leds {
    pub const NONE: Leds = Leds(0);
    pub const CAPS_LOCK: Leds = Leds(1 << 1);
    pub const NUM_LOCK: Leds = Leds(1 << 2);
}

impl BitOr for Leds {
    type Output = Leds;

    fn bitor(self, other: Leds) -> Leds {
        Leds(self.0 | other.0)
    }
}

/// The event before any dead key or input method had it.
#[derive(Clone, Copy, Debug, PartialEq, Eq)]
pub struct RawEvent<'a> {
    pub key: Key<'a>,
    pub modifiers: Modifiers,
    pub leds: Leds,
    pub place: Option<Place>,
}

#[derive(Clone, Copy, Debug, PartialEq, Eq)]
pub struct Event<'a> {
    pub key: Key<'a>,
    pub modifiers: Modifiers,
    pub leds: Leds,
    pub down: bool,
    pub raw: Option<RawEvent<'a>>,
}

impl<'a> Event<'a> {
    /// A press with no modifiers, no lights and no raw event.
    pub fn press(key: Key<'a>) -> Event<'a> {
        Event {
            key,
            modifiers: Modifiers::NONE,
            leds: Leds::NONE,
            down: true,
            raw: None,
        }
    }

    /// The numbers that it crosses as. The texts of its key and of its raw key cross beside them.
    pub fn numbers(&self) -> EventNumbers {
        EventNumbers {
            key: self.key.numbers(),
            modifiers: u32::from(self.modifiers.0),
            leds: u32::from(self.leds.0),
            down: u32::from(self.down),
            raw: match self.raw {
                None => RawNumbers::default(),
                Some(raw) => RawNumbers {
                    present: 1,
                    key: raw.key.numbers(),
                    modifiers: u32::from(raw.modifiers.0),
                    leds: u32::from(raw.leds.0),
                    place: raw.place.map_or(0, |place| place as u32 + 1),
                },
            },
        }
    }

    /// The text of its raw key.
    pub fn raw_text(&self) -> &'a [u8] {
        match self.raw {
            Some(raw) => raw.key.text(),
            None => &[],
        }
    }
}
