//! The key events that are measured, in four classes, each once with no raw event and once with one. On all of them
//! both sides give the same bytes; docs/DIFFERENCES.md says of which events they do not.

use operator_seat::{Event, Key, Leds, Modifiers, Named, Place, RawEvent};

/// An event, and the settings in force.
#[derive(Clone, Copy)]
pub struct Case {
    pub flags: u32,
    pub event: Event<'static>,
}

pub struct Class {
    pub name: &'static str,
    pub cases: Vec<Case>,
}

impl Class {
    pub fn all() -> [Class; 8] {
        [
            Class::alone("plain", plain()),
            Class::alone("modified", modified()),
            Class::alone("function", function()),
            Class::alone("text", text()),
            Class::raw("plain-raw", plain()),
            Class::raw("modified-raw", modified()),
            Class::raw("function-raw", function()),
            Class::raw("text-raw", text()),
        ]
    }

    fn alone(name: &'static str, cases: Vec<Case>) -> Class {
        Class { name, cases }
    }

    fn raw(name: &'static str, cases: Vec<Case>) -> Class {
        let cases = cases.into_iter().map(|case| Case {
            event: raw_of(case.event),
            ..case
        });
        Class {
            name,
            cases: cases.collect(),
        }
    }

    pub fn named(name: &str) -> Option<Class> {
        Class::all().into_iter().find(|class| class.name == name)
    }
}

/// Each event under each of the settings.
fn under(settings: &[u32], events: &[Event<'static>]) -> Vec<Case> {
    let mut cases = Vec::new();
    for &flags in settings {
        cases.extend(events.iter().map(|&event| Case { flags, event }));
    }
    cases
}

/// The event with a raw event of the same key, as window systems give one.
fn raw_of(event: Event<'static>) -> Event<'static> {
    match event.raw {
        Some(_) => event,
        None => with_raw(event, event.key, None),
    }
}

fn with_raw(event: Event<'static>, key: Key<'static>, place: Option<Place>) -> Event<'static> {
    Event {
        raw: Some(RawEvent {
            key,
            modifiers: event.modifiers,
            leds: event.leds,
            place,
        }),
        ..event
    }
}

fn held(modifiers: Modifiers, key: Key<'static>) -> Event<'static> {
    Event {
        modifiers,
        ..Event::press(key)
    }
}

fn released(event: Event<'static>) -> Event<'static> {
    Event {
        down: false,
        ..event
    }
}

fn num_lit(event: Event<'static>) -> Event<'static> {
    Event {
        leds: Leds::NUM_LOCK,
        ..event
    }
}

fn plain() -> Vec<Case> {
    let events: Vec<Event> = "aetZQ70;/! éж"
        .chars()
        .map(|c| Event::press(Key::Char(c)))
        .collect();
    under(&[0, 1], &events)
}

fn modified() -> Vec<Case> {
    let control_alt = Modifiers::CTRL | Modifiers::ALT;
    let control_shift = Modifiers::CTRL | Modifiers::SHIFT;
    let events = [
        held(Modifiers::CTRL, Key::Char('a')),
        held(Modifiers::ALT, Key::Char('x')),
        held(control_shift, Key::Char('A')),
        held(Modifiers::SHIFT, Key::Named(Named::UpArrow)),
        held(control_alt, Key::Char('\x7f')),
        held(Modifiers::SHIFT, Key::Char('\t')),
        held(Modifiers::SUPER, Key::Char('k')),
        held(Modifiers::CTRL, Key::Char(' ')),
        held(Modifiers::ALT, Key::Char('\r')),
        held(Modifiers::CTRL, Key::Named(Named::LeftArrow)),
        held(control_alt, Key::Char('é')),
        held(Modifiers::ALT | Modifiers::SHIFT, Key::Char('?')),
        held(Modifiers::SHIFT, Key::Function(5)),
    ];
    let releases = [
        held(Modifiers::CTRL, Key::Char('c')),
        held(Modifiers::SUPER, Key::Named(Named::Home)),
    ]
    .map(released);
    let mut cases = under(&[1, 3, 5, 15], &events);
    cases.extend(under(&[3, 15], &releases));
    cases
}

fn function() -> Vec<Case> {
    let named = [
        Named::UpArrow,
        Named::DownArrow,
        Named::LeftArrow,
        Named::RightArrow,
        Named::Home,
        Named::End,
        Named::PageUp,
        Named::PageDown,
        Named::Insert,
        Named::Multiply,
        Named::Add,
        Named::Subtract,
        Named::Divide,
        Named::Decimal,
    ];
    let functions = (1..=24).map(|number| Event::press(Key::Function(number)));
    let named = named.map(|key| Event::press(Key::Named(key)));
    let digits = (0..=9).map(|digit| num_lit(Event::press(Key::Numpad(digit))));
    // On 5 without the light the two differ.
    let unlit = [0, 1, 2, 3, 4, 6, 7, 8, 9].map(|digit| Event::press(Key::Numpad(digit)));
    let releases = [
        Event::press(Key::Function(1)),
        Event::press(Key::Named(Named::UpArrow)),
        num_lit(Event::press(Key::Numpad(5))),
        Event::press(Key::Named(Named::PageUp)),
    ]
    .map(released);
    let events: Vec<Event> = functions.chain(named).chain(digits).chain(unlit).collect();
    let mut cases = under(&[1, 3, 31], &events);
    cases.extend(under(&[3, 31], &releases));
    cases
}

/// Text of an input method, with the Enter that confirmed it: without one nothing is sent.
fn composed(text: &'static str) -> Event<'static> {
    with_raw(
        Event::press(Key::Composed(text.as_bytes())),
        Key::Char('\r'),
        Some(Place::Return),
    )
}

fn text() -> Vec<Case> {
    let letters = [
        Event::press(Key::Char('a')),
        Event::press(Key::Char('z')),
        Event::press(Key::Char('7')),
        held(Modifiers::SHIFT, Key::Char('A')),
        held(Modifiers::SHIFT, Key::Char('!')),
    ];
    let under_both = [
        Event::press(Key::Char('é')),
        Event::press(Key::Char('ж')),
        Event::press(Key::Char(' ')),
        num_lit(Event::press(Key::Numpad(7))),
        composed("né"),
        composed("日本語"),
        composed("ação"),
        composed("hello"),
        composed("привет"),
        composed("naïveté"),
        composed("résumées"),
    ];
    // Under 24 the original sends ASCII letters, digits and marks as themselves.
    let mut cases = under(&[31], &letters);
    cases.extend(under(&[24, 31], &under_both));
    cases
}
