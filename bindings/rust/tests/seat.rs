//! Expected bytes are those of the keyboard protocol's document and of docs/RULES.md, SEAT.md and FORMATS.md.

use operator_seat::raw::{Answer, EventNumbers, KeyNumbers, PageState, RingState};
use operator_seat::{
    encode, raw, read, Dialect, Error, Event, Key, Layout, Leds, Modifiers, Named, PageSeat, Place,
    RawEvent, Report, Request, Requests, Seat, Sequence,
};

fn refusal(number: usize) -> Error {
    Error { number, place: 0 }
}

fn kitty() -> Seat {
    Seat::open(Layout::Us, Dialect::Kitty)
}

/// The bytes of one event under these settings.
fn sent(flags: u32, event: &Event) -> Vec<u8> {
    let mut out = [0xaa; 512];
    let count = encode(Layout::Us, Dialect::Kitty, flags, event, &mut out).expect("a fair event");
    assert!(out[count..].iter().all(|b| *b == 0xaa), "the rest stays");
    let mut seat = kitty();
    seat.set(flags, 1).expect("listed settings");
    assert_eq!(seat.key(event), Ok(count));
    let mut drained = [0x55; 600];
    assert_eq!(seat.drain(&mut drained), Ok(count));
    assert!(
        drained[count..].iter().all(|b| *b == 0x55),
        "the rest stays"
    );
    assert_eq!(drained[..count], out[..count]);
    out[..count].to_vec()
}

fn with<'a>(key: Key<'a>, modifiers: Modifiers) -> Event<'a> {
    Event {
        modifiers,
        ..Event::press(key)
    }
}

fn lit(key: Key, leds: Leds) -> Event {
    Event {
        leds,
        ..Event::press(key)
    }
}

fn released(key: Key) -> Event {
    Event {
        down: false,
        ..Event::press(key)
    }
}

#[test]
fn function_keys() {
    assert_eq!(sent(1, &Event::press(Key::Function(5))), b"\x1b[15;1~");
    assert_eq!(sent(1, &Event::press(Key::Function(6))), b"\x1b[17;1~");
}

#[test]
fn reported_modifiers_are_those_of_the_raw_event() {
    let raw = RawEvent {
        key: Key::Named(Named::UpArrow),
        modifiers: Modifiers::SHIFT,
        leds: Leds::NONE,
        place: None,
    };
    let event = Event {
        raw: Some(raw),
        ..Event::press(Key::Named(Named::UpArrow))
    };
    assert_eq!(sent(1, &event), b"\x1b[1;2A");
}

#[test]
fn characters_under_their_settings() {
    assert_eq!(sent(0, &Event::press(Key::Char('\x1b'))), b"\x1b");
    assert_eq!(sent(1, &Event::press(Key::Char('\x1b'))), b"\x1b[27;1u");
    assert_eq!(sent(8, &Event::press(Key::Char('a'))), b"\x1b[97;1u");
    assert_eq!(
        sent(0, &with(Key::Char('a'), Modifiers::ALT | Modifiers::CTRL)),
        b"\x1b\x01"
    );
    assert_eq!(sent(0, &Event::press(Key::Char('\x7f'))), b"\x1b[3;1~");
    assert_eq!(sent(0, &Event::press(Key::Char('\x08'))), b"\x7f");
    assert_eq!(
        sent(5, &with(Key::Char('A'), Modifiers::CTRL | Modifiers::SHIFT)),
        b"\x1b[97:65;6u"
    );
}

#[test]
fn releases() {
    assert_eq!(sent(2, &released(Key::Char('\r'))), b"");
    assert_eq!(sent(10, &released(Key::Char('\r'))), b"\x1b[13;1:3u");
}

#[test]
fn keypad() {
    assert_eq!(
        sent(0, &lit(Key::Numpad(5), Leds::CAPS_LOCK)),
        b"\x1b[1;65E"
    );
    assert_eq!(
        sent(17, &lit(Key::Numpad(5), Leds::NUM_LOCK)),
        b"\x1b[57404;129;53u"
    );
}

#[test]
fn place_of_the_raw_event() {
    // Under settings 12 a character key tells the character of its place, where that is another.
    let raw = RawEvent {
        key: Key::Char('с'),
        modifiers: Modifiers::CTRL,
        leds: Leds::NONE,
        place: Some(Place::C),
    };
    let event = Event {
        raw: Some(raw),
        ..Event::press(Key::Char('с'))
    };
    // The document's example: Ctrl and the Cyrillic letter of code 1089 on the place of c.
    assert_eq!(sent(12, &event), b"\x1b[1089::99;5u");
}

#[test]
fn frames() {
    let mut out = [0; 512];
    let count = encode(
        Layout::Us,
        Dialect::Frames,
        0,
        &Event::press(Key::Char('a')),
        &mut out,
    );
    assert_eq!(count, Ok(8));
    assert_eq!(out[..8], [6, 0, 1, 0, 0x61, 0, 0, 0]);
    assert!(out[8..].iter().all(|b| *b == 0));
}

#[test]
fn the_bare_layout_leaves_capitals() {
    // Shift and A: the US layout's base of A is a, the bare layout's is A.
    let event = with(Key::Char('A'), Modifiers::SHIFT);
    let mut out = [0; 512];
    let count = encode(Layout::Us, Dialect::Kitty, 8, &event, &mut out).expect("a fair event");
    assert_eq!(out[..count], *b"\x1b[97;2u");
    let count = encode(Layout::Bare, Dialect::Kitty, 8, &event, &mut out).expect("a fair event");
    assert_eq!(out[..count], *b"\x1b[65;2u");
}

#[test]
fn faults_of_an_event_come_with_their_places() {
    let mut seat = kitty();
    let before = seat.state().clone();
    let private = Event::press(Key::Char('\u{e000}'));
    assert_eq!(seat.key(&private), Err(refusal(5)));
    assert_eq!(seat.key(&Event::press(Key::Function(36))), Err(refusal(6)));
    assert_eq!(seat.key(&Event::press(Key::Numpad(10))), Err(refusal(6)));
    assert_eq!(
        seat.key(&with(Key::Char('a'), Modifiers(1))),
        Err(refusal(6))
    );
    let torn = Event::press(Key::Composed(b"ab\xff"));
    assert_eq!(
        seat.key(&torn),
        Err(Error {
            number: 1,
            place: 2
        })
    );
    let fair = [b'a'; 32];
    assert_eq!(seat.key(&Event::press(Key::Composed(&fair))), Ok(0));
    let long = [b'a'; 33];
    let fault = Error {
        number: 7,
        place: 32,
    };
    assert_eq!(seat.key(&Event::press(Key::Composed(&long))), Err(fault));
    // A fault of the raw event, and one of the event itself before it.
    let raw = RawEvent {
        key: Key::Char('\u{f8ff}'),
        modifiers: Modifiers::NONE,
        leds: Leds::NONE,
        place: None,
    };
    let event = Event {
        raw: Some(raw),
        ..Event::press(Key::Char('a'))
    };
    assert_eq!(seat.key(&event), Err(refusal(5)));
    assert_eq!(*seat.state(), before);
    let mut out = [7; 512];
    assert_eq!(
        encode(Layout::Us, Dialect::Kitty, 0, &torn, &mut out),
        Err(Error {
            number: 1,
            place: 2
        })
    );
    assert_eq!(
        encode(
            Layout::Us,
            Dialect::Kitty,
            32,
            &Event::press(Key::Char('a')),
            &mut out
        ),
        Err(refusal(9))
    );
    assert_eq!(out, [7; 512]);
}

#[test]
fn unlisted_numbers_are_refused_and_change_nothing() {
    let mut seat = kitty();
    seat.push(31).expect("31 is listed");
    seat.query().expect("there is room");
    let before = seat.state().clone();
    assert_eq!(seat.push(32), Err(refusal(9)));
    assert_eq!(seat.push(u32::MAX), Err(refusal(9)));
    assert_eq!(seat.pop(0), Err(refusal(10)));
    assert_eq!(seat.set(32, 0), Err(refusal(9)));
    assert_eq!(seat.set(1, 0), Err(refusal(10)));
    assert_eq!(seat.set(1, 4), Err(refusal(10)));
    assert_eq!(seat.screen(2), Err(refusal(10)));
    assert_eq!(*seat.state(), before);
}

#[test]
fn settings_of_two_screens() {
    let mut seat = kitty();
    let mut out = [0; 16];
    let mut asked = |seat: &mut Seat| -> Vec<u8> {
        let count = seat.query().expect("there is room");
        assert_eq!(seat.drain(&mut out), Ok(count));
        out[..count].to_vec()
    };
    assert_eq!(asked(&mut seat), b"\x1b[?0u");
    seat.push(5).unwrap();
    seat.screen(1).unwrap();
    assert_eq!(asked(&mut seat), b"\x1b[?0u");
    seat.set(3, 1).unwrap();
    seat.set(8, 2).unwrap();
    seat.set(1, 3).unwrap();
    assert_eq!(asked(&mut seat), b"\x1b[?10u");
    seat.screen(0).unwrap();
    assert_eq!(asked(&mut seat), b"\x1b[?5u");
    // Of eight the oldest goes: a single 0 and the 5 do, and seven pops leave the oldest of those pushed after.
    for flags in 6..14 {
        seat.push(flags).unwrap();
    }
    seat.pop(7).unwrap();
    assert_eq!(asked(&mut seat), b"\x1b[?6u");
    seat.pop(usize::MAX).unwrap();
    assert_eq!(asked(&mut seat), b"\x1b[?0u");
}

#[test]
fn a_full_ring_refuses_and_goes_round() {
    let mut seat = kitty();
    let letter = Event::press(Key::Char('a'));
    // Settings 8 make the letter ESC [ 97 ; 1 u, seven bytes: 585 of them are 4095.
    seat.set(8, 1).unwrap();
    for _ in 0..585 {
        assert_eq!(seat.key(&letter), Ok(7));
    }
    assert_eq!(seat.key(&letter), Err(refusal(8)));
    assert_eq!(seat.query(), Err(refusal(8)));
    seat.set(0, 1).unwrap();
    assert_eq!(seat.key(&letter), Ok(1));
    assert_eq!(seat.waiting(), 4096);
    assert_eq!(seat.key(&letter), Err(refusal(8)));
    let mut out = [0; 5000];
    assert_eq!(seat.drain(&mut out[..4000]), Ok(4000));
    seat.set(8, 1).unwrap();
    for _ in 0..20 {
        assert_eq!(seat.key(&letter), Ok(7));
    }
    assert_eq!(seat.drain(&mut out), Ok(96 + 140));
    let mut wanted = b"\x1b[97;1u".repeat(585);
    wanted.push(b'a');
    wanted.extend(b"\x1b[97;1u".repeat(20));
    assert_eq!(out[..236], wanted[4000..]);
    assert_eq!(seat.drain(&mut out), Ok(0));
}

#[test]
fn a_page_is_filled_exactly() {
    let mut page = [0xee; 8];
    let mut seat = PageSeat::open(&mut page, Layout::Us, Dialect::Kitty);
    assert_eq!(seat.page(), [0xee; 8]);
    seat.set(8, 1).unwrap();
    let letter = Event::press(Key::Char('a'));
    assert_eq!(seat.key(&letter), Ok(7));
    assert_eq!(seat.page(), *b"\x1b[97;1u\xee");
    let kept = *seat.state();
    assert_eq!(seat.key(&letter), Err(refusal(8)));
    assert_eq!(*seat.state(), kept);
    assert_eq!(seat.page(), *b"\x1b[97;1u\xee");
    seat.set(0, 1).unwrap();
    assert_eq!(seat.key(&Event::press(Key::Char('z'))), Ok(1));
    assert_eq!(seat.page(), *b"\x1b[97;1uz");
    assert_eq!(seat.query(), Err(refusal(8)));
    // The remainder moves to the front, and the bytes behind it stay.
    let mut out = [0; 6];
    assert_eq!(seat.drain(&mut out[..5]), Ok(5));
    assert_eq!(out, *b"\x1b[97;\0");
    assert_eq!(seat.page(), *b"1uz7;1uz");
    assert_eq!(seat.waiting(), 3);
    assert_eq!(seat.push(32), Err(refusal(9)));
    assert_eq!(seat.pop(0), Err(refusal(10)));
    assert_eq!(seat.screen(2), Err(refusal(10)));
    assert_eq!(seat.drain(&mut out), Ok(3));
    assert_eq!(out, *b"1uz7;\0");
}

#[test]
fn no_state_is_trusted() {
    let letter = Event::press(Key::Char('a'));
    let good = {
        let mut seat = kitty();
        seat.push(5).unwrap();
        seat.key(&letter).unwrap();
        seat.state().clone()
    };
    let spoil: [fn(&mut RingState); 13] = [
        |s| s.kept.layout = 2,
        |s| s.kept.dialect = 2,
        |s| s.kept.shown = 2,
        |s| s.kept.main_held = 0,
        |s| s.kept.main_held = 9,
        |s| s.kept.alternate_held = 0,
        |s| s.kept.alternate_held = u32::MAX,
        |s| s.kept.main[7] = 32,
        |s| s.kept.alternate[0] = 255,
        |s| s.head = 4096,
        |s| s.head = u32::MAX,
        |s| s.count = 4097,
        |s| {
            *s = RingState {
                kept: Default::default(),
                head: 0,
                count: 0,
                table: [0; 4096],
            }
        },
    ];
    let mut out = [9; 16];
    for (at, spoiling) in spoil.iter().enumerate() {
        let mut state = good.clone();
        spoiling(&mut state);
        let mut seat = Seat::resume(state.clone());
        assert_eq!(seat.key(&letter), Err(refusal(25)), "{at}");
        assert_eq!(seat.push(1), Err(refusal(25)), "{at}");
        assert_eq!(seat.pop(1), Err(refusal(25)), "{at}");
        assert_eq!(seat.set(1, 1), Err(refusal(25)), "{at}");
        assert_eq!(seat.screen(1), Err(refusal(25)), "{at}");
        assert_eq!(seat.query(), Err(refusal(25)), "{at}");
        assert_eq!(seat.drain(&mut out), Err(refusal(25)), "{at}");
        assert_eq!(*seat.state(), state, "{at}");
    }
    assert_eq!(out, [9; 16]);
    // What was kept goes on: the letter under settings 5 is a text.
    let mut seat = Seat::resume(good);
    seat.query().unwrap();
    assert_eq!(seat.drain(&mut out), Ok(6));
    assert_eq!(out[..6], *b"a\x1b[?5u");

    let mut page = [0; 8];
    let mut state = *PageSeat::open(&mut page, Layout::Us, Dialect::Kitty).state();
    state.count = 9;
    let mut seat = PageSeat::resume(&mut page, state);
    assert_eq!(seat.query(), Err(refusal(25)));
    assert_eq!(seat.drain(&mut out), Err(refusal(25)));
    let mut seat = PageSeat::resume(&mut page, PageState::default());
    assert_eq!(seat.query(), Err(refusal(25)));
    assert_eq!(page, [0; 8]);
}

#[test]
fn numbers_that_stand_for_nothing() {
    let mut state = kitty().state().clone();
    let before = state.clone();
    let fair = EventNumbers {
        key: KeyNumbers { kind: 0, value: 97 },
        down: 1,
        ..EventNumbers::default()
    };
    let spoil: [fn(&mut EventNumbers); 9] = [
        |e| e.key.kind = 75,
        |e| e.key.kind = u32::MAX,
        |e| e.key.value = 0xd800,
        |e| e.key.value = 0x110000,
        |e| {
            e.key = KeyNumbers {
                kind: 3,
                value: 120,
            }
        },
        |e| e.down = 2,
        |e| e.raw.present = 2,
        |e| (e.raw.present, e.raw.place) = (1, 121),
        |e| (e.raw.present, e.raw.key.kind) = (1, 99),
    ];
    let none = [0u8; 0];
    let key = |state: &mut RingState, event: &EventNumbers| -> Answer {
        unsafe { raw::seat_ring_key(state, event, none.as_ptr(), 0, none.as_ptr(), 0) }
    };
    for (at, spoiling) in spoil.iter().enumerate() {
        let mut event = fair;
        spoiling(&mut event);
        assert_eq!(
            key(&mut state, &event),
            Answer {
                refusal: 26,
                value: 0
            },
            "{at}"
        );
        assert_eq!(state, before);
    }
    // Bits above those that a set has are bits without a name, and numbers above a byte are out of range.
    for spoiling in [
        (|e| e.modifiers = 1 << 16) as fn(&mut EventNumbers),
        |e| e.leds = 256,
        |e| {
            e.key = KeyNumbers {
                kind: 39,
                value: 256,
            }
        },
        |e| {
            e.key = KeyNumbers {
                kind: 46,
                value: 257,
            }
        },
    ] {
        let mut event = fair;
        spoiling(&mut event);
        assert_eq!(
            key(&mut state, &event),
            Answer {
                refusal: 6,
                value: 0
            }
        );
        assert_eq!(state, before);
    }
    let refused = Answer {
        refusal: 26,
        value: 0,
    };
    assert_eq!(unsafe { raw::seat_ring_open(&mut state, 2, 0) }, refused);
    assert_eq!(unsafe { raw::seat_ring_open(&mut state, 0, 2) }, refused);
    assert_eq!(state, before);
    let mut out = [7; 512];
    for (layout, dialect, kind) in [(2, 0, 0), (0, 2, 0), (0, 0, 75)] {
        let event = EventNumbers {
            key: KeyNumbers { kind, value: 97 },
            ..fair
        };
        let answer = unsafe {
            raw::seat_encode(
                layout,
                dialect,
                0,
                &event,
                none.as_ptr(),
                0,
                none.as_ptr(),
                0,
                &mut out,
            )
        };
        assert_eq!(answer, refused);
    }
    assert_eq!(out, [7; 512]);
    assert_eq!(
        key(&mut state, &fair),
        Answer {
            refusal: 0,
            value: 1
        }
    );
}

#[test]
fn reports_are_read() {
    let mut text = [0xaaaa; 4];
    let given = b"\x1b[57404;129;53urest";
    let five = Sequence {
        number: 57404,
        shifted: None,
        base: None,
        sum: 128,
        down: true,
        last: b'u',
        text: 1,
    };
    assert_eq!(
        read(Dialect::Kitty, given, &mut text),
        Ok((Report::Sequence(five), 15))
    );
    assert_eq!(text, [0x35, 0xaaaa, 0xaaaa, 0xaaaa]);
    let alternate = Sequence {
        number: 97,
        shifted: Some(65),
        base: None,
        sum: 5,
        down: true,
        last: b'u',
        text: 0,
    };
    assert_eq!(
        read(Dialect::Kitty, b"\x1b[97:65;6u", &mut []),
        Ok((Report::Sequence(alternate), 10))
    );
    assert_eq!(
        read(Dialect::Kitty, b"\x1b[?10u", &mut []),
        Ok((Report::Answer(10), 6))
    );
    assert_eq!(
        read(Dialect::Kitty, "é!".as_bytes(), &mut []),
        Ok((Report::Text('é'), 2))
    );
    assert_eq!(
        read(Dialect::Frames, &[6, 0, 1, 0, 0x61, 0, 0, 0], &mut []),
        Ok((Report::Text('a'), 8))
    );
    assert_eq!(
        read(Dialect::Kitty, b"\x1b[5740", &mut text),
        Err(refusal(11))
    );
    assert_eq!(read(Dialect::Kitty, b"\x1bx", &mut text), Err(refusal(12)));
    assert_eq!(read(Dialect::Kitty, given, &mut []), Err(refusal(13)));
    assert_eq!(text, [0x35, 0xaaaa, 0xaaaa, 0xaaaa]);
}

#[test]
fn requests_are_read_byte_by_byte() {
    let ended = |bytes: &[u8]| -> Vec<Result<Request, Error>> {
        let mut requests = Requests::new();
        bytes
            .iter()
            .filter_map(|b| requests.feed(*b).transpose())
            .collect()
    };
    assert_eq!(ended(b"\x1b[>5u"), [Ok(Request::Push(5))]);
    assert_eq!(
        ended(b"\x1b[>u\x1b[<u\x1b[<12u"),
        [
            Ok(Request::Push(0)),
            Ok(Request::Pop(1)),
            Ok(Request::Pop(12))
        ]
    );
    assert_eq!(
        ended(b"\x1b[=3;2u\x1b[=3u\x1b[=;u\x1b[?u"),
        [
            Ok(Request::Set(3, 2)),
            Ok(Request::Set(3, 1)),
            Ok(Request::Set(0, 1)),
            Ok(Request::Query)
        ]
    );
    assert_eq!(ended(b"\x1b[>65535u"), [Ok(Request::Push(65535))]);
    // A misfit starts over, and a misfit ESC begins a request. The last digit here makes the number too large.
    assert_eq!(ended(b"\x1b[>65536"), [Err(refusal(12))]);
    assert_eq!(
        ended(b"\x1b[>5\x1b[?u"),
        [Err(refusal(12)), Ok(Request::Query)]
    );
    // No number of the reader's state is trusted.
    for state in [
        raw::RequestState {
            stage: 8,
            number: 0,
            flags: 0,
        },
        raw::RequestState {
            stage: 4,
            number: 65537,
            flags: 0,
        },
        raw::RequestState {
            stage: 7,
            number: 0,
            flags: 65536,
        },
        raw::RequestState {
            stage: 0,
            number: 1,
            flags: 0,
        },
        raw::RequestState {
            stage: 6,
            number: 0,
            flags: 1,
        },
    ] {
        let mut kept = state;
        let mut request = raw::RequestNumbers {
            kind: 9,
            first: 9,
            second: 9,
        };
        let answer = unsafe { raw::seat_request_feed(&mut kept, b'u', &mut request) };
        assert_eq!(
            answer,
            Answer {
                refusal: 25,
                value: 0
            }
        );
        assert_eq!(kept, state);
        assert_eq!(request.kind, 9);
    }
}

#[test]
fn what_a_host_asks_reaches_the_seat() {
    let mut seat = kitty();
    let mut requests = Requests::new();
    for byte in b"\x1b[>8u\x1b[=1;2u\x1b[?u" {
        match requests.feed(*byte).expect("a fair request") {
            Some(Request::Push(flags)) => seat.push(flags).unwrap(),
            Some(Request::Pop(count)) => seat.pop(count as usize).unwrap(),
            Some(Request::Set(flags, mode)) => seat.set(flags, mode).unwrap(),
            Some(Request::Query) => assert_eq!(seat.query(), Ok(5)),
            None => {}
        }
    }
    let mut out = [0; 8];
    assert_eq!(seat.drain(&mut out), Ok(5));
    assert_eq!(out[..5], *b"\x1b[?9u");
}

#[test]
fn numbers_keep_the_order_of_the_variants() {
    assert!(Named::ALL
        .iter()
        .all(|key| Named::by_name(&format!("{key:?}")) == Some(*key)));
    assert_eq!(Place::ALL.len(), 120);
    assert!(Place::ALL
        .iter()
        .enumerate()
        .all(|(at, place)| *place as usize == at));
}
