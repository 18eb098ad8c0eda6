//! A seat over a ring: bytes that it hands over, beside as many that are only copied, and a key that it is told,
//! beside the same event with no seat.

use crate::timing;
use operator_seat::raw::{self, Answer, EventNumbers, RingState};
use operator_seat::{encode, Dialect, Event, Key, Layout, Seat};
use std::hint::black_box;

const ROOM: usize = 4096;

/// The numbers of a seat whose ring is full: longer reports as long as there is room, then single bytes.
fn full() -> RingState {
    let mut seat = Seat::open(Layout::Us, Dialect::Kitty);
    while seat.key(&Event::press(Key::Function(5))).is_ok() {}
    while seat.key(&Event::press(Key::Char('a'))).is_ok() {}
    assert_eq!(seat.waiting(), ROOM);
    seat.state().clone()
}

/// Takes all off the ring, a buffer's length at a time. The numbers before it are put back first, as a caller may: a
/// drain changes only the head and the count.
fn drain_all(state: &mut RingState, head: u32, buffer: &mut [u8]) {
    state.head = head;
    state.count = ROOM as u32;
    while state.count > 0 {
        let answer = unsafe { raw::seat_ring_drain(state, buffer.as_mut_ptr(), buffer.len()) };
        assert_eq!(answer.refusal, 0);
        black_box(&*buffer);
    }
}

fn copy_all(table: &[u8], buffer: &mut [u8]) {
    for piece in black_box(table).chunks_exact(buffer.len()) {
        buffer.copy_from_slice(piece);
        black_box(&*buffer);
    }
}

fn assert_drained(state: &RingState) {
    let mut drained = state.clone();
    let mut buffer = [0; ROOM];
    drain_all(&mut drained, 0, &mut buffer);
    assert_eq!(buffer, state.table);
}

/// Bytes a second of the ring's drain, and of a copy, for a buffer of this length and a ring whose oldest byte stands
/// at this place.
pub fn rates(length: usize, head: u32) -> [f64; 2] {
    let mut state = full();
    assert_drained(&state);
    let table = state.table;
    let (mut drained, mut copied) = (vec![0; length], vec![0; length]);
    timing::least([
        &mut || drain_all(&mut state, head, &mut drained),
        &mut || copy_all(&table, &mut copied),
    ])
    .map(|seconds| ROOM as f64 / seconds)
}

fn told(state: &mut RingState, event: &EventNumbers) -> Answer {
    let text: &[u8] = &[];
    unsafe { raw::seat_ring_key(state, event, text.as_ptr(), 0, text.as_ptr(), 0) }
}

/// The seconds of a key told to a seat over an empty ring, and of the same event encoded with no seat.
pub fn key_seconds() -> [f64; 2] {
    let event = Event::press(Key::Function(5));
    let numbers = event.numbers();
    let mut state = Seat::open(Layout::Us, Dialect::Kitty).state().clone();
    let mut out = [0; 512];
    timing::least([
        &mut || {
            state.count = 0;
            assert_eq!(told(&mut state, black_box(&numbers)).refusal, 0);
        },
        &mut || {
            let count = encode(Layout::Us, Dialect::Kitty, 0, black_box(&event), &mut out);
            assert!(count.is_ok());
            black_box(&out);
        },
    ])
}
