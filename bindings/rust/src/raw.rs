//! The exports as they are: numbers, and bytes by pointer and length (docs/BINDING.md).

/// What a call answers: `refusal` is 0 where it was accepted, and `value` is then a count, else a place.
#[repr(C)]
#[derive(Clone, Copy, Debug, PartialEq, Eq)]
pub struct Answer {
    pub refusal: usize,
    pub value: usize,
}

#[repr(C)]
#[derive(Clone, Copy, Debug, Default, PartialEq, Eq)]
pub struct KeyNumbers {
    pub kind: u32,
    pub value: u32,
}

#[repr(C)]
#[derive(Clone, Copy, Debug, Default, PartialEq, Eq)]
pub struct RawNumbers {
    pub present: u32,
    pub key: KeyNumbers,
    pub modifiers: u32,
    pub leds: u32,
    pub place: u32,
}

#[repr(C)]
#[derive(Clone, Copy, Debug, Default, PartialEq, Eq)]
pub struct EventNumbers {
    pub key: KeyNumbers,
    pub modifiers: u32,
    pub leds: u32,
    pub down: u32,
    pub raw: RawNumbers,
}

/// What stands over the wire: the settings of both screens. Each call checks every number.
#[repr(C)]
#[derive(Clone, Copy, Debug, Default, PartialEq, Eq)]
pub struct Kept {
    pub layout: u32,
    pub dialect: u32,
    pub shown: u32,
    pub main_held: u32,
    pub alternate_held: u32,
    pub main: [u8; 8],
    pub alternate: [u8; 8],
}

/// A seat over a ring. Zeros are no state; `seat_ring_open` makes one of them.
#[repr(C)]
#[derive(Clone, Debug, PartialEq, Eq)]
pub struct RingState {
    pub kept: Kept,
    pub head: u32,
    pub count: u32,
    pub table: [u8; 4096],
}

/// A seat over a page, which is lent at each call.
#[repr(C)]
#[derive(Clone, Copy, Debug, Default, PartialEq, Eq)]
pub struct PageState {
    pub count: usize,
    pub kept: Kept,
}

#[repr(C)]
#[derive(Clone, Copy, Debug, Default, PartialEq, Eq)]
pub struct ReportNumbers {
    pub kind: u32,
    pub number: u32,
    pub shifted: u32,
    pub base: u32,
    pub sum: u32,
    pub direction: u32,
    pub last: u32,
    pub text: u32,
}

/// How far a request has come; zeros begin one.
#[repr(C)]
#[derive(Clone, Copy, Debug, Default, PartialEq, Eq)]
pub struct RequestState {
    pub stage: u32,
    pub number: u32,
    pub flags: u32,
}

#[repr(C)]
#[derive(Clone, Copy, Debug, Default, PartialEq, Eq)]
pub struct RequestNumbers {
    pub kind: u32,
    pub first: u32,
    pub second: u32,
}

extern "C" {
    pub fn seat_ring_open(state: *mut RingState, layout: u32, dialect: u32) -> Answer;
    pub fn seat_ring_key(
        state: *mut RingState,
        event: *const EventNumbers,
        text: *const u8,
        text_length: usize,
        raw_text: *const u8,
        raw_text_length: usize,
    ) -> Answer;
    pub fn seat_ring_push(state: *mut RingState, flags: u32) -> Answer;
    pub fn seat_ring_pop(state: *mut RingState, count: usize) -> Answer;
    pub fn seat_ring_set(state: *mut RingState, flags: u32, mode: u32) -> Answer;
    pub fn seat_ring_screen(state: *mut RingState, screen: usize) -> Answer;
    pub fn seat_ring_query(state: *mut RingState) -> Answer;
    pub fn seat_ring_drain(state: *mut RingState, buffer: *mut u8, length: usize) -> Answer;

    pub fn seat_page_open(
        state: *mut PageState,
        page: *mut u8,
        page_length: usize,
        layout: u32,
        dialect: u32,
    ) -> Answer;
    pub fn seat_page_key(
        state: *mut PageState,
        page: *mut u8,
        page_length: usize,
        event: *const EventNumbers,
        text: *const u8,
        text_length: usize,
        raw_text: *const u8,
        raw_text_length: usize,
    ) -> Answer;
    pub fn seat_page_push(
        state: *mut PageState,
        page: *mut u8,
        page_length: usize,
        flags: u32,
    ) -> Answer;
    pub fn seat_page_pop(
        state: *mut PageState,
        page: *mut u8,
        page_length: usize,
        count: usize,
    ) -> Answer;
    pub fn seat_page_set(
        state: *mut PageState,
        page: *mut u8,
        page_length: usize,
        flags: u32,
        mode: u32,
    ) -> Answer;
    pub fn seat_page_screen(
        state: *mut PageState,
        page: *mut u8,
        page_length: usize,
        screen: usize,
    ) -> Answer;
    pub fn seat_page_query(state: *mut PageState, page: *mut u8, page_length: usize) -> Answer;
    pub fn seat_page_drain(
        state: *mut PageState,
        page: *mut u8,
        page_length: usize,
        buffer: *mut u8,
        length: usize,
    ) -> Answer;

    pub fn seat_read(
        dialect: u32,
        given: *const u8,
        given_length: usize,
        text: *mut u32,
        text_length: usize,
        report: *mut ReportNumbers,
    ) -> Answer;
    pub fn seat_request_feed(
        reader: *mut RequestState,
        byte: u8,
        request: *mut RequestNumbers,
    ) -> Answer;
    pub fn seat_encode(
        layout: u32,
        dialect: u32,
        flags: u32,
        event: *const EventNumbers,
        text: *const u8,
        text_length: usize,
        raw_text: *const u8,
        raw_text_length: usize,
        out: *mut [u8; 512],
    ) -> Answer;
}
