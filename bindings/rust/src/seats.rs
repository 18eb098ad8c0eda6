//! Seats over a ring and over a page.
//!
//! Each call below lends the library references of Rust's, which are not null, aligned, valid for their length, and
//! apart from one another: all that the exports trust.

use crate::raw::{self, Kept, PageState, RingState};
use crate::{Dialect, Error, Event, Layout};

/// The seven calls of a seat: what each export takes first, and the exports.
macro_rules! calls {
    ($seat:ident: $($state:expr),+;
     $key:ident, $push:ident, $pop:ident, $set:ident, $screen:ident, $query:ident, $drain:ident) => {
        /// Tells of a key under the setting in force, and answers how many bytes that put on the wire.
        pub fn key(&mut $seat, event: &Event) -> Result<usize, Error> {
            let numbers = event.numbers();
            let text = event.key.text();
            let raw_text = event.raw_text();
            unsafe {
                raw::$key(
                    $($state,)+
                    &numbers,
                    text.as_ptr(),
                    text.len(),
                    raw_text.as_ptr(),
                    raw_text.len(),
                )
            }
            .counted()
        }

        /// One setting more on the shown screen.
        pub fn push(&mut $seat, flags: u32) -> Result<(), Error> {
            unsafe { raw::$push($($state,)+ flags) }.counted().map(drop)
        }

        /// So many settings less on the shown screen.
        pub fn pop(&mut $seat, count: usize) -> Result<(), Error> {
            unsafe { raw::$pop($($state,)+ count) }.counted().map(drop)
        }

        /// Changes the setting in force.
        pub fn set(&mut $seat, flags: u32, mode: u32) -> Result<(), Error> {
            unsafe { raw::$set($($state,)+ flags, mode) }.counted().map(drop)
        }

        /// Shows the main screen, 0, or the alternate one, 1.
        pub fn screen(&mut $seat, screen: usize) -> Result<(), Error> {
            unsafe { raw::$screen($($state,)+ screen) }.counted().map(drop)
        }

        /// Answers the setting in force.
        pub fn query(&mut $seat) -> Result<usize, Error> {
            unsafe { raw::$query($($state),+) }.counted()
        }

        /// Hands over the oldest bytes, to the front of the buffer, whose rest stays, and answers how many.
        pub fn drain(&mut $seat, buffer: &mut [u8]) -> Result<usize, Error> {
            unsafe { raw::$drain($($state,)+ buffer.as_mut_ptr(), buffer.len()) }.counted()
        }
    };
}

/// A seat over a ring of 4096 bytes of its own.
#[derive(Clone, Debug)]
pub struct Seat {
    state: Box<RingState>,
}

impl Seat {
    pub fn open(layout: Layout, dialect: Dialect) -> Seat {
        let mut state = Box::new(RingState {
            kept: Kept::default(),
            head: 0,
            count: 0,
            table: [0; 4096],
        });
        // The numbers are those of a layout and a dialect, so that the answer is no refusal.
        let answer = unsafe { raw::seat_ring_open(&mut *state, layout as u32, dialect as u32) };
        debug_assert_eq!(answer.refusal, 0);
        Seat { state }
    }

    /// Goes on from numbers that were kept of a seat. Numbers that are no seat's are refused, 25, by each call.
    pub fn resume(state: RingState) -> Seat {
        Seat {
            state: Box::new(state),
        }
    }

    pub fn state(&self) -> &RingState {
        &self.state
    }

    /// How many bytes wait.
    pub fn waiting(&self) -> usize {
        self.state.count as usize
    }

    calls!(self: &mut *self.state;
        seat_ring_key, seat_ring_push, seat_ring_pop, seat_ring_set, seat_ring_screen, seat_ring_query, seat_ring_drain);
}

/// A seat over a page that the caller lends for as long as the seat is there.
#[derive(Debug)]
pub struct PageSeat<'a> {
    state: PageState,
    page: &'a mut [u8],
}

impl<'a> PageSeat<'a> {
    pub fn open(page: &'a mut [u8], layout: Layout, dialect: Dialect) -> PageSeat<'a> {
        let mut state = PageState::default();
        // As at `Seat::open`, no refusal can come.
        let answer = unsafe {
            raw::seat_page_open(
                &mut state,
                page.as_mut_ptr(),
                page.len(),
                layout as u32,
                dialect as u32,
            )
        };
        debug_assert_eq!(answer.refusal, 0);
        PageSeat { state, page }
    }

    /// Goes on from numbers that were kept of a seat over this page.
    pub fn resume(page: &'a mut [u8], state: PageState) -> PageSeat<'a> {
        PageSeat { state, page }
    }

    pub fn state(&self) -> &PageState {
        &self.state
    }

    /// The page: what waits stands at its front.
    pub fn page(&self) -> &[u8] {
        self.page
    }

    pub fn waiting(&self) -> usize {
        self.state.count
    }

    calls!(self: &mut self.state, self.page.as_mut_ptr(), self.page.len();
        seat_page_key, seat_page_push, seat_page_pop, seat_page_set, seat_page_screen, seat_page_query, seat_page_drain);
}

/// Writes what one event sends under a setting to the front of `out`, whose rest stays, and answers how many bytes.
pub fn encode(
    layout: Layout,
    dialect: Dialect,
    flags: u32,
    event: &Event,
    out: &mut [u8; 512],
) -> Result<usize, Error> {
    let numbers = event.numbers();
    let text = event.key.text();
    let raw_text = event.raw_text();
    unsafe {
        raw::seat_encode(
            layout as u32,
            dialect as u32,
            flags,
            &numbers,
            text.as_ptr(),
            text.len(),
            raw_text.as_ptr(),
            raw_text.len(),
            out,
        )
    }
    .counted()
}
