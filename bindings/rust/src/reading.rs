//! The readers of both dialects, and the reader of a host's requests.

use crate::raw::{self, ReportNumbers, RequestNumbers, RequestState};
use crate::{Dialect, Error};

/// A key with what goes along with it. Its text stands in the row that was lent to `read`.
#[derive(Clone, Copy, Debug, PartialEq, Eq)]
pub struct Sequence {
    pub number: u32,
    pub shifted: Option<u32>,
    pub base: Option<u32>,
    pub sum: u32,
    pub down: bool,
    /// The byte that ends it.
    pub last: u8,
    /// How many characters of text it has.
    pub text: usize,
}

/// A clear report.
#[derive(Clone, Copy, Debug, PartialEq, Eq)]
pub enum Report {
    Text(char),
    Sequence(Sequence),
    /// The setting in force.
    Answer(u32),
}

fn code(number: u32) -> Option<u32> {
    (number != u32::MAX).then_some(number)
}

impl Report {
    fn from_numbers(numbers: &ReportNumbers) -> Option<Report> {
        match numbers.kind {
            1 => char::from_u32(numbers.number).map(Report::Text),
            2 => Some(Report::Sequence(Sequence {
                number: numbers.number,
                shifted: code(numbers.shifted),
                base: code(numbers.base),
                sum: numbers.sum,
                down: numbers.direction == 1,
                last: numbers.last as u8,
                text: numbers.text as usize,
            })),
            3 => Some(Report::Answer(numbers.number)),
            _ => None,
        }
    }
}

/// The first clear report of the given bytes, and how many bytes it took. Its text goes to the front of `text`, whose
/// rest stays; 32 places always suffice.
pub fn read(dialect: Dialect, given: &[u8], text: &mut [u32]) -> Result<(Report, usize), Error> {
    let mut numbers = ReportNumbers::default();
    let length = unsafe {
        raw::seat_read(
            dialect as u32,
            given.as_ptr(),
            given.len(),
            text.as_mut_ptr(),
            text.len(),
            &mut numbers,
        )
    }
    .counted()?;
    // A clear report is a text, a sequence or an answer.
    let report = Report::from_numbers(&numbers).ok_or(Error {
        number: 12,
        place: 0,
    })?;
    Ok((report, length))
}

/// What a host asks for. Unlisted flags and modes can come, which the seat refuses.
#[derive(Clone, Copy, Debug, PartialEq, Eq)]
pub enum Request {
    Push(u32),
    Pop(u32),
    Set(u32, u32),
    Query,
}

/// The reader of requests.
#[derive(Clone, Copy, Debug, Default)]
pub struct Requests {
    state: RequestState,
}

impl Requests {
    pub fn new() -> Requests {
        Requests::default()
    }

    /// Takes one byte in: nothing yet, the request that it ends, or a misfit, 12, after which the reader starts over.
    pub fn feed(&mut self, byte: u8) -> Result<Option<Request>, Error> {
        let mut request = RequestNumbers::default();
        unsafe { raw::seat_request_feed(&mut self.state, byte, &mut request) }.counted()?;
        Ok(match request.kind {
            1 => Some(Request::Push(request.first)),
            2 => Some(Request::Pop(request.first)),
            3 => Some(Request::Set(request.first, request.second)),
            4 => Some(Request::Query),
            _ => None,
        })
    }
}
