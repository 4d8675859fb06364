//! Schedules: a header with the sizes, then steps.

use crate::sizes::Sizes;
use crate::step::Step;
use std::error::Error;
use std::fmt;
use std::iter::FusedIterator;

/// A schedule that has a right header. Whether its sizes are within their limits, opening says.
///
/// ```
/// use lbq::{Cut, Schedule, Sizes, Step};
///
/// let bytes = b"LBQ\x00\x01\x02\x40\x01\x01\x00\x00\x00\x00\x00\x00\x00\x00\x10\x00";
/// let schedule = Schedule::parse(bytes)?;
/// assert_eq!(schedule.sizes, Sizes { blocks: 2, entries: 64, desks: 1 });
/// assert_eq!(schedule.steps().collect::<Vec<_>>(), [Ok(Step::get()), Err(Cut)]);
/// # Ok::<(), lbq::ScheduleError>(())
/// ```
#[derive(Clone, Copy, Debug, PartialEq, Eq)]
pub struct Schedule<'b> {
    /// The sizes of the line to open.
    pub sizes: Sizes,
    steps: &'b [u8],
}

impl<'b> Schedule<'b> {
    /// A schedule has at most so many bytes.
    pub const MOST_BYTES: usize = 64_808;

    /// Reads the header: the letters LBQ, version 1 in two bytes, NB, NE, T.
    ///
    /// # Errors
    ///
    /// [`Long`](ScheduleError::Long) for more than 64,808 bytes, else [`Header`](ScheduleError::Header) for a short or
    /// wrong header.
    pub const fn parse(bytes: &'b [u8]) -> Result<Self, ScheduleError> {
        if bytes.len() > Self::MOST_BYTES {
            return Err(ScheduleError::Long);
        }
        match *bytes {
            [b'L', b'B', b'Q', 0, 1, nb, ne, t, ref steps @ ..] => {
                Ok(Self { sizes: Sizes { blocks: nb as u32, entries: ne as u32, desks: t as u32 }, steps })
            }
            _ => Err(ScheduleError::Header),
        }
    }

    /// The steps, in order; where the last one is cut short, [`Cut`] is the last item.
    #[must_use]
    pub const fn steps(&self) -> Steps<'b> {
        Steps { rest: self.steps }
    }
}

impl<'b> IntoIterator for Schedule<'b> {
    type Item = Result<Step, Cut>;
    type IntoIter = Steps<'b>;

    fn into_iter(self) -> Steps<'b> {
        self.steps()
    }
}

/// The steps of a [`Schedule`].
#[derive(Clone, Debug)]
pub struct Steps<'b> {
    rest: &'b [u8],
}

impl Iterator for Steps<'_> {
    type Item = Result<Step, Cut>;

    fn next(&mut self) -> Option<Self::Item> {
        match self.rest.split_first_chunk() {
            Some((&step, rest)) => {
                self.rest = rest;
                Some(Ok(Step::from_bytes(step)))
            }
            None if self.rest.is_empty() => None,
            None => {
                self.rest = &[];
                Some(Err(Cut))
            }
        }
    }

    fn size_hint(&self) -> (usize, Option<usize>) {
        let items = self.rest.len().div_ceil(Step::BYTES);
        (items, Some(items))
    }
}

impl ExactSizeIterator for Steps<'_> {}
impl FusedIterator for Steps<'_> {}

/// Bytes that are no schedule.
#[derive(Clone, Copy, Debug, PartialEq, Eq, Hash)]
#[non_exhaustive]
pub enum ScheduleError {
    /// LONG: more than 64,808 bytes.
    Long,
    /// HEADER: a short or wrong header.
    Header,
}

impl ScheduleError {
    /// The player's word.
    #[must_use]
    pub const fn word(self) -> &'static str {
        match self {
            Self::Long => "LONG",
            Self::Header => "HEADER",
        }
    }
}

impl fmt::Display for ScheduleError {
    fn fmt(&self, f: &mut fmt::Formatter<'_>) -> fmt::Result {
        f.write_str(match self {
            Self::Long => "LONG: a schedule has at most 64,808 bytes",
            Self::Header => "HEADER: a schedule begins with LBQ, version 1 and three sizes",
        })
    }
}

impl Error for ScheduleError {}

/// The end of a schedule whose last step is cut short.
#[derive(Clone, Copy, Debug, PartialEq, Eq, Hash)]
pub struct Cut;

impl Cut {
    /// The player's word.
    #[must_use]
    pub const fn word(self) -> &'static str {
        "CUT"
    }
}

impl fmt::Display for Cut {
    fn fmt(&self, f: &mut fmt::Formatter<'_>) -> fmt::Result {
        f.write_str("CUT: the last step has fewer than nine bytes")
    }
}

impl Error for Cut {}
