//! The refusals and their numbers, as the table "Numbers for no" of document 01 has them.

use std::error::Error;
use std::fmt;

/// Why an operation was refused. Where several apply, the one with the lowest number is given.
#[derive(Debug, Clone, Copy, PartialEq, Eq, Hash)]
pub enum Refusal {
    /// 1: the sheet is not sound.
    Sheet,
    /// 2: bounds or records outside their count; a sheet to write would pass 65,535 bytes.
    Count,
    /// 3: k is 0 or above n; on a sheet, w is above k.
    Sample,
    /// 4: some bound is 0.
    Zero,
    /// 5: product of one batch above 2^64.
    Product,
    /// 6: the lent result list is too short.
    Room,
    /// 7: rolls and bounds differ in count, or a roll reaches its bound; the place isn't below the count of records.
    Misfit,
    /// 8: the list isn't each of 0..n - 1 once.
    Order,
    /// 9: start place above the number of words.
    Start,
    /// 10: the list ends before some batch has an accepted word.
    Words {
        /// The first batch, from 0, that got no word.
        batch: usize,
    },
}

impl Refusal {
    /// The refusal's number.
    pub fn number(self) -> u64 {
        match self {
            Refusal::Sheet => 1,
            Refusal::Count => 2,
            Refusal::Sample => 3,
            Refusal::Zero => 4,
            Refusal::Product => 5,
            Refusal::Room => 6,
            Refusal::Misfit => 7,
            Refusal::Order => 8,
            Refusal::Start => 9,
            Refusal::Words { .. } => 10,
        }
    }

    /// The batch that the refusal names: 0 for numbers other than 10.
    pub fn batch(self) -> usize {
        match self {
            Refusal::Words { batch } => batch,
            _ => 0,
        }
    }

    /// The refusal with this number, none for 0, where nothing is refused.
    pub(crate) fn given(number: u64, batch: usize) -> Option<Refusal> {
        match number {
            0 => None,
            1 => Some(Refusal::Sheet),
            2 => Some(Refusal::Count),
            3 => Some(Refusal::Sample),
            4 => Some(Refusal::Zero),
            5 => Some(Refusal::Product),
            6 => Some(Refusal::Room),
            7 => Some(Refusal::Misfit),
            8 => Some(Refusal::Order),
            9 => Some(Refusal::Start),
            10 => Some(Refusal::Words { batch }),
            _ => unreachable!("the table of refusals ends at 10 and the library gave {number}"),
        }
    }
}

impl fmt::Display for Refusal {
    fn fmt(&self, f: &mut fmt::Formatter<'_>) -> fmt::Result {
        let given_when = match self {
            Refusal::Sheet => "the sheet is not sound",
            Refusal::Count => "bounds or records outside their count, or a sheet to write would pass 65,535 bytes",
            Refusal::Sample => "k is 0 or above n, or w is above k",
            Refusal::Zero => "some bound is 0",
            Refusal::Product => "product of one batch above 2^64",
            Refusal::Room => "the lent result list is too short",
            Refusal::Misfit => {
                "rolls and bounds differ in count, or a roll reaches its bound, \
                 or the place isn't below the count of records"
            }
            Refusal::Order => "the list isn't each of 0..n - 1 once",
            Refusal::Start => "start place above the number of words",
            Refusal::Words { batch } => {
                return write!(f, "refused 10: the list ends before batch {batch} has an accepted word");
            }
        };
        write!(f, "refused {}: {given_when}", self.number())
    }
}

impl Error for Refusal {}
