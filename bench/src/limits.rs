// The window limits that are measured, and what is known of a set at each of them.

use crate::answer::Answer;
use crate::case::Case;
use crate::columns::Column;
use crate::measure::Time;
use crate::row::Row;
use crate::sets::Kind;

/// The limits; the others are compared with the last, which is the greatest that there is.
pub const LIMITS: [usize; 3] = [16, 64, 256];

/// The set with each limit.
pub fn limited(case: &Case) -> [Case; 3] {
    LIMITS.map(|window_limit| Case {
        window_limit,
        ..case.clone()
    })
}

/// A set that was measured at each limit; without a kind, it is the set of full slices.
pub struct LimitRow {
    pub kind: Option<Kind>,
    pub name: String,
    /// The library and the second program at each limit.
    pub at: [Row; 3],
}

impl LimitRow {
    /// The library's time at the limit with this place in LIMITS.
    pub fn time(&self, place: usize) -> Time {
        self.at[place].0.of(Column::Ours)
    }

    pub fn answer(&self, place: usize) -> Option<&Answer> {
        self.at[place].1.as_ref()
    }

    /// The number of seeds, where the set was cut.
    pub fn seeds(&self, place: usize) -> Option<usize> {
        self.answer(place)?.seeds()
    }

    /// Whether the second program's answer was compared with the library's: both ended in time.
    pub fn compared(&self, place: usize) -> bool {
        let ended = |column| self.at[place].0.seconds(column).is_some();
        ended(Column::Ours) && ended(Column::Second)
    }
}
