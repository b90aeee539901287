//! Why a call is refused.
use core::error::Error;
use core::fmt;

/// Why a call is refused. [`Refusal::number`] is its number in the build definition.
#[derive(Clone, Copy, Debug, PartialEq, Eq, Hash)]
pub enum Refusal {
    /// No processor, or more than 16.
    Processors = 1,
    /// No row, or more than 128.
    Rows = 2,
    /// A row has a period, an execution or a deadline out of range.
    OutOfRange = 3,
    /// A row has more execution than the shorter of period and deadline.
    TooMuchWork = 4,
    /// The scale is above 134,217,728.
    TooFine = 5,
    /// The tasks together need more than the processors.
    Overloaded = 6,
    /// There is no such task.
    NoSuchTask = 7,
    /// The present is no whole tick.
    BetweenTicks = 8,
    /// The task arrived less than its period ago.
    TooSoon = 9,
    /// The horizon is past the clock's last tick.
    PastClock = 10,
    /// The horizon is not after the present.
    NotAhead = 11,
    /// There is no room for a record.
    NoRoom = 12,
    /// The state does not hold together: its bytes were changed.
    NotTogether = 13,
}

impl Refusal {
    /// Its number, 1 to 13.
    pub const fn number(self) -> u8 {
        self as u8
    }

    /// The refusal that a number of the library stands for; `None` is done.
    pub(crate) fn of(number: u32) -> Option<Self> {
        use Refusal::*;
        const ALL: [Refusal; 13] = [
            Processors,
            Rows,
            OutOfRange,
            TooMuchWork,
            TooFine,
            Overloaded,
            NoSuchTask,
            BetweenTicks,
            TooSoon,
            PastClock,
            NotAhead,
            NoRoom,
            NotTogether,
        ];
        let place = number.checked_sub(1)?;
        Some(ALL.get(place as usize).copied().unwrap_or(NotTogether))
    }
}

impl fmt::Display for Refusal {
    fn fmt(&self, f: &mut fmt::Formatter<'_>) -> fmt::Result {
        f.write_str(match self {
            Refusal::Processors => "there must be 1 to 16 processors",
            Refusal::Rows => "a table must have 1 to 128 rows",
            Refusal::OutOfRange => {
                "period, execution and deadline must each be 1 to 1,048,576 ticks"
            }
            Refusal::TooMuchWork => {
                "the execution is longer than the shorter of period and deadline"
            }
            Refusal::TooFine => {
                "the periods and deadlines have a common multiple above 134,217,728"
            }
            Refusal::Overloaded => "the tasks together need more than the processors can give",
            Refusal::NoSuchTask => "there is no task of this number",
            Refusal::BetweenTicks => "a task can arrive at a whole tick only",
            Refusal::TooSoon => "the task arrived less than its period ago",
            Refusal::PastClock => "the horizon is past the last tick, 4,294,967,295",
            Refusal::NotAhead => "the horizon is not after the present",
            Refusal::NoRoom => "there is no room for a record",
            Refusal::NotTogether => "the state does not hold together",
        })
    }
}

impl Error for Refusal {}

/// A table that was refused.
#[derive(Clone, Copy, Debug, PartialEq, Eq, Hash)]
pub struct Refused {
    /// Why.
    pub refusal: Refusal,
    /// The first faulty row, counted from 1, where the fault is in a row.
    pub row: Option<usize>,
}

impl fmt::Display for Refused {
    fn fmt(&self, f: &mut fmt::Formatter<'_>) -> fmt::Result {
        match self.row {
            Some(row) => write!(f, "row {row}: {}", self.refusal),
            None => self.refusal.fmt(f),
        }
    }
}

impl Error for Refused {}
