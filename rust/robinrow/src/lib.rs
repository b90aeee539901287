#![doc = include_str!("../README.md")]
#![no_std]
#![warn(missing_docs)]

#[cfg(target_endian = "big")]
compile_error!("robinrow: the library is for machines that store the least byte first");

mod library;
mod refusal;
mod state;

pub use refusal::{Refusal, Refused};
pub use state::State;

/// Bytes of a state.
pub const STATE_SIZE: usize = 6752;
/// The most tasks of a table.
pub const MOST_TASKS: usize = 128;
/// The most processors, and so the slots of a record.
pub const MOST_PROCESSORS: usize = 16;
/// The last tick of the clock, and so the farthest horizon.
pub const CLOCK: u64 = 4_294_967_295;

/// One task of a table, in ticks. Each of the three is 1 to 1,048,576.
#[repr(C)]
#[derive(Clone, Copy, Debug, PartialEq, Eq, Hash)]
pub struct Row {
    /// The least time between two arrivals.
    pub period: u32,
    /// What a job runs.
    pub execution: u32,
    /// When it has run that, from its arrival on.
    pub deadline: u32,
}

impl Row {
    /// A row.
    pub const fn new(period: u32, execution: u32, deadline: u32) -> Self {
        Row {
            period,
            execution,
            deadline,
        }
    }

    /// The shorter of period and deadline: so many ticks after its arrival a job has run its execution.
    pub const fn shorter(self) -> u32 {
        if self.period < self.deadline {
            self.period
        } else {
            self.deadline
        }
    }
}

impl From<(u32, u32, u32)> for Row {
    fn from((period, execution, deadline): (u32, u32, u32)) -> Self {
        Row::new(period, execution, deadline)
    }
}

/// What ran from one instant to another.
#[repr(C)]
#[derive(Clone, Copy, Debug, Default, PartialEq, Eq, Hash)]
pub struct Record {
    /// Its beginning, in sub-ticks.
    pub from: u64,
    /// Its end, in sub-ticks.
    pub to: u64,
    /// The task on each processor, or 0 where it is idle.
    pub slots: [u16; MOST_PROCESSORS],
}

impl Record {
    /// How many sub-ticks each of its tasks ran.
    pub const fn length(&self) -> u64 {
        self.to - self.from
    }

    /// Did the task run?
    pub fn runs(&self, task: u64) -> bool {
        task != 0 && self.slots.iter().any(|&on| u64::from(on) == task)
    }
}

// the library reads a table and writes records as bytes, the least first: these structs are those bytes
const _: () = assert!(core::mem::size_of::<Row>() == 12 && core::mem::size_of::<Record>() == 48);
