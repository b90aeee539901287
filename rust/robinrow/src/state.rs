//! The state and the calls on it.
use core::fmt;
use core::mem::{offset_of, size_of, size_of_val};

use crate::library::{robinrow_admit_in, robinrow_arrive_in, robinrow_run_in, robinrow_step_in};
use crate::{Record, Refusal, Refused, Row, MOST_PROCESSORS, MOST_TASKS, STATE_SIZE};

/// A scheduler: all that it knows. It has no pointer in it, so it can be cloned, stored and compared at any time.
///
/// Field by field it is `robinrow_state` of `include/robinrow.h`.
#[repr(C)]
#[derive(Clone, PartialEq, Eq)]
pub struct State {
    share: [u64; MOST_TASKS],
    last: [u64; MOST_TASKS],
    running_keys: [u64; MOST_TASKS],
    waiting_keys: [u64; MOST_TASKS],
    count: u64,
    m: u64,
    scale: u64,
    now: u64,
    end: u64,
    running: u64,
    waiting: u64,
    period: [u32; MOST_TASKS],
    exec: [u32; MOST_TASKS],
    deadline: [u32; MOST_TASKS],
    order: [u16; MOST_TASKS],
    running_tasks: [u16; MOST_TASKS],
    waiting_tasks: [u16; MOST_TASKS],
    slots: [u16; MOST_PROCESSORS],
    awake: [u8; MOST_TASKS],
    arrived: [u8; MOST_TASKS],
    going: u8,
    spare: [u8; 7],
}

// where the struct of C has its fields
const _: () = assert!(
    size_of::<State>() == STATE_SIZE
        && offset_of!(State, share) == 0
        && offset_of!(State, last) == 1024
        && offset_of!(State, running_keys) == 2048
        && offset_of!(State, waiting_keys) == 3072
        && offset_of!(State, count) == 4096
        && offset_of!(State, m) == 4104
        && offset_of!(State, scale) == 4112
        && offset_of!(State, now) == 4120
        && offset_of!(State, end) == 4128
        && offset_of!(State, running) == 4136
        && offset_of!(State, waiting) == 4144
        && offset_of!(State, period) == 4152
        && offset_of!(State, exec) == 4664
        && offset_of!(State, deadline) == 5176
        && offset_of!(State, order) == 5688
        && offset_of!(State, running_tasks) == 5944
        && offset_of!(State, waiting_tasks) == 6200
        && offset_of!(State, slots) == 6456
        && offset_of!(State, awake) == 6488
        && offset_of!(State, arrived) == 6616
        && offset_of!(State, going) == 6744
);

impl State {
    /// Admits a table on `processors` processors: at instant 0, no task awake.
    ///
    /// ```
    /// use robinrow::{Refusal, Row, State};
    ///
    /// let state = State::admit(&[Row::new(4, 3, 4), Row::new(6, 4, 6)], 2)?;
    /// assert_eq!(state.scale(), 12);
    ///
    /// let refused = State::admit(&[Row::new(4, 3, 4), Row::new(6, 7, 6)], 2).unwrap_err();
    /// assert_eq!((refused.refusal, refused.row), (Refusal::TooMuchWork, Some(2)));
    /// # Ok::<(), robinrow::Refused>(())
    /// ```
    pub fn admit(rows: &[Row], processors: usize) -> Result<Self, Refused> {
        let mut state = State::blank();
        state.admit_here(rows, processors)?;
        Ok(state)
    }

    /// The blank state, which never holds together: a place for [`State::admit_here`] and [`State::peek_in`].
    pub const fn blank() -> Self {
        State {
            share: [0; MOST_TASKS],
            last: [0; MOST_TASKS],
            running_keys: [0; MOST_TASKS],
            waiting_keys: [0; MOST_TASKS],
            count: 0,
            m: 0,
            scale: 0,
            now: 0,
            end: 0,
            running: 0,
            waiting: 0,
            period: [0; MOST_TASKS],
            exec: [0; MOST_TASKS],
            deadline: [0; MOST_TASKS],
            order: [0; MOST_TASKS],
            running_tasks: [0; MOST_TASKS],
            waiting_tasks: [0; MOST_TASKS],
            slots: [0; MOST_PROCESSORS],
            awake: [0; MOST_TASKS],
            arrived: [0; MOST_TASKS],
            going: 0,
            spare: [0; 7],
        }
    }

    /// [`State::admit`] into a state that stands somewhere, with no copy of it. A refused table leaves it blank.
    pub fn admit_here(&mut self, rows: &[Row], processors: usize) -> Result<(), Refused> {
        let mut row = 0;
        // SAFETY: every pointer is to a field of the type and the length that the library asks for, or to the rows, which are
        // 12 bytes each without padding; borrows and a local do not overlap
        let number = unsafe {
            robinrow_admit_in(
                rows.as_ptr().cast(),
                size_of_val(rows) as u64,
                processors as u64,
                &mut row,
                &mut self.count,
                &mut self.m,
                &mut self.scale,
                &mut self.now,
                &mut self.going,
                &mut self.end,
                &mut self.running,
                &mut self.waiting,
                self.period.as_mut_ptr(),
                self.exec.as_mut_ptr(),
                self.deadline.as_mut_ptr(),
                self.share.as_mut_ptr(),
                self.order.as_mut_ptr(),
                self.awake.as_mut_ptr(),
                self.arrived.as_mut_ptr(),
                self.last.as_mut_ptr(),
                self.running_keys.as_mut_ptr(),
                self.running_tasks.as_mut_ptr(),
                self.waiting_keys.as_mut_ptr(),
                self.waiting_tasks.as_mut_ptr(),
                self.slots.as_mut_ptr(),
            )
        };
        match Refusal::of(number) {
            None => Ok(()),
            Some(refusal) => Err(Refused {
                refusal,
                row: (row != 0).then_some(row as usize),
            }),
        }
    }

    /// The task, counted from 1 in row order, arrives at the present instant.
    pub fn arrive(&mut self, task: u64) -> Result<(), Refusal> {
        // SAFETY: every pointer is to a field of the type and the length that the library asks for; fields do not overlap
        let number = unsafe {
            robinrow_arrive_in(
                self.count,
                self.m,
                self.scale,
                self.now,
                self.going,
                self.end,
                &mut self.running,
                &mut self.waiting,
                task,
                self.period.as_ptr(),
                self.exec.as_ptr(),
                self.deadline.as_ptr(),
                self.share.as_ptr(),
                self.order.as_ptr(),
                self.awake.as_mut_ptr(),
                self.arrived.as_mut_ptr(),
                self.last.as_mut_ptr(),
                self.running_keys.as_mut_ptr(),
                self.running_tasks.as_mut_ptr(),
                self.waiting_keys.as_mut_ptr(),
                self.waiting_tasks.as_mut_ptr(),
                self.slots.as_mut_ptr(),
            )
        };
        Refusal::of(number).map_or(Ok(()), Err)
    }

    /// Runs to the next event or to the horizon, in ticks, whichever is first. This commits: on a live system call it when that
    /// time has passed, and ask [`State::peek`] before.
    pub fn step(&mut self, horizon: u64) -> Result<Record, Refusal> {
        let mut record = Record::default();
        // SAFETY: every pointer is to a field of the type and the length that the library asks for, or to a record, which is 48
        // bytes without padding; fields and a local do not overlap
        let number = unsafe {
            robinrow_step_in(
                self.count,
                self.m,
                self.scale,
                &mut self.now,
                &mut self.going,
                &mut self.end,
                &mut self.running,
                &mut self.waiting,
                horizon,
                self.period.as_ptr(),
                self.exec.as_ptr(),
                self.deadline.as_ptr(),
                self.share.as_ptr(),
                self.order.as_ptr(),
                self.awake.as_mut_ptr(),
                self.arrived.as_ptr(),
                self.last.as_ptr(),
                self.running_keys.as_mut_ptr(),
                self.running_tasks.as_mut_ptr(),
                self.waiting_keys.as_mut_ptr(),
                self.waiting_tasks.as_mut_ptr(),
                self.slots.as_mut_ptr(),
                core::ptr::addr_of_mut!(record).cast(),
                size_of::<Record>() as u64,
            )
        };
        Refusal::of(number).map_or(Ok(record), Err)
    }

    /// Step after step to the horizon, in ticks, while there is room: the records that were written. It commits, as
    /// [`State::step`] does.
    ///
    /// ```
    /// use robinrow::{Record, Row, State};
    ///
    /// let mut state = State::admit(&[Row::new(4, 2, 4)], 1)?;
    /// state.arrive(1)?;
    /// let mut room = [Record::default(); 8];
    /// let records = state.run(4, &mut room)?;
    /// assert_eq!(records.iter().filter(|r| r.runs(1)).map(|r| r.length()).sum::<u64>(), 2 * 4);
    /// # Ok::<(), Box<dyn std::error::Error>>(())
    /// ```
    pub fn run<'r>(
        &mut self,
        horizon: u64,
        room: &'r mut [Record],
    ) -> Result<&'r [Record], Refusal> {
        let mut records = 0;
        // SAFETY: every pointer is to a field of the type and the length that the library asks for, or to the records, which are
        // 48 bytes each without padding; two exclusive borrows and a local do not overlap
        let number = unsafe {
            robinrow_run_in(
                self.count,
                self.m,
                self.scale,
                &mut self.now,
                &mut self.going,
                &mut self.end,
                &mut self.running,
                &mut self.waiting,
                horizon,
                self.period.as_ptr(),
                self.exec.as_ptr(),
                self.deadline.as_ptr(),
                self.share.as_ptr(),
                self.order.as_ptr(),
                self.awake.as_mut_ptr(),
                self.arrived.as_ptr(),
                self.last.as_ptr(),
                self.running_keys.as_mut_ptr(),
                self.running_tasks.as_mut_ptr(),
                self.waiting_keys.as_mut_ptr(),
                self.waiting_tasks.as_mut_ptr(),
                self.slots.as_mut_ptr(),
                room.as_mut_ptr().cast(),
                size_of_val(room) as u64,
                &mut records,
            )
        };
        match Refusal::of(number) {
            None => Ok(&room[..records as usize]),
            Some(refusal) => Err(refusal),
        }
    }

    /// Who runs from now on and until when: what [`State::step`] would record, on a clone. Nothing is committed.
    ///
    /// ```
    /// use robinrow::{Row, State, CLOCK};
    ///
    /// let mut state = State::admit(&[Row::new(4, 2, 4)], 1)?;
    /// state.arrive(1)?;
    /// let before = state.clone();
    /// let next = state.peek(CLOCK)?;
    /// assert_eq!((next.slots[0], next.to), (1, 8));
    /// assert_eq!(state, before);
    /// assert_eq!(state.step(CLOCK)?, next);
    /// # Ok::<(), Box<dyn std::error::Error>>(())
    /// ```
    pub fn peek(&self, horizon: u64) -> Result<Record, Refusal> {
        self.clone().step(horizon)
    }

    /// [`State::peek`] on a copy in a second state that the caller lends, which is then the state after that step.
    pub fn peek_in(&self, scratch: &mut State, horizon: u64) -> Result<Record, Refusal> {
        scratch.clone_from(self);
        scratch.step(horizon)
    }

    /// The present instant, in sub-ticks.
    pub const fn now(&self) -> u64 {
        self.now
    }

    /// Sub-ticks in a tick.
    pub const fn scale(&self) -> u64 {
        self.scale
    }

    /// How many tasks there are: they are numbered from 1.
    pub fn tasks(&self) -> usize {
        self.count.min(MOST_TASKS as u64) as usize
    }

    /// How many processors there are.
    pub fn processors(&self) -> usize {
        self.m.min(MOST_PROCESSORS as u64) as usize
    }

    /// The task's row, counted from 1; `None` where there is no such task.
    pub fn row(&self, task: usize) -> Option<Row> {
        let i = self.place(task)?;
        Some(Row::new(self.period[i], self.exec[i], self.deadline[i]))
    }

    /// The task on each processor, or 0, in the open plane. Between planes nobody is on a processor: [`State::peek`] says who
    /// will be.
    pub fn slots(&self) -> &[u16] {
        &self.slots[..self.processors()]
    }

    /// The tasks that have a job, by number.
    pub fn awake(&self) -> impl Iterator<Item = usize> + '_ {
        (1..=self.tasks()).filter(|&task| self.awake[task - 1] == 1)
    }

    /// The tick of the task's last arrival, where it ever arrived.
    pub fn last_arrival(&self, task: usize) -> Option<u64> {
        let i = self.place(task)?;
        (self.arrived[i] == 1).then_some(self.last[i])
    }

    /// When the open plane's next event is due, in sub-ticks: a task has used up its amount, becomes critical, or the plane
    /// ends. `None` between planes: the next step opens one.
    pub fn next_event(&self) -> Option<u64> {
        let mut next = self
            .end
            .checked_mul(self.scale)
            .filter(|_| self.going == 1)?;
        if self.running > 0 {
            next = next.min(self.running_keys[0]);
        }
        if self.waiting > 0 {
            next = next.min(self.waiting_keys[0]);
        }
        Some(next)
    }

    /// The state's bytes, to be kept somewhere.
    pub fn as_bytes(&self) -> &[u8; STATE_SIZE] {
        // SAFETY: the struct has that size and no padding, and bytes need no alignment
        unsafe { &*(self as *const State).cast() }
    }

    /// A state that was kept somewhere. Bytes that do not hold together are refused by [`Refusal::NotTogether`] in every call.
    pub fn from_bytes(bytes: &[u8; STATE_SIZE]) -> Self {
        // SAFETY: the struct has that size, and whole numbers take any bytes
        unsafe { core::mem::transmute(*bytes) }
    }

    fn place(&self, task: usize) -> Option<usize> {
        (1..=self.tasks()).contains(&task).then(|| task - 1)
    }
}

/// Short: the present, and who is where.
impl fmt::Debug for State {
    fn fmt(&self, f: &mut fmt::Formatter<'_>) -> fmt::Result {
        struct List<'s>(&'s State);
        impl fmt::Debug for List<'_> {
            fn fmt(&self, f: &mut fmt::Formatter<'_>) -> fmt::Result {
                f.debug_list().entries(self.0.awake()).finish()
            }
        }
        f.debug_struct("State")
            .field("now", &self.now)
            .field("scale", &self.scale)
            .field("tasks", &self.count)
            .field("slots", &self.slots())
            .field("awake", &List(self))
            .finish_non_exhaustive()
    }
}
