//! Online use: a simulated board with two processors, one timer and sporadic arrivals. The scheduler is asked who runs and until
//! when (peek), and is told what has run only when that time has passed (step). At the end demand 3 is checked from what the board
//! did: q ticks after its arrival each job has run exactly e ticks.
use std::error::Error;

use robinrow::{Record, Row, State, CLOCK};

const PROCESSORS: usize = 2;
const UNTIL: u64 = 30;

/// Together they fill both processors.
const ROWS: [Row; 5] = [
    Row::new(4, 2, 4),
    Row::new(6, 3, 6),
    Row::new(5, 1, 3),
    Row::new(12, 4, 12),
    Row::new(3, 1, 3),
];

/// When which task arrives: tick and task, in the order of time. Task 1 at tick 7 is too soon after tick 4.
#[rustfmt::skip]
const ARRIVALS: [(u64, u64); 22] = [
    (0, 1), (0, 2), (1, 3), (1, 5), (2, 4), (4, 1), (4, 5), (7, 1), (7, 5), (8, 2), (9, 3), (10, 1), (11, 5), (14, 4), (14, 2),
    (15, 1), (16, 3), (17, 5), (19, 1), (21, 3), (22, 2), (23, 1),
];

/// The sub-ticks that a task ran between two instants, by what the board did.
fn ran(board: &[Record], task: u64, from: u64, to: u64) -> u64 {
    board
        .iter()
        .filter(|slice| slice.runs(task))
        .map(|slice| slice.to.min(to).saturating_sub(slice.from.max(from)))
        .sum()
}

fn main() -> Result<(), Box<dyn Error>> {
    let mut state = State::admit(&ROWS, PROCESSORS)?;
    let scale = state.scale();
    println!("a tick has {scale} sub-ticks");

    let (mut board, mut taken, mut time) = (Vec::new(), Vec::new(), 0);
    let mut coming = ARRIVALS.iter().copied().peekable();
    loop {
        // all arrivals of this instant, before anything runs on
        while let Some((tick, task)) = coming.next_if(|&(tick, _)| tick * scale == time) {
            match state.arrive(task) {
                Ok(()) => taken.push((tick, task)),
                Err(refusal) => println!("{time:4}: task {task} comes at tick {tick}: {refusal}"),
            }
        }
        if time == UNTIL * scale {
            break;
        }
        // who runs from now on, and until when
        let next = state.peek(CLOCK)?;
        let timer = next.to;
        println!(
            "{time:4}: {:?}, timer at {timer}",
            &next.slots[..PROCESSORS]
        );

        // time passes until the timer, the next arrival or the end of the example
        let arrival = coming.peek().map_or(u64::MAX, |&(tick, _)| tick * scale);
        let slice = Record {
            to: timer.min(arrival).min(UNTIL * scale),
            ..next
        };
        time = slice.to;
        board.push(slice);

        // that time has passed, and is booked: up to the event, or up to the tick of the arrival
        let horizon = if time == timer { CLOCK } else { time / scale };
        assert_eq!(
            state.step(horizon)?,
            slice,
            "the record is what the board did"
        );
    }

    let mut jobs = 0;
    for &(tick, task) in &taken {
        let row = ROWS[task as usize - 1];
        let due = tick + u64::from(row.shorter());
        if due > UNTIL {
            continue;
        }
        let given = ran(&board, task, tick * scale, due * scale);
        assert_eq!(
            given,
            u64::from(row.execution) * scale,
            "task {task} of tick {tick}"
        );
        jobs += 1;
    }
    println!(
        "{} dispatches; {jobs} of {jobs} jobs ran exactly e ticks within q ticks of their arrival",
        board.len()
    );
    Ok(())
}
