//! Calls, refusals and states, as the wrapper hands them on.
use robinrow::{Record, Refusal, Refused, Row, State, CLOCK, STATE_SIZE};

fn table(rows: &[(u32, u32, u32)]) -> Vec<Row> {
    rows.iter().copied().map(Row::from).collect()
}

fn one_task() -> State {
    let mut state = State::admit(&table(&[(4, 2, 4)]), 1).unwrap();
    state.arrive(1).unwrap();
    state
}

#[test]
fn a_table_that_does_not_fit() {
    let refused = |rows: &[(u32, u32, u32)], processors| State::admit(&table(rows), processors);
    let by = |refusal, row| Err(Refused { refusal, row });
    assert_eq!(refused(&[(4, 2, 4)], 0), by(Refusal::Processors, None));
    assert_eq!(refused(&[(4, 2, 4)], 17), by(Refusal::Processors, None));
    assert_eq!(refused(&[], 1), by(Refusal::Rows, None));
    assert_eq!(refused(&[(4, 1, 4); 129], 16), by(Refusal::Rows, None));
    assert_eq!(
        refused(&[(4, 2, 4), (0, 1, 4)], 1),
        by(Refusal::OutOfRange, Some(2))
    );
    assert_eq!(refused(&[(9, 8, 7)], 1), by(Refusal::TooMuchWork, Some(1)));
    assert_eq!(
        refused(&[(1048576, 1, 1048576), (129, 1, 129)], 1),
        by(Refusal::TooFine, None)
    );
    assert_eq!(
        refused(&[(4, 4, 4), (4, 1, 4)], 1),
        by(Refusal::Overloaded, None)
    );
    assert!(refused(&[(128, 1, 128); 128], 1).is_ok());
}

#[test]
fn a_refused_table_leaves_the_blank_state() {
    let mut state = one_task();
    assert!(state.admit_here(&[], 1).is_err());
    assert_eq!(state, State::blank());
    assert_eq!(state.step(1), Err(Refusal::NotTogether));
    state.admit_here(&table(&[(4, 2, 4)]), 1).unwrap();
    assert_eq!(state.arrive(1), Ok(()));
}

#[test]
fn a_call_that_is_refused_changes_nothing() {
    let mut state = one_task();
    let before = state.clone();
    assert_eq!(state.arrive(65537), Err(Refusal::NoSuchTask));
    assert_eq!(state.arrive(1), Err(Refusal::TooSoon));
    assert_eq!(state.step(CLOCK + 1), Err(Refusal::PastClock));
    assert_eq!(state.step(0), Err(Refusal::NotAhead));
    assert_eq!(state.run(4, &mut []), Err(Refusal::NoRoom));
    assert_eq!(state, before);
    state.step(CLOCK).unwrap();
    let mut other = State::admit(&table(&[(4, 1, 4), (3, 1, 3)]), 1).unwrap();
    other.arrive(1).unwrap();
    other.step(CLOCK).unwrap();
    assert_eq!((other.now(), other.scale()), (9, 12));
    assert_eq!(other.arrive(2), Err(Refusal::BetweenTicks));
}

#[test]
fn a_refusal_has_words_and_a_number() {
    let refused = State::admit(&table(&[(4, 2, 4), (9, 8, 7)]), 1).unwrap_err();
    assert_eq!(
        refused.to_string(),
        "row 2: the execution is longer than the shorter of period and deadline"
    );
    assert_eq!(refused.refusal.number(), 4);
    assert_eq!(
        Refusal::TooSoon.to_string(),
        "the task arrived less than its period ago"
    );
    assert_eq!(Refusal::NotTogether.number(), 13);
}

#[test]
fn accessors_say_what_stands() {
    let mut state = State::admit(&table(&[(4, 2, 4), (8, 4, 8)]), 1).unwrap();
    assert_eq!(
        (
            state.tasks(),
            state.processors(),
            state.scale(),
            state.now()
        ),
        (2, 1, 8, 0)
    );
    assert_eq!(
        (state.row(2), state.row(3), state.row(0)),
        (Some(Row::new(8, 4, 8)), None, None)
    );
    assert_eq!((state.next_event(), state.last_arrival(1)), (None, None));
    state.arrive(1).unwrap();
    assert_eq!(state.awake().collect::<Vec<_>>(), [1]);
    state.step(1).unwrap();
    state.arrive(2).unwrap();
    assert_eq!(
        (state.slots(), state.next_event(), state.last_arrival(2)),
        (&[1][..], Some(16), Some(1))
    );
    assert_eq!(state.awake().collect::<Vec<_>>(), [1, 2]);
    assert_eq!(
        format!("{state:?}"),
        "State { now: 8, scale: 8, tasks: 2, slots: [1], awake: [1, 2], .. }"
    );
}

#[test]
fn a_peek_commits_nothing() {
    let state = one_task();
    let (before, mut scratch) = (state.clone(), State::blank());
    let next = state.peek(CLOCK).unwrap();
    assert_eq!(state.peek_in(&mut scratch, CLOCK), Ok(next));
    assert_eq!(state, before);
    let mut stepped = state.clone();
    assert_eq!(stepped.step(CLOCK), Ok(next));
    assert_eq!(stepped, scratch);
}

#[test]
fn bytes_that_hold_together_go_on_and_others_do_not() {
    let mut state = one_task();
    let mut copy = State::from_bytes(state.as_bytes());
    assert_eq!(copy, state);
    let mut slots = [0; 16];
    slots[0] = 1;
    assert_eq!(
        state.step(4),
        Ok(Record {
            from: 0,
            to: 8,
            slots
        })
    );
    let untouched = Record {
        from: 7,
        to: 7,
        slots: [7; 16],
    };
    let mut room = [untouched; 3];
    assert_eq!(
        copy.run(4, &mut room)
            .unwrap()
            .iter()
            .map(|record| record.to)
            .collect::<Vec<_>>(),
        [8, 16]
    );
    assert_eq!(room[2], untouched);
    assert_eq!(copy.now(), 4 * copy.scale());
    // a flag that is neither 0 nor 1, in a row that the table does not have
    let mut bytes = *copy.as_bytes();
    bytes[6488 + 127] = 2;
    let mut damaged = State::from_bytes(&bytes);
    assert_eq!(damaged.arrive(1), Err(Refusal::NotTogether));
    assert_eq!(damaged.as_bytes(), &bytes);
    for byte in [0, 255] {
        let mut other = State::from_bytes(&[byte; STATE_SIZE]);
        assert_eq!(other.step(4), Err(Refusal::NotTogether));
        assert_eq!(other.as_bytes(), &[byte; STATE_SIZE]);
        let _ = (
            other.slots(),
            other.next_event(),
            other.awake().count(),
            format!("{other:?}"),
        );
    }
}
