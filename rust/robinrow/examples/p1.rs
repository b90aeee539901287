//! P1 through the library: four tasks on two processors, all arriving at tick 0, to tick 3.
use std::error::Error;

use robinrow::{Record, Row, State};

const PROCESSORS: usize = 2;
const ROWS: [Row; 4] = [
    Row::new(4, 3, 4),
    Row::new(6, 4, 6),
    Row::new(3, 1, 3),
    Row::new(4, 1, 4),
];

fn main() -> Result<(), Box<dyn Error>> {
    let mut state = State::admit(&ROWS, PROCESSORS)?;
    println!("scale {}", state.scale());
    for task in 1..=ROWS.len() as u64 {
        state.arrive(task)?;
    }
    // a room full of records at a time, until the present is the horizon
    let mut room = [Record::default(); 16];
    while state.now() < 3 * state.scale() {
        for record in state.run(3, &mut room)? {
            print!("{} {}", record.from, record.to);
            for task in &record.slots[..PROCESSORS] {
                print!(" {task}");
            }
            println!();
        }
    }
    Ok(())
}
