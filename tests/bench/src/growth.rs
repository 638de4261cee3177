//! How the time of a listing grows, as a table: the largest file, and files that differ from it in the
//! frame (and with it in the deadlines and the number of runs), in the number of tasks, in the
//! deadlines, or in the number of runs. In the small ones reading the file and writing the text take
//! most, which the library and the Rust beside it do each in its own way.

use crate::files::{Shape, FAILING};
use crate::list::listed;
use crate::steps;
use crate::timing::beside;

fn row(shape: Shape) {
    let file = shape.bytes::<1>();
    let times = beside("growth", || listed(&file), || steps::list::<1>(&file));
    let [library, same] = times.map(|time| time / 1e6);
    let ratio = library / same;
    println!(
        "| {} | {} | {} | {} | {library:.3} | {same:.3} | {ratio:.2} |",
        shape.frame, shape.deadline, shape.tasks, shape.runs
    );
}

pub fn run() {
    println!("| F | D | tasks | runs | library, ms | same, ms | ratio |");
    println!("|---|---|---|---|---|---|---|");
    for frame in [64, 256, 1024, 4096] {
        row(FAILING.within(frame));
    }
    for tasks in [8, 32] {
        row(Shape { tasks, ..FAILING });
    }
    for deadline in [64, 256, 1024] {
        row(Shape {
            deadline,
            ..FAILING
        });
    }
    for runs in [16, 256, 4096] {
        row(Shape { runs, ..FAILING });
    }
}
