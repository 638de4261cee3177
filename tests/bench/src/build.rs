//! The builder: sixteen partitions that fill the longest frame.

use second::builder;

use crate::library::{self, GRANULE};
use crate::timing::line;

pub fn run() {
    let cycles = [16, 32, 64, 128, 256, 512, 1024, 2048, 4096];
    let parts: Vec<u16> = (0..16)
        .flat_map(|place| [cycles[8 - place % 9], 1, 16])
        .collect();
    let [mut ours, mut theirs] = [vec![0; 4096], vec![0; 4096]];
    line(
        "build 16 x 4096",
        || (library::build(&parts, &mut ours), ours.clone()),
        || (builder::build(GRANULE, &parts, &mut theirs), theirs.clone()),
    );
}
