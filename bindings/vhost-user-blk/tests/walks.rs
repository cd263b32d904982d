//! Random walks of a front end and a driver over the states of the program, beside a model of the disk, of memory and
//! of the log. `WALKS_STEPS` is how many steps all of them have together, and `WALKS_SEED` the seed of the first one.

mod front_end;
mod walk_driver;

use std::time::{Duration, Instant};
use walk_driver::number;
use walk_driver::walk::Walk;

// How many steps a walk has, and how long the walks of a gate take at most.
const STEPS: u64 = 250;
const MOST: Duration = Duration::from_secs(17);

#[test]
fn walks() {
    let (begun, steps) = (Instant::now(), number("WALKS_STEPS", 0));
    let first = number("WALKS_SEED", 1);
    let walks = if steps == 0 { 12 } else { steps.div_ceil(STEPS) };
    let mut served = 0;
    for seed in first..first + walks {
        if steps == 0 && begun.elapsed() > MOST {
            break;
        }
        println!("the walk of seed {seed}");
        let mut walk = Walk::start(&format!("walk{seed}-{}", std::process::id()), seed);
        walk.go(STEPS, (steps == 0).then_some(begun + MOST));
        served += walk.served_requests;
        std::fs::remove_dir_all(&walk.served.folder).unwrap();
    }
    println!("{served} requests came back in {:?}", begun.elapsed());
}
