//! The state machine of a back end beside a slow one: random messages, rings, ends and failures, from seeds.

mod back_end;
mod disk;
mod front_end;
mod guest;
mod messages;
mod ring;
mod slow;

use back_end::world::{Counts, Files, World};
use ring::Numbers;

// How many events, or as many as STATE_MACHINE_EVENTS says.
fn events() -> u64 {
    std::env::var("STATE_MACHINE_EVENTS").map_or(1_000_000, |it| it.parse().unwrap())
}

#[test]
fn random_events_do_what_the_rules_say() {
    let (mut counts, mut files, mut seed) = (Counts::default(), Files::new(), 1);
    while counts.events < events() {
        println!("seed {seed}");
        let mut numbers = Numbers(seed);
        World::new(&mut numbers, &mut files, &mut counts).play(2000);
        seed += 1;
    }
    println!("{counts:?}");
}
