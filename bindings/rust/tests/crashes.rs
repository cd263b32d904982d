//! A back end is cut off before each store of a run, and another one takes its place over what it left: the requests
//! that are out are served once, in the order of their pops, and none that came back.

mod crash;
mod guest;
#[path = "front_end/protocol.rs"]
mod protocol;
mod ring;

use crash::play::Player;
use crash::Case;

// How many requests each ring has, or as many as CRASH_REQUESTS says: each is a pop and a return.
fn requests() -> u64 {
    std::env::var("CRASH_REQUESTS").map_or(500, |it| it.parse().unwrap())
}

#[test]
fn whatever_a_crash_leaves_is_served_once_and_in_order() {
    let mut player = Player::new(1);
    for (is_packed, size, descriptors, ring, rings, base, event_idx) in [
        (false, 1, 1, 0, 1, 0, true),
        (false, 2, 5, 1, 2, 0xfffe, false),
        (false, 4, 4, 0, 3, 0xfff0, true),
        (false, 16, 16, 1, 2, 77, false),
        (true, 1, 1, 0, 1, 0x8000, true),
        (true, 2, 5, 1, 2, 1, false),
        (true, 4, 4, 0, 3, 0x8003, true),
        (true, 7, 9, 1, 2, 0x8005, false),
        (true, 16, 16, 0, 1, 15, true),
    ] {
        let case = Case {
            is_packed,
            size,
            descriptors,
            ring,
            rings,
            event_idx,
            base,
        };
        // A packed ring has many stores for each.
        let requests = if is_packed { requests() / 20 } else { requests() };
        player.play(&case, requests);
        println!("{case:?}: {:?}", player.counts);
    }
}
