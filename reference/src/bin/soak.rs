//! The differential test's random calls until the time is over: `soak SECONDS [SEED]`. Prints the seed that it starts from.

use reference::both::{Both, TAKEN_OUT};
use reference::draw;
use std::time::{Duration, Instant, SystemTime, UNIX_EPOCH};

fn main() {
    let mut words = std::env::args().skip(1);
    let seconds = words.next().and_then(|w| w.parse().ok());
    let seconds = seconds.expect("soak SECONDS [SEED]");
    let clock = SystemTime::now()
        .duration_since(UNIX_EPOCH)
        .map_or(1, |d| d.as_nanos() as u64 >> 10);
    let mut seed: u64 = words
        .next()
        .map_or(clock, |w| w.parse().expect("SEED is a number"));
    println!("from seed {seed}");
    let end = Instant::now() + Duration::from_secs(seconds);
    let mut both = Both::new();
    while Instant::now() < end {
        draw::calls(&mut both, seed);
        seed = seed.wrapping_add(1);
    }
    println!("{} calls agree, up to seed {seed}", both.compared());
    for (call, number, count) in both.all_seen() {
        println!("{call}: {count} gave {number}");
    }
    println!("all calls: {} gave {TAKEN_OUT}", both.given(TAKEN_OUT));
}
