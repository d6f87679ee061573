//! Many windows over one log (request N14): the library beside a plain loop.

use std::hint::black_box;

use wisavulome_bench::events::WORDS;
use wisavulome_bench::rng::Rng;
use wisavulome_bench::{log, ours, Refusal};

use crate::{cpu, figure, in_turn, Side, ROUNDS};

/// A season.
const ENTRIES: usize = 10_000_000;

const STATIONS: u32 = 16;

/// The largest step from an entry's time to the next; 10 million of them stay below 2^32.
const LARGEST_STEP: u64 = 800;

/// The log's octets, and its last time.
fn season(rng: &mut Rng) -> (Vec<u8>, u32) {
    let mut time = 0u32;
    let mut octets = Vec::with_capacity(log::ENTRY * ENTRIES);
    for _ in 0..ENTRIES {
        time += rng.below(LARGEST_STEP) as u32;
        octets.extend(time.to_be_bytes());
        octets.extend([rng.below(STATIONS.into()) as u8, 1 + rng.below(WORDS as u64) as u8]);
    }
    (octets, time)
}

/// Windows that lie anywhere, each a hundredth of the season.
fn windows(rng: &mut Rng, count: usize, last: u32) -> Vec<u32> {
    let window = |_| {
        let first = rng.below(u64::from(last)) as u32;
        [rng.below(STATIONS.into()) as u32, first, first + last / 100]
    };
    (0..count).flat_map(window).collect()
}

/// Seconds of a lookup.
pub fn table() {
    let rng = &mut Rng::new(14, 0);
    let (octets, last) = season(rng);
    println!("| entries | windows | ours, s | plain loop, s | ours / plain |");
    println!("|---|---|---|---|---|");
    for count in [1, 8, 64] {
        let given = windows(rng, count, last);
        type Lookup = fn(&[u8], u32, &[u32], &mut [u32]) -> Result<u32, Refusal>;
        let timed = |look_up: Lookup| {
            let mut out = vec![0; WORDS * count];
            let began = cpu::own();
            let answer = look_up(black_box(&octets), STATIONS, &given, &mut out);
            (cpu::own() - began, (answer, out))
        };
        let sides: [Side<_>; 2] = [&|| timed(ours::windows), &|| timed(log::windows)];
        let [ours, other] = in_turn(ROUNDS, "windows", sides);
        let [ratio, ours, other] = [ours / other, ours, other].map(figure);
        println!("| {} | {count} | {ours} | {other} | {ratio} |", figure(ENTRIES as f64));
    }
}
