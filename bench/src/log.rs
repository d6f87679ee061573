//! Many windows over one log (request N14), by a plain loop: for each entry every window is looked at.

use crate::events::WORDS;
use crate::Refusal;

/// The octets of an entry: time (4, high octet first), station, event (from 1 on, in the order of the words).
pub const ENTRY: usize = 6;

/// The numbers of a window: station, first time, time past the last.
pub const WINDOW: usize = 3;

/// The most windows.
pub const MAX_WINDOWS: usize = 64;

#[derive(Clone, Copy)]
struct Entry {
    time: u32,
    station: u32,
    event: usize,
}

fn entries(log: &[u8]) -> impl Iterator<Item = Entry> + '_ {
    log.chunks_exact(ENTRY).map(|octets| Entry {
        time: u32::from_be_bytes([octets[0], octets[1], octets[2], octets[3]]),
        station: octets[4].into(),
        event: octets[5].into(),
    })
}

#[derive(Clone, Copy)]
struct Window {
    station: u32,
    first: u32,
    past: u32,
}

impl Window {
    fn holds(self, entry: Entry) -> bool {
        self.station == entry.station && self.first <= entry.time && entry.time < self.past
    }
}

fn refusal(log: &[u8], stations: u32, windows: &[Window], room: usize) -> Option<Refusal> {
    let mut last = 0;
    let mut falls = |entry: Entry| entry.time < std::mem::replace(&mut last, entry.time);
    let checks = [
        (5, entries(log).any(|entry| !(1..=WORDS).contains(&entry.event))),
        (10, windows.iter().any(|window| window.station >= stations) || entries(log).any(|e| e.station >= stations)),
        (16, windows.len() > MAX_WINDOWS),
        (20, windows.iter().any(|window| window.past < window.first)),
        (21, entries(log).any(&mut falls)),
        (15, room < WORDS * windows.len()),
    ];
    checks.into_iter().find(|&(_, stands)| stands).map(|(number, _)| number)
}

/// How many events of each word every window holds, into the front of `out`.
pub fn windows(log: &[u8], stations: u32, windows: &[u32], out: &mut [u32]) -> Result<u32, Refusal> {
    let window = |numbers: &[u32]| Window { station: numbers[0], first: numbers[1], past: numbers[2] };
    let windows: Vec<Window> = windows.chunks_exact(WINDOW).map(window).collect();
    if let Some(number) = refusal(log, stations, &windows, out.len()) {
        return Err(number);
    }
    let counts = &mut out[..WORDS * windows.len()];
    counts.fill(0);
    for entry in entries(log) {
        for (window, counts) in windows.iter().zip(counts.chunks_exact_mut(WORDS)) {
            if window.holds(entry) {
                let count = &mut counts[entry.event - 1];
                *count = count.saturating_add(1);
            }
        }
    }
    Ok(0)
}
