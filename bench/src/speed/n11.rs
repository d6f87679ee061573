//! The two figures of request N11: a run of the library beside the reference's on the same work area.

use wisavulome_bench::area;
use wisavulome_bench::plain::Transmitter;
use wisavulome_bench::LAST_CLOCK;

use crate::engines::{self, Area, Pair};
use crate::rows::{address, Cut, Load, Places, Row, Stations};
use crate::{cpu, figure, median, ROUNDS};

/// Slot 512, and 1023 slots.
const LONGEST_WAIT: u32 = 512 * 1023;

/// The place of a station's counter of collisions.
const COLLISIONS: usize = 2;

pub fn table() {
    println!("| run | stations | ours, ms | reference, ms | reference / ours |");
    println!("|---|---|---|---|---|");
    for count in [2, 16] {
        let stations = Stations { count, places: Places::Random };
        let row = |load| Row { stations, load, turns: 1, cut: Cut::Run };
        let fresh = row(Load::Idle { every: LAST_CLOCK });
        compared("16,777,216 bit times from a fresh start", fresh, &engines::ours(fresh).octets, LAST_CLOCK);
        let waits = row(Load::Waits { every: LONGEST_WAIT });
        compared("the longest wait, 523,776 bit times", waits, &longest_wait(waits), LONGEST_WAIT);
    }
}

/// All stations have a frame and equal draws; station 0 has collided ten times and begins to wait for 1023 slots.
fn longest_wait(row: Row) -> Vec<u8> {
    let mut area = engines::ours(row);
    for station in 0..row.stations.count {
        assert_eq!(area.offer(station.into(), address((station + 1) % row.stations.count), &[0xA5; 46]), Ok(()));
    }
    // A collision's jam ends more than 16 bit times after it.
    while area.counters(0)[COLLISIONS] < 10 {
        area.run(16);
    }
    let longest = Transmitter::BackingOff { left: LONGEST_WAIT };
    for _ in 0..128 {
        if area::decode(&area.octets).stations[0].transmitter == longest {
            return area.octets;
        }
        area.run(1);
    }
    panic!("the longest wait did not come about");
}

/// Prints the times of a run on a work area, of which both must make the same octets.
fn compared(name: &str, row: Row, octets: &[u8], n: u32) {
    let timed = |mut area: Area| {
        area.octets.copy_from_slice(octets);
        let began = cpu::own();
        let answer = area.run(n);
        (cpu::own() - began, answer, area.octets)
    };
    let (reference, answer, after) = timed(engines::reference(row));
    let times = (0..ROUNDS).map(|_| {
        let (seconds, ours_answer, ours_after) = timed(engines::ours(row));
        assert!(ours_answer == answer && ours_after == after, "{name}: the library and its reference differ");
        seconds
    });
    // Times come in microseconds.
    let ours = median(times.collect()).max(1e-6);
    let [ours, reference, ratio] = [ours * 1e3, reference * 1e3, reference / ours].map(figure);
    println!("| {name} | {} | {ours} | {reference} | {ratio} |", row.stations.name());
}
