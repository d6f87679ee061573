//! The engines here against each other: plain and fast on runs, and the plain engine through work areas.

mod common;

use common::{by_station, cases, draws, number, offer, run_input, same_area, setting, sheet, Rng, Setting};
use wisavulome_bench::area::{self, AREA, RUN_OUT};
use wisavulome_bench::events::{Word, WORDS};
use wisavulome_bench::fast::Fast;
use wisavulome_bench::layout;
use wisavulome_bench::plain::{Transmitter, World};
use wisavulome_bench::program::{self, Engine};

/// Runs between offers at about the same time: every answer, counter and readable frame is equal. Offered is sent plus excessive plus
/// late-ended plus held, and with late-end 1 no run ends early.
#[test]
fn plain_and_fast_runs() {
    let mut words = [[0u64; WORDS]; 2];
    for case in 0..cases(800) {
        let rng = &mut Rng::new(1, case);
        let (layout, _) = layout::read_sheet(&sheet(rng)).expect("a sheet that is not refused");
        let n = layout.places.len();
        let depth = rng.edgy(1, 16) as usize;
        let draws = by_station(&draws(rng, n, depth), depth);
        let mut plain = World::start(&layout, &draws);
        let mut fast = Fast::start(&layout, &draws);
        for turn in 0..rng.range(1, 30) {
            for _ in 0..rng.range(0, 4) {
                let offer = offer(rng, &layout, true);
                let destination = area::address(offer.destination);
                let made = plain.offer(offer.station, destination, offer.value, &offer.data);
                assert_eq!(
                    fast.offer(offer.station, destination, offer.value, &offer.data),
                    made,
                    "case {case}, turn {turn}"
                );
            }
            let bit_times = match rng.below(40) {
                0 => 20_000_000,
                1..=19 => rng.range(0, 300),
                _ => rng.range(0, 3000),
            };
            let ran = plain.run(bit_times);
            assert_eq!(fast.run(bit_times), ran, "case {case}, turn {turn}");
            if let Ok(ran) = ran {
                assert!(layout.late_end == 0 || ran.steps == bit_times, "case {case}, turn {turn}: an early end");
                for (word, count) in words[layout.late_end as usize].iter_mut().zip(ran.counts) {
                    *word += u64::from(count);
                }
            }
            assert_eq!(fast.clock(), plain.clock);
            for i in 0..n as u32 + 1 {
                assert_eq!(fast.counters(i), plain.counters(i), "case {case}, turn {turn}, station {i}");
                assert_eq!(fast.read_frame(i), plain.read_frame(i), "case {case}, turn {turn}, station {i}");
            }
            for station in &plain.stations {
                let counters = station.counters.0;
                let held = u32::from(station.transmitter != Transmitter::NoFrame);
                assert_eq!(counters[0], counters[4] + counters[9] + counters[16] + held, "case {case}, turn {turn}");
            }
        }
    }
    let [retrying, ending] = words;
    assert_eq!(retrying[Word::LateEnd as usize], 0);
    for word in [Word::Collision, Word::Late, Word::Sent, Word::GivenUp, Word::LateEnd, Word::GotOk] {
        assert!(ending[word as usize] > 0, "{} never came: {ending:?}", word.text());
    }
}

/// Whole run inputs, damaged ones among them: both engines print the same text.
#[test]
fn plain_and_fast_print_the_same() {
    for case in 0..cases(800) {
        let rng = &mut Rng::new(2, case);
        let Some(input) = run_input(rng) else { continue };
        assert_eq!(printed::<Fast>(&input), printed::<World>(&input), "case {case}");
    }
}

fn printed<E: Engine>(input: &[u8]) -> String {
    String::from_utf8(program::printed::<E>(input)).expect("text")
}

/// Decoding the area before every call and encoding it after gives what the engine gives that keeps every emission.
#[test]
fn plain_through_areas() {
    for case in 0..cases(100) {
        let rng = &mut Rng::new(3, case);
        let Setting { sheet, layout, depth, draws } = setting(rng);
        let mut world = World::start(&layout, &by_station(&draws, depth as usize));
        let mut mirror = vec![0; AREA];
        let mut area = rng.octets(AREA);
        area::encode_start(&world, &mut mirror);
        assert_eq!(area::start(&mut area, &sheet, depth, &draws), Ok(0));
        same_area(&area, &mirror, &|| format!("case {case}, start"));
        for turn in 0..40 {
            if rng.one_in(2) {
                let offer = offer(rng, &layout, true);
                let destination = area::address(offer.destination);
                let made = world.offer(offer.station, destination, offer.value, &offer.data);
                let again = area::offer(&mut area, offer.station, number(destination), offer.value, &offer.data);
                assert_eq!(again, made.map(|()| 0), "case {case}, turn {turn}");
            }
            let bit_times = rng.pick(&[1, 1, 2, 30, 300]);
            let ran = world.run(bit_times).expect("the clock does not run out");
            let mut out = [0; RUN_OUT];
            let mut expected = [0; RUN_OUT];
            area::put_ran(&ran, &mut expected);
            assert_eq!(area::run(&mut area, bit_times, &mut out), Ok(ran.steps), "case {case}, turn {turn}");
            assert_eq!(out, expected, "case {case}, turn {turn}");
            area::encode(&world, &mut mirror);
            same_area(&area, &mirror, &|| format!("case {case}, turn {turn}"));
        }
    }
}
