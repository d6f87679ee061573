//! The speed table: the library beside its reference and the fast engine, the run program beside that of the fast engine, and the
//! check sequence beside a table-driven one.
//!
//! Each row gives all of them the same calls, in rounds taken in turn, and demands equal answers; the figures are medians of processor time.
//! Arguments: none for all tables; `calls`, `programs`, `check`, `n11` or `windows` for one; `print` to be the run program on the fast engine.

mod cpu;
mod engines;
mod n11;
mod plans;
mod rows;
mod windows;

use std::env;
use std::hint::black_box;
use std::io::{self, Read, Write};

use wisavulome_bench::{crc, fast, ours, LAST_CLOCK};

use engines::drive;
use rows::{bit_times, Call, Cut, Load, Places, Row, Stations};

const ROUNDS: usize = 7;

/// Rounds of the reference, and of rows that take longer than [`LONG`].
const FEW: usize = 3;

/// Seconds of one round.
const LONG: f64 = 2.0;

/// The reference makes a row's first calls, up to the run that ends after so many bit times.
const REFERENCE_BIT_TIMES: u32 = 100_000;

const fn stations(count: u8, places: Places) -> Stations {
    Stations { count, places }
}

const LAYOUTS: [Stations; 5] = [
    stations(2, Places::Random),
    stations(2, Places::OneApart),
    stations(16, Places::Even),
    stations(16, Places::Random),
    stations(16, Places::OneApart),
];

/// Loads, and how often offers are made.
const LOADS: [(Load, u32); 9] = [
    (Load::Sender { octets: 1500, every: 12_500 }, 320),
    (Load::Sender { octets: 46, every: 700 }, 1_000),
    (Load::Contention { octets: 46, every: 2_000 }, 400),
    (Load::Contention { octets: 1500, every: 12_500 }, 80),
    (Load::Share { percent: 3 }, 150),
    (Load::Share { percent: 30 }, 300),
    (Load::Share { percent: 90 }, 600),
    (Load::Waits { every: 370_000 }, 20),
    (Load::Idle { every: 12_500 }, 1_280),
];

/// Loads under which bit times are asked for one by one.
const SINGLE_LOADS: [(Load, u32); 2] =
    [(Load::Sender { octets: 1500, every: 12_500 }, 8), (Load::Idle { every: 12_500 }, 8)];

/// Plans of at most 64 offers and 16,384 octets: stations, at random places, their load, and how often offers are made.
const PLANS: [(u8, Load, u32); 12] = [
    (2, Load::Sender { octets: 1500, every: 12_500 }, 10),
    (16, Load::Sender { octets: 1500, every: 12_500 }, 10),
    (2, Load::Sender { octets: 46, every: 700 }, 64),
    (16, Load::Sender { octets: 46, every: 700 }, 64),
    (2, Load::Contention { octets: 46, every: 2_000 }, 32),
    (16, Load::Contention { octets: 46, every: 25_000 }, 4),
    (2, Load::Share { percent: 30 }, 32),
    (16, Load::Share { percent: 30 }, 32),
    (2, Load::Waits { every: 4_000_000 }, 4),
    (16, Load::Waits { every: 4_000_000 }, 4),
    (2, Load::Idle { every: LAST_CLOCK }, 1),
    (16, Load::Idle { every: LAST_CLOCK }, 1),
];

fn rows<'a>(layouts: &'a [Stations], loads: &'a [(Load, u32)], cut: Cut) -> impl Iterator<Item = Row> + 'a {
    let row = move |&(load, turns): &(Load, u32), stations| Row { stations, load, turns, cut };
    loads.iter().flat_map(move |load| layouts.iter().map(move |&stations| row(load, stations)))
}

/// A side's processor time in seconds, and what it answered.
type Side<'a, A> = &'a dyn Fn() -> (f64, A);

/// Medians of the processor times of two sides, which must answer alike.
fn in_turn<A: PartialEq>(rounds: usize, name: &str, sides: [Side<A>; 2]) -> [f64; 2] {
    let mut times = [Vec::new(), Vec::new()];
    let mut left = rounds;
    while left > 0 {
        let [one, other] = sides.map(|side| side());
        assert!(one.1 == other.1, "{name}: answers differ");
        times[0].push(one.0);
        times[1].push(other.0);
        left = if one.0 + other.0 > LONG { left.min(FEW) } else { left } - 1;
    }
    times.map(median)
}

fn median(mut times: Vec<f64>) -> f64 {
    times.sort_by(f64::total_cmp);
    times[times.len() / 2]
}

/// Three digits at least, thousands apart.
fn figure(value: f64) -> String {
    let places = [1.0, 10.0, 100.0].into_iter().filter(|&bound| value < bound).count();
    let mut text = format!("{value:.places$}");
    let mut end = text.find('.').unwrap_or(text.len());
    while end > 3 {
        end -= 3;
        text.insert(end, ',');
    }
    text
}

fn calls_table() {
    println!("| load | stations | ours | reference | fast engine | ratio |");
    println!("|---|---|---|---|---|---|");
    let single = [stations(2, Places::Random), stations(16, Places::Random)];
    rows(&LAYOUTS, &LOADS, Cut::Run).for_each(calls_row);
    rows(&single, &SINGLE_LOADS, Cut::RunsOfOne).for_each(calls_row);
    rows(&single, &SINGLE_LOADS, Cut::Steps).for_each(calls_row);
}

/// Million bit times a second.
fn calls_row(row: Row) {
    let name = format!("{} | {}", row.name(), row.stations.name());
    let n = row.stations.count;
    let calls = row.calls();
    let millions = |calls: &[Call], seconds: f64| f64::from(bit_times(calls)) / 1e6 / seconds;
    let fast = |calls: &[Call]| drive(&mut engines::fast(row), n, calls);
    let sides: [Side<_>; 2] = [&|| drive(&mut engines::ours(row), n, &calls), &|| fast(&calls)];
    let [ours, other] = in_turn(ROUNDS, &name, sides).map(|seconds| millions(&calls, seconds));
    let reference = match row.cut {
        // A single step is one function, whatever makes runs.
        Cut::Steps => "-".into(),
        _ => {
            let first = first_calls(&calls);
            let sides: [Side<_>; 2] = [&|| drive(&mut engines::reference(row), n, first), &|| fast(first)];
            figure(millions(first, in_turn(FEW, &name, sides)[0]))
        }
    };
    let [ratio, ours, other] = [ours / other, ours, other].map(figure);
    println!("| {name} | {ours} | {reference} | {other} | {ratio} |");
}

fn first_calls(calls: &[Call]) -> &[Call] {
    let mut made = 0;
    let end = calls.iter().position(|&call| {
        made += bit_times(&[call]);
        made >= REFERENCE_BIT_TIMES
    });
    &calls[..=end.unwrap_or(calls.len() - 1)]
}

fn programs_table() {
    if !plans::simulate().is_file() {
        println!("no table of the run program: `rt run` in crates/simulate builds {}", plans::simulate().display());
        return;
    }
    println!("| plan | bit times | stations | ours, ms | fast engine, ms | ratio | without the start |");
    println!("|---|---|---|---|---|---|---|");
    for (count, load, turns) in PLANS {
        program_row(Row { stations: stations(count, Places::Random), load, turns, cut: Cut::Run });
    }
}

/// Milliseconds of both programs on the plan of a row.
fn program_times(row: Row) -> [f64; 2] {
    let plan = plans::plan(row);
    let times = if bit_times(&row.calls()) < 1_000_000 { 10 } else { 1 };
    assert!(plans::fast(&plan, 1).1.starts_with(b"stations"), "{}: a plan that is refused", row.name());
    let sides: [Side<_>; 2] = [&|| plans::ours(&plan, times), &|| plans::fast(&plan, times)];
    in_turn(ROUNDS, &row.name(), sides).map(|seconds| 1e3 * seconds)
}

fn program_row(row: Row) {
    let [ours, other] = program_times(row);
    let [ours_start, other_start] = program_times(Row { turns: 0, ..row });
    // What is less than 0.05 ms is not told from the start's own spread.
    let work = |whole: f64, start: f64| (whole - start).max(0.05);
    let ratios = [other / ours, work(other, other_start) / work(ours, ours_start)];
    let [ours, other, ratio, without] = [ours, other, ratios[0], ratios[1]].map(figure);
    let bit_times = figure(bit_times(&row.calls()).into());
    let stations = row.stations.name();
    println!("| {} | {bit_times} | {stations} | {ours} | {other} | {ratio} | {without} |", row.name());
}

/// MB a second.
fn check_table() {
    const OCTETS: usize = 1_000_000;
    let octets: Vec<u8> = (0..OCTETS as u32).map(|i| (i.wrapping_mul(2_654_435_761) >> 24) as u8).collect();
    let timed = |check: fn(&[u8]) -> u32| {
        let began = cpu::own();
        let sequence = check(black_box(&octets));
        (cpu::own() - began, sequence)
    };
    let sides: [Side<_>; 2] = [&|| timed(ours::crc32), &|| timed(crc::table_driven)];
    let [ours, other] = in_turn(ROUNDS, "check sequence", sides).map(|seconds| OCTETS as f64 / 1e6 / seconds);
    println!("| | ours | table-driven | ratio |");
    println!("|---|---|---|---|");
    let [ratio, ours, other] = [ours / other, ours, other].map(figure);
    println!("| check sequence, 1 MB | {ours} | {other} | {ratio} |");
}

fn print() {
    let mut input = Vec::new();
    io::stdin().read_to_end(&mut input).expect("standard input");
    io::stdout().write_all(&fast::printed(&input)).expect("standard output");
}

fn main() {
    let tables: [(&str, fn()); 5] = [
        ("calls", calls_table),
        ("programs", programs_table),
        ("check", check_table),
        ("n11", n11::table),
        ("windows", windows::table),
    ];
    match env::args().nth(1).as_deref() {
        None => tables[..3].iter().for_each(|(_, table)| {
            table();
            println!();
        }),
        Some(plans::PRINT) => print(),
        Some(name) => match tables.iter().find(|(known, _)| *known == name) {
            Some((_, table)) => table(),
            None => panic!("not one of calls, programs, check, n11, windows: {name}"),
        },
    }
}
