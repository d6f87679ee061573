//! The engines under the same calls: the library, its reference, and the fast engine.

use wisavulome_bench::area::{self, AREA, COUNTERS_OUT, RUN_OUT};
use wisavulome_bench::events::{Event, Events, Ran, Word, WORDS};
use wisavulome_bench::fast::Fast;
use wisavulome_bench::plain::COUNTERS;
use wisavulome_bench::program::Engine;
use wisavulome_bench::{layout, ours, Refusal, STATIONS};

use crate::cpu;
use crate::rows::{address, Call, Row, DEPTH};

/// A step's answer as the C interface writes it.
type StepOut = [u8; 16 * STATIONS];

/// What a row asks of an engine.
pub trait Pair {
    fn offer(&mut self, station: u32, destination: u64, data: &[u8]) -> Result<(), Refusal>;
    fn run(&mut self, n: u32) -> Ran;
    /// The answer of one step, where it has an event.
    fn step(&mut self) -> Option<Box<StepOut>>;
    fn counters(&self, station: u32) -> [u32; COUNTERS];
    fn frame(&self, station: u32) -> Option<Vec<u8>>;
}

/// A type, so that data of every size may stand behind it.
const TYPE: u16 = 0x0800;

const TIME: &str = "the clock does not run out";

impl Pair for Fast {
    fn offer(&mut self, station: u32, destination: u64, data: &[u8]) -> Result<(), Refusal> {
        Fast::offer(self, station, area::address(destination), TYPE, data)
    }

    fn run(&mut self, n: u32) -> Ran {
        Fast::run(self, n).expect(TIME)
    }

    fn step(&mut self) -> Option<Box<StepOut>> {
        let mut events: Vec<(usize, Event)> = Vec::new();
        Engine::step(self, &mut |station, event| events.push((station, event))).expect(TIME);
        (!events.is_empty()).then(|| step_out(&events))
    }

    fn counters(&self, station: u32) -> [u32; COUNTERS] {
        *Fast::counters(self, station).expect("a station")
    }

    fn frame(&self, station: u32) -> Option<Vec<u8>> {
        self.read_frame(station).ok().map(<[u8]>::to_vec)
    }
}

fn step_out(events: &[(usize, Event)]) -> Box<StepOut> {
    let mut by_station = [Events::default(); STATIONS];
    for &(station, event) in events {
        let place = &mut by_station[station];
        *if (event.word as u8) < Word::GotOk as u8 { &mut place.transmit } else { &mut place.receive } = Some(event);
    }
    let mut out = Box::new([0; 16 * STATIONS]);
    area::put_events(&by_station, &mut out[..]);
    out
}

type Run = fn(&mut [u8], u32, &mut [u8]) -> Result<u32, Refusal>;

/// A work area of the library, with the function that makes runs on it.
pub struct Area {
    pub octets: Vec<u8>,
    run: Run,
}

impl Area {
    /// Up to `n` bit times: the steps made, and the output.
    pub fn run(&mut self, n: u32) -> (u32, [u8; RUN_OUT]) {
        let mut out = [0; RUN_OUT];
        ((self.run)(&mut self.octets, n, &mut out).expect(TIME), out)
    }
}

impl Pair for Area {
    fn offer(&mut self, station: u32, destination: u64, data: &[u8]) -> Result<(), Refusal> {
        ours::offer(&mut self.octets, station, destination, TYPE, data).map(|_| ())
    }

    fn run(&mut self, n: u32) -> Ran {
        let (steps, out) = Area::run(self, n);
        let word = |k| area::word(&out, 4 * k);
        let late = (word(WORDS) != 0).then(|| (word(WORDS + 1), word(WORDS + 2)));
        Ran { steps, counts: std::array::from_fn(word), late }
    }

    fn step(&mut self) -> Option<Box<StepOut>> {
        let mut out = [0; 16 * STATIONS];
        ours::step(&mut self.octets, &mut out).expect(TIME);
        (out != [0; 16 * STATIONS]).then(|| Box::new(out))
    }

    fn counters(&self, station: u32) -> [u32; COUNTERS] {
        let mut out = [0; COUNTERS_OUT];
        ours::counters(&self.octets, station, &mut out).expect("a station");
        std::array::from_fn(|k| area::word(&out, 4 * k))
    }

    fn frame(&self, station: u32) -> Option<Vec<u8>> {
        let mut out = vec![0; wisavulome_bench::frame::LARGEST_FRAME];
        let octets = ours::read_frame(&self.octets, station, &mut out).ok()?;
        out.truncate(octets as usize);
        Some(out)
    }
}

pub fn fast(row: Row) -> Fast {
    let (layout, _) = layout::read_sheet(&row.stations.sheet()).expect("a sheet");
    let draws: Vec<Vec<u16>> = row.draws().chunks_exact(DEPTH.into()).map(<[u16]>::to_vec).collect();
    Fast::start(&layout, &draws)
}

fn area(row: Row, run: Run) -> Area {
    let mut octets = vec![0; AREA];
    let draws: Vec<u8> = row.draws().into_iter().flat_map(u16::to_be_bytes).collect();
    assert_eq!(ours::start(&mut octets, &row.stations.sheet(), DEPTH.into(), &draws), Ok(0));
    Area { octets, run }
}

/// `wisavulome_run`.
pub fn ours(row: Row) -> Area {
    area(row, ours::run)
}

/// `wisavulome_run_stepwise`.
pub fn reference(row: Row) -> Area {
    area(row, ours::run_stepwise)
}

#[derive(Debug, PartialEq)]
enum Said {
    Refused(Refusal),
    Ran(Ran),
    Stepped(Box<StepOut>),
}

/// What calls answered, each by its place among them where it said anything, and what can be read at the end.
#[derive(Debug, PartialEq)]
pub struct Answers {
    said: Vec<(usize, Said)>,
    counters: Vec<[u32; COUNTERS]>,
    frames: Vec<Option<Vec<u8>>>,
}

/// Makes the calls: processor time in seconds, and the answers.
pub fn drive(pair: &mut impl Pair, stations: u8, calls: &[Call]) -> (f64, Answers) {
    let data = [0xA5; 1500];
    let mut said = Vec::new();
    let began = cpu::own();
    for (k, &call) in calls.iter().enumerate() {
        match call {
            Call::Offer { station, to, octets } => {
                if let Err(refusal) = pair.offer(station.into(), address(to), &data[..octets.into()]) {
                    assert_eq!(refusal, 12, "a frame is refused only where there is one");
                    said.push((k, Said::Refused(refusal)));
                }
            }
            Call::Run(n) => {
                let ran = pair.run(n);
                if ran.steps != n || ran.counts != [0; WORDS] {
                    said.push((k, Said::Ran(ran)));
                }
            }
            Call::Step => said.extend(pair.step().map(|out| (k, Said::Stepped(out)))),
        }
    }
    let seconds = cpu::own() - began;
    let stations = 0..u32::from(stations);
    let counters = stations.clone().map(|station| pair.counters(station)).collect();
    let frames = stations.map(|station| pair.frame(station)).collect();
    (seconds, Answers { said, counters, frames })
}
