//! The run program: the text printed for an input, over any engine.

use std::fmt::Write;

use crate::events::{Event, Word};
use crate::layout::{self, Address, Layout};
use crate::{Refusal, LAST_CLOCK};

/// What the program asks of an engine.
pub trait Engine {
    fn start(layout: &Layout, draws: &[Vec<u16>]) -> Self;
    fn offer(&mut self, station: u32, destination: Address, value: u16, data: &[u8]) -> Result<(), Refusal>;
    /// One bit time; reports by rising station, transmit before receive.
    fn step(&mut self, report: &mut dyn FnMut(usize, Event)) -> Result<(), Refusal>;
}

struct Offer<'a> {
    time: u32,
    station: u8,
    destination: Address,
    value: u16,
    data: &'a [u8],
}

struct Plan<'a> {
    layout: Layout,
    /// Station by station.
    draws: Vec<Vec<u16>>,
    offers: Vec<Offer<'a>>,
    bit_times: u32,
}

const LARGEST_PLAN: usize = 16_384;
const MOST_OFFERS: u16 = 64;

/// Octets still to be read; running out is refused by the number given.
struct Reader<'a> {
    rest: &'a [u8],
    short: Refusal,
}

impl<'a> Reader<'a> {
    fn take(&mut self, size: usize) -> Result<&'a [u8], Refusal> {
        let (taken, rest) = self.rest.split_at_checked(size).ok_or(self.short)?;
        self.rest = rest;
        Ok(taken)
    }

    fn array<const SIZE: usize>(&mut self) -> Result<[u8; SIZE], Refusal> {
        Ok(self.take(SIZE)?.try_into().expect("as many as taken"))
    }

    fn octet(&mut self) -> Result<u8, Refusal> {
        Ok(self.array::<1>()?[0])
    }

    fn two(&mut self) -> Result<u16, Refusal> {
        self.array().map(u16::from_be_bytes)
    }

    fn four(&mut self) -> Result<u32, Refusal> {
        self.array().map(u32::from_be_bytes)
    }
}

/// Refusals 3 to 8, 9, 16, then 13.
fn read_plan(input: &[u8]) -> Result<Plan<'_>, Refusal> {
    let (layout, used) = layout::read_sheet(input)?;
    let mut reader = Reader { rest: &input[used..], short: 9 };
    let depth = reader.octet()?;
    if !(1..=16).contains(&depth) {
        return Err(9);
    }
    let draws = layout.places.iter().map(|_| (0..depth).map(|_| reader.two()).collect()).collect::<Result<_, _>>()?;
    if input.len() > LARGEST_PLAN {
        return Err(16);
    }
    reader.short = 16;
    let count = reader.two()?;
    if count > MOST_OFFERS {
        return Err(16);
    }
    let mut offers: Vec<Offer> = Vec::new();
    for _ in 0..count {
        let time = reader.four()?;
        let station = reader.octet()?;
        let destination = reader.array()?;
        let value = reader.two()?;
        let size = reader.two()?;
        let data = reader.take(size.into())?;
        if offers.last().is_some_and(|last| time < last.time) {
            return Err(16);
        }
        offers.push(Offer { time, station, destination, value, data });
    }
    let bit_times = reader.four()?;
    if !reader.rest.is_empty() {
        return Err(16);
    }
    if bit_times > LAST_CLOCK {
        return Err(13);
    }
    Ok(Plan { layout, draws, offers, bit_times })
}

/// D, where the draws begin, the number of offers, where the first begins, the bit times.
pub fn numbers(input: &[u8]) -> Result<[u32; 5], Refusal> {
    let plan = read_plan(input)?;
    let (layout, used) = layout::read_sheet(input)?;
    let depth = plan.draws[0].len();
    let drawn = used + 1;
    let first = drawn + 2 * layout.places.len() * depth + 2;
    Ok([depth as u32, drawn as u32, plan.offers.len() as u32, first as u32, plan.bit_times])
}

/// What the run program prints for an input.
pub fn printed<E: Engine>(input: &[u8]) -> Vec<u8> {
    match read_plan(input) {
        Ok(plan) => report::<E>(&plan).into_bytes(),
        Err(refusal) => format!("refused {refusal}\n").into_bytes(),
    }
}

fn report<E: Engine>(plan: &Plan) -> String {
    let fits = if plan.layout.fits() { "yes" } else { "no" };
    let mut text = format!("stations {} fit {fits}\n", plan.layout.places.len());
    let mut line = |args: std::fmt::Arguments| writeln!(text, "{args}").expect("writing to a string");
    let mut engine = E::start(&plan.layout, &plan.draws);
    let mut offers = plan.offers.iter().peekable();
    let mut clock = 0;
    let mut late = false;
    while clock < plan.bit_times && !late {
        // "An offer is made, in plan order, just before the step of its time."
        while let Some(offer) = offers.next_if(|offer| offer.time == clock) {
            let made = engine.offer(offer.station.into(), offer.destination, offer.value, offer.data);
            if let Err(refusal) = made {
                line(format_args!("{} {} refused {refusal}", offer.time, offer.station));
            }
        }
        let stepped = engine.step(&mut |station, event| {
            line(format_args!("{clock} {station} {} {}", event.word.text(), event.number));
            late |= event.word == Word::Late && plan.layout.late_ends_run();
        });
        stepped.expect("the bit times asked end by the last clock");
        clock += 1;
    }
    line(format_args!("end {clock}"));
    text
}
