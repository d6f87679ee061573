//! The work area: checks 1 and 2, decoding into the plain engine and encoding again, and the C interface's calls made that way.
//!
//! All numbers stand high octet first.
//!
//! | octets from | holds |
//! |---|---|
//! | 0 | the clock |
//! | 4 | D |
//! | 8 | slot, gap1, gap2, jam, attempt limit, backoff limit, N, late-end |
//! | 64 + 16 i | station i: position, then its address of six octets |
//! | 320 + 32 i + 2 k | draw k of station i, 2 octets |
//! | 832 + 68 i | the seventeen counters of station i |
//! | 2048 + 64 i | the record of station i, fourteen words |
//! | 4096 + 256 i + u % 256 | what reaches station i in step u: 0 nothing, 1 a zero, 2 a one, 3 jam or several |
//! | 8192 + 1536 i | the frame of station i |
//! | 32768 + 1536 i | what station i collected |
//!
//! Record words: 0, 1, 2 deference (quiet, busy, gap), own emission, gap count; 3, 4 transmitter (no frame, waiting, backing off, sending,
//! heading, jamming, jamming with the frame's end after it) and its number; 5, 6, 7, 8 receiver (listening, readable, seeking, collecting),
//! its number, spoiled, own emission; 9 frame octets; 10 attempts; 11 draw place; 12 deferred; 13 emitted. Words that a state does not use
//! are 0.

use std::array;

use crate::events::{Event, Events, Ran, Word, WORDS};
use crate::frame::{self, Status, HEADER, LARGEST_FRAME};
use crate::layout::{self, Address, Layout, Place};
use crate::plain::{Counters, Deference, Heard, Receiver, Row, Station, Symbol, Transmitter, World, AHEAD, COUNTERS};
use crate::{program, Refusal, LAST_CLOCK, STATIONS};

pub const AREA: usize = 57_344;
/// Octets of what the calls write into an output.
pub const SHEET_OUT: usize = 196;
pub const PLAN_OUT: usize = SHEET_OUT + 20;
pub const RUN_OUT: usize = 4 * (WORDS + 3);
pub const COUNTERS_OUT: usize = 4 * COUNTERS;
pub const STATION_OUT: usize = 64;

/// The margin of a layout that does not fit.
const NO_MARGIN: u32 = 256;

const CLOCK: usize = 0;
const DEPTH: usize = 4;
const FIGURES: usize = 8;

const fn place_at(i: usize) -> usize {
    64 + 16 * i
}
const fn draw_at(i: usize, k: usize) -> usize {
    320 + 32 * i + 2 * k
}
const fn counter_at(i: usize, counter: usize) -> usize {
    832 + 4 * COUNTERS * i + 4 * counter
}
const fn record_at(i: usize, word: usize) -> usize {
    2048 + 64 * i + 4 * word
}
const fn line_at(i: usize, u: u32) -> usize {
    4096 + 256 * i + u as usize % 256
}
const fn frame_at(i: usize) -> usize {
    8192 + 1536 * i
}
const fn collected_at(i: usize) -> usize {
    32768 + 1536 * i
}

pub fn word(octets: &[u8], at: usize) -> u32 {
    u32::from_be_bytes(array::from_fn(|k| octets[at + k]))
}

pub fn put_word(octets: &mut [u8], at: usize, value: u32) {
    octets[at..at + 4].copy_from_slice(&value.to_be_bytes());
}

/// An address is the low 48 bits of its number, first octet highest.
pub fn address(number: u64) -> Address {
    array::from_fn(|k| (number >> (40 - 8 * k)) as u8)
}

fn layout_of(area: &[u8]) -> Layout {
    let [slot, gap1, gap2, jam, attempt_limit, backoff_limit, n, late_end] =
        array::from_fn(|k| word(area, FIGURES + 4 * k));
    // One place more than there can be keeps an N out of range out of range.
    let places = (0..(n as usize).min(STATIONS + 1))
        .map(|i| Place { position: word(area, place_at(i)), address: array::from_fn(|k| area[place_at(i) + 4 + k]) })
        .collect();
    Layout { slot, gap1, gap2, jam, attempt_limit, backoff_limit, late_end, places }
}

// ---- checks 1 and 2

/// The number of the check, 1 or 2, that refuses a work area; 0 where none does.
pub fn check_area(area: &[u8]) -> u32 {
    if area.len() < AREA {
        1
    } else if holds_wrong_values(area) {
        2
    } else {
        0
    }
}

fn holds_wrong_values(area: &[u8]) -> bool {
    let layout = layout_of(area);
    let clock = word(area, CLOCK);
    let depth = word(area, DEPTH);
    layout.check().is_err()
        || !(1..=16).contains(&depth)
        || clock > LAST_CLOCK
        || (0..layout.places.len()).any(|i| {
            let line = &area[line_at(i, 0)..][..256];
            Record::of(area, i).wrong(&layout, clock, depth)
                || sizes_wrong(area, i)
                || line.iter().any(|&code| code > 3)
        })
}

/// The length/type value in the octets of a frame at this place.
fn value_at(area: &[u8], at: usize) -> u16 {
    u16::from_be_bytes([area[at + 12], area[at + 13]])
}

/// "The frame range in the work area, which reach 1522 for that value alone": of a held frame and of a readable one, by the value in
/// the stored octets.
fn sizes_wrong(area: &[u8], i: usize) -> bool {
    let record = Record::of(area, i);
    let long = |octets: u32, at: usize| octets as usize > frame::largest_frame(value_at(area, at));
    record.transmitter != 0 && long(record.frame, frame_at(i))
        || record.receiver == 1 && long(record.receiver_number, collected_at(i))
}

/// How many words a station's record has.
const RECORD_WORDS: usize = 14;

/// The words of a station's record.
struct Record {
    deference: u32,
    stretch_own: u32,
    gap: u32,
    transmitter: u32,
    transmitter_number: u32,
    receiver: u32,
    receiver_number: u32,
    spoiled: u32,
    reception_own: u32,
    frame: u32,
    attempts: u32,
    draw_place: u32,
    deferred: u32,
    emitted: u32,
}

impl Record {
    fn of(area: &[u8], i: usize) -> Record {
        let word = |k| word(area, record_at(i, k));
        Record {
            deference: word(0),
            stretch_own: word(1),
            gap: word(2),
            transmitter: word(3),
            transmitter_number: word(4),
            receiver: word(5),
            receiver_number: word(6),
            spoiled: word(7),
            reception_own: word(8),
            frame: word(9),
            attempts: word(10),
            draw_place: word(11),
            deferred: word(12),
            emitted: word(13),
        }
    }

    fn words(&self) -> [u32; RECORD_WORDS] {
        [
            self.deference,
            self.stretch_own,
            self.gap,
            self.transmitter,
            self.transmitter_number,
            self.receiver,
            self.receiver_number,
            self.spoiled,
            self.reception_own,
            self.frame,
            self.attempts,
            self.draw_place,
            self.deferred,
            self.emitted,
        ]
    }

    fn put(&self, area: &mut [u8], i: usize) {
        for (k, value) in self.words().into_iter().enumerate() {
            put_word(area, record_at(i, k), value);
        }
    }

    /// "A record field in use out of range", "or a state code that stands for nothing"; a field is in use where the state that
    /// carries it stands. A flag is 0 or 1.
    fn wrong(&self, layout: &Layout, clock: u32, depth: u32) -> bool {
        let flag = |word: u32| word <= 1;
        let frame_size = |octets: u32| (64..=LARGEST_FRAME as u32).contains(&octets);
        let deference_right = match self.deference {
            0 => true,
            1 => flag(self.stretch_own),
            2 => flag(self.stretch_own) && (1..=layout.gap()).contains(&self.gap),
            _ => false,
        };
        let limit = layout.attempt_limit;
        let attempts_right = match self.transmitter {
            0 => self.attempts <= limit,
            1 | 2 => self.attempts < limit,
            _ => (1..=limit).contains(&self.attempts),
        };
        let frame_right = self.transmitter == 0 || (frame_size(self.frame) && flag(self.deferred));
        let number = self.transmitter_number;
        let transmitter_right = attempts_right
            && frame_right
            && match self.transmitter {
                0 | 1 => true,
                2 => (1..=layout.slot * 1023).contains(&number),
                3 | 4 => (1..=64 + 8 * self.frame).contains(&number),
                5 => (1..=layout.jam).contains(&number),
                6 => layout.late_end == 1 && (1..=layout.jam).contains(&number),
                _ => false,
            };
        let reception_flags = flag(self.spoiled) && flag(self.reception_own);
        let receiver_right = match self.receiver {
            0 => true,
            1 => frame_size(self.receiver_number),
            2 => reception_flags && (1..=511).contains(&self.receiver_number),
            3 => reception_flags && self.receiver_number <= clock,
            _ => false,
        };
        !(deference_right && transmitter_right && receiver_right && self.draw_place < depth && flag(self.emitted))
    }
}

// ---- decoding and encoding

fn heard_of(code: u8) -> Heard {
    match code {
        0 => Heard::Nothing,
        1 => Heard::One(Symbol::Bit(false)),
        2 => Heard::One(Symbol::Bit(true)),
        _ => Heard::Several,
    }
}

fn code_of(heard: Heard) -> u8 {
    match heard {
        Heard::Nothing => 0,
        Heard::One(Symbol::Bit(false)) => 1,
        Heard::One(Symbol::Bit(true)) => 2,
        Heard::One(Symbol::Jam) | Heard::Several => 3,
    }
}

fn station_of(area: &[u8], i: usize) -> Station {
    let record = Record::of(area, i);
    let stretch_own = record.stretch_own == 1;
    let (spoiled, own) = (record.spoiled == 1, record.reception_own == 1);
    let number = record.transmitter_number;
    Station {
        deference: match record.deference {
            0 => Deference::Quiet,
            1 => Deference::Busy { own: stretch_own },
            _ => Deference::Gap { own: stretch_own, count: record.gap },
        },
        transmitter: match record.transmitter {
            0 => Transmitter::NoFrame,
            1 => Transmitter::Waiting,
            2 => Transmitter::BackingOff { left: number },
            3 => Transmitter::Sending { bit: number },
            4 => Transmitter::Heading { bit: number },
            5 => Transmitter::Jamming { left: number },
            _ => Transmitter::Ending { left: number },
        },
        receiver: match record.receiver {
            0 => Receiver::Listening,
            1 => Receiver::Readable { octets: record.receiver_number },
            2 => Receiver::Seeking { row: Row(record.receiver_number), spoiled, own },
            _ => Receiver::Collecting { bits: record.receiver_number, spoiled, own },
        },
        frame: array::from_fn(|k| area[frame_at(i) + k]),
        frame_octets: record.frame,
        attempts: record.attempts,
        draw_place: record.draw_place,
        deferred: record.deferred == 1,
        emitted: record.emitted == 1,
        collected: array::from_fn(|k| area[collected_at(i) + k]),
        counters: Counters(array::from_fn(|k| word(area, counter_at(i, k)))),
    }
}

/// The world that an area holds, where checks 1 and 2 let it pass.
pub fn decode(area: &[u8]) -> World {
    let layout = layout_of(area);
    let clock = word(area, CLOCK);
    let n = layout.places.len();
    let depth = word(area, DEPTH) as usize;
    let draws = (0..n)
        .map(|i| (0..depth).map(|k| u16::from_be_bytes([area[draw_at(i, k)], area[draw_at(i, k) + 1]])).collect())
        .collect();
    let stations = (0..n).map(|i| station_of(area, i)).collect();
    let under_way = (0..n).map(|i| array::from_fn(|k| heard_of(area[line_at(i, clock + k as u32)]))).collect();
    World::resume(layout, clock, draws, stations, under_way)
}

fn record_of(station: &Station) -> Record {
    let (deference, stretch_own, gap) = match station.deference {
        Deference::Quiet => (0, false, 0),
        Deference::Busy { own } => (1, own, 0),
        Deference::Gap { own, count } => (2, own, count),
    };
    let (transmitter, transmitter_number) = match station.transmitter {
        Transmitter::NoFrame => (0, 0),
        Transmitter::Waiting => (1, 0),
        Transmitter::BackingOff { left } => (2, left),
        Transmitter::Sending { bit } => (3, bit),
        Transmitter::Heading { bit } => (4, bit),
        Transmitter::Jamming { left } => (5, left),
        Transmitter::Ending { left } => (6, left),
    };
    let (receiver, receiver_number, spoiled, reception_own) = match station.receiver {
        Receiver::Listening => (0, 0, false, false),
        Receiver::Readable { octets } => (1, octets, false, false),
        Receiver::Seeking { row, spoiled, own } => (2, row.0, spoiled, own),
        Receiver::Collecting { bits, spoiled, own } => (3, bits, spoiled, own),
    };
    Record {
        deference,
        stretch_own: stretch_own.into(),
        gap,
        transmitter,
        transmitter_number,
        receiver,
        receiver_number,
        spoiled: spoiled.into(),
        reception_own: reception_own.into(),
        frame: station.frame_octets,
        attempts: station.attempts,
        draw_place: station.draw_place,
        deferred: station.deferred.into(),
        emitted: station.emitted.into(),
    }
}

fn put_station(area: &mut [u8], i: usize, station: &Station) {
    record_of(station).put(area, i);
    for (k, value) in station.counters.0.into_iter().enumerate() {
        put_word(area, counter_at(i, k), value);
    }
    area[frame_at(i)..][..LARGEST_FRAME].copy_from_slice(&station.frame);
    area[collected_at(i)..][..LARGEST_FRAME].copy_from_slice(&station.collected);
}

/// Writes what steps can change: the clock, the stations, and what is under way to them.
pub fn encode(world: &World, area: &mut [u8]) {
    put_word(area, CLOCK, world.clock);
    for (i, station) in world.stations.iter().enumerate() {
        put_station(area, i, station);
        for u in world.clock..world.clock + AHEAD as u32 {
            area[line_at(i, u)] = code_of(world.heard(i, u));
        }
    }
}

/// "A fresh start writes zeros over all 57,344 octets and then layout, D and the draws."
pub fn encode_start(world: &World, area: &mut [u8]) {
    area[..AREA].fill(0);
    let layout = &world.layout;
    let depth = world.draws[0].len() as u32;
    let n = layout.places.len() as u32;
    let Layout { slot, gap1, gap2, jam, attempt_limit, backoff_limit, late_end, .. } = *layout;
    let figures = [slot, gap1, gap2, jam, attempt_limit, backoff_limit, n, late_end];
    put_word(area, DEPTH, depth);
    for (k, value) in figures.into_iter().enumerate() {
        put_word(area, FIGURES + 4 * k, value);
    }
    for (i, place) in layout.places.iter().enumerate() {
        put_word(area, place_at(i), place.position);
        area[place_at(i) + 4..][..6].copy_from_slice(&place.address);
        for (k, draw) in world.draws[i].iter().enumerate() {
            area[draw_at(i, k)..][..2].copy_from_slice(&draw.to_be_bytes());
        }
    }
    encode(world, area);
}

// ---- the calls of the C interface: the answer or a refusal, which leaves every lent octet as it was

type Answer = Result<u32, Refusal>;

fn decoded(area: &[u8]) -> Result<World, Refusal> {
    match check_area(area) {
        0 => Ok(decode(area)),
        refusal => Err(refusal),
    }
}

/// Refusal 15: "The lent output is too short."
fn room(out: &[u8], octets: usize) -> Result<(), Refusal> {
    if out.len() < octets {
        Err(15)
    } else {
        Ok(())
    }
}

fn put_words(out: &mut [u8], words: &[u32]) {
    for (k, &value) in words.iter().enumerate() {
        put_word(out, 4 * k, value);
    }
}

pub fn read_sheet(sheet: &[u8], out: &mut [u8]) -> Answer {
    let (layout, used) = layout::read_sheet(sheet)?;
    room(out, SHEET_OUT)?;
    out[..SHEET_OUT].fill(0);
    let Layout { slot, gap1, gap2, jam, attempt_limit, backoff_limit, late_end, ref places } = layout;
    let n = places.len() as u32;
    put_words(out, &[slot, gap1, gap2, jam, attempt_limit, backoff_limit, n, layout.fits().into()]);
    for (place, out) in places.iter().zip(out[32..192].chunks_exact_mut(10)) {
        put_word(out, 0, place.position);
        out[4..].copy_from_slice(&place.address);
    }
    put_word(out, 192, late_end);
    Ok(used as u32)
}

/// The shortest sheet with the layout of this one.
pub fn write_sheet(sheet: &[u8], out: &mut [u8]) -> Answer {
    let (layout, _) = layout::read_sheet(sheet)?;
    let written = layout::write_sheet(&layout)?;
    room(out, written.len())?;
    out[..written.len()].copy_from_slice(&written);
    Ok(written.len() as u32)
}

/// The layout as [`read_sheet`] writes it.
pub fn check_layout(octets: &[u8]) -> Answer {
    if octets.len() < SHEET_OUT {
        return Err(3);
    }
    let n = word(octets, 24);
    let places = octets[32..192].chunks_exact(10).take(n.min(16) as usize);
    let layout = Layout {
        slot: word(octets, 0),
        gap1: word(octets, 4),
        gap2: word(octets, 8),
        jam: word(octets, 12),
        attempt_limit: word(octets, 16),
        backoff_limit: word(octets, 20),
        late_end: word(octets, 192),
        places: places
            .map(|place| Place { position: word(place, 0), address: place[4..].try_into().expect("six") })
            .collect(),
    };
    match layout.check() {
        Err(5) => Err(5),
        _ if n > 16 => Err(6),
        checked => checked.map(|()| 0),
    }
}

/// The layout as [`read_sheet`] writes it, then D, where the draws begin, the number of offers, where the first begins, the bit times.
pub fn read_plan(input: &[u8], out: &mut [u8]) -> Answer {
    let numbers = program::numbers(input)?;
    room(out, PLAN_OUT)?;
    read_sheet(input, &mut out[..SHEET_OUT])?;
    put_words(&mut out[SHEET_OUT..], &numbers);
    Ok(0)
}

pub fn fits(sheet: &[u8]) -> Answer {
    layout::fits(sheet).map(u32::from)
}

pub fn margin(sheet: &[u8]) -> Answer {
    layout::margin(sheet).map(|margin| margin.unwrap_or(NO_MARGIN))
}

pub fn build(destination: u64, source: u64, value: u16, data: &[u8], out: &mut [u8]) -> Answer {
    let frame = frame::build(address(destination), address(source), value, data)?;
    room(out, frame.len())?;
    out[..frame.len()].copy_from_slice(&frame);
    Ok(frame.len() as u32)
}

fn status_code(status: Status) -> u32 {
    match status {
        Status::Fragment => 0,
        Status::FrameTooLong => 1,
        Status::FrameCheckError => 2,
        Status::AlignmentError => 3,
        Status::LengthError => 4,
        Status::ReceiveOk(_) => 5,
    }
}

pub fn status(frame: &[u8], excess: u32) -> Answer {
    frame::open(frame, excess).map(status_code)
}

pub fn reception_status(frame: &[u8], excess: u32, spoiled: u32) -> Answer {
    frame::open(frame, excess)?;
    Ok(status_code(frame::opened(frame, frame.len(), excess, spoiled != 0)))
}

pub fn client_data(frame: &[u8], excess: u32, out: &mut [u8]) -> Answer {
    let status = frame::open(frame, excess)?;
    room(out, 8)?;
    match status {
        Status::ReceiveOk(data) => put_words(out, &[HEADER as u32, data.len() as u32]),
        _ => put_words(out, &[0, 0]),
    }
    Ok(status_code(status))
}

pub fn start(area: &mut [u8], sheet: &[u8], depth: u32, draws: &[u8]) -> Answer {
    if area.len() < AREA {
        return Err(1);
    }
    let (layout, _) = layout::read_sheet(sheet)?;
    if !(1..=16).contains(&depth) || draws.len() != 2 * layout.places.len() * depth as usize {
        return Err(9);
    }
    let draws: Vec<Vec<u16>> = draws
        .chunks_exact(2 * depth as usize)
        .map(|own| own.chunks_exact(2).map(|draw| u16::from_be_bytes([draw[0], draw[1]])).collect())
        .collect();
    encode_start(&World::start(&layout, &draws), area);
    Ok(0)
}

pub fn offer(area: &mut [u8], station: u32, destination: u64, value: u16, data: &[u8]) -> Answer {
    let mut world = decoded(area)?;
    world.offer(station, address(destination), value, data)?;
    put_station(area, station as usize, &world.stations[station as usize]);
    Ok(0)
}

fn codes_of(events: &Events) -> [u32; 4] {
    let transmit = events.transmit.map_or((0, 0), |Event { word, number }| (word as u32 + 1, number));
    let receive =
        events.receive.map_or((0, 0), |Event { word, number }| (word as u32 - Word::GotOk as u32 + 1, number));
    [transmit.0, transmit.1, receive.0, receive.1]
}

/// A step's events as the C interface writes them.
pub fn put_events(events: &[Events], out: &mut [u8]) {
    out[..256].fill(0);
    for (events, out) in events.iter().zip(out.chunks_exact_mut(16)) {
        put_words(out, &codes_of(events));
    }
}

/// A run's answer as the C interface writes it.
pub fn put_ran(ran: &Ran, out: &mut [u8]) {
    let (step, station) = ran.late.unwrap_or((0, 0));
    put_words(out, &ran.counts);
    put_words(&mut out[4 * WORDS..], &[ran.late.is_some().into(), step, station]);
}

pub fn step(area: &mut [u8], out: &mut [u8]) -> Answer {
    let mut world = decoded(area)?;
    let events = world.step()?;
    room(out, 256)?;
    encode(&world, area);
    put_events(&events, out);
    Ok(0)
}

pub fn run(area: &mut [u8], n: u32, out: &mut [u8]) -> Answer {
    let mut world = decoded(area)?;
    if u64::from(world.clock) + u64::from(n) > u64::from(LAST_CLOCK) {
        return Err(13);
    }
    room(out, RUN_OUT)?;
    let ran = world.run(n)?;
    if ran.steps > 0 {
        encode(&world, area);
    }
    put_ran(&ran, out);
    Ok(ran.steps)
}

pub fn read_frame(area: &[u8], station: u32, out: &mut [u8]) -> Answer {
    let world = decoded(area)?;
    let frame = world.read_frame(station)?;
    room(out, frame.len())?;
    out[..frame.len()].copy_from_slice(frame);
    Ok(frame.len() as u32)
}

pub fn counters(area: &[u8], station: u32, out: &mut [u8]) -> Answer {
    let world = decoded(area)?;
    let counters = world.counters(station)?;
    room(out, COUNTERS_OUT)?;
    put_words(out, counters);
    Ok(0)
}

/// The words of a station's record as a step writes them, what it hears in the next step, and the clock.
pub fn station(area: &[u8], station: u32, out: &mut [u8]) -> Answer {
    let world = decoded(area)?;
    let state = world.stations.get(station as usize).ok_or(10u32)?;
    room(out, STATION_OUT)?;
    put_words(out, &record_of(state).words());
    let heard = code_of(world.heard(station as usize, world.clock));
    put_words(&mut out[4 * RECORD_WORDS..], &[heard.into(), world.clock]);
    Ok(0)
}
