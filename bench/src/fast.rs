//! The fast engine: every station is looked at in every bit time, and a station at rest that hears nothing costs that look alone.
//!
//! What is under way to a station stands in its ring of 256 places, one for each of the next bit times; distances are at most 255, so a
//! ring never wraps onto what is still to be heard. The rings' places of one bit time lie side by side. The state that a bit time needs is
//! one cache line for each station; frames, counters and draws are kept apart.

use std::array;

use crate::crc;
use crate::events::{Event, Ran, Word, WORDS};
use crate::frame::{self, CHECK, HEADER, LARGEST_FRAME, SMALLEST_DATA};
use crate::layout::{Address, Layout, BROADCAST};
use crate::program::Engine;
use crate::{Refusal, LAST_CLOCK, STATIONS};

/// The run program on the fast engine.
pub fn printed(input: &[u8]) -> Vec<u8> {
    crate::program::printed::<Fast>(input)
}

// Symbols on the pair. Whatever is put on top of another sets `SEVERAL`, so anything from `JAM` on is spoiled.
const SILENCE: u8 = 0;
const ZERO: u8 = 1;
const ONE: u8 = 2;
const JAM: u8 = 3;
const SEVERAL: u8 = 4;

/// Preamble and delimiter, low bits first.
const PACKET_HEADER: [u8; 8] = [0x55, 0x55, 0x55, 0x55, 0x55, 0x55, 0x55, 0xD5];
const HEADER_BITS: u32 = 64;

/// A row of no clean symbols, and the one that ends in the delimiter: a one above the last symbols, eight at most.
const EMPTY_ROW: u16 = 1;
const DELIMITER_ROW: u16 = 0x1AB;

#[derive(Clone, Copy, PartialEq, Eq)]
#[repr(u8)]
enum Deference {
    Quiet,
    Busy,
    Gap,
}

#[derive(Clone, Copy, PartialEq, Eq)]
#[repr(u8)]
enum Transmitter {
    NoFrame,
    Waiting,
    BackingOff,
    Sending,
    Heading,
    Jamming,
    /// Jamming after a late collision that closes the frame.
    Ending,
}

#[derive(Clone, Copy, PartialEq, Eq)]
#[repr(u8)]
enum Receiver {
    Listening,
    Seeking,
    Collecting,
}

/// How much a bit time has to do. All but `Active` are of stations that were silent in the step before.
#[derive(Clone, Copy, PartialEq, Eq)]
#[repr(u8)]
enum Mode {
    /// Quiet, no frame, in no reception: nothing, where nothing is heard.
    Resting,
    /// Quiet, in backoff, in no reception: to count, where nothing is heard.
    BackingOff,
    /// Busy and collecting, with no frame or one that waits: to store a bit, where a clean one is heard.
    Collecting,
    /// Busy and collecting, in backoff: both.
    CollectingInBackoff,
    Active,
}

/// What a bit time looks at.
#[derive(Clone, Copy)]
#[repr(C, align(64))]
struct Station {
    deference: Deference,
    transmitter: Transmitter,
    receiver: Receiver,
    emitted: bool,
    /// The station emitted in the busy stretch that deference follows.
    own_stretch: bool,
    /// The station emitted during the reception.
    own_reception: bool,
    spoiled: bool,
    /// The frame did not start in its first step.
    deferred: bool,
    attempts: u8,
    draw_place: u8,
    row: u16,
    gap: u16,
    /// Octets of the readable frame, 0 where there is none.
    readable: u16,
    /// By transmitter: steps left in backoff, the next packet bit, or the jam bits left.
    number: u32,
    /// The last packet bit of the frame held.
    last_bit: u32,
    collected_bits: u32,
    /// To each station; 0 to itself.
    distance: [u8; STATIONS],
}

/// What only frames, their outcomes and collected bits need.
#[derive(Clone)]
struct Store {
    address: Address,
    draws: [u16; 16],
    counters: [u32; COUNTERS],
    packet: [u8; PACKET_HEADER.len() + LARGEST_FRAME],
    /// One octet more takes the bits past the largest frame.
    collected: [u8; LARGEST_FRAME + 1],
}

// Places of the counters, in the model's order.
const OFFERED: usize = 0;
const ATTEMPTS: usize = 1;
const COLLISIONS: usize = 2;
const LATE: usize = 3;
const SENT: usize = 4;
const SENT_AFTER_ONE: usize = 5;
const SENT_AFTER_SEVERAL: usize = 6;
const OCTETS_SENT: usize = 7;
const DEFERRED: usize = 8;
const EXCESSIVE: usize = 9;
const RECEIVED: usize = 10;
const OCTETS_RECEIVED: usize = 11;
const TOO_LONG: usize = 12;
const CHECK_WRONG: usize = 13;
const ALIGNMENT: usize = 14;
const LENGTH: usize = 15;
const LATE_ENDED: usize = 16;
const COUNTERS: usize = 17;

impl Store {
    const EMPTY: Store = Store {
        address: [0; 6],
        draws: [0; 16],
        counters: [0; COUNTERS],
        packet: [0; PACKET_HEADER.len() + LARGEST_FRAME],
        collected: [0; LARGEST_FRAME + 1],
    };

    fn add(&mut self, counter: usize, more: u32) {
        self.counters[counter] = self.counters[counter].saturating_add(more);
    }
}

/// The layout's figures and D.
#[derive(Clone, Copy)]
struct Figures {
    slot: u32,
    gap1: u16,
    gap: u16,
    jam: u32,
    attempt_limit: u8,
    backoff_limit: u8,
    /// A late collision closes the frame, and ends no run.
    late_end: bool,
    depth: u8,
}

pub struct Fast {
    clock: u32,
    n: usize,
    figures: Figures,
    modes: [Mode; STATIONS],
    stations: [Station; STATIONS],
    /// By bit time modulo 256, then by station.
    rings: Box<[[u8; STATIONS]; 256]>,
    stores: Box<[Store; STATIONS]>,
}

impl Fast {
    pub fn start(layout: &Layout, draws: &[Vec<u16>]) -> Fast {
        let n = layout.places.len();
        let stations = array::from_fn(|i| Station {
            deference: Deference::Quiet,
            transmitter: Transmitter::NoFrame,
            receiver: Receiver::Listening,
            emitted: false,
            own_stretch: false,
            own_reception: false,
            spoiled: false,
            deferred: false,
            attempts: 0,
            draw_place: 0,
            row: EMPTY_ROW,
            gap: 0,
            readable: 0,
            number: 0,
            last_bit: 0,
            collected_bits: 0,
            distance: array::from_fn(|j| if i.max(j) < n { layout.distance(i, j) as u8 } else { 0 }),
        });
        let mut stores = Box::new([const { Store::EMPTY }; STATIONS]);
        for (store, (place, draws)) in stores.iter_mut().zip(layout.places.iter().zip(draws)) {
            store.address = place.address;
            store.draws[..draws.len()].copy_from_slice(draws);
            store.packet[..PACKET_HEADER.len()].copy_from_slice(&PACKET_HEADER);
        }
        let figures = Figures {
            slot: layout.slot,
            gap1: layout.gap1 as u16,
            gap: layout.gap() as u16,
            jam: layout.jam,
            attempt_limit: layout.attempt_limit as u8,
            backoff_limit: layout.backoff_limit as u8,
            late_end: layout.late_end == 1,
            depth: draws[0].len() as u8,
        };
        Fast {
            clock: 0,
            n,
            figures,
            modes: [Mode::Resting; STATIONS],
            stations,
            rings: Box::new([[SILENCE; STATIONS]; 256]),
            stores,
        }
    }

    pub fn clock(&self) -> u32 {
        self.clock
    }

    /// Offers a frame. Refusals 10, 11, 12.
    pub fn offer(&mut self, station: u32, destination: Address, value: u16, data: &[u8]) -> Result<(), Refusal> {
        let i = station as usize;
        let s = self.stations[..self.n].get_mut(i).ok_or(10u32)?;
        frame::check_data(value, data.len())?;
        if s.transmitter != Transmitter::NoFrame {
            return Err(12);
        }
        let store = &mut self.stores[i];
        let covered = HEADER + data.len().max(SMALLEST_DATA);
        let frame = &mut store.packet[PACKET_HEADER.len()..][..covered + CHECK];
        frame[..6].copy_from_slice(&destination);
        frame[6..12].copy_from_slice(&store.address);
        frame[12..14].copy_from_slice(&value.to_be_bytes());
        frame[HEADER..][..data.len()].copy_from_slice(data);
        frame[HEADER + data.len()..covered].fill(0);
        let check = crc::table_driven(&frame[..covered]);
        frame[covered..].copy_from_slice(&check.to_le_bytes());
        s.transmitter = Transmitter::Waiting;
        s.last_bit = HEADER_BITS + 8 * (covered + CHECK) as u32;
        s.attempts = 0;
        s.deferred = false;
        self.modes[i] = Mode::Active;
        store.add(OFFERED, 1);
        Ok(())
    }

    /// Up to `n` bit times, ending early after a step with a late collision that closes no frame. Refusal 13.
    pub fn run(&mut self, n: u32) -> Result<Ran, Refusal> {
        if u64::from(self.clock) + u64::from(n) > u64::from(LAST_CLOCK) {
            return Err(13);
        }
        let mut counts = [0; WORDS];
        let mut late = None;
        let ends_run = !self.figures.late_end;
        for made in 0..n {
            self.step_reporting(&mut |station, event| {
                counts[event.word as usize] += 1;
                if event.word == Word::Late && ends_run && late.is_none() {
                    late = Some((made, station as u32));
                }
            });
            if late.is_some() {
                return Ok(Ran { steps: made + 1, counts, late });
            }
        }
        Ok(Ran { steps: n, counts, late })
    }

    /// The frame received last, until the next reception begins. Refusals 10, 14.
    pub fn read_frame(&self, station: u32) -> Result<&[u8], Refusal> {
        match self.stations[..self.n].get(station as usize).ok_or(10u32)?.readable {
            0 => Err(14),
            octets => Ok(&self.stores[station as usize].collected[..octets.into()]),
        }
    }

    /// A station's counters. Refusal 10.
    pub fn counters(&self, station: u32) -> Result<&[u32; COUNTERS], Refusal> {
        self.stores[..self.n].get(station as usize).map(|store| &store.counters).ok_or(10)
    }

    #[inline(always)]
    fn step_reporting(&mut self, report: &mut impl FnMut(usize, Event)) {
        let now = self.clock as u8;
        for i in 0..self.n.min(STATIONS) {
            let heard = self.rings[usize::from(now)][i];
            let mode = self.modes[i];
            if heard | mode as u8 == 0 {
                continue;
            }
            let s = &mut self.stations[i];
            match mode {
                Mode::BackingOff if heard == SILENCE && s.number > 1 => s.number -= 1,
                Mode::Collecting if heard == ZERO || heard == ONE => s.collect(&mut self.stores[i], heard),
                Mode::CollectingInBackoff if (heard == ZERO || heard == ONE) && s.number > 1 => {
                    s.number -= 1;
                    s.collect(&mut self.stores[i], heard);
                }
                _ => self.bit_time(i, now, heard, report),
            }
        }
        self.rings[usize::from(now)] = [SILENCE; STATIONS];
        self.clock += 1;
    }

    /// One station's bit time. A symbol emitted goes into every ring ahead of `now`, so no station sees another's of this step.
    #[inline(never)]
    fn bit_time(&mut self, i: usize, now: u8, heard: u8, report: &mut impl FnMut(usize, Event)) {
        let s = &mut self.stations[i];
        let store = &mut self.stores[i];
        let others = heard != SILENCE;
        s.defer(&self.figures, others);
        let symbol = match s.transmitter {
            Transmitter::NoFrame => SILENCE,
            Transmitter::Sending => s.send_bit(store, &self.figures, others, i, report),
            Transmitter::Waiting if s.deference == Deference::Quiet => {
                s.attempts += 1;
                s.number = 1;
                s.transmitter = Transmitter::Sending;
                store.add(ATTEMPTS, 1);
                s.send_bit(store, &self.figures, others, i, report)
            }
            Transmitter::Waiting => {
                s.deferred |= s.attempts == 0;
                SILENCE
            }
            Transmitter::BackingOff => {
                s.number -= 1;
                if s.number == 0 {
                    s.transmitter = Transmitter::Waiting;
                }
                SILENCE
            }
            Transmitter::Heading => {
                let symbol = store.packet_symbol(s.number);
                s.after_collision(&self.figures);
                symbol
            }
            Transmitter::Jamming => {
                s.number -= 1;
                if s.number == 0 {
                    s.end_attempt(store, &self.figures, i, report);
                }
                JAM
            }
            Transmitter::Ending => {
                s.number -= 1;
                if s.number == 0 {
                    s.transmitter = Transmitter::NoFrame;
                    store.add(LATE_ENDED, 1);
                    report(i, Event { word: Word::LateEnd, number: s.attempts.into() });
                }
                JAM
            }
        };
        s.emitted = symbol != SILENCE;
        if others {
            s.hear(store, heard);
        } else if s.receiver != Receiver::Listening {
            s.end_reception(store, i, report);
        }
        self.modes[i] = s.mode();
        if symbol != SILENCE {
            // The station's own place, at distance 0, is cleared at the end of the step.
            for (j, distance) in s.distance.into_iter().enumerate().take(self.n) {
                let place = &mut self.rings[usize::from(now.wrapping_add(distance))][j];
                *place = symbol | (u8::from(*place != SILENCE) * SEVERAL);
            }
        }
    }
}

impl Station {
    fn mode(&self) -> Mode {
        if self.emitted {
            return Mode::Active;
        }
        match (self.deference, self.receiver, self.transmitter) {
            (Deference::Quiet, Receiver::Listening, Transmitter::NoFrame) => Mode::Resting,
            (Deference::Quiet, Receiver::Listening, Transmitter::BackingOff) => Mode::BackingOff,
            (Deference::Busy, Receiver::Collecting, Transmitter::NoFrame) => Mode::Collecting,
            (Deference::Busy, Receiver::Collecting, Transmitter::BackingOff) => Mode::CollectingInBackoff,
            // Waiting on changes nothing once the frame is deferred or has been tried.
            (Deference::Busy, Receiver::Collecting, Transmitter::Waiting) if self.deferred || self.attempts > 0 => {
                Mode::Collecting
            }
            _ => Mode::Active,
        }
    }

    #[inline(always)]
    fn defer(&mut self, figures: &Figures, others: bool) {
        let busy = others | self.emitted;
        let quiet = match self.deference {
            Deference::Quiet => true,
            Deference::Busy => {
                self.own_stretch |= self.emitted;
                if !busy {
                    self.deference = Deference::Gap;
                    self.gap = 1;
                }
                false
            }
            Deference::Gap if self.gap < figures.gap => {
                if others && self.gap < figures.gap1 && !self.own_stretch {
                    self.deference = Deference::Busy;
                } else {
                    self.gap += 1;
                }
                false
            }
            Deference::Gap => {
                self.deference = Deference::Quiet;
                self.transmitter != Transmitter::Waiting
            }
        };
        if quiet && busy {
            self.deference = Deference::Busy;
            self.own_stretch = self.emitted;
        }
    }

    #[inline(always)]
    fn send_bit(
        &mut self,
        store: &mut Store,
        figures: &Figures,
        others: bool,
        i: usize,
        report: &mut impl FnMut(usize, Event),
    ) -> u8 {
        let bit = self.number;
        let symbol = store.packet_symbol(bit);
        if others {
            store.add(COLLISIONS, 1);
            let late = bit > figures.slot;
            store.add(LATE, late.into());
            self.after_collision(figures);
            if late && figures.late_end {
                self.transmitter = Transmitter::Ending;
            }
            report(i, Event { word: if late { Word::Late } else { Word::Collision }, number: bit });
        } else if bit == self.last_bit {
            self.transmitter = Transmitter::NoFrame;
            store.add(SENT, 1);
            store.add(SENT_AFTER_ONE, (self.attempts == 2).into());
            store.add(SENT_AFTER_SEVERAL, (self.attempts > 2).into());
            store.add(OCTETS_SENT, (bit - HEADER_BITS) / 8 - 18);
            store.add(DEFERRED, (self.deferred && self.attempts == 1).into());
            report(i, Event { word: Word::Sent, number: self.attempts.into() });
        } else {
            self.number = bit + 1;
        }
        symbol
    }

    /// What follows packet bit `number`: the rest of the header, then jam.
    fn after_collision(&mut self, figures: &Figures) {
        if self.number < HEADER_BITS {
            self.transmitter = Transmitter::Heading;
            self.number += 1;
        } else {
            self.transmitter = Transmitter::Jamming;
            self.number = figures.jam;
        }
    }

    fn end_attempt(&mut self, store: &mut Store, figures: &Figures, i: usize, report: &mut impl FnMut(usize, Event)) {
        if self.attempts == figures.attempt_limit {
            self.transmitter = Transmitter::NoFrame;
            store.add(EXCESSIVE, 1);
            report(i, Event { word: Word::GivenUp, number: self.attempts.into() });
            return;
        }
        let range = 1u32 << self.attempts.min(figures.backoff_limit);
        let draw = u32::from(store.draws[usize::from(self.draw_place)]);
        self.draw_place = if self.draw_place + 1 == figures.depth { 0 } else { self.draw_place + 1 };
        self.number = figures.slot * (draw & (range - 1));
        self.transmitter = if self.number == 0 { Transmitter::Waiting } else { Transmitter::BackingOff };
    }

    /// Stores a bit, low bits first; eight of them push out whatever the octet held.
    #[inline(always)]
    fn collect(&mut self, store: &mut Store, heard: u8) {
        let place = (self.collected_bits as usize / 8).min(LARGEST_FRAME);
        let octet = &mut store.collected[place];
        *octet = *octet >> 1 | u8::from(heard == ONE) << 7;
        self.collected_bits += 1;
    }

    /// A bit time of a reception.
    #[inline(always)]
    fn hear(&mut self, store: &mut Store, heard: u8) {
        if self.receiver == Receiver::Collecting {
            self.collect(store, heard);
            self.spoiled |= heard >= JAM;
            self.own_reception |= self.emitted;
            return;
        }
        if self.receiver == Receiver::Listening {
            self.receiver = Receiver::Seeking;
            self.readable = 0;
            self.row = EMPTY_ROW;
            self.spoiled = false;
            self.own_reception = false;
        }
        self.own_reception |= self.emitted;
        if heard >= JAM {
            self.spoiled = true;
            self.row = EMPTY_ROW;
            return;
        }
        let longer = self.row << 1 | u16::from(heard - ZERO);
        self.row = if longer < 512 { longer } else { longer & 255 | 256 };
        if self.row == DELIMITER_ROW {
            self.receiver = Receiver::Collecting;
            self.collected_bits = 0;
        }
    }

    /// The step after a reception.
    fn end_reception(&mut self, store: &mut Store, i: usize, report: &mut impl FnMut(usize, Event)) {
        let collecting = self.receiver == Receiver::Collecting;
        self.receiver = Receiver::Listening;
        if !collecting || self.collected_bits < 512 || self.own_reception {
            return;
        }
        if store.collected[..6] != store.address && store.collected[..6] != BROADCAST {
            return;
        }
        let octets = self.collected_bits / 8;
        let aligned = self.collected_bits.is_multiple_of(8);
        let value = u16::from_be_bytes([store.collected[12], store.collected[13]]);
        let (counter, word, number) = if octets as usize > frame::largest_frame(value) {
            (TOO_LONG, Word::GotTooLong, octets)
        } else {
            let (covered, check) = store.collected[..octets as usize].split_at(octets as usize - CHECK);
            let value = u32::from(value);
            let data = octets - 18;
            if self.spoiled || crc::table_driven(covered).to_le_bytes() != *check {
                if aligned {
                    (CHECK_WRONG, Word::GotCheck, octets)
                } else {
                    (ALIGNMENT, Word::GotAlignment, octets)
                }
            } else if value < 1536 && (value > 1500 || data != value.max(SMALLEST_DATA as u32)) {
                (LENGTH, Word::GotLength, octets)
            } else {
                self.readable = octets as u16;
                store.add(OCTETS_RECEIVED, data);
                (RECEIVED, Word::GotOk, if value < 1536 { value } else { data })
            }
        };
        store.add(counter, 1);
        report(i, Event { word, number });
    }
}

impl Store {
    /// Packet bit `bit`, counted from 1, as a symbol.
    #[inline(always)]
    fn packet_symbol(&self, bit: u32) -> u8 {
        let place = (bit - 1) as usize;
        ZERO + (self.packet[place / 8] >> (place % 8) & 1)
    }
}

impl Engine for Fast {
    fn start(layout: &Layout, draws: &[Vec<u16>]) -> Fast {
        Fast::start(layout, draws)
    }

    fn offer(&mut self, station: u32, destination: Address, value: u16, data: &[u8]) -> Result<(), Refusal> {
        Fast::offer(self, station, destination, value, data)
    }

    fn step(&mut self, mut report: &mut dyn FnMut(usize, Event)) -> Result<(), Refusal> {
        if self.clock >= LAST_CLOCK {
            return Err(13);
        }
        self.step_reporting(&mut report);
        Ok(())
    }
}
