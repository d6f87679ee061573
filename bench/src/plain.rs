//! The plain engine: docs/INDEX.md's "One bit time", sentence by sentence, with request N1.
//!
//! It keeps every emission of every station and looks back by distance. What other stations emitted before the world was set up from a
//! work area (see [`crate::area`]) is known only by its arrival; such arrivals are kept apart.

use std::array;

use crate::events::{Event, Events, Ran, Word};
use crate::frame::{self, packet_bit, Status, HEADER_BITS, LARGEST_FRAME};
use crate::layout::{Address, Layout, BROADCAST};
use crate::program::Engine;
use crate::{Refusal, LAST_CLOCK};

pub use crate::frame::{build, open};
pub use crate::layout::{fits, read_sheet};

/// The run program on the plain engine.
pub fn printed(input: &[u8]) -> Vec<u8> {
    crate::program::printed::<World>(input)
}

/// A symbol other than silence.
#[derive(Clone, Copy, Debug, PartialEq, Eq)]
pub enum Symbol {
    Bit(bool),
    Jam,
}

/// What a station hears in a step.
#[derive(Clone, Copy, Debug, Default, PartialEq, Eq)]
pub enum Heard {
    #[default]
    Nothing,
    One(Symbol),
    Several,
}

impl Heard {
    fn along_with(self, symbol: Symbol) -> Heard {
        match self {
            Heard::Nothing => Heard::One(symbol),
            Heard::One(_) | Heard::Several => Heard::Several,
        }
    }

    fn any(self) -> bool {
        self != Heard::Nothing
    }

    /// A clean symbol's bit; none for "a jam bit, or any symbol heard from two or more".
    fn clean(self) -> Option<bool> {
        match self {
            Heard::One(Symbol::Bit(bit)) => Some(bit),
            _ => None,
        }
    }
}

/// `own`: the station itself emitted in that busy stretch.
#[derive(Clone, Copy, Debug, Default, PartialEq, Eq)]
pub enum Deference {
    #[default]
    Quiet,
    Busy {
        own: bool,
    },
    Gap {
        own: bool,
        count: u32,
    },
}

#[derive(Clone, Copy, Debug, Default, PartialEq, Eq)]
pub enum Transmitter {
    #[default]
    NoFrame,
    Waiting,
    /// Steps that pass before the frame waits again.
    BackingOff {
        left: u32,
    },
    /// The packet bit that goes out next.
    Sending {
        bit: u32,
    },
    /// After a collision: the header bit that goes out next.
    Heading {
        bit: u32,
    },
    /// Jam bits that go out still.
    Jamming {
        left: u32,
    },
    /// The same after a late collision that closes the frame.
    Ending {
        left: u32,
    },
}

/// Within a reception, `spoiled`: a jam bit or several symbols at once were heard; `own`: the station emitted during it.
#[derive(Clone, Copy, Debug, Default, PartialEq, Eq)]
pub enum Receiver {
    #[default]
    Listening,
    Readable {
        octets: u32,
    },
    Seeking {
        row: Row,
        spoiled: bool,
        own: bool,
    },
    Collecting {
        bits: u32,
        spoiled: bool,
        own: bool,
    },
}

/// The clean symbols heard last and in a row, eight at most, as a number: a one, then the symbols.
#[derive(Clone, Copy, Debug, PartialEq, Eq)]
pub struct Row(pub u32);

impl Row {
    const EMPTY: Row = Row(1);
    const DELIMITER: Row = Row(0b1_1010_1011);

    fn then(self, bit: bool) -> Row {
        let longer = self.0 << 1 | u32::from(bit);
        Row(if longer < 512 { longer } else { 256 | longer & 255 })
    }
}

/// The counters, in the model's order, late-ended last; the receive errors in the order of docs/INDEX.md, "Counters".
#[derive(Clone, Copy)]
enum Counter {
    Offered,
    Attempts,
    Collisions,
    Late,
    Sent,
    SentAfterOne,
    SentAfterSeveral,
    OctetsSent,
    Deferred,
    Excessive,
    Received,
    OctetsReceived,
    TooLong,
    Check,
    Alignment,
    Length,
    LateEnded,
}

/// How many counters a station has.
pub const COUNTERS: usize = 17;

#[derive(Clone, Debug, Default, PartialEq, Eq)]
pub struct Counters(pub [u32; COUNTERS]);

impl Counters {
    /// "A counter that would pass its top stops at it."
    fn add(&mut self, counter: Counter, more: u32) {
        let place = &mut self.0[counter as usize];
        *place = place.saturating_add(more);
    }

    fn count(&mut self, counter: Counter) {
        self.add(counter, 1);
    }
}

#[derive(Clone, Debug, PartialEq, Eq)]
pub struct Station {
    pub deference: Deference,
    pub transmitter: Transmitter,
    pub receiver: Receiver,
    /// The frame held: its octets, and how many of them count.
    pub frame: [u8; LARGEST_FRAME],
    pub frame_octets: u32,
    /// Starts of the frame so far.
    pub attempts: u32,
    /// The draw used next.
    pub draw_place: u32,
    /// The frame did not start in its first step.
    pub deferred: bool,
    /// Emitted in the step before.
    pub emitted: bool,
    /// The bits collected, low bits first; "bits past what the receive buffer holds are counted, not kept".
    pub collected: [u8; LARGEST_FRAME],
    pub counters: Counters,
}

impl Default for Station {
    fn default() -> Station {
        Station {
            deference: Deference::default(),
            transmitter: Transmitter::default(),
            receiver: Receiver::default(),
            frame: [0; LARGEST_FRAME],
            frame_octets: 0,
            attempts: 0,
            draw_place: 0,
            deferred: false,
            emitted: false,
            collected: [0; LARGEST_FRAME],
            counters: Counters::default(),
        }
    }
}

impl Station {
    /// Deference comes first. Answers whether it ends quiet; a waiting frame then starts.
    fn defer(&mut self, layout: &Layout, others: bool) -> bool {
        let busy = others || self.emitted;
        let quiet_rule = if busy { Deference::Busy { own: self.emitted } } else { Deference::Quiet };
        self.deference = match self.deference {
            Deference::Quiet => quiet_rule,
            Deference::Busy { own } if busy => Deference::Busy { own: own || self.emitted },
            Deference::Busy { own } => Deference::Gap { own, count: 1 },
            Deference::Gap { own, count } if count < layout.gap() => {
                if others && count < layout.gap1 && !own {
                    Deference::Busy { own }
                } else {
                    Deference::Gap { own, count: count + 1 }
                }
            }
            // "A waiting frame starts in this step, carrier or none; with none waiting, the quiet rule applies."
            Deference::Gap { .. } if self.transmitter == Transmitter::Waiting => Deference::Quiet,
            Deference::Gap { .. } => quiet_rule,
        };
        self.deference == Deference::Quiet
    }

    /// The transmitter: what the station emits, and its event.
    fn transmit(
        &mut self,
        layout: &Layout,
        draws: &[u16],
        quiet: bool,
        others: bool,
    ) -> (Option<Symbol>, Option<Event>) {
        match self.transmitter {
            Transmitter::NoFrame => (None, None),
            Transmitter::Waiting if quiet => {
                self.attempts += 1;
                self.counters.count(Counter::Attempts);
                self.send_bit(layout, 1, others)
            }
            Transmitter::Waiting => {
                if self.attempts == 0 {
                    self.deferred = true;
                }
                (None, None)
            }
            Transmitter::BackingOff { left } => {
                self.transmitter =
                    if left > 1 { Transmitter::BackingOff { left: left - 1 } } else { Transmitter::Waiting };
                (None, None)
            }
            Transmitter::Sending { bit } => self.send_bit(layout, bit, others),
            Transmitter::Heading { bit } => {
                self.transmitter = self.after_collision(layout, bit);
                (Some(Symbol::Bit(packet_bit(&self.frame, bit))), None)
            }
            Transmitter::Jamming { left } if left > 1 => {
                self.transmitter = Transmitter::Jamming { left: left - 1 };
                (Some(Symbol::Jam), None)
            }
            Transmitter::Jamming { .. } => (Some(Symbol::Jam), self.end_attempt(layout, draws)),
            Transmitter::Ending { left } if left > 1 => {
                self.transmitter = Transmitter::Ending { left: left - 1 };
                (Some(Symbol::Jam), None)
            }
            Transmitter::Ending { .. } => (Some(Symbol::Jam), Some(self.late_ended())),
        }
    }

    /// Emits a packet bit: "the first step of an attempt in which a sending station hears another is its collision, at bit k".
    fn send_bit(&mut self, layout: &Layout, bit: u32, others: bool) -> (Option<Symbol>, Option<Event>) {
        let symbol = Some(Symbol::Bit(packet_bit(&self.frame, bit)));
        if others {
            self.counters.count(Counter::Collisions);
            self.transmitter = self.after_collision(layout, bit);
            if bit <= layout.slot {
                return (symbol, Some(Event { word: Word::Collision, number: bit }));
            }
            self.counters.count(Counter::Late);
            if layout.late_end == 1 {
                // A late collision lies past the header, so jam follows at once.
                self.transmitter = Transmitter::Ending { left: layout.jam };
            }
            (symbol, Some(Event { word: Word::Late, number: bit }))
        } else if bit == HEADER_BITS + 8 * self.frame_octets {
            (symbol, Some(self.sent()))
        } else {
            self.transmitter = Transmitter::Sending { bit: bit + 1 };
            (symbol, None)
        }
    }

    /// "Bit k goes out, header bits through 64 too, then jam bits."
    fn after_collision(&self, layout: &Layout, bit: u32) -> Transmitter {
        if bit < HEADER_BITS {
            Transmitter::Heading { bit: bit + 1 }
        } else {
            Transmitter::Jamming { left: layout.jam }
        }
    }

    /// "With no collision, the step of the last bit reports sent."
    fn sent(&mut self) -> Event {
        self.transmitter = Transmitter::NoFrame;
        self.counters.count(Counter::Sent);
        match self.attempts {
            0 | 1 => {}
            2 => self.counters.count(Counter::SentAfterOne),
            3.. => self.counters.count(Counter::SentAfterSeveral),
        }
        self.counters.add(Counter::OctetsSent, self.frame_octets - 18);
        // N2: "a frame counts as deferred if it did not start in its first step and was sent on its first attempt".
        if self.deferred && self.attempts == 1 {
            self.counters.count(Counter::Deferred);
        }
        Event { word: Word::Sent, number: self.attempts }
    }

    /// "At the last jam bit, after attempt n: n = limit reports excessiveCollisionError; else r = draw mod 2^min(n, backoff limit) and
    /// the frame waits again from slot × r + 1 steps later."
    fn end_attempt(&mut self, layout: &Layout, draws: &[u16]) -> Option<Event> {
        if self.attempts == layout.attempt_limit {
            self.transmitter = Transmitter::NoFrame;
            self.counters.count(Counter::Excessive);
            return Some(Event { word: Word::GivenUp, number: self.attempts });
        }
        let range = 1u32 << self.attempts.min(layout.backoff_limit);
        let left = layout.slot * (u32::from(draws[self.draw_place as usize]) % range);
        self.draw_place = (self.draw_place + 1) % draws.len() as u32;
        self.transmitter = if left == 0 { Transmitter::Waiting } else { Transmitter::BackingOff { left } };
        None
    }

    /// "1 reports lateCollisionError at the last jam bit, before the attempt limit is looked at."
    fn late_ended(&mut self) -> Event {
        self.transmitter = Transmitter::NoFrame;
        self.counters.count(Counter::LateEnded);
        Event { word: Word::LateEnd, number: self.attempts }
    }

    /// The receiver; `emits`: the station emits in this very step.
    fn receive(&mut self, address: Address, heard: Heard, emits: bool) -> Option<Event> {
        if heard == Heard::Nothing {
            let (event, receiver) = match self.receiver {
                Receiver::Listening | Receiver::Readable { .. } => (None, self.receiver),
                Receiver::Seeking { .. } => (None, Receiver::Listening),
                Receiver::Collecting { bits, spoiled, own } => self.decide(address, bits, spoiled, own),
            };
            self.receiver = receiver;
            return event;
        }
        let clean = heard.clean();
        self.receiver = match self.receiver {
            Receiver::Listening | Receiver::Readable { .. } => seek(Row::EMPTY, clean, false, emits),
            Receiver::Seeking { row, spoiled, own } => seek(row, clean, spoiled, own || emits),
            Receiver::Collecting { bits, spoiled, own } => {
                self.keep(bits, clean.unwrap_or(false));
                Receiver::Collecting { bits: bits + 1, spoiled: spoiled || clean.is_none(), own: own || emits }
            }
        };
        None
    }

    /// Keeps a collected bit; the bits of its octet that are still to come are 0.
    fn keep(&mut self, place: u32, bit: bool) {
        if let Some(octet) = self.collected.get_mut(place as usize / 8) {
            let within = place % 8;
            let below = (1 << within) - 1;
            *octet = *octet & below | u8::from(bit) << within;
        }
    }

    /// "The step after the stretch decides."
    fn decide(&mut self, address: Address, bits: u32, spoiled: bool, own: bool) -> (Option<Event>, Receiver) {
        let destination: Address = array::from_fn(|i| self.collected[i]);
        if bits < 512 || own || (destination != address && destination != BROADCAST) {
            return (None, Receiver::Listening);
        }
        let octets = bits / 8;
        let (counter, word) = match frame::opened(&self.collected, octets as usize, bits % 8, spoiled) {
            Status::ReceiveOk(data) => {
                let number = data.len() as u32;
                self.counters.count(Counter::Received);
                self.counters.add(Counter::OctetsReceived, octets - 18);
                return (Some(Event { word: Word::GotOk, number }), Receiver::Readable { octets });
            }
            Status::FrameTooLong => (Counter::TooLong, Word::GotTooLong),
            Status::FrameCheckError => (Counter::Check, Word::GotCheck),
            Status::AlignmentError => (Counter::Alignment, Word::GotAlignment),
            Status::LengthError => (Counter::Length, Word::GotLength),
            Status::Fragment => unreachable!("512 bits are 64 octets"),
        };
        self.counters.count(counter);
        (Some(Event { word, number: octets }), Receiver::Listening)
    }
}

/// Looking for the delimiter: "eight clean 0/1 symbols in a row, 10101011, anywhere in the reception; a spoiled symbol breaks the row".
fn seek(row: Row, clean: Option<bool>, spoiled: bool, own: bool) -> Receiver {
    match clean.map(|bit| row.then(bit)) {
        None => Receiver::Seeking { row: Row::EMPTY, spoiled: true, own },
        Some(Row::DELIMITER) => Receiver::Collecting { bits: 0, spoiled, own },
        Some(row) => Receiver::Seeking { row, spoiled, own },
    }
}

/// Arrivals that a work area knows of: those of the next 256 steps.
pub const AHEAD: usize = 256;

/// The pair with all its stations.
#[derive(Clone, Debug)]
pub struct World {
    pub layout: Layout,
    pub clock: u32,
    /// Each station's draws, D of them.
    pub draws: Vec<Vec<u16>>,
    pub stations: Vec<Station>,
    /// The clock at which the world was set up.
    origin: u32,
    /// What was under way to each station then, by steps from the origin on.
    under_way: Vec<[Heard; AHEAD]>,
    /// What each station emitted in every step since the origin; none is silence.
    emissions: Vec<Vec<Option<Symbol>>>,
}

impl World {
    /// "A fresh start has clock 0, every station quiet, nothing emitted, heard or held, first draws next, counters 0."
    pub fn start(layout: &Layout, draws: &[Vec<u16>]) -> World {
        let n = layout.places.len();
        World::resume(layout.clone(), 0, draws.to_vec(), vec![Station::default(); n], vec![[Heard::Nothing; AHEAD]; n])
    }

    /// A world set up in the middle, with what is under way to each station.
    pub fn resume(
        layout: Layout,
        clock: u32,
        draws: Vec<Vec<u16>>,
        stations: Vec<Station>,
        under_way: Vec<[Heard; AHEAD]>,
    ) -> World {
        let emissions = vec![Vec::new(); stations.len()];
        World { layout, clock, draws, stations, origin: clock, under_way, emissions }
    }

    /// "What station i emits at t is heard at j≠i at t + |p(i)−p(j)|." Step `t` may lie ahead: then this is what is known of it.
    pub fn heard(&self, j: usize, t: u32) -> Heard {
        let since_origin = (t - self.origin) as usize;
        let mut heard = self.under_way[j].get(since_origin).copied().unwrap_or_default();
        for (i, emitted) in self.emissions.iter().enumerate() {
            if i != j {
                let place = since_origin.checked_sub(self.layout.distance(i, j) as usize);
                if let Some(&Some(symbol)) = place.and_then(|place| emitted.get(place)) {
                    heard = heard.along_with(symbol);
                }
            }
        }
        heard
    }

    /// Offers a frame. Refusals 10, 11, 12.
    pub fn offer(&mut self, station: u32, destination: Address, value: u16, data: &[u8]) -> Result<(), Refusal> {
        let place = self.layout.places.get(station as usize).ok_or(10u32)?;
        let frame = frame::build(destination, place.address, value, data)?;
        let station = &mut self.stations[station as usize];
        if station.transmitter != Transmitter::NoFrame {
            return Err(12);
        }
        station.transmitter = Transmitter::Waiting;
        station.frame[..frame.len()].copy_from_slice(&frame);
        station.frame_octets = frame.len() as u32;
        station.attempts = 0;
        station.deferred = false;
        station.counters.count(Counter::Offered);
        Ok(())
    }

    /// One bit time. Refusal 13.
    pub fn step(&mut self) -> Result<Vec<Events>, Refusal> {
        if self.clock >= LAST_CLOCK {
            return Err(13);
        }
        // All stations work from what they hear at t and emitted at t−1; none sees another's step t.
        let heard: Vec<Heard> = (0..self.stations.len()).map(|j| self.heard(j, self.clock)).collect();
        let mut answer = Vec::with_capacity(heard.len());
        for (i, station) in self.stations.iter_mut().enumerate() {
            let others = heard[i].any();
            let quiet = station.defer(&self.layout, others);
            let (symbol, transmit) = station.transmit(&self.layout, &self.draws[i], quiet, others);
            let receive = station.receive(self.layout.places[i].address, heard[i], symbol.is_some());
            station.emitted = symbol.is_some();
            self.emissions[i].push(symbol);
            answer.push(Events { transmit, receive });
        }
        self.clock += 1;
        Ok(answer)
    }

    /// "A run of n bit times ends early after the first step in which any station has a late collision", unless late-end is 1.
    /// Refusal 13.
    pub fn run(&mut self, n: u32) -> Result<Ran, Refusal> {
        if u64::from(self.clock) + u64::from(n) > u64::from(LAST_CLOCK) {
            return Err(13);
        }
        let mut ran = Ran::default();
        while ran.steps < n && ran.late.is_none() {
            for (i, events) in self.step()?.into_iter().enumerate() {
                for event in [events.transmit, events.receive].into_iter().flatten() {
                    ran.counts[event.word as usize] += 1;
                    if event.word == Word::Late && self.layout.late_ends_run() && ran.late.is_none() {
                        ran.late = Some((ran.steps, i as u32));
                    }
                }
            }
            ran.steps += 1;
        }
        Ok(ran)
    }

    /// The frame received last, until the next reception begins. Refusals 10, 14.
    pub fn read_frame(&self, station: u32) -> Result<&[u8], Refusal> {
        let station = self.stations.get(station as usize).ok_or(10u32)?;
        match station.receiver {
            Receiver::Readable { octets } => Ok(&station.collected[..octets as usize]),
            _ => Err(14),
        }
    }

    /// A station's counters. Refusal 10.
    pub fn counters(&self, station: u32) -> Result<&[u32; COUNTERS], Refusal> {
        self.stations.get(station as usize).map(|station| &station.counters.0).ok_or(10)
    }
}

impl Engine for World {
    fn start(layout: &Layout, draws: &[Vec<u16>]) -> World {
        World::start(layout, draws)
    }

    fn offer(&mut self, station: u32, destination: Address, value: u16, data: &[u8]) -> Result<(), Refusal> {
        World::offer(self, station, destination, value, data)
    }

    fn step(&mut self, report: &mut dyn FnMut(usize, Event)) -> Result<(), Refusal> {
        for (i, events) in World::step(self)?.into_iter().enumerate() {
            for event in [events.transmit, events.receive].into_iter().flatten() {
                report(i, event);
            }
        }
        Ok(())
    }
}
