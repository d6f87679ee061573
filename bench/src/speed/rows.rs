//! Rows of the table as data: where the stations stand, what they have to send, and the calls that come of it.

use wisavulome_bench::layout;
use wisavulome_bench::rng::Rng;

/// The widest span that fits with absent fields: 2 x 208 + 96 = 512.
const WIDEST: u32 = 208;

/// Draws of each station.
pub const DEPTH: u8 = 16;

/// Octets of data, drawn with equal chance; seven small ones to four medium ones to a large one.
const MIX: [u16; 12] = [46, 46, 46, 46, 46, 46, 46, 552, 552, 552, 552, 1500];

/// Bit times of a packet of the mix, on average: header, then 18 octets and the data.
const MIX_PACKET: u32 = 64 + 8 * (18 + (7 * 46 + 4 * 552 + 1500) / 12);

#[derive(Clone, Copy)]
pub enum Places {
    /// 12 bit times apart.
    Even,
    /// Drawn with a fixed seed, within a span that fits.
    Random,
    OneApart,
}

#[derive(Clone, Copy)]
pub struct Stations {
    pub count: u8,
    pub places: Places,
}

/// What there is to send; `every` so many bit times, offers are made.
#[derive(Clone, Copy)]
pub enum Load {
    Idle {
        every: u32,
    },
    /// Station 0 sends frames one after the other.
    Sender {
        octets: u16,
        every: u32,
    },
    /// Each station has a frame for the next one.
    Contention {
        octets: u16,
        every: u32,
    },
    /// The same with all draws largest: stations collide until they give up, and wait longer and longer.
    Waits {
        every: u32,
    },
    /// A frame of the mix from anyone to anyone else at random times.
    Share {
        percent: u32,
    },
}

/// How the bit times between offers are asked for.
#[derive(Clone, Copy, PartialEq)]
pub enum Cut {
    /// One run.
    Run,
    /// Runs of one bit time.
    RunsOfOne,
    Steps,
}

#[derive(Clone, Copy)]
pub struct Row {
    pub stations: Stations,
    pub load: Load,
    /// How often offers are made.
    pub turns: u32,
    pub cut: Cut,
}

#[derive(Clone, Copy)]
pub enum Call {
    Offer { station: u8, to: u8, octets: u16 },
    Run(u32),
    Step,
}

impl Stations {
    pub fn name(self) -> String {
        let places = match self.places {
            Places::Even => "12 apart",
            Places::Random => "random places",
            Places::OneApart => "1 apart",
        };
        format!("{}, {places}", self.count)
    }

    fn positions(self) -> Vec<u8> {
        let mut rng = Rng::new(100, self.count.into());
        let mut positions: Vec<u8> = Vec::new();
        while positions.len() < self.count.into() {
            let i = positions.len() as u8;
            let position = match self.places {
                Places::Even => 12 * i,
                Places::Random => rng.range(0, WIDEST) as u8,
                Places::OneApart => i,
            };
            if !positions.contains(&position) {
                positions.push(position);
            }
        }
        positions.sort_unstable();
        positions
    }

    /// Absent fields: slot 512, gaps 64 and 32, jam 32, limits 16 and 10. It fits.
    pub fn sheet(self) -> Vec<u8> {
        let mut sheet = vec![0, self.count];
        for (i, position) in self.positions().into_iter().enumerate() {
            sheet.extend([position, 2, 0, 0, 0, 0, i as u8 + 1]);
        }
        assert_eq!(layout::fits(&sheet), Ok(true));
        sheet
    }
}

/// The address that [`Stations::sheet`] gives a station.
pub fn address(station: u8) -> u64 {
    0x0200_0000_0001 + u64::from(station)
}

impl Load {
    pub fn name(self) -> String {
        match self {
            Load::Idle { .. } => "idle".into(),
            Load::Sender { octets, .. } => format!("one sender, {octets} octets"),
            Load::Contention { octets, .. } => format!("contention, {octets} octets"),
            Load::Waits { .. } => "waits of up to 1023 slots".into(),
            Load::Share { percent } => format!("{percent} % load, mixed sizes"),
        }
    }

    /// The offers of a turn and the run after them.
    fn turn(self, stations: u8, rng: &mut Rng) -> (Vec<Call>, u32) {
        let next = |station| (station + 1) % stations;
        let all = |octets| (0..stations).map(|station| Call::Offer { station, to: next(station), octets }).collect();
        match self {
            Load::Idle { every } => (Vec::new(), every),
            Load::Sender { octets, every } => (vec![Call::Offer { station: 0, to: next(0), octets }], every),
            Load::Contention { octets, every } => (all(octets), every),
            Load::Waits { every } => (all(46), every),
            Load::Share { percent } => {
                let station = rng.below(stations.into()) as u8;
                let to = (station + rng.range(1, u32::from(stations) - 1) as u8) % stations;
                let every = MIX_PACKET * 100 / percent;
                (vec![Call::Offer { station, to, octets: rng.pick(&MIX) }], rng.range(1, 2 * every - 1))
            }
        }
    }
}

impl Row {
    pub fn name(self) -> String {
        match self.cut {
            Cut::Run => self.load.name(),
            Cut::RunsOfOne => format!("runs of 1, {}", self.load.name()),
            Cut::Steps => format!("steps, {}", self.load.name()),
        }
    }

    /// Station by station.
    pub fn draws(self) -> Vec<u16> {
        let mut rng = Rng::new(101, 0);
        let count = usize::from(self.stations.count) * usize::from(DEPTH);
        match self.load {
            Load::Waits { .. } => vec![u16::MAX; count],
            _ => (0..count).map(|_| rng.next() as u16).collect(),
        }
    }

    pub fn calls(self) -> Vec<Call> {
        let mut rng = Rng::new(102, 0);
        let mut calls = Vec::new();
        for _ in 0..self.turns {
            let (offers, every) = self.load.turn(self.stations.count, &mut rng);
            calls.extend(offers);
            match self.cut {
                Cut::Run => calls.push(Call::Run(every)),
                Cut::RunsOfOne => calls.extend((0..every).map(|_| Call::Run(1))),
                Cut::Steps => calls.extend((0..every).map(|_| Call::Step)),
            }
        }
        calls
    }
}

/// The bit times that calls ask for.
pub fn bit_times(calls: &[Call]) -> u32 {
    let of = |call: &Call| match *call {
        Call::Offer { .. } => 0,
        Call::Run(n) => n,
        Call::Step => 1,
    };
    calls.iter().map(of).sum()
}
