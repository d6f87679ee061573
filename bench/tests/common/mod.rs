//! What the tests make with a deterministic generator.
#![allow(dead_code)]

use wisavulome_bench::area::{self, put_word, word, AREA};
use wisavulome_bench::crc;
use wisavulome_bench::frame;
use wisavulome_bench::layout::{self, Layout};
use wisavulome_bench::program;
use wisavulome_bench::LAST_CLOCK;

pub use wisavulome_bench::rng::Rng;

/// How many cases a test makes: its own number, scaled by BENCH_CASES in percent (100 if unset).
pub fn cases(usual: u64) -> u64 {
    let percent = std::env::var("BENCH_CASES").ok().map_or(100, |text| text.parse().expect("BENCH_CASES is a number"));
    (usual * percent / 100).max(1)
}

// ---- sheets

/// A sheet of a layout, every field spelled out.
pub fn spelled(layout: &Layout) -> Vec<u8> {
    let mut sheet = vec![0x7F];
    sheet.extend((layout.slot as u16).to_be_bytes());
    sheet.extend(
        [layout.gap1, layout.gap2, layout.jam, layout.attempt_limit, layout.backoff_limit, layout.late_end]
            .map(|field| field as u8),
    );
    sheet.push(layout.places.len() as u8);
    for place in &layout.places {
        sheet.push(place.position as u8);
        sheet.extend(place.address);
    }
    sheet
}

/// Distinct individual addresses, now and then ones that differ in one bit only.
fn addresses(rng: &mut Rng, n: usize) -> Vec<[u8; 6]> {
    let near = rng.one_in(3);
    let mut addresses: Vec<[u8; 6]> = Vec::new();
    while addresses.len() < n {
        let mut address = [0; 6];
        rng.fill(&mut address);
        if near && !addresses.is_empty() {
            address = addresses[0];
            address[rng.below(6) as usize] ^= 1 << rng.below(8);
        }
        address[0] &= !1;
        if !addresses.contains(&address) {
            addresses.push(address);
        }
    }
    addresses
}

/// A sheet that is not refused; two in three fit.
pub fn sheet(rng: &mut Rng) -> Vec<u8> {
    let n = if rng.one_in(4) { rng.edgy(2, 16) } else { rng.range(2, 6) } as usize;
    let span = if rng.one_in(2) { rng.range(n as u32 - 1, 40) } else { rng.edgy(n as u32 - 1, 255) };
    let first = if rng.one_in(2) { 0 } else { rng.range(0, 255 - span) };
    let mut positions = vec![first, first + span];
    while positions.len() < n {
        let position = rng.range(first, first + span);
        if !positions.contains(&position) {
            positions.push(position);
        }
    }
    positions.sort_unstable();
    let gap2 = rng.pick(&[1, 2, 5, 20, 32, 48, 64, 128, 255]);
    let gap1 = rng.edgy(0, 255.min(2 * gap2));
    let mut layout = Layout {
        slot: rng.edgy(64, 512),
        gap1,
        gap2,
        jam: rng.edgy(1, 64),
        attempt_limit: rng.edgy(1, 16),
        backoff_limit: rng.edgy(1, 10),
        late_end: rng.flag(),
        places: positions
            .into_iter()
            .zip(addresses(rng, n))
            .map(|(position, address)| layout::Place { position, address })
            .collect(),
    };
    if !rng.one_in(3) && 2 * span < 512 {
        // Make it fit, often just so.
        let most = (512 - 2 * span).min(128);
        let gap = rng.edgy(1, most);
        layout.gap2 = rng.range(gap.div_ceil(3), gap);
        layout.gap1 = gap - layout.gap2;
        layout.jam = rng.edgy(gap.saturating_sub(64).max(1), 64);
        layout.slot = rng.edgy((2 * span + gap).max(64), 512);
        assert!(layout.fits());
    }
    let mut sheet = spelled(&layout);
    if rng.one_in(6) {
        // Absent fields, late-end among them or not.
        let (map, past) = rng.pick(&[(0, 9), (0x40, 8)]);
        sheet.drain(1..past);
        sheet[0] = map;
    }
    sheet
}

/// Octets with bits flipped, octets replaced, cut or lengthened.
pub fn damaged(rng: &mut Rng, octets: &[u8]) -> Vec<u8> {
    let mut octets = octets.to_vec();
    for _ in 0..rng.range(0, 3) {
        if octets.is_empty() {
            break;
        }
        let at = rng.below(octets.len() as u64) as usize;
        match rng.below(6) {
            0 => octets.truncate(at),
            1 => octets[at] = rng.next() as u8,
            2 => octets[at] = rng.pick(&[0, 1, 255]),
            3 => {
                let more = rng.range(0, 9) as usize;
                octets.extend(rng.octets(more));
            }
            _ => octets[at] ^= 1 << rng.below(8),
        }
    }
    octets
}

/// A sheet with a likely refusal: any octet damaged, the map, N, a position or an address changed.
pub fn damaged_sheet(rng: &mut Rng) -> Vec<u8> {
    let mut sheet = sheet(rng);
    let stations = match sheet[0] {
        0 => 2,
        0x40 => 3,
        _ => 10,
    };
    let n = (sheet.len() - stations) / 7;
    let at = |i: u64| stations + 7 * i as usize;
    match rng.below(8) {
        0 => sheet[0] = rng.next() as u8,
        1 => {
            sheet[stations - 1] = rng.pick(&[0, 1, 17, 18, 200, 255]);
            let more = rng.range(0, 7 * 256) as usize;
            sheet.extend(rng.octets(more));
        }
        2 => sheet[at(rng.clone().below(n as u64))] = rng.next() as u8,
        3 => {
            let (from, to) = (rng.below(n as u64), rng.below(n as u64));
            let address = sheet[at(from) + 1..at(from) + 7].to_vec();
            sheet[at(to) + 1..at(to) + 7].copy_from_slice(&address);
        }
        4 => sheet[at(rng.below(n as u64)) + 1] |= 1,
        5 if stations > 2 => {
            let field = rng.range(1, stations as u32 - 2) as usize;
            sheet[field] = rng.pick(&[0, 1, 2, 10, 11, 16, 17, 64, 65, 254, 255]);
        }
        _ => {}
    }
    damaged(rng, &sheet)
}

/// The draws of a fresh start.
pub fn draws(rng: &mut Rng, n: usize, depth: usize) -> Vec<u8> {
    let small = rng.one_in(2);
    (0..n * depth)
        .flat_map(|_| {
            let draw = if small { rng.below(4) as u16 } else { rng.next() as u16 };
            draw.to_be_bytes()
        })
        .collect()
}

/// What a fresh start is made on: a sheet that is not refused, its layout, D and the draws.
pub struct Setting {
    pub sheet: Vec<u8>,
    pub layout: Layout,
    pub depth: u32,
    pub draws: Vec<u8>,
}

pub fn setting(rng: &mut Rng) -> Setting {
    let sheet = sheet(rng);
    let (layout, _) = layout::read_sheet(&sheet).expect("a sheet that is not refused");
    let depth = rng.edgy(1, 16);
    let draws = draws(rng, layout.places.len(), depth as usize);
    Setting { sheet, layout, depth, draws }
}

/// Draws by station, as the engines here take them.
pub fn by_station(draws: &[u8], depth: usize) -> Vec<Vec<u16>> {
    draws
        .chunks_exact(2 * depth)
        .map(|own| own.chunks_exact(2).map(|draw| u16::from_be_bytes([draw[0], draw[1]])).collect())
        .collect()
}

// ---- offers

pub struct Offer {
    pub station: u32,
    pub destination: u64,
    pub value: u16,
    pub data: Vec<u8>,
}

pub fn number(address: [u8; 6]) -> u64 {
    address.iter().fold(0, |number, &octet| number << 8 | u64::from(octet))
}

/// An offer, mostly acceptable and small; `wild` ones may have a wrong station, size or value.
pub fn offer(rng: &mut Rng, layout: &Layout, wild: bool) -> Offer {
    let n = layout.places.len() as u32;
    let size = match rng.below(12) {
        0 => rng.edgy(0, 1500),
        1 => rng.edgy(0, 1504),
        2 => rng.range(46, 200),
        _ => rng.edgy(0, 60),
    };
    let value = match size {
        1501.. => frame::TAG,
        _ if rng.one_in(2) => size as u16,
        _ => rng.pick(&[1536, 0x0800, frame::TAG, 0xFFFF]),
    };
    let destination = match rng.below(8) {
        0 => 0xFFFF_FFFF_FFFF,
        1 => rng.next(),
        _ => number(layout.places[rng.below(n.into()) as usize].address),
    };
    let mut offer = Offer { station: rng.range(0, n - 1), destination, value, data: rng.octets(size as usize) };
    if wild && rng.one_in(6) {
        match rng.below(5) {
            0 => offer.station = rng.pick(&[n, n + 1, 15, 16, 255, u32::MAX]),
            1 => {
                let size = rng.range(1501, 1600) as usize;
                offer.data = rng.octets(size);
            }
            2 => offer.value = rng.pick(&[0, 1499, 1500, 1501, 1535, 0x80FF, 0x8101, 0x88A8, frame::TAG]),
            3 => offer.value = offer.value.wrapping_add(1),
            _ => offer.value = rng.next() as u16,
        }
    }
    if wild && rng.one_in(4) {
        // Only the low 48 bits are the address.
        offer.destination |= rng.next() << 48;
    }
    offer
}

// ---- work areas that no fresh start made

/// Where the frames and what was collected begin in an area.
const FRAMES: usize = 8192;
const COLLECTED: usize = 32768;

/// The largest frame that the value in these octets allows.
fn size_limit(area: &[u8], at: usize) -> u32 {
    frame::largest_frame(u16::from_be_bytes([area[at + 12], area[at + 13]])) as u32
}

fn set(area: &mut [u8], station: usize, k: usize, value: u32) {
    put_word(area, 2048 + 64 * station + 4 * k, value);
}

/// A value just outside `first..=last`, or far outside.
fn beyond(rng: &mut Rng, first: u32, last: u32) -> u32 {
    match rng.below(4) {
        0 if first > 0 => first - 1,
        1 => u32::MAX - rng.below(3) as u32,
        2 => last + 1 + rng.below(1000) as u32,
        _ => last + 1,
    }
}

/// A station's record with words in range; where `junk`, words that its states do not use hold anything.
fn record(rng: &mut Rng, area: &mut [u8], i: usize, layout: &Layout, clock: u32, depth: u32, junk: bool) {
    let mut words = [0; 14];
    if junk {
        for value in &mut words {
            *value = if rng.one_in(2) { rng.range(0, 3) } else { rng.next() as u32 };
        }
    }
    let limit = layout.attempt_limit;
    words[0] = rng.range(0, 2);
    if words[0] != 0 {
        words[1] = rng.flag();
    }
    if words[0] == 2 {
        words[2] = match rng.below(4) {
            0 => layout.gap(),
            1 => rng.edgy(1, layout.gap()).min(layout.gap1.max(1)),
            _ => rng.edgy(1, layout.gap()),
        };
    }
    words[3] = rng.range(0, 5 + layout.late_end);
    words[10] = match words[3] {
        0 => rng.edgy(0, limit),
        1 | 2 => rng.edgy(0, limit - 1),
        _ => rng.edgy(1, limit),
    };
    for at in [FRAMES + 1536 * i, COLLECTED + 1536 * i] {
        if rng.one_in(3) {
            area[at + 12..at + 14].copy_from_slice(&rng.pick(&[frame::TAG, 0x8101, 0x0800]).to_be_bytes());
        }
    }
    let held_limit = size_limit(area, FRAMES + 1536 * i);
    if words[3] != 0 || !junk || rng.one_in(2) {
        words[9] = rng.edgy(64, held_limit);
        words[12] = rng.flag();
    }
    let last_bit = 64 + 8 * words[9].min(held_limit);
    match words[3] {
        2 => words[4] = if rng.one_in(2) { rng.range(1, 5) } else { rng.edgy(1, layout.slot * 1023) },
        3 | 4 => {
            words[4] = match rng.below(6) {
                0 => rng.range(60, 66),
                1 => layout.slot + rng.range(0, 2) - 1,
                2 => last_bit - rng.range(0, 3),
                _ => rng.edgy(1, last_bit),
            }
        }
        5 | 6 => words[4] = rng.edgy(1, layout.jam),
        _ => {}
    }
    words[5] = rng.range(0, 3);
    match words[5] {
        1 => words[6] = rng.edgy(64, size_limit(area, COLLECTED + 1536 * i)),
        2 => words[6] = if rng.one_in(3) { rng.pick(&[0xD5, 0x155, 0x1D5, 0xAB, 0x1AB]) } else { rng.edgy(1, 511) },
        3 => {
            let usual = match rng.below(4) {
                0 => rng.range(508, 522),
                1 => rng.range(12_140, 12_190),
                _ => rng.edgy(0, clock),
            };
            words[6] = usual.min(clock);
        }
        _ => {}
    }
    if words[5] >= 2 {
        words[7] = u32::from(rng.one_in(4));
        words[8] = u32::from(rng.one_in(4));
    }
    words[11] = rng.edgy(0, depth - 1);
    words[13] = rng.flag();
    for (k, value) in words.into_iter().enumerate() {
        set(area, i, k, value);
    }
    if words[5] == 3 && rng.one_in(2) {
        // Whatever was collected is for the station, or nearly.
        let collected = &mut area[COLLECTED + 1536 * i..][..6];
        collected.copy_from_slice(if rng.one_in(4) { &layout::BROADCAST } else { &layout.places[i].address });
        if rng.one_in(6) {
            collected[rng.below(6) as usize] ^= 1 << rng.below(8);
        }
    }
    if rng.one_in(3) {
        well_formed_frame(rng, area, i, layout, clock);
    }
    if rng.one_in(3) {
        // The station hears nothing in the next step.
        area[4096 + 256 * i + clock as usize % 256] = 0;
    }
}

/// Puts a frame for the station into what it collected, with a good check, complete or nearly so.
fn well_formed_frame(rng: &mut Rng, area: &mut [u8], i: usize, layout: &Layout, clock: u32) {
    let tagged = rng.one_in(3);
    let size = rng.edgy(0, if tagged { 1504 } else { 1500 }) as usize;
    let value = match tagged {
        true => frame::TAG,
        false if rng.one_in(2) => 0x0800,
        false => size as u16,
    };
    let destination = if rng.one_in(4) { layout::BROADCAST } else { layout.places[i].address };
    let data = rng.octets(size);
    let mut frame = frame::build(destination, [2; 6], value, &data).expect("a frame");
    if rng.one_in(3) {
        // Perhaps a length error.
        let end = frame.len() - 4;
        frame[12..14].copy_from_slice(
            &rng.pick(&[0u16, 45, 46, 47, 1500, 1501, 1535, 1536, frame::TAG, frame::TAG + 1]).to_be_bytes(),
        );
        let check = crc::table_driven(&frame[..end]);
        frame[end..].copy_from_slice(&check.to_le_bytes());
    }
    area[COLLECTED + 1536 * i..][..frame.len()].copy_from_slice(&frame);
    let bits = 8 * frame.len() as u32 + if rng.one_in(2) { 0 } else { rng.range(0, 8) };
    if bits <= clock {
        set(area, i, 5, 3);
        set(area, i, 6, bits);
        set(area, i, 7, u32::from(rng.one_in(5)));
        set(area, i, 8, u32::from(rng.one_in(5)));
    }
}

/// Puts one field of an area out of range, where it is in use.
fn break_area(rng: &mut Rng, area: &mut [u8], layout: &Layout, clock: u32, depth: u32) {
    let n = layout.places.len();
    let i = rng.below(n as u64) as usize;
    let limit = layout.attempt_limit;
    let field = |k: usize| word(area, 2048 + 64 * i + 4 * k);
    let (transmitter, receiver, frame) = (field(3), field(5), field(9));
    let station_at = 64 + 16 * i;
    let other_at = 64 + 16 * rng.below(n as u64) as usize;
    match rng.below(25) {
        0 => put_word(area, 0, beyond(rng, 0, LAST_CLOCK)),
        1 => put_word(area, 4, beyond(rng, 1, 16)),
        2 => put_word(area, 8, beyond(rng, 64, 512)),
        3 => put_word(area, 12, beyond(rng, 0, 255.min(2 * layout.gap2))),
        4 => put_word(area, 16, beyond(rng, 1, 255)),
        5 => put_word(area, 20, beyond(rng, 1, 64)),
        6 => put_word(area, 24, beyond(rng, 1, 16)),
        7 => put_word(area, 28, beyond(rng, 1, 10)),
        8 => put_word(area, 32, beyond(rng, 2, 16)),
        9 => put_word(area, 64 + 16 * (n - 1), beyond(rng, 0, 255)),
        10 => area[station_at + 4] |= 1,
        11 => {
            let address = area[other_at + 4..other_at + 10].to_vec();
            area[station_at + 4..station_at + 10].copy_from_slice(&address);
        }
        12 => {
            let position = word(area, other_at);
            put_word(area, station_at, position);
        }
        13 => set(area, i, 0, beyond(rng, 0, 2)),
        14 => set(area, i, 1, beyond(rng, 0, 1)),
        15 => set(area, i, 2, beyond(rng, 1, layout.gap())),
        16 => set(area, i, 3, beyond(rng, 0, 5 + layout.late_end)),
        17 => {
            let value = match transmitter {
                2 => beyond(rng, 1, layout.slot * 1023),
                5 | 6 => beyond(rng, 1, layout.jam),
                _ => beyond(rng, 1, 64 + 8 * frame.min(frame::LARGEST_FRAME as u32)),
            };
            set(area, i, 4, value);
        }
        18 => set(area, i, 5, beyond(rng, 0, 3)),
        19 => {
            let value = match receiver {
                1 => beyond(rng, 64, size_limit(area, COLLECTED + 1536 * i)),
                2 => beyond(rng, 1, 511),
                _ => beyond(rng, 0, clock),
            };
            set(area, i, 6, value);
        }
        20 => set(area, i, rng.clone().range(7, 8) as usize, beyond(rng, 0, 1)),
        21 => {
            let (k, first, last) =
                rng.pick(&[(9, 64, size_limit(area, FRAMES + 1536 * i)), (11, 0, depth - 1), (12, 0, 1), (13, 0, 1)]);
            set(area, i, k, beyond(rng, first, last));
        }
        22 => {
            let value = match transmitter {
                0 => beyond(rng, 0, limit),
                1 | 2 => beyond(rng, 0, limit - 1),
                _ => beyond(rng, 1, limit),
            };
            set(area, i, 10, value);
        }
        // Where it is 0, code 6 stands for nothing.
        23 => put_word(area, 36, if rng.one_in(2) { 0 } else { beyond(rng, 0, 1) }),
        _ => area[4096 + 256 * i + rng.below(256) as usize] = rng.pick(&[4, 5, 7, 128, 255]),
    }
}

/// A work area with random octets everywhere and random records; about two in three pass checks 1 and 2.
pub fn made_up_area(rng: &mut Rng) -> Vec<u8> {
    let sheet = sheet(rng);
    let (layout, _) = layout::read_sheet(&sheet).expect("a sheet that is not refused");
    let n = layout.places.len();
    let depth = rng.edgy(1, 16);
    let draws = draws(rng, n, depth as usize);
    let mut fresh = vec![0; AREA];
    area::start(&mut fresh, &sheet, depth, &draws).expect("a fresh start");

    let mut area = vec![0; AREA];
    rng.fill(&mut area);
    area[..40].copy_from_slice(&fresh[..40]);
    let clock = match rng.below(4) {
        0 => rng.range(0, 2000),
        1 => LAST_CLOCK - rng.range(0, 40),
        _ => rng.range(0, LAST_CLOCK),
    };
    put_word(&mut area, 0, clock);
    let junk = rng.one_in(2);
    let density = rng.pick(&[0, 1, 4, 8]);
    let mostly_one = rng.pick(&[0, 1, 2, 3, 4]);
    for i in 0..n {
        let place = 64 + 16 * i;
        area[place..place + 10].copy_from_slice(&fresh[place..place + 10]);
        let line = 4096 + 256 * i;
        for octet in &mut area[line..line + 256] {
            let heard = if mostly_one < 4 && !rng.one_in(8) { mostly_one } else { rng.below(4) as u8 };
            *octet = if rng.below(8) < density { heard } else { 0 };
        }
        if rng.one_in(4) {
            // The rest of a preamble, the delimiter, and some bits.
            let bits = rng.range(8, 200) as usize;
            for k in 0..bits {
                let symbol = if k < 8 { 1 + (0xD5u8 >> k & 1) } else { rng.range(1, 2) as u8 };
                area[line + (clock as usize + k) % 256] = symbol;
            }
        }
        record(rng, &mut area, i, &layout, clock, depth, junk);
        if rng.one_in(3) {
            // Counters at or near their top.
            for counter in 0..17 {
                if rng.one_in(2) {
                    put_word(&mut area, 832 + 68 * i + 4 * counter, u32::MAX - rng.below(3) as u32);
                }
            }
        }
    }
    if rng.one_in(3) {
        break_area(rng, &mut area, &layout, clock, depth);
    }
    if rng.one_in(8) {
        let more = rng.range(1, 40) as usize;
        area.extend(rng.octets(more));
    }
    area
}

// ---- comparing

/// Where an octet of a work area lies, in words.
pub fn place_name(at: usize) -> String {
    match at {
        0..64 => format!("head word {}", at / 4),
        64..320 => format!("place of station {}, octet {}", (at - 64) / 16, (at - 64) % 16),
        320..832 => format!("draws, octet {}", at - 320),
        832..1920 => format!("station {}, counter {}", (at - 832) / 68, (at - 832) % 68 / 4),
        2048..3072 => format!("station {}, record word {}", (at - 2048) / 64, (at - 2048) % 64 / 4),
        4096..8192 => format!("station {}, line place {}", (at - 4096) / 256, (at - 4096) % 256),
        8192..32768 => format!("station {}, frame octet {}", (at - 8192) / 1536, (at - 8192) % 1536),
        32768..57344 => format!("station {}, collected octet {}", (at - 32768) / 1536, (at - 32768) % 1536),
        _ => format!("octet {at}"),
    }
}

/// Demands that two areas are equal, naming the places where they are not.
pub fn same_area(ours: &[u8], plain: &[u8], context: &dyn Fn() -> String) {
    if ours == plain {
        return;
    }
    let differences: Vec<String> = (0..ours.len())
        .filter(|&at| ours[at] != plain[at])
        .take(12)
        .map(|at| format!("{}: ours {}, plain {}", place_name(at), ours[at], plain[at]))
        .collect();
    panic!("{}: areas differ\n{}", context(), differences.join("\n"));
}

/// A whole run input, damaged or not; none where it may ask for more steps than a test can make.
pub fn run_input(rng: &mut Rng) -> Option<Vec<u8>> {
    let mut input = sheet(rng);
    let (layout, _) = layout::read_sheet(&input).expect("a sheet that is not refused");
    let depth = rng.edgy(1, 16);
    input.push(depth as u8);
    input.extend(draws(rng, layout.places.len(), depth as usize));
    let count = rng.range(0, 12);
    input.extend((count as u16).to_be_bytes());
    let mut time = 0;
    for _ in 0..count {
        let offer = offer(rng, &layout, true);
        time += if rng.one_in(3) { rng.range(0, 800) } else { rng.range(0, 10) };
        input.extend(time.to_be_bytes());
        input.push(offer.station as u8);
        input.extend(area::address(offer.destination));
        input.extend(offer.value.to_be_bytes());
        input.extend((offer.data.len() as u16).to_be_bytes());
        input.extend(offer.data);
    }
    input.extend(rng.range(0, 6000).to_be_bytes());
    if rng.one_in(4) {
        input = damaged(rng, &input);
    }
    // A damaged count of bit times may ask for more steps than a test can make.
    if program::numbers(&input).is_ok_and(|numbers| numbers[4] > 10_000) {
        return None;
    }
    Some(input)
}
