//! Wisavulome, through its C interface, against the plain engine: every answer, refusal and lent octet is equal.

mod common;

use std::fmt::Debug;

use common::{
    by_station, cases, damaged, damaged_sheet, draws, made_up_area, offer, run_input, same_area, setting, sheet,
    spelled, Rng, Setting,
};
use wisavulome_bench::area::{self, AREA, COUNTERS_OUT, PLAN_OUT, RUN_OUT, SHEET_OUT, STATION_OUT};
use wisavulome_bench::events::WORDS;
use wisavulome_bench::marks::{self, MARK, MARKS, STORE};
use wisavulome_bench::plain::World;
use wisavulome_bench::{crc, frame, layout, log, ours, program};

/// A buffer to lend: often as long as asked, else shorter or longer, and never zeros.
fn lent(rng: &mut Rng, enough: usize) -> Vec<u8> {
    let size = match rng.below(8) {
        0 => rng.below(enough as u64 + 1) as usize,
        1 => enough.saturating_sub(1),
        2 => enough + rng.range(0, 40) as usize,
        _ => enough,
    };
    rng.octets(size)
}

/// Makes a call on two copies of a buffer and demands the same answer and the same octets.
fn same_out<A: PartialEq + Debug>(
    out: &[u8],
    context: &dyn Fn() -> String,
    ours: impl FnOnce(&mut [u8]) -> A,
    plain: impl FnOnce(&mut [u8]) -> A,
) -> A {
    let (mut ours_out, mut plain_out) = (out.to_vec(), out.to_vec());
    let ours_answer = ours(&mut ours_out);
    let plain_answer = plain(&mut plain_out);
    assert_eq!(ours_answer, plain_answer, "{}: ours, plain", context());
    assert_eq!(ours_out, plain_out, "{}: what was written", context());
    plain_answer
}

/// A run, by the engine and by the reference: they answer and leave the same.
fn run_both(area: &mut [u8], n: u32, out: &mut [u8], context: &dyn Fn() -> String) -> Result<u32, u32> {
    let (mut stepped_area, mut stepped_out) = (area.to_vec(), out.to_vec());
    let answer = ours::run(area, n, out);
    assert_eq!(ours::run_stepwise(&mut stepped_area, n, &mut stepped_out), answer, "{}: stepwise", context());
    assert_eq!(stepped_out, out, "{}: stepwise", context());
    same_area(area, &stepped_area, context);
    answer
}

/// How often each refusal came, so that a generator that never reaches one is seen.
#[derive(Default)]
struct Tally([u64; 22]);

impl Tally {
    fn note(&mut self, answer: Result<u32, u32>) {
        self.0[answer.err().unwrap_or(0) as usize] += 1;
    }

    fn demand(&self, refusals: &[usize]) {
        for &refusal in refusals {
            assert!(self.0[refusal] > 0, "refusal {refusal} never came: {:?}", self.0);
        }
    }
}

#[test]
fn sheets() {
    let mut tally = Tally::default();
    for case in 0..cases(60_000) {
        let rng = &mut Rng::new(10, case);
        let sheet = if rng.one_in(3) { sheet(rng) } else { damaged_sheet(rng) };
        let out = lent(rng, SHEET_OUT);
        let context = || format!("case {case}, sheet {sheet:02X?}");
        let read = |out: &mut [u8]| ours::read_sheet(&sheet, out);
        tally.note(same_out(&out, &context, read, |out| area::read_sheet(&sheet, out)));
        assert_eq!(ours::fits(&sheet), area::fits(&sheet), "{}", context());
        assert_eq!(ours::margin(&sheet), area::margin(&sheet), "{}", context());
    }
    tally.demand(&[0, 3, 4, 5, 6, 7, 8, 15]);
}

/// Sheets written: into too little room, just enough, and more. What is written reads back, and is no longer.
#[test]
fn sheets_written() {
    let mut tally = Tally::default();
    for case in 0..cases(20_000) {
        let rng = &mut Rng::new(16, case);
        let mut given = if rng.one_in(4) { damaged_sheet(rng) } else { sheet(rng) };
        if let (Ok((mut layout, _)), true) = (layout::read_sheet(&given), rng.one_in(2)) {
            by_default(rng, &mut layout);
            given = spelled(&layout);
        }
        let read = layout::read_sheet(&given);
        let written = read.as_ref().map_or(vec![0; 40], |(layout, _)| layout::write_sheet(layout).expect("a sheet"));
        let out = lent(rng, written.len());
        let context = || format!("case {case}, sheet {given:02X?}");
        let write = |out: &mut [u8]| ours::write_sheet(&given, out);
        tally.note(same_out(&out, &context, write, |out| area::write_sheet(&given, out)));
        if let Ok((layout, used)) = read {
            assert!(written.len() <= used, "{}", context());
            assert_eq!(layout::read_sheet(&written), Ok((layout, written.len())), "{}", context());
        }
    }
    tally.demand(&[0, 3, 4, 5, 6, 7, 8, 15]);
}

/// Sets some figures to their defaults.
fn by_default(rng: &mut Rng, layout: &mut layout::Layout) {
    if rng.one_in(2) {
        (layout.gap1, layout.gap2) = (64, 32);
    }
    if rng.one_in(2) {
        layout.slot = rng.pick(&[511, 512]);
    }
    if rng.one_in(2) {
        layout.jam = 32;
    }
    if rng.one_in(2) {
        layout.attempt_limit = 16;
    }
    if rng.one_in(2) {
        layout.backoff_limit = 10;
    }
    if rng.one_in(2) {
        layout.late_end = 0;
    }
}

/// Layouts as a sheet's octets give them, and damaged ones.
#[test]
fn layouts() {
    let mut tally = Tally::default();
    for case in 0..cases(20_000) {
        let rng = &mut Rng::new(15, case);
        let mut octets = vec![0; SHEET_OUT];
        area::read_sheet(&sheet(rng), &mut octets).expect("a sheet that is not refused");
        for _ in 0..rng.range(0, 2) {
            // The figures, N, a station, late-end.
            let word = rng.pick(&[0, 1, 2, 3, 4, 5, 6, 8, 48]);
            let at = if word == 8 { 32 + rng.below(150) as usize } else { 4 * word + 2 };
            octets[at] = rng.pick(&[0, 1, 2, 255]);
            octets[at + 1] = rng.next() as u8;
        }
        if rng.one_in(20) {
            octets.truncate(rng.below(SHEET_OUT as u64) as usize);
        }
        let checked = ours::check_layout(&octets);
        assert_eq!(checked, area::check_layout(&octets), "case {case}, layout {octets:02X?}");
        tally.note(checked);
    }
    tally.demand(&[0, 3, 5, 6, 7, 8]);
}

/// Run inputs: what is read of them, and what is printed for them, whole and piece by piece.
#[test]
fn run_inputs() {
    let mut tally = Tally::default();
    for case in 0..cases(400) {
        let rng = &mut Rng::new(16, case);
        let Some(input) = run_input(rng) else { continue };
        let context = || format!("case {case}");
        let out = lent(rng, PLAN_OUT);
        let read = |out: &mut [u8]| ours::read_plan(&input, out);
        tally.note(same_out(&out, &context, read, |out| area::read_plan(&input, out)));

        let text = program::printed::<World>(&input);
        let before = rng.octets(AREA + 9);
        let mut area = before.clone();
        let out = lent(rng, text.len());
        let printed = same_out(
            &out,
            &context,
            |out| ours::print(&input, &mut area, out),
            |out| {
                out.get_mut(..text.len()).ok_or(15u32)?.copy_from_slice(&text);
                Ok(text.len() as u32)
            },
        );
        tally.note(printed);
        let (mut pieces, mut own) = (Vec::new(), before.clone());
        let (mut progress, mut piece) = (rng.octets(16), rng.octets(2048));
        let mut size = ours::begin(&input, &mut own, &mut progress, &mut piece).expect("the first piece");
        pieces.extend(&piece[..size as usize]);
        while area::word(&progress, 12) == 0 {
            size = ours::advance(&input, &mut own, &mut progress, &mut piece).expect("the next piece");
            pieces.extend(&piece[..size as usize]);
        }
        assert_eq!(String::from_utf8_lossy(&pieces), String::from_utf8_lossy(&text), "{}", context());
        let left = if printed.is_ok() { &own } else { &before };
        assert!(area == *left, "{}: the area", context());
    }
    tally.demand(&[0, 3, 9, 15, 16]);
}

/// A place, an area or an output that is too short, and a place of any octets: a refusal changes nothing.
#[test]
fn places_of_runs() {
    let mut tally = Tally::default();
    for case in 0..cases(4_000) {
        let rng = &mut Rng::new(17, case);
        let Some(input) = run_input(rng) else { continue };
        let mut area = if rng.one_in(8) { lent(rng, AREA) } else { rng.octets(AREA) };
        let mut progress = rng.octets(16);
        let mut out = rng.octets(2048);
        if area.len() >= AREA {
            ours::begin(&input, &mut area, &mut progress, &mut out).expect("the first piece");
        }
        match rng.below(6) {
            0 => progress.truncate(rng.below(16) as usize),
            1 => out.truncate(rng.below(2048) as usize),
            2 => progress[8] = 2,
            3 => progress[..4].copy_from_slice(&rng.pick(&[16_384u32, u32::MAX, 0]).to_be_bytes()),
            4 if area.len() > 4 => area[4] = 255,
            _ => {}
        }
        let before = (area.clone(), progress.clone(), out.clone());
        let check = area::check_area(&area);
        let answer = ours::advance(&input, &mut area, &mut progress, &mut out);
        tally.note(answer);
        if answer.is_err() {
            assert!((area, progress.clone(), out) == before, "case {case}: a refusal that changes what was lent");
        }
        if check != 0 || progress.len() < 16 {
            assert_eq!(answer, Err(if check == 0 { 15 } else { check }), "case {case}");
        }
    }
    tally.demand(&[0, 1, 2, 13, 15, 16]);
}

#[test]
fn frames() {
    let mut tally = Tally::default();
    let mut statuses = [0; 6];
    for case in 0..cases(20_000) {
        let rng = &mut Rng::new(11, case);
        let context = || format!("case {case}");
        let size = match rng.below(6) {
            0 => rng.range(1490, 1510),
            1 => rng.edgy(0, 1500),
            _ => rng.edgy(0, 60),
        } as usize;
        let data = rng.octets(size);
        let value = match rng.below(8) {
            0 => rng.pick(&[1500, 1501, 1535, 1536, 0, 46]),
            1 => rng.next() as u16,
            2..=4 => 0x0800,
            _ => size as u16,
        };
        let (destination, source) = (rng.next(), rng.next());
        let out = lent(rng, 18 + size.max(46));
        let made = same_out(
            &out,
            &context,
            |out| ours::build(destination, source, value, &data, out),
            |out| area::build(destination, source, value, &data, out),
        );
        tally.note(made);

        // Opening: the frame built, one with a wrong value and a good check, and damaged ones.
        let mut octets = frame::build([2; 6], [4; 6], 0x0800, &data[..size.min(1500)]).expect("a frame");
        if rng.one_in(2) {
            let end = octets.len() - 4;
            octets[12..14].copy_from_slice(&value.to_be_bytes());
            let check = crc::bitwise(&octets[..end]);
            octets[end..].copy_from_slice(&check.to_le_bytes());
        }
        match rng.below(8) {
            0 => octets.truncate(rng.range(0, octets.len() as u32) as usize),
            1 => {
                let more = rng.range(0, 20) as usize;
                octets.extend(rng.octets(more));
            }
            2 => octets = damaged(rng, &octets),
            _ => {}
        }
        let excess = if rng.one_in(3) { rng.edgy(0, 8) } else { 0 };
        let status = ours::status(&octets, excess);
        assert_eq!(status, area::status(&octets, excess), "{}", context());
        let spoiled = rng.pick(&[0, 1, u32::MAX]);
        let reception = ours::reception_status(&octets, excess, spoiled);
        assert_eq!(reception, area::reception_status(&octets, excess, spoiled), "{}", context());
        if let Ok(status) = status {
            statuses[status as usize] += 1;
        }
        let out = lent(rng, 8);
        let opened = same_out(
            &out,
            &context,
            |out| ours::client_data(&octets, excess, out),
            |out| area::client_data(&octets, excess, out),
        );
        tally.note(opened);
        assert_eq!(ours::crc32(&octets), crc::bitwise(&octets), "{}", context());
    }
    tally.demand(&[0, 5, 11, 15]);
    assert!(statuses.iter().all(|&count| count > 0), "a status never came: {statuses:?}");
}

#[test]
fn check_values() {
    assert_eq!(ours::crc32(b"123456789"), 0xCBF4_3926);
    assert_eq!(ours::crc32(b""), 0);
}

#[test]
fn fresh_starts() {
    let mut tally = Tally::default();
    for case in 0..cases(3_000) {
        let rng = &mut Rng::new(12, case);
        let sheet = if rng.one_in(3) { damaged_sheet(rng) } else { sheet(rng) };
        let n = layout::read_sheet(&sheet).map_or(2, |(layout, _)| layout.places.len());
        let depth = if rng.one_in(4) { rng.pick(&[0, 17, 18, 255, u32::MAX]) } else { rng.edgy(1, 16) };
        let mut draws = draws(rng, n, depth.min(16) as usize);
        if rng.one_in(6) {
            let size = rng.below(2 * draws.len() as u64 + 3) as usize;
            draws.resize(size, 7);
        }
        let area = lent(rng, AREA);
        let context = || format!("case {case}");
        tally.note(same_out(
            &area,
            &context,
            |area| ours::start(area, &sheet, depth, &draws),
            |area| area::start(area, &sheet, depth, &draws),
        ));
    }
    tally.demand(&[0, 1, 3, 4, 5, 6, 7, 8, 9]);
}

/// Long lists of calls on one area from a fresh start, beside an engine that keeps every emission.
#[test]
fn lists_of_calls() {
    let mut tally = Tally::default();
    let mut words = [0u64; WORDS];
    for case in 0..cases(1_500) {
        let rng = &mut Rng::new(13, case);
        let Setting { sheet, layout, depth, draws } = setting(rng);
        let n = layout.places.len();
        let mut world = World::start(&layout, &by_station(&draws, depth as usize));
        let size = AREA + if rng.one_in(4) { rng.range(1, 64) as usize } else { 0 };
        let mut area = rng.octets(size);
        let mut mirror = area.clone();
        area::encode_start(&world, &mut mirror);
        assert_eq!(ours::start(&mut area, &sheet, depth, &draws), Ok(0), "case {case}");
        same_area(&area, &mirror, &|| format!("case {case}, start"));
        for turn in 0..rng.range(10, 80) {
            let context = || format!("case {case}, turn {turn}, clock {}", world.clock);
            let station = if rng.one_in(10) { rng.pick(&[n as u32, 16, u32::MAX]) } else { rng.range(0, n as u32 - 1) };
            match rng.below(10) {
                0..=3 => {
                    let offer = offer(rng, &layout, true);
                    let answer = ours::offer(&mut area, offer.station, offer.destination, offer.value, &offer.data);
                    let context = context();
                    let made = world.offer(offer.station, area::address(offer.destination), offer.value, &offer.data);
                    assert_eq!(answer, made.map(|()| 0), "{context}, offer");
                    tally.note(answer);
                }
                4 | 5 => {
                    let out = lent(rng, 256);
                    let mut ours_out = out.clone();
                    let mut plain_out = out.clone();
                    let answer = ours::step(&mut area, &mut ours_out);
                    let context = context();
                    if out.len() < 256 {
                        assert_eq!(answer, Err(15), "{context}, step");
                    } else {
                        let events = world.step().expect("the clock does not run out");
                        area::put_events(&events, &mut plain_out);
                        assert_eq!(answer, Ok(0), "{context}, step");
                    }
                    assert_eq!(ours_out, plain_out, "{context}, step");
                    tally.note(answer);
                }
                6 | 7 => {
                    let out = lent(rng, RUN_OUT);
                    let mut ours_out = out.clone();
                    let mut plain_out = out.clone();
                    let bit_times = match rng.below(16) {
                        0 => rng.pick(&[20_000_000, u32::MAX, 16_777_217]),
                        1..=7 => rng.range(0, 60),
                        8..=13 => rng.range(0, 800),
                        _ => rng.range(0, 4000),
                    };
                    let answer = run_both(&mut area, bit_times, &mut ours_out, &context);
                    let context = context();
                    if bit_times > 16_000_000 {
                        assert_eq!(answer, Err(13), "{context}, run");
                    } else if out.len() < RUN_OUT {
                        assert_eq!(answer, Err(15), "{context}, run");
                    } else {
                        let ran = world.run(bit_times).expect("the clock does not run out");
                        area::put_ran(&ran, &mut plain_out);
                        assert_eq!(answer, Ok(ran.steps), "{context}, run of {bit_times}");
                        for (word, count) in words.iter_mut().zip(ran.counts) {
                            *word += u64::from(count);
                        }
                    }
                    assert_eq!(ours_out, plain_out, "{context}, run of {bit_times}");
                    tally.note(answer);
                }
                8 => {
                    let enough = world.read_frame(station).map_or(64, <[u8]>::len);
                    let out = lent(rng, enough);
                    let answer = same_out(
                        &out,
                        &context,
                        |out| ours::read_frame(&area, station, out),
                        |out| {
                            let frame = world.read_frame(station)?;
                            out.get_mut(..frame.len()).ok_or(15u32)?.copy_from_slice(frame);
                            Ok(frame.len() as u32)
                        },
                    );
                    tally.note(answer);
                }
                _ => {
                    let out = lent(rng, COUNTERS_OUT);
                    let answer = same_out(
                        &out,
                        &context,
                        |out| ours::counters(&area, station, out),
                        |out| area::counters(&mirror, station, out),
                    );
                    tally.note(answer);
                    let out = lent(rng, STATION_OUT);
                    tally.note(same_out(
                        &out,
                        &context,
                        |out| ours::station(&area, station, out),
                        |out| area::station(&mirror, station, out),
                    ));
                }
            }
            area::encode(&world, &mut mirror);
            same_area(&area, &mirror, &|| format!("case {case}, turn {turn}, clock now {}", world.clock));
        }
    }
    tally.demand(&[0, 10, 11, 12, 13, 14, 15]);
    assert!(words[..6].iter().all(|&count| count > 0), "an event never came: {words:?}");
}

/// An area and a store: ours, and the plain engine's.
struct Marked {
    area: Vec<u8>,
    store: Vec<u8>,
}

/// The octets of a slice that a call is lent: all of them, or one too few.
fn short(rng: &mut Rng, enough: usize, len: usize) -> usize {
    if rng.one_in(25) {
        enough - 1
    } else {
        len
    }
}

/// Writes of another hand into both stores: octet and name of a place, or any octet.
fn poke(rng: &mut Rng, ours: &mut Marked, plain: &mut Marked, name: u64) {
    let at = MARK * rng.below(MARKS as u64) as usize;
    let octet = rng.pick(&[0, 1, 1, 1, 2, 255]);
    let (any, value) = (rng.below(STORE as u64) as usize, rng.next() as u8);
    let whole = rng.one_in(2);
    for store in [&mut ours.store, &mut plain.store] {
        if whole {
            store[at] = octet;
            store[at + 1..at + 9].copy_from_slice(&name.to_be_bytes());
        } else {
            store[any] = value;
        }
    }
}

/// A mark, a return or a drop.
fn mark_call(rng: &mut Rng, ours: &mut Marked, plain: &mut Marked, name: u64) -> [Result<u32, u32>; 2] {
    let (area, store) = (short(rng, AREA, ours.area.len()), short(rng, STORE, ours.store.len()));
    match rng.below(5) {
        0 | 1 => [
            ours::mark(&ours.area[..area], &mut ours.store[..store], name),
            marks::mark(&plain.area[..area], &mut plain.store[..store], name),
        ],
        2 | 3 => [
            ours::go_back(&mut ours.area[..area], &ours.store[..store], name),
            marks::go_back(&mut plain.area[..area], &plain.store[..store], name),
        ],
        _ => [ours::drop_mark(&mut ours.store[..store], name), marks::drop_mark(&mut plain.store[..store], name)],
    }
}

/// An offer or a run on both areas.
fn model_call(rng: &mut Rng, ours: &mut Marked, plain: &mut Marked, layout: &layout::Layout) -> [Result<u32, u32>; 2] {
    if rng.one_in(2) {
        let offer = offer(rng, layout, true);
        return [
            ours::offer(&mut ours.area, offer.station, offer.destination, offer.value, &offer.data),
            area::offer(&mut plain.area, offer.station, offer.destination, offer.value, &offer.data),
        ];
    }
    let bit_times = if rng.one_in(2) { rng.range(0, 40) } else { rng.range(0, 900) };
    let (mut ours_out, mut plain_out) = ([0; RUN_OUT], [0; RUN_OUT]);
    let answers =
        [ours::run(&mut ours.area, bit_times, &mut ours_out), area::run(&mut plain.area, bit_times, &mut plain_out)];
    assert_eq!(ours_out, plain_out, "a run of {bit_times}");
    answers
}

/// Lists of calls with marks, returns and drops, and with writes of another hand into the store.
#[test]
fn lists_with_marks() {
    let mut tally = Tally::default();
    for case in 0..cases(250) {
        let rng = &mut Rng::new(18, case);
        let Setting { sheet, layout, depth, draws } = setting(rng);
        let longer = rng.pick(&[0, 0, 1, 40]);
        let mut ours = Marked { area: rng.octets(AREA + longer), store: rng.octets(STORE + longer) };
        for place in 0..MARKS {
            // What the store brings along: often no mark.
            ours.store[MARK * place] = rng.pick(&[0, 0, 1, 2]);
        }
        let mut plain = Marked { area: ours.area.clone(), store: ours.store.clone() };
        for turn in 0..rng.range(10, 80) {
            let name = rng.pick(&[0, 1, 2, 3, 1 << 56, u64::MAX]);
            let answers = match rng.below(12) {
                0 => [
                    ours::start(&mut ours.area, &sheet, depth, &draws),
                    area::start(&mut plain.area, &sheet, depth, &draws),
                ],
                1 => {
                    poke(rng, &mut ours, &mut plain, name);
                    continue;
                }
                2 if rng.one_in(6) => {
                    let made_up = made_up_area(rng);
                    ours.area[..AREA].copy_from_slice(&made_up[..AREA]);
                    plain.area[..AREA].copy_from_slice(&made_up[..AREA]);
                    continue;
                }
                2..=5 => model_call(rng, &mut ours, &mut plain, &layout),
                _ => mark_call(rng, &mut ours, &mut plain, name),
            };
            let context = || format!("case {case}, turn {turn}");
            assert_eq!(answers[0], answers[1], "{}: ours, plain", context());
            tally.note(answers[0]);
            same_area(&ours.area, &plain.area, &context);
            assert!(ours.store == plain.store, "{}: the stores differ", context());
        }
    }
    tally.demand(&[0, 1, 2, 10, 11, 12, 15, 17, 18]);
}

/// Most stations offer at about the same time, again and again, with runs of a few bit times to a few packets in between.
#[test]
fn contention() {
    let mut words = [0u64; WORDS];
    for case in 0..cases(400) {
        let rng = &mut Rng::new(15, case);
        let Setting { sheet, layout, depth, draws } = setting(rng);
        let n = layout.places.len();
        let mut world = World::start(&layout, &by_station(&draws, depth as usize));
        let mut area = vec![0; AREA];
        let mut mirror = area.clone();
        area::encode_start(&world, &mut mirror);
        assert_eq!(ours::start(&mut area, &sheet, depth, &draws), Ok(0), "case {case}");
        for turn in 0..rng.range(5, 40) {
            for station in 0..n as u32 {
                if rng.one_in(3) {
                    continue;
                }
                let offer = offer(rng, &layout, false);
                let answer = ours::offer(&mut area, station, offer.destination, offer.value, &offer.data);
                let made = world.offer(station, area::address(offer.destination), offer.value, &offer.data);
                assert_eq!(answer, made.map(|()| 0), "case {case}, turn {turn}, offer at {station}");
            }
            let bit_times = match rng.below(4) {
                0 => rng.range(1, 8),
                1 => rng.range(1, 100),
                _ => rng.range(1, 2000),
            };
            let ran = world.run(bit_times).expect("the clock does not run out");
            let (mut ours_out, mut plain_out) = ([0; RUN_OUT], [0; RUN_OUT]);
            area::put_ran(&ran, &mut plain_out);
            let context = || format!("case {case}, turn {turn}");
            assert_eq!(run_both(&mut area, bit_times, &mut ours_out, &context), Ok(ran.steps), "{}", context());
            assert_eq!(ours_out, plain_out, "{}", context());
            area::encode(&world, &mut mirror);
            same_area(&area, &mirror, &|| format!("case {case}, turn {turn}, clock now {}", world.clock));
            for (word, count) in words.iter_mut().zip(ran.counts) {
                *word += u64::from(count);
            }
        }
    }
    assert!(words[..6].iter().all(|&count| count > 0), "an event never came: {words:?}");
}

/// A call on two copies of a work area with a buffer lent beside it.
fn same_call(
    areas: (&mut [u8], &mut [u8]),
    out: &[u8],
    context: &dyn Fn() -> String,
    ours: impl FnOnce(&mut [u8], &mut [u8]) -> Result<u32, u32>,
    plain: impl FnOnce(&mut [u8], &mut [u8]) -> Result<u32, u32>,
) -> Result<u32, u32> {
    let (ours_area, plain_area) = areas;
    let answer = same_out(out, context, |out| ours(ours_area, out), |out| plain(plain_area, out));
    same_area(ours_area, plain_area, context);
    answer
}

/// Octets of the frame that can be read at a station, or some number where none can.
fn readable_octets(area: &[u8], station: u32) -> usize {
    if area::check_area(area) != 0 {
        return 64;
    }
    area::decode(area).read_frame(station).map_or(64, <[u8]>::len)
}

/// Work areas that no fresh start made: checks 1 and 2, then calls on those that pass.
#[test]
fn made_up_areas() {
    let mut tally = Tally::default();
    let mut words = [0u64; WORDS];
    for case in 0..cases(20_000) {
        let rng = &mut Rng::new(14, case);
        let mut ours_area = made_up_area(rng);
        if rng.one_in(40) {
            ours_area.truncate(rng.below(AREA as u64) as usize);
        }
        let mut plain_area = ours_area.clone();
        let check = area::check_area(&plain_area);
        assert_eq!(ours::check_area(&ours_area), if check == 0 { Ok(0) } else { Err(check) }, "case {case}: check");
        let calls = if check == 0 { rng.range(1, 6) } else { rng.range(1, 3) };
        for call in 0..calls {
            let stations = plain_area.get(32..36).map_or(2, |_| area::word(&plain_area, 32)).clamp(1, 16);
            let station = if rng.one_in(8) { rng.range(0, 17) } else { rng.range(0, stations - 1) };
            let readable = readable_octets(&plain_area, station);
            let spent = plain_area.len() >= 4 && area::word(&plain_area, 0) > 0;
            let areas = (&mut ours_area[..], &mut plain_area[..]);
            let answer = match rng.below(8) {
                0..=2 => {
                    let out = lent(rng, 256);
                    let context = || format!("case {case}, call {call}, check {check}: step");
                    same_call(areas, &out, &context, ours::step, area::step)
                }
                3 | 4 => {
                    let out = lent(rng, RUN_OUT);
                    let bit_times = match rng.below(8) {
                        0 if spent => rng.pick(&[0, u32::MAX, 16_777_216]),
                        1..=4 => rng.range(0, 40),
                        5 | 6 => rng.range(0, 300),
                        _ => rng.range(0, 1500),
                    };
                    let context = || format!("case {case}, call {call}, check {check}: run of {bit_times}");
                    same_call(
                        areas,
                        &out,
                        &context,
                        |area, out| run_both(area, bit_times, out, &context),
                        |area, out| {
                            let answer = area::run(area, bit_times, out);
                            if answer.is_ok() {
                                for (k, word) in words.iter_mut().enumerate() {
                                    *word += u64::from(area::word(out, 4 * k));
                                }
                            }
                            answer
                        },
                    )
                }
                5 => {
                    let context = || format!("case {case}, call {call}, check {check}: offer at {station}");
                    let size = rng.edgy(0, 80) as usize;
                    let data = rng.octets(size);
                    let value = match rng.below(8) {
                        0 => rng.pick(&[1500, 1501, 1535, 1536]),
                        1 => rng.next() as u16,
                        _ => size as u16,
                    };
                    let destination = rng.next();
                    same_call(
                        areas,
                        &[],
                        &context,
                        |area, _| ours::offer(area, station, destination, value, &data),
                        |area, _| area::offer(area, station, destination, value, &data),
                    )
                }
                6 => {
                    let out = lent(rng, readable);
                    let context = || format!("case {case}, call {call}, check {check}: read_frame at {station}");
                    same_call(
                        areas,
                        &out,
                        &context,
                        |area, out| ours::read_frame(area, station, out),
                        |area, out| area::read_frame(area, station, out),
                    )
                }
                _ => {
                    let out = lent(rng, COUNTERS_OUT);
                    let context = || format!("case {case}, call {call}, check {check}: counters at {station}");
                    tally.note(same_call(
                        (&mut *areas.0, &mut *areas.1),
                        &out,
                        &context,
                        |area, out| ours::counters(area, station, out),
                        |area, out| area::counters(area, station, out),
                    ));
                    let out = lent(rng, STATION_OUT);
                    let context = || format!("case {case}, call {call}, check {check}: state at {station}");
                    same_call(
                        areas,
                        &out,
                        &context,
                        |area, out| ours::station(area, station, out),
                        |area, out| area::station(area, station, out),
                    )
                }
            };
            tally.note(answer);
        }
    }
    tally.demand(&[0, 1, 2, 10, 11, 12, 13, 14, 15]);
    assert!(words.iter().all(|&count| count > 0), "an event never came: {words:?}");
    let (passed, refused) = (tally.0[0], tally.0[2]);
    assert!(passed > refused / 4 && refused > passed / 10, "check 2 is lopsided: {:?}", tally.0);
}

/// A log whose times rise, now and then with a fault: a time that falls, a station or an event that is none.
fn made_up_log(rng: &mut Rng, stations: u32) -> Vec<u8> {
    let mut time = rng.edgy(0, 2_000);
    let mut log = Vec::new();
    let faulty = rng.one_in(3);
    for _ in 0..rng.range(0, 60) {
        time += rng.pick(&[0, 0, 1, 5, 100]);
        let fault = faulty && rng.one_in(40);
        let [fallen, astray, unknown] = [0, 1, 2].map(|kind| fault && rng.below(3) == kind);
        log.extend(if fallen { time.saturating_sub(1) } else { time }.to_be_bytes());
        log.push(if astray { rng.pick(&[stations, 255]) } else { rng.range(0, stations - 1) } as u8);
        log.push(if unknown { rng.pick(&[0, 11, 255]) } else { rng.range(1, 10) } as u8);
    }
    let rest = if rng.one_in(4) { 5 } else { 0 };
    log.extend(rng.octets(rest));
    log
}

/// Many windows over one log: counts, refusals, and numbers past what is written.
#[test]
fn windows_over_a_log() {
    let mut tally = Tally::default();
    for case in 0..cases(40_000) {
        let rng = &mut Rng::new(16, case);
        let stations = rng.range(1, 16);
        let log = made_up_log(rng, stations);
        let count = if rng.one_in(8) { rng.range(60, 68) } else { rng.range(0, 8) } as usize;
        let faulty = rng.one_in(4);
        let mut windows = Vec::new();
        for _ in 0..count {
            let first = rng.range(0, 2_500);
            let past = if faulty && rng.one_in(8) { first.saturating_sub(1) } else { first + rng.range(0, 900) };
            let station = if faulty && rng.one_in(30) { stations } else { rng.range(0, stations - 1) };
            windows.extend([station, first, past]);
        }
        windows.extend([7, 7].iter().take(rng.below(3) as usize));
        let room = lent(rng, 10 * count).len();
        let mut out: Vec<u32> = (0..room).map(|_| rng.next() as u32).collect();
        let mut plain_out = out.clone();
        let answer = ours::windows(&log, stations, &windows, &mut out);
        let plain = log::windows(&log, stations, &windows, &mut plain_out);
        assert_eq!(answer, plain, "case {case}, log {log:02X?}, {stations} stations, windows {windows:?}");
        assert_eq!(out, plain_out, "case {case}, log {log:02X?}, {stations} stations, windows {windows:?}");
        tally.note(answer);
    }
    tally.demand(&[0, 5, 10, 15, 16, 20, 21]);
}
