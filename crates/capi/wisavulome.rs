// Wisavulome: a proved model of contention on one pair (CSMA/CD, bit time by bit time). The C interface, declared for Rust.
//
// wisavulome.h, beside this file, declares the same functions for C and says what each answers, refuses and writes: a change to one is made
// in both, and tools/check-interface compares them. Link with libwisavulome (`make install`) or libcapi.a (`tools/staticlib`). A slice is
// a pointer, never null, and its length in octets (of u32: in numbers).
//
// Take it in with `#[path = "wisavulome.rs"] mod wisavulome;`. Editions 2021 and 2024, Rust 1.82 or later, with or without std. The safe
// functions over slices stand at the end: `Ok` is the answer, `Err` the number of the refusal.

// The version of this interface; the area format changes where a work area of one version is not one of the other.
pub const VERSION_MAJOR: u32 = 0;
pub const VERSION_MINOR: u32 = 1;
pub const VERSION_PATCH: u32 = 0;
pub const AREA_FORMAT: u32 = 2;

// Set in a reply that is a refusal; the other bits are its number.
pub const REFUSAL: u32 = 0x8000_0000;

// The octets of a work area, of a store of four marks, of what the calls write into `out`, and of where a run stands.
pub const AREA: usize = 57344;
pub const STORE: usize = 229412;
pub const SHEET_OUT: usize = 196;
pub const WRITE_OUT: usize = 128;
pub const CLIENT_OUT: usize = 8;
pub const STEP_OUT: usize = 256;
pub const RUN_OUT: usize = 52;
pub const COUNTERS_OUT: usize = 68;
pub const STATION_OUT: usize = 64;
pub const FRAME_OUT: usize = 1522;
pub const PLAN_OUT: usize = 216;
pub const PIECE_OUT: usize = 2048;
pub const PROGRESS: usize = 16;

// The octets of a log's entry, the numbers of a window and of its answer, and the most windows.
pub const LOG_ENTRY: usize = 6;
pub const WINDOW: usize = 3;
pub const WINDOW_OUT: usize = 10;
pub const MAX_WINDOWS: usize = 64;

// The statuses of a frame.
pub const FRAGMENT: u32 = 0;
pub const FRAME_TOO_LONG: u32 = 1;
pub const FRAME_CHECK_ERROR: u32 = 2;
pub const ALIGNMENT_ERROR: u32 = 3;
pub const LENGTH_ERROR: u32 = 4;
pub const RECEIVE_OK: u32 = 5;

// Transmit events: collision and late with the bit, sent, given-up and late-end with the attempts.
pub const NO_TRANSMIT: u32 = 0;
pub const COLLISION: u32 = 1;
pub const LATE: u32 = 2;
pub const SENT: u32 = 3;
pub const GIVEN_UP: u32 = 4;
pub const LATE_END: u32 = 5;

// Receive events: ok with the octets of client data, the others with the whole octets collected.
pub const NO_RECEIVE: u32 = 0;
pub const GOT_OK: u32 = 1;
pub const GOT_TOO_LONG: u32 = 2;
pub const GOT_ALIGNMENT: u32 = 3;
pub const GOT_CHECK: u32 = 4;
pub const GOT_LENGTH: u32 = 5;

// The answer of `margin` where the layout does not fit: past every margin.
pub const NO_MARGIN: u32 = 256;

// A station's deference.
pub const QUIET: u32 = 0;
pub const BUSY: u32 = 1;
pub const GAP: u32 = 2;

// A station's transmitter: ENDING jams after a late collision that closes the frame.
pub const NO_FRAME: u32 = 0;
pub const WAITING: u32 = 1;
pub const BACKING_OFF: u32 = 2;
pub const SENDING: u32 = 3;
pub const HEADING: u32 = 4;
pub const JAMMING: u32 = 5;
pub const ENDING: u32 = 6;

// A station's receiver.
pub const LISTENING: u32 = 0;
pub const READABLE: u32 = 1;
pub const SEEKING: u32 = 2;
pub const COLLECTING: u32 = 3;

// What a station hears: spoiled is a jam bit, or any symbol from two or more.
pub const HEARS_NOTHING: u32 = 0;
pub const HEARS_ZERO: u32 = 1;
pub const HEARS_ONE: u32 = 2;
pub const HEARS_SPOILED: u32 = 3;

unsafe extern "C" {
    // The octets used; refusals 3 to 8, 15. out: 8 words, 16 places of 10 octets, late-end.
    pub fn wisavulome_read_sheet(sheet: *const u8, sheet_len: usize, out: *mut u8, out_len: usize) -> u32;

    // 0 or 1; refusals 3 to 8.
    pub fn wisavulome_fits(sheet: *const u8, sheet_len: usize) -> u32;

    // How far the last tap may move outward, or NO_MARGIN; refusals 3 to 8.
    pub fn wisavulome_margin(sheet: *const u8, sheet_len: usize) -> u32;

    // 0; refusals 3, 5 to 8. layout: 196 octets, as wisavulome_read_sheet writes them.
    pub fn wisavulome_check_layout(layout: *const u8, layout_len: usize) -> u32;

    // The octets of the sheet; refusals 3 to 8, 15. out: the shortest sheet with the same layout.
    pub fn wisavulome_write_sheet(sheet: *const u8, sheet_len: usize, out: *mut u8, out_len: usize) -> u32;

    // 0; refusals 3 to 9, 13, 15, 16. out: the layout's 196 octets, then 5 words.
    pub fn wisavulome_read_plan(input: *const u8, input_len: usize, out: *mut u8, out_len: usize) -> u32;

    // The octets of the frame; refusals 11, 15. out: the frame.
    pub fn wisavulome_build(
        destination: u64,
        source: u64,
        value: u16,
        payload: *const u8,
        payload_len: usize,
        out: *mut u8,
        out_len: usize,
    ) -> u32;

    // The status, 0 to 5; refusal 5.
    pub fn wisavulome_status(frame: *const u8, frame_len: usize, excess: u32) -> u32;

    // The status, 0 to 5, of a reception that is spoiled or not; refusal 5.
    pub fn wisavulome_reception_status(frame: *const u8, frame_len: usize, excess: u32, spoiled: u32) -> u32;

    // The status; refusals 5, 15. out: where the client data begin, and their octets.
    pub fn wisavulome_client_data(frame: *const u8, frame_len: usize, excess: u32, out: *mut u8, out_len: usize)
        -> u32;

    // 0; refusals 1, 3 to 8, 9.
    pub fn wisavulome_start(
        area: *mut u8,
        area_len: usize,
        sheet: *const u8,
        sheet_len: usize,
        depth: u32,
        draws: *const u8,
        draws_len: usize,
    ) -> u32;

    // 0; refusals 1, 2.
    pub fn wisavulome_check_area(area: *const u8, area_len: usize) -> u32;

    // 0; refusals 1, 2, 10, 11, 12.
    pub fn wisavulome_offer(
        area: *mut u8,
        area_len: usize,
        station: u32,
        destination: u64,
        value: u16,
        payload: *const u8,
        payload_len: usize,
    ) -> u32;

    // 0; refusals 1, 2, 13, 15. out: 4 words for each of 16 stations.
    pub fn wisavulome_step(area: *mut u8, area_len: usize, out: *mut u8, out_len: usize) -> u32;

    // The steps made; refusals 1, 2, 13, 15. out: the 10 words, and how the run ended in 3.
    pub fn wisavulome_run(area: *mut u8, area_len: usize, n: u32, out: *mut u8, out_len: usize) -> u32;

    // The same run, made step by step.
    pub fn wisavulome_run_stepwise(area: *mut u8, area_len: usize, n: u32, out: *mut u8, out_len: usize) -> u32;

    // The octets of the frame; refusals 1, 2, 10, 14, 15. out: the frame.
    pub fn wisavulome_read_frame(area: *const u8, area_len: usize, station: u32, out: *mut u8, out_len: usize) -> u32;

    // 0; refusals 1, 2, 10, 15. out: the seventeen counters.
    pub fn wisavulome_counters(area: *const u8, area_len: usize, station: u32, out: *mut u8, out_len: usize) -> u32;

    // 0; refusals 1, 2, 10, 15. out: the sixteen numbers of its state.
    pub fn wisavulome_station(area: *const u8, area_len: usize, station: u32, out: *mut u8, out_len: usize) -> u32;

    // 0; refusals 1, 2, 15, 18. store: the area under that name.
    pub fn wisavulome_mark(area: *const u8, area_len: usize, store: *mut u8, store_len: usize, name: u64) -> u32;

    // 0; refusals 1, 15, 17, 2. area: the one that is marked under that name.
    pub fn wisavulome_return(area: *mut u8, area_len: usize, store: *const u8, store_len: usize, name: u64) -> u32;

    // 0; refusals 15, 17. store: the octet of that mark is 0.
    pub fn wisavulome_drop(store: *mut u8, store_len: usize, name: u64) -> u32;

    // The octets of the first piece; refusals 1, 15. progress: 4 words, written; out: the piece.
    pub fn wisavulome_begin(
        input: *const u8,
        input_len: usize,
        area: *mut u8,
        area_len: usize,
        progress: *mut u8,
        progress_len: usize,
        out: *mut u8,
        out_len: usize,
    ) -> u32;

    // The octets of the next piece; refusals 1, 2, 13, 15, 16. progress: 4 words, read and written; out: the piece.
    pub fn wisavulome_advance(
        input: *const u8,
        input_len: usize,
        area: *mut u8,
        area_len: usize,
        progress: *mut u8,
        progress_len: usize,
        out: *mut u8,
        out_len: usize,
    ) -> u32;

    // The octets of the text; refusals 1, 15. out: the text.
    pub fn wisavulome_print(
        input: *const u8,
        input_len: usize,
        area: *mut u8,
        area_len: usize,
        out: *mut u8,
        out_len: usize,
    ) -> u32;

    // 0; refusals 5, 10, 16, 20, 21, 15. log: 6 octets an entry; windows: 3 numbers each; out: 10 counts for each.
    pub fn wisavulome_windows(
        log: *const u8,
        log_len: usize,
        stations: u32,
        windows: *const u32,
        windows_len: usize,
        out: *mut u32,
        out_len: usize,
    ) -> u32;

    // The CRC-32, all 32 bits.
    pub fn wisavulome_crc32(payload: *const u8, payload_len: usize) -> u32;
}

// The safe functions. SAFETY, for every call below: pointer and length come from one live slice, `&mut` for what the callee writes, and
// the callee keeps neither past its return.

/// The answer of a reply, or the number of the refusal.
pub type Answer = Result<u32, u32>;

fn answer(reply: u32) -> Answer {
    if reply < REFUSAL {
        Ok(reply)
    } else {
        Err(reply - REFUSAL)
    }
}

pub fn read_sheet(sheet: &[u8], out: &mut [u8]) -> Answer {
    answer(unsafe { wisavulome_read_sheet(sheet.as_ptr(), sheet.len(), out.as_mut_ptr(), out.len()) })
}

pub fn fits(sheet: &[u8]) -> Answer {
    answer(unsafe { wisavulome_fits(sheet.as_ptr(), sheet.len()) })
}

pub fn margin(sheet: &[u8]) -> Answer {
    answer(unsafe { wisavulome_margin(sheet.as_ptr(), sheet.len()) })
}

pub fn check_layout(layout: &[u8]) -> Answer {
    answer(unsafe { wisavulome_check_layout(layout.as_ptr(), layout.len()) })
}

pub fn write_sheet(sheet: &[u8], out: &mut [u8]) -> Answer {
    answer(unsafe { wisavulome_write_sheet(sheet.as_ptr(), sheet.len(), out.as_mut_ptr(), out.len()) })
}

pub fn read_plan(input: &[u8], out: &mut [u8]) -> Answer {
    answer(unsafe { wisavulome_read_plan(input.as_ptr(), input.len(), out.as_mut_ptr(), out.len()) })
}

pub fn build(destination: u64, source: u64, value: u16, payload: &[u8], out: &mut [u8]) -> Answer {
    answer(unsafe {
        wisavulome_build(destination, source, value, payload.as_ptr(), payload.len(), out.as_mut_ptr(), out.len())
    })
}

pub fn status(frame: &[u8], excess: u32) -> Answer {
    answer(unsafe { wisavulome_status(frame.as_ptr(), frame.len(), excess) })
}

pub fn reception_status(frame: &[u8], excess: u32, spoiled: u32) -> Answer {
    answer(unsafe { wisavulome_reception_status(frame.as_ptr(), frame.len(), excess, spoiled) })
}

pub fn client_data(frame: &[u8], excess: u32, out: &mut [u8]) -> Answer {
    answer(unsafe { wisavulome_client_data(frame.as_ptr(), frame.len(), excess, out.as_mut_ptr(), out.len()) })
}

pub fn start(area: &mut [u8], sheet: &[u8], depth: u32, draws: &[u8]) -> Answer {
    answer(unsafe {
        wisavulome_start(area.as_mut_ptr(), area.len(), sheet.as_ptr(), sheet.len(), depth, draws.as_ptr(), draws.len())
    })
}

pub fn check_area(area: &[u8]) -> Answer {
    answer(unsafe { wisavulome_check_area(area.as_ptr(), area.len()) })
}

pub fn offer(area: &mut [u8], station: u32, destination: u64, value: u16, payload: &[u8]) -> Answer {
    answer(unsafe {
        wisavulome_offer(area.as_mut_ptr(), area.len(), station, destination, value, payload.as_ptr(), payload.len())
    })
}

pub fn step(area: &mut [u8], out: &mut [u8]) -> Answer {
    answer(unsafe { wisavulome_step(area.as_mut_ptr(), area.len(), out.as_mut_ptr(), out.len()) })
}

pub fn run(area: &mut [u8], n: u32, out: &mut [u8]) -> Answer {
    answer(unsafe { wisavulome_run(area.as_mut_ptr(), area.len(), n, out.as_mut_ptr(), out.len()) })
}

pub fn run_stepwise(area: &mut [u8], n: u32, out: &mut [u8]) -> Answer {
    answer(unsafe { wisavulome_run_stepwise(area.as_mut_ptr(), area.len(), n, out.as_mut_ptr(), out.len()) })
}

pub fn read_frame(area: &[u8], station: u32, out: &mut [u8]) -> Answer {
    answer(unsafe { wisavulome_read_frame(area.as_ptr(), area.len(), station, out.as_mut_ptr(), out.len()) })
}

pub fn counters(area: &[u8], station: u32, out: &mut [u8]) -> Answer {
    answer(unsafe { wisavulome_counters(area.as_ptr(), area.len(), station, out.as_mut_ptr(), out.len()) })
}

pub fn station(area: &[u8], station: u32, out: &mut [u8]) -> Answer {
    answer(unsafe { wisavulome_station(area.as_ptr(), area.len(), station, out.as_mut_ptr(), out.len()) })
}

pub fn mark(area: &[u8], store: &mut [u8], name: u64) -> Answer {
    answer(unsafe { wisavulome_mark(area.as_ptr(), area.len(), store.as_mut_ptr(), store.len(), name) })
}

pub fn r#return(area: &mut [u8], store: &[u8], name: u64) -> Answer {
    answer(unsafe { wisavulome_return(area.as_mut_ptr(), area.len(), store.as_ptr(), store.len(), name) })
}

pub fn drop(store: &mut [u8], name: u64) -> Answer {
    answer(unsafe { wisavulome_drop(store.as_mut_ptr(), store.len(), name) })
}

pub fn begin(input: &[u8], area: &mut [u8], progress: &mut [u8], out: &mut [u8]) -> Answer {
    answer(unsafe {
        wisavulome_begin(
            input.as_ptr(),
            input.len(),
            area.as_mut_ptr(),
            area.len(),
            progress.as_mut_ptr(),
            progress.len(),
            out.as_mut_ptr(),
            out.len(),
        )
    })
}

pub fn advance(input: &[u8], area: &mut [u8], progress: &mut [u8], out: &mut [u8]) -> Answer {
    answer(unsafe {
        wisavulome_advance(
            input.as_ptr(),
            input.len(),
            area.as_mut_ptr(),
            area.len(),
            progress.as_mut_ptr(),
            progress.len(),
            out.as_mut_ptr(),
            out.len(),
        )
    })
}

pub fn print(input: &[u8], area: &mut [u8], out: &mut [u8]) -> Answer {
    answer(unsafe {
        wisavulome_print(input.as_ptr(), input.len(), area.as_mut_ptr(), area.len(), out.as_mut_ptr(), out.len())
    })
}

pub fn windows(log: &[u8], stations: u32, windows: &[u32], out: &mut [u32]) -> Answer {
    answer(unsafe {
        wisavulome_windows(
            log.as_ptr(),
            log.len(),
            stations,
            windows.as_ptr(),
            windows.len(),
            out.as_mut_ptr(),
            out.len(),
        )
    })
}

pub fn crc32(payload: &[u8]) -> u32 {
    unsafe { wisavulome_crc32(payload.as_ptr(), payload.len()) }
}
