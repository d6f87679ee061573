//! Wisavulome itself: safe wrappers over the C interface of its static library.
//!
//! A lent slice is passed as its pointer and its length. A result of 80000000 hexadecimal + n is refusal n; anything below is the
//! answer. The functions have the signatures of those in [`crate::area`].

use crate::Refusal;

#[path = "../../crates/capi/wisavulome.rs"]
#[allow(dead_code)] // the declarations are whole, whatever is used here
mod c;

type Answer = Result<u32, Refusal>;

fn answer(result: u32) -> Answer {
    if result < c::REFUSAL {
        Ok(result)
    } else {
        Err(result - c::REFUSAL)
    }
}

// SAFETY, for every call below: pointer and length come from one live slice, `&mut` for what the callee writes, and the callee keeps
// neither past its return.

pub fn read_sheet(sheet: &[u8], out: &mut [u8]) -> Answer {
    answer(unsafe { c::wisavulome_read_sheet(sheet.as_ptr(), sheet.len(), out.as_mut_ptr(), out.len()) })
}

pub fn fits(sheet: &[u8]) -> Answer {
    answer(unsafe { c::wisavulome_fits(sheet.as_ptr(), sheet.len()) })
}

pub fn margin(sheet: &[u8]) -> Answer {
    answer(unsafe { c::wisavulome_margin(sheet.as_ptr(), sheet.len()) })
}

pub fn build(destination: u64, source: u64, value: u16, data: &[u8], out: &mut [u8]) -> Answer {
    answer(unsafe {
        c::wisavulome_build(destination, source, value, data.as_ptr(), data.len(), out.as_mut_ptr(), out.len())
    })
}

pub fn status(frame: &[u8], excess: u32) -> Answer {
    answer(unsafe { c::wisavulome_status(frame.as_ptr(), frame.len(), excess) })
}

pub fn client_data(frame: &[u8], excess: u32, out: &mut [u8]) -> Answer {
    answer(unsafe { c::wisavulome_client_data(frame.as_ptr(), frame.len(), excess, out.as_mut_ptr(), out.len()) })
}

pub fn start(area: &mut [u8], sheet: &[u8], depth: u32, draws: &[u8]) -> Answer {
    answer(unsafe {
        c::wisavulome_start(
            area.as_mut_ptr(),
            area.len(),
            sheet.as_ptr(),
            sheet.len(),
            depth,
            draws.as_ptr(),
            draws.len(),
        )
    })
}

pub fn offer(area: &mut [u8], station: u32, destination: u64, value: u16, data: &[u8]) -> Answer {
    answer(unsafe {
        c::wisavulome_offer(area.as_mut_ptr(), area.len(), station, destination, value, data.as_ptr(), data.len())
    })
}

pub fn step(area: &mut [u8], out: &mut [u8]) -> Answer {
    answer(unsafe { c::wisavulome_step(area.as_mut_ptr(), area.len(), out.as_mut_ptr(), out.len()) })
}

pub fn run(area: &mut [u8], n: u32, out: &mut [u8]) -> Answer {
    answer(unsafe { c::wisavulome_run(area.as_mut_ptr(), area.len(), n, out.as_mut_ptr(), out.len()) })
}

/// The same run by the reference, step by step.
pub fn run_stepwise(area: &mut [u8], n: u32, out: &mut [u8]) -> Answer {
    answer(unsafe { c::wisavulome_run_stepwise(area.as_mut_ptr(), area.len(), n, out.as_mut_ptr(), out.len()) })
}

pub fn read_frame(area: &[u8], station: u32, out: &mut [u8]) -> Answer {
    answer(unsafe { c::wisavulome_read_frame(area.as_ptr(), area.len(), station, out.as_mut_ptr(), out.len()) })
}

pub fn counters(area: &[u8], station: u32, out: &mut [u8]) -> Answer {
    answer(unsafe { c::wisavulome_counters(area.as_ptr(), area.len(), station, out.as_mut_ptr(), out.len()) })
}

pub fn station(area: &[u8], station: u32, out: &mut [u8]) -> Answer {
    answer(unsafe { c::wisavulome_station(area.as_ptr(), area.len(), station, out.as_mut_ptr(), out.len()) })
}

pub fn mark(area: &[u8], store: &mut [u8], name: u64) -> Answer {
    answer(unsafe { c::wisavulome_mark(area.as_ptr(), area.len(), store.as_mut_ptr(), store.len(), name) })
}

pub fn go_back(area: &mut [u8], store: &[u8], name: u64) -> Answer {
    answer(unsafe { c::wisavulome_return(area.as_mut_ptr(), area.len(), store.as_ptr(), store.len(), name) })
}

pub fn drop_mark(store: &mut [u8], name: u64) -> Answer {
    answer(unsafe { c::wisavulome_drop(store.as_mut_ptr(), store.len(), name) })
}

pub fn reception_status(frame: &[u8], excess: u32, spoiled: u32) -> Answer {
    answer(unsafe { c::wisavulome_reception_status(frame.as_ptr(), frame.len(), excess, spoiled) })
}

pub fn check_area(area: &[u8]) -> Answer {
    answer(unsafe { c::wisavulome_check_area(area.as_ptr(), area.len()) })
}

pub fn write_sheet(sheet: &[u8], out: &mut [u8]) -> Answer {
    answer(unsafe { c::wisavulome_write_sheet(sheet.as_ptr(), sheet.len(), out.as_mut_ptr(), out.len()) })
}

pub fn check_layout(layout: &[u8]) -> Answer {
    answer(unsafe { c::wisavulome_check_layout(layout.as_ptr(), layout.len()) })
}

pub fn read_plan(input: &[u8], out: &mut [u8]) -> Answer {
    answer(unsafe { c::wisavulome_read_plan(input.as_ptr(), input.len(), out.as_mut_ptr(), out.len()) })
}

pub fn begin(input: &[u8], area: &mut [u8], progress: &mut [u8], out: &mut [u8]) -> Answer {
    answer(unsafe {
        c::wisavulome_begin(
            input.as_ptr(),
            input.len(),
            area.as_mut_ptr(),
            area.len(),
            progress.as_mut_ptr(),
            progress.len(),
            out.as_mut_ptr(),
            out.len(),
        )
    })
}

pub fn advance(input: &[u8], area: &mut [u8], progress: &mut [u8], out: &mut [u8]) -> Answer {
    answer(unsafe {
        c::wisavulome_advance(
            input.as_ptr(),
            input.len(),
            area.as_mut_ptr(),
            area.len(),
            progress.as_mut_ptr(),
            progress.len(),
            out.as_mut_ptr(),
            out.len(),
        )
    })
}

pub fn print(input: &[u8], area: &mut [u8], out: &mut [u8]) -> Answer {
    answer(unsafe {
        c::wisavulome_print(input.as_ptr(), input.len(), area.as_mut_ptr(), area.len(), out.as_mut_ptr(), out.len())
    })
}

/// All 32 bits are the answer.
pub fn windows(log: &[u8], stations: u32, windows: &[u32], out: &mut [u32]) -> Answer {
    answer(unsafe {
        c::wisavulome_windows(
            log.as_ptr(),
            log.len(),
            stations,
            windows.as_ptr(),
            windows.len(),
            out.as_mut_ptr(),
            out.len(),
        )
    })
}

pub fn crc32(data: &[u8]) -> u32 {
    unsafe { c::wisavulome_crc32(data.as_ptr(), data.len()) }
}
