//! The whole case, from Rust: two stations ten bit times apart, each with a frame for the other at time 0.
//!
//!     rustc --edition 2024 worked.rs -L native=PREFIX/lib -l dylib=wisavulome && ./worked
//!
//! `wisavulome.rs` is the file of declarations that `make install` puts into PREFIX/share/wisavulome.

#[path = "../wisavulome.rs"]
#[allow(dead_code)]
mod wisavulome;

use std::io::Write;

const SHEET: [u8; 16] = [0x00, 0x02, 0x00, 0x02, 0, 0, 0, 0, 0x01, 0x0A, 0x02, 0, 0, 0, 0, 0x02];
const FIRST: u64 = 0x0200_0000_0001;
const SECOND: u64 = 0x0200_0000_0002;

/// Two offers, then 1500 steps, one by one: what a step answers is printed as the run program does.
fn run() -> Result<String, u32> {
    let mut area = vec![0; wisavulome::AREA];
    let mut text = format!("stations 2 fit {}\n", if wisavulome::fits(&SHEET)? == 1 { "yes" } else { "no" });
    wisavulome::start(&mut area, &SHEET, 1, &[0, 0, 0, 1])?;
    wisavulome::offer(&mut area, 0, SECOND, 0x0800, &[0; 46])?;
    wisavulome::offer(&mut area, 1, FIRST, 0x0800, &[0; 46])?;
    for time in 0..1500 {
        let mut out = [0; wisavulome::STEP_OUT];
        wisavulome::step(&mut area, &mut out)?;
        let word = |at: usize| u32::from_be_bytes([out[at], out[at + 1], out[at + 2], out[at + 3]]);
        for station in 0..2 {
            let sent = match word(16 * station) {
                wisavulome::COLLISION => "collision",
                wisavulome::LATE => "late",
                wisavulome::SENT => "sent",
                wisavulome::GIVEN_UP => "given-up",
                wisavulome::LATE_END => "late-end",
                _ => "",
            };
            if !sent.is_empty() {
                text += &format!("{time} {station} {sent} {}\n", word(16 * station + 4));
            }
            if word(16 * station + 8) == wisavulome::GOT_OK {
                text += &format!("{time} {station} got ok {}\n", word(16 * station + 12));
            }
        }
    }
    Ok(text + "end 1500\n")
}

fn main() {
    match run() {
        Ok(text) => {
            if std::io::stdout().write_all(text.as_bytes()).is_err() {
                std::process::exit(3);
            }
        }
        Err(number) => {
            eprintln!("refused {number}");
            std::process::exit(2);
        }
    }
}
