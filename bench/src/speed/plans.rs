//! The run program on a row's calls made into a plan: the project's program beside that of the fast engine, both as child processes.

use std::env;
use std::io::Write;
use std::path::{Path, PathBuf};
use std::process::{Command, Stdio};

use crate::cpu;
use crate::rows::{address, bit_times, Call, Row, DEPTH};

/// The project's program, which `rt run` in its folder builds.
pub fn simulate() -> PathBuf {
    Path::new(env!("CARGO_MANIFEST_DIR")).join("../crates/simulate/out/simulate")
}

/// The argument with which this program is the run program on the fast engine.
pub const PRINT: &str = "print";

/// The calls of a row as the run program's input: sheet, depth and draws, offers by time, bit times.
pub fn plan(row: Row) -> Vec<u8> {
    let calls = row.calls();
    let mut clock = 0u32;
    let mut count = 0u16;
    let mut offers = Vec::new();
    for call in &calls {
        match *call {
            Call::Offer { station, to, octets } => {
                count += 1;
                offers.extend(clock.to_be_bytes());
                offers.push(station);
                offers.extend(&address(to).to_be_bytes()[2..]);
                offers.extend([0x08, 0x00]);
                offers.extend(octets.to_be_bytes());
                offers.extend(vec![0xA5; octets.into()]);
            }
            call => clock += bit_times(&[call]),
        }
    }
    let mut plan = row.stations.sheet();
    plan.push(DEPTH);
    plan.extend(row.draws().into_iter().flat_map(u16::to_be_bytes));
    plan.extend(count.to_be_bytes());
    plan.extend(offers);
    plan.extend(clock.to_be_bytes());
    plan
}

/// Starts a program on a plan so many times: processor time of one in seconds, and the text.
pub fn printed(command: &mut Command, plan: &[u8], times: u32) -> (f64, Vec<u8>) {
    let began = cpu::children();
    let mut text = Vec::new();
    for _ in 0..times {
        let mut child = command.stdin(Stdio::piped()).stdout(Stdio::piped()).spawn().expect("a program that starts");
        // A plan is smaller than a pipe, so this does not wait for the child to write.
        child.stdin.take().expect("a pipe").write_all(plan).expect("the child reads its input");
        text = child.wait_with_output().expect("a child that ends").stdout;
    }
    ((cpu::children() - began) / f64::from(times), text)
}

pub fn ours(plan: &[u8], times: u32) -> (f64, Vec<u8>) {
    printed(&mut Command::new(simulate()), plan, times)
}

pub fn fast(plan: &[u8], times: u32) -> (f64, Vec<u8>) {
    printed(Command::new(env::current_exe().expect("this program")).arg(PRINT), plan, times)
}
