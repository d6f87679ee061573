//! Request N5, sentence by sentence: marks of a work area in a second lent store.

use std::array;

use crate::area::{check_area, AREA};
use crate::Refusal;

/// "up to four marks, each an octet that is 1 where the mark stands, an eight-octet name and the whole work area"
pub const MARKS: usize = 4;
const NAME: usize = 8;
pub const MARK: usize = 1 + NAME + AREA;
pub const STORE: usize = MARKS * MARK;

type Answer = Result<u32, Refusal>;

/// The names of the marks that stand, place by place. A name is its number's eight octets, high octet first.
fn names(store: &[u8]) -> Result<[Option<u64>; MARKS], Refusal> {
    let store = store.get(..STORE).ok_or(15u32)?;
    Ok(array::from_fn(|place| {
        let mark = &store[MARK * place..];
        (mark[0] == 1).then(|| u64::from_be_bytes(array::from_fn(|k| mark[1 + k])))
    }))
}

/// "Where a name stands twice, the first counts."
fn found(names: &[Option<u64>; MARKS], name: u64) -> Option<usize> {
    names.iter().position(|&standing| standing == Some(name))
}

pub fn mark(area: &[u8], store: &mut [u8], name: u64) -> Answer {
    match check_area(area) {
        0 => {}
        refusal => return Err(refusal),
    }
    let names = names(store)?;
    let free = || names.iter().position(Option::is_none);
    let place = found(&names, name).or_else(free).ok_or(18u32)?;
    let mark = &mut store[MARK * place..][..MARK];
    mark[0] = 1;
    mark[1..1 + NAME].copy_from_slice(&name.to_be_bytes());
    mark[1 + NAME..].copy_from_slice(&area[..AREA]);
    Ok(0)
}

/// "Returning puts back every octet, clock and draw places included."
pub fn go_back(area: &mut [u8], store: &[u8], name: u64) -> Answer {
    if area.len() < AREA {
        return Err(1);
    }
    let place = found(&names(store)?, name).ok_or(17u32)?;
    let marked = &store[MARK * place..][1 + NAME..MARK];
    if check_area(marked) != 0 {
        return Err(2);
    }
    area[..AREA].copy_from_slice(marked);
    Ok(0)
}

/// "a drop sets only that octet to 0"
pub fn drop_mark(store: &mut [u8], name: u64) -> Answer {
    let place = found(&names(store)?, name).ok_or(17u32)?;
    store[MARK * place] = 0;
    Ok(0)
}
