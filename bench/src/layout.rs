//! The sheet and the layout it describes (docs/INDEX.md, "The sheet").

use crate::{Refusal, STATIONS};

pub type Address = [u8; 6];

pub const BROADCAST: Address = [0xFF; 6];

/// A station's place on the pair.
#[derive(Clone, Copy, Debug, Default, PartialEq, Eq)]
pub struct Place {
    /// In bit times.
    pub position: u32,
    pub address: Address,
}

#[derive(Clone, Debug, PartialEq, Eq)]
pub struct Layout {
    pub slot: u32,
    pub gap1: u32,
    pub gap2: u32,
    pub jam: u32,
    pub attempt_limit: u32,
    pub backoff_limit: u32,
    /// 0: a late collision is retried; 1: it closes the frame.
    pub late_end: u32,
    pub places: Vec<Place>,
}

impl Layout {
    /// G.
    pub fn gap(&self) -> u32 {
        self.gap1 + self.gap2
    }

    /// The bit times that a symbol takes between two stations.
    pub fn distance(&self, i: usize, j: usize) -> u32 {
        self.places[i].position.abs_diff(self.places[j].position)
    }

    /// "A run ends early after the first step in which any station has a late collision"; "with 1, a run no longer ends early".
    pub fn late_ends_run(&self) -> bool {
        self.late_end == 0
    }

    /// "A layout fits if 2 × S + G ≤ slot and G ≤ 64 + jam."
    pub fn fits(&self) -> bool {
        let span = self.distance(0, self.places.len() - 1);
        2 * span + self.gap() <= self.slot && self.gap() <= 64 + self.jam
    }

    /// Refusals 5 to 8 on the resulting values, defaults filled in. A position's range is that of its one octet.
    pub fn check(&self) -> Result<(), Refusal> {
        let in_range = (64..=512).contains(&self.slot)
            && (1..=255).contains(&self.gap2)
            && self.gap1 <= 255
            && self.gap1 <= 2 * self.gap2
            && (1..=64).contains(&self.jam)
            && (1..=16).contains(&self.attempt_limit)
            && (1..=10).contains(&self.backoff_limit)
            && self.late_end <= 1
            && self.places.iter().all(|place| place.position <= 255);
        if !in_range {
            return Err(5);
        }
        if !(2..=STATIONS).contains(&self.places.len()) {
            return Err(6);
        }
        if self.places.windows(2).any(|pair| pair[0].position >= pair[1].position) {
            return Err(7);
        }
        for (i, place) in self.places.iter().enumerate() {
            let repeats = self.places[..i].iter().any(|other| other.address == place.address);
            if place.address[0] & 1 == 1 || repeats {
                return Err(8);
            }
        }
        Ok(())
    }
}

/// Octets of each optional field, by map bit.
const FIELD_OCTETS: [usize; 7] = [2, 1, 1, 1, 1, 1, 1];
/// The value of each if absent.
const DEFAULTS: [u32; 7] = [512, 64, 32, 32, 16, 10, 0];
/// Octets of a station: position and address.
const STATION_OCTETS: usize = 7;

/// Reads a sheet: the layout and the octets used. Refusals 3 to 8.
pub fn read_sheet(octets: &[u8]) -> Result<(Layout, usize), Refusal> {
    let (&map, after_map) = octets.split_first().ok_or(3u32)?;
    let mut rest = after_map;
    let mut fields = DEFAULTS;
    for (bit, size) in FIELD_OCTETS.into_iter().enumerate() {
        if map & (1 << bit) != 0 {
            let (field, after) = rest.split_at_checked(size).ok_or(3u32)?;
            fields[bit] = field.iter().fold(0, |value, &octet| value << 8 | u32::from(octet));
            rest = after;
        }
    }
    let (&count, after_count) = rest.split_first().ok_or(3u32)?;
    let (stations, after) = after_count.split_at_checked(STATION_OCTETS * usize::from(count)).ok_or(3u32)?;
    if map & 0x80 != 0 {
        return Err(4);
    }
    let [slot, gap1, gap2, jam, attempt_limit, backoff_limit, late_end] = fields;
    let places = stations
        .chunks_exact(STATION_OCTETS)
        .map(|station| Place { position: u32::from(station[0]), address: station[1..].try_into().expect("six octets") })
        .collect();
    let layout = Layout { slot, gap1, gap2, jam, attempt_limit, backoff_limit, late_end, places };
    layout.check()?;
    Ok((layout, octets.len() - after.len()))
}

/// Writes the sheet of a layout (request N4): "shortest, no field that equals its default". Refusals 5 to 8.
pub fn write_sheet(layout: &Layout) -> Result<Vec<u8>, Refusal> {
    layout.check()?;
    let &Layout { slot, gap1, gap2, jam, attempt_limit, backoff_limit, late_end, ref places } = layout;
    let fields = [slot, gap1, gap2, jam, attempt_limit, backoff_limit, late_end];
    let mut sheet = vec![0];
    for (bit, (value, size)) in fields.into_iter().zip(FIELD_OCTETS).enumerate() {
        if value != DEFAULTS[bit] {
            sheet[0] |= 1 << bit;
            sheet.extend(&value.to_be_bytes()[4 - size..]);
        }
    }
    sheet.push(places.len() as u8);
    for place in places {
        sheet.push(place.position as u8);
        sheet.extend(place.address);
    }
    Ok(sheet)
}

/// How far the last station of a sheet may move outward so that its layout still fits, place by place; `None` where it does not fit.
/// Refusals 3 to 8.
pub fn margin(sheet: &[u8]) -> Result<Option<u32>, Refusal> {
    let (layout, _) = read_sheet(sheet)?;
    let last = layout.places.len() - 1;
    let moved = |by| {
        let mut layout = layout.clone();
        layout.places[last].position += by;
        layout
    };
    let end = 255 - layout.places[last].position;
    Ok((0..=end).take_while(|&by| moved(by).fits()).last())
}

/// Whether the layout of a sheet fits. Refusals 3 to 8.
pub fn fits(sheet: &[u8]) -> Result<bool, Refusal> {
    read_sheet(sheet).map(|(layout, _)| layout.fits())
}

#[cfg(test)]
mod tests {
    use super::*;

    fn sheet(fields: &[u8], last: u8) -> Vec<u8> {
        let mut sheet = fields.to_vec();
        sheet.extend([2, 0, 2, 0, 0, 0, 0, 1, last, 2, 0, 0, 0, 0, 2]);
        sheet
    }

    #[test]
    fn p1_and_p2() {
        assert_eq!(fits(&sheet(&[0], 208)), Ok(true));
        assert_eq!(fits(&sheet(&[0], 209)), Ok(false));
        assert_eq!(fits(&sheet(&[8, 32], 10)), Ok(true));
        assert_eq!(fits(&sheet(&[8, 31], 10)), Ok(false));
    }

    #[test]
    fn late_end() {
        let read = |fields: &[u8]| read_sheet(&sheet(fields, 10)).map(|(layout, used)| (layout.late_end, used));
        assert_eq!(read(&[0]), Ok((0, 16)));
        assert_eq!(read(&[0x40, 0]), Ok((0, 17)));
        assert_eq!(read(&[0x40, 1]), Ok((1, 17)));
        assert_eq!(read(&[0x40, 2]), Err(5));
        assert_eq!(read(&[0x40, 255]), Err(5));
        assert_eq!(read(&[0x60, 10, 1]), Ok((1, 18)));
    }

    #[test]
    fn refusals() {
        assert_eq!(fits(&[]), Err(3));
        assert_eq!(fits(&[0x40]), Err(3));
        assert_eq!(fits(&[0, 200]), Err(3));
        assert_eq!(fits(&[0, 0]), Err(6));
        assert_eq!(fits(&[0x40, 0]), Err(3));
        assert_eq!(fits(&[0x40, 1, 0]), Err(6));
        assert_eq!(fits(&[0x40, 2, 0]), Err(5));
        assert_eq!(fits(&[0x80, 0]), Err(4));
        assert_eq!(fits(&[0xC0, 2]), Err(3));
        assert_eq!(fits(&[0xC0, 2, 0]), Err(4));
        assert_eq!(fits(&sheet(&[4, 31], 10)), Err(5));
        assert_eq!(fits(&sheet(&[4, 32], 0)), Err(7));
    }
}
