//! Building and opening frames (docs/INDEX.md, "Frames").

use crate::crc;
use crate::layout::Address;
use crate::Refusal;

pub const SMALLEST_FRAME: usize = 64;
/// Of all values; the largest by value: `largest_frame`.
pub const LARGEST_FRAME: usize = 1522;
pub const SMALLEST_DATA: usize = 46;
/// Destination, source and length/type.
pub const HEADER: usize = 14;
pub const CHECK: usize = 4;
/// Preamble and delimiter.
pub const HEADER_BITS: u32 = 64;
/// The length/type value of the 802.1Q tag.
pub const TAG: u16 = 0x8100;

/// "A frame whose length/type value is 8100 hexadecimal may have 1522 octets; every other value keeps 1518."
pub fn largest_frame(value: u16) -> usize {
    if value == TAG {
        1522
    } else {
        1518
    }
}

/// Refusal 11: "data over 1504 with the tag value, and over 1500 otherwise"; "a value up to 1500 other than the data's size, or a value 1501..1535."
pub fn check_data(value: u16, size: usize) -> Result<(), Refusal> {
    let wrong = size > if value == TAG { 1504 } else { 1500 }
        || match value {
            0..=1500 => usize::from(value) != size,
            1501..=1535 => true,
            1536.. => false,
        };
    if wrong {
        Err(11)
    } else {
        Ok(())
    }
}

/// The frame of these parts. Refusal 11.
pub fn build(destination: Address, source: Address, value: u16, data: &[u8]) -> Result<Vec<u8>, Refusal> {
    check_data(value, data.len())?;
    let mut frame = Vec::with_capacity(LARGEST_FRAME);
    frame.extend(destination);
    frame.extend(source);
    frame.extend(value.to_be_bytes());
    frame.extend(data);
    frame.resize(HEADER + data.len().max(SMALLEST_DATA), 0);
    let check = crc::bitwise(&frame);
    frame.extend(check.to_le_bytes());
    Ok(frame)
}

/// What opening a frame gives; the client data are a part of the caller's own octets.
#[derive(Clone, Copy, Debug, PartialEq, Eq)]
pub enum Status<'a> {
    Fragment,
    FrameTooLong,
    FrameCheckError,
    AlignmentError,
    LengthError,
    ReceiveOk(&'a [u8]),
}

/// Opens a frame with excess bits. Refusal 5 for more than 7 of them.
pub fn open(frame: &[u8], excess: u32) -> Result<Status<'_>, Refusal> {
    if excess > 7 {
        return Err(5);
    }
    Ok(opened(frame, frame.len(), excess, false))
}

/// The opening rules on a frame of so many octets, of which `kept` holds all up to the largest frame. A spoiled reception has its check
/// wrong.
pub fn opened(kept: &[u8], octets: usize, excess: u32, spoiled: bool) -> Status<'_> {
    if octets < SMALLEST_FRAME {
        return Status::Fragment;
    }
    if octets > largest_frame(u16::from_be_bytes([kept[12], kept[13]])) {
        return Status::FrameTooLong;
    }
    let (covered, check) = kept[..octets].split_at(octets - CHECK);
    if spoiled || crc::bitwise(covered).to_le_bytes() != *check {
        return if excess == 0 { Status::FrameCheckError } else { Status::AlignmentError };
    }
    let value = u16::from_be_bytes([covered[12], covered[13]]);
    let data = &covered[HEADER..];
    match value {
        0..=1500 if data.len() == SMALLEST_DATA.max(value.into()) => Status::ReceiveOk(&data[..value.into()]),
        0..=1535 => Status::LengthError,
        1536.. => Status::ReceiveOk(data),
    }
}

/// Packet bit `bit`, counted from 1: seven octets of bits 10101010, the delimiter 10101011, then the frame, low bits first.
pub fn packet_bit(frame: &[u8], bit: u32) -> bool {
    if bit <= HEADER_BITS {
        bit % 2 == 1 || bit == HEADER_BITS
    } else {
        let place = (bit - HEADER_BITS - 1) as usize;
        frame[place / 8] >> (place % 8) & 1 == 1
    }
}

#[cfg(test)]
mod tests {
    use super::*;

    fn built(value: u16, size: usize) -> Result<Vec<u8>, Refusal> {
        build([2, 0, 0, 0, 0, 1], [2, 0, 0, 0, 0, 2], value, &vec![7; size])
    }

    #[test]
    fn p5_and_p6() {
        let sizes = [0, 46, 47, 1500].map(|size| built(size as u16, size).unwrap().len());
        assert_eq!(sizes, [64, 64, 65, 1518]);
        assert!(built(1500, 1500).is_ok());
        assert_eq!(built(1501, 1500), Err(11));
        assert_eq!(built(1535, 1500), Err(11));
        assert!(built(1536, 1500).is_ok());
        assert_eq!(built(TAG, 1504).unwrap().len(), 1522);
        assert_eq!(built(TAG, 1505), Err(11));
        assert_eq!(built(TAG + 1, 1501), Err(11));
    }

    #[test]
    fn opening_gives_back_the_data() {
        let frame = built(3, 3).unwrap();
        assert_eq!(open(&frame, 7), Ok(Status::ReceiveOk(&[7; 3])));
        assert_eq!(open(&frame, 8), Err(5));
        let frame = built(0x800, 50).unwrap();
        assert_eq!(open(&frame, 0), Ok(Status::ReceiveOk(&[7; 50])));
        assert_eq!(open(&frame[..63], 0), Ok(Status::Fragment));
        assert_eq!(open(&frame[..64], 0), Ok(Status::FrameCheckError));
        assert_eq!(open(&frame[..64], 1), Ok(Status::AlignmentError));
        assert_eq!(open(&[0; 1519], 0), Ok(Status::FrameTooLong));
    }
}
