//! 802.3's CRC-32, reflected: polynomial EDB88320, register and result inverted.

const POLYNOMIAL: u32 = 0xEDB8_8320;

/// Bit by bit, for the plain engine.
pub fn bitwise(octets: &[u8]) -> u32 {
    let mut register = !0;
    for &octet in octets {
        register ^= u32::from(octet);
        for _ in 0..8 {
            let carry = register & 1;
            register >>= 1;
            if carry == 1 {
                register ^= POLYNOMIAL;
            }
        }
    }
    !register
}

const TABLE: [u32; 256] = {
    let mut table = [0; 256];
    let mut index = 0;
    while index < 256 {
        let mut entry = index as u32;
        let mut bit = 0;
        while bit < 8 {
            entry = (entry >> 1) ^ (POLYNOMIAL & (entry & 1).wrapping_neg());
            bit += 1;
        }
        table[index] = entry;
        index += 1;
    }
    table
};

/// One octet at a time by a table of 256 entries.
pub fn table_driven(octets: &[u8]) -> u32 {
    !octets.iter().fold(!0, |register: u32, &octet| (register >> 8) ^ TABLE[usize::from(register as u8 ^ octet)])
}

#[cfg(test)]
mod tests {
    use super::*;

    #[test]
    fn published_check_value() {
        assert_eq!(bitwise(b"123456789"), 0xCBF4_3926);
        assert_eq!(table_driven(b"123456789"), 0xCBF4_3926);
        assert_eq!(bitwise(b""), 0);
        assert_eq!(table_driven(b""), 0);
    }

    #[test]
    fn the_two_agree() {
        let octets: Vec<u8> = (0..3000u32).map(|i| (i.wrapping_mul(2_654_435_761) >> 13) as u8).collect();
        for end in (0..octets.len()).step_by(37) {
            assert_eq!(bitwise(&octets[..end]), table_driven(&octets[..end]));
        }
    }
}
