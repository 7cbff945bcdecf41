//! Variable-length integers (RFC 9000, section 16).

use crate::answer::{FORBIDDEN, SHORT};

/// The greatest number that can be written.
pub const GREATEST: u64 = 4_611_686_018_427_387_903;

/// More bytes are needed.
#[derive(Debug, Clone, Copy, PartialEq, Eq)]
pub struct More;

/// Reads one integer from the front: the number and the bytes used.
///
/// 01: "The top two bits of the first byte give 1, 2, 4 or 8 bytes; the rest,
/// most significant first, is the number." 01: "A longer form than needed is
/// read."
#[inline]
pub fn read(bytes: &[u8]) -> Result<(u64, usize), More> {
    let first = *bytes.first().ok_or(More)?;
    match first >> 6 {
        0 => Ok((u64::from(first), 1)),
        1 => {
            let form = bytes.first_chunk::<2>().ok_or(More)?;
            Ok((u64::from(u16::from_be_bytes(*form) & 0x3FFF), 2))
        }
        2 => {
            let form = bytes.first_chunk::<4>().ok_or(More)?;
            Ok((u64::from(u32::from_be_bytes(*form) & 0x3FFF_FFFF), 4))
        }
        _ => {
            let form = bytes.first_chunk::<8>().ok_or(More)?;
            Ok((u64::from_be_bytes(*form) & GREATEST, 8))
        }
    }
}

/// The bytes of the number's shortest form, or none above the greatest.
///
/// 01: "Greatest: 63; 16,383; 1,073,741,823; 4,611,686,018,427,387,903."
#[inline]
pub fn size(number: u64) -> Option<usize> {
    match number {
        0..=63 => Some(1),
        64..=16_383 => Some(2),
        16_384..=1_073_741_823 => Some(4),
        1_073_741_824..=GREATEST => Some(8),
        _ => None,
    }
}

/// Writes the number at the front of `out`; answers the bytes written.
///
/// 01: "The writer uses the fewest bytes. A number above the greatest can't
/// be written (5)." That comes before an output too short (7), as in the
/// writer of messages. On refusal `out` is unchanged.
#[inline]
pub fn write(number: u64, out: &mut [u8]) -> Result<usize, u8> {
    let size = size(number).ok_or(FORBIDDEN)?;
    let out = out.get_mut(..size).ok_or(SHORT)?;
    match size {
        1 => out[0] = number as u8,
        2 => out.copy_from_slice(&(number as u16 | 0x4000).to_be_bytes()),
        4 => out.copy_from_slice(&(number as u32 | 0x8000_0000).to_be_bytes()),
        _ => out.copy_from_slice(&(number | 0xC000_0000_0000_0000).to_be_bytes()),
    }
    Ok(size)
}
