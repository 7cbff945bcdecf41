//! The algorithm of quinn-proto's variable-length integers, written anew over
//! slices. Reading takes the first byte, clears the two bits that give the
//! width, copies the other bytes after it, and takes the whole as a number of
//! that width. Writing goes by the number's range, and stores a number of the
//! width with the two bits set.

/// The number and the bytes it took; `None` where more bytes are needed.
#[inline(always)]
fn decode(s: &[u8]) -> Option<(u64, usize)> {
    let mut form = [0; 8];
    form[0] = *s.first()?;
    let bits = form[0] >> 6;
    form[0] &= 0x3F;
    match bits {
        0 => Some((u64::from(form[0]), 1)),
        1 => {
            form[1..2].copy_from_slice(s.get(1..2)?);
            Some((u64::from(u16::from_be_bytes([form[0], form[1]])), 2))
        }
        2 => {
            form[1..4].copy_from_slice(s.get(1..4)?);
            Some((
                u64::from(u32::from_be_bytes([form[0], form[1], form[2], form[3]])),
                4,
            ))
        }
        _ => {
            form[1..8].copy_from_slice(s.get(1..8)?);
            Some((u64::from_be_bytes(form), 8))
        }
    }
}

/// The bytes that the number took, or 01's number of a refusal.
#[inline(always)]
fn encode(n: u64, out: &mut [u8]) -> Result<usize, u64> {
    if n < 1 << 6 {
        put(out, [n as u8])
    } else if n < 1 << 14 {
        put(out, (0b01 << 14 | n as u16).to_be_bytes())
    } else if n < 1 << 30 {
        put(out, (0b10 << 30 | n as u32).to_be_bytes())
    } else if n < 1 << 62 {
        put(out, (0b11 << 62 | n).to_be_bytes())
    } else {
        Err(5)
    }
}

#[inline(always)]
fn put<const N: usize>(out: &mut [u8], bytes: [u8; N]) -> Result<usize, u64> {
    out.get_mut(..N).ok_or(7u64)?.copy_from_slice(&bytes);
    Ok(N)
}

/// As `ours::Read`.
pub unsafe extern "C" fn read(s: *const u8, len: usize, info: *mut u64, info_len: usize) -> u64 {
    let (s, info) = unsafe {
        (
            std::slice::from_raw_parts(s, len),
            std::slice::from_raw_parts_mut(info, info_len),
        )
    };
    let Some((n, used)) = decode(s) else { return 1 };
    if info.len() < 2 {
        return 7;
    }
    info[0] = n;
    info[1] = used as u64;
    0
}

/// As `ours::Write`.
pub unsafe extern "C" fn write(
    n: u64,
    out: *mut u8,
    out_len: usize,
    info: *mut u64,
    info_len: usize,
) -> u64 {
    let (out, info) = unsafe {
        (
            std::slice::from_raw_parts_mut(out, out_len),
            std::slice::from_raw_parts_mut(info, info_len),
        )
    };
    if info.is_empty() {
        return 7;
    }
    match encode(n, out) {
        Ok(used) => {
            info[0] = used as u64;
            0
        }
        Err(number) => number,
    }
}
