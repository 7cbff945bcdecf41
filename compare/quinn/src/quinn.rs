//! quinn-proto's integers, called as the proved code is.

use quinn_proto::coding::Codec;
use quinn_proto::VarInt;

/// As `ours::Read`.
pub unsafe extern "C" fn read(s: *const u8, len: usize, info: *mut u64, info_len: usize) -> u64 {
    let (s, info) = unsafe {
        (
            std::slice::from_raw_parts(s, len),
            std::slice::from_raw_parts_mut(info, info_len),
        )
    };
    let mut rest = s;
    let Ok(n) = VarInt::decode(&mut rest) else {
        return 1;
    };
    if info.len() < 2 {
        return 7;
    }
    info[0] = n.into_inner();
    info[1] = (s.len() - rest.len()) as u64;
    0
}

/// As `ours::Write`, but where `out` is too short it panics, as quinn-proto
/// does; so it has no room to judge.
pub unsafe extern "C" fn write(
    n: u64,
    out: *mut u8,
    out_len: usize,
    info: *mut u64,
    info_len: usize,
) -> u64 {
    let (mut out, info) = unsafe {
        (
            std::slice::from_raw_parts_mut(out, out_len),
            std::slice::from_raw_parts_mut(info, info_len),
        )
    };
    if info.is_empty() {
        return 7;
    }
    let Ok(n) = VarInt::from_u64(n) else {
        return 5;
    };
    n.encode(&mut out);
    info[0] = (out_len - out.len()) as u64;
    0
}
