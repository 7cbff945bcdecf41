//! Reading one message or header from the front of some bytes and writing it
//! again in its shortest form.
//!
//! Each function comes twice: `.._into` writes into the caller's bytes and
//! answers 7 where they are too short; the other hands back the bytes.

use crate::header::{self, Header};
use crate::message;

/// Bytes used, bytes written, and the type (0 for object headers).
pub type Written = (usize, usize, u64);

/// Bytes used, the bytes written, and the type (0 for object headers).
pub type Rewritten = (usize, Vec<u8>, u64);

/// A control message.
pub fn control_into(s: &[u8], out: &mut [u8]) -> Result<Written, u8> {
    let (message, used) = message::read(s)?;
    let written = message::write(&message, out)?;
    Ok((used, written, message.kind()))
}

/// The header of a datagram.
pub fn datagram_into(s: &[u8], out: &mut [u8]) -> Result<Written, u8> {
    let (datagram, used) = header::read_datagram(s)?;
    write_header(&datagram, used, datagram.kind(), out)
}

/// The header of a stream.
pub fn stream_into(s: &[u8], out: &mut [u8]) -> Result<Written, u8> {
    let (stream, used) = header::read_stream(s)?;
    write_header(&stream, used, stream.kind(), out)
}

/// An object header on a subgroup stream.
pub fn subgroup_object_into(s: &[u8], out: &mut [u8]) -> Result<Written, u8> {
    let (object, used) = header::read_subgroup_object(s)?;
    write_header(&object, used, 0, out)
}

/// An object header on a fetch stream.
pub fn fetch_object_into(s: &[u8], out: &mut [u8]) -> Result<Written, u8> {
    let (object, used) = header::read_fetch_object(s)?;
    write_header(&object, used, 0, out)
}

fn write_header<H: Header>(
    header: &H,
    used: usize,
    kind: u64,
    out: &mut [u8],
) -> Result<Written, u8> {
    let written = header::write(header, out)?;
    Ok((used, written, kind))
}

/// A control message, handed back.
pub fn control(s: &[u8]) -> Result<Rewritten, u8> {
    handed_back(s, control_into)
}

/// The header of a datagram, handed back.
pub fn datagram(s: &[u8]) -> Result<Rewritten, u8> {
    handed_back(s, datagram_into)
}

/// The header of a stream, handed back.
pub fn stream(s: &[u8]) -> Result<Rewritten, u8> {
    handed_back(s, stream_into)
}

/// An object header on a subgroup stream, handed back.
pub fn subgroup_object(s: &[u8]) -> Result<Rewritten, u8> {
    handed_back(s, subgroup_object_into)
}

/// An object header on a fetch stream, handed back.
pub fn fetch_object(s: &[u8]) -> Result<Rewritten, u8> {
    handed_back(s, fetch_object_into)
}

/// 01: "A read message can always be written into as many bytes as it was
/// read from", so 7 is never answered here.
fn handed_back(
    s: &[u8],
    into: fn(&[u8], &mut [u8]) -> Result<Written, u8>,
) -> Result<Rewritten, u8> {
    let mut out = vec![0; s.len()];
    let (used, written, kind) = into(s, &mut out)?;
    out.truncate(written);
    Ok((used, out, kind))
}
