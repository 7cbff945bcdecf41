//! The fields that messages and headers are made of, and their reader.
//!
//! All byte fields are parts of the caller's bytes. 01: "the track name handed
//! back is the same part of the caller's bytes, not a copy".

use crate::answer::{FILL, FORBIDDEN, MORE, SIZE};
use crate::integer;

/// 01: "1 to 32 namespace fields".
pub const MOST_NAMESPACE_FIELDS: u64 = 32;
/// 01: "namespace field bytes plus name bytes at most 4,096".
pub const MOST_TRACK_BYTES: u64 = 4_096;
/// 01: "at most 64 parameters".
pub const MOST_PARAMETERS: u64 = 64;

/// 01: "A place is a group and an object, compared by group first." The
/// order derived here compares the fields from top to bottom.
#[derive(Debug, Clone, Copy, Default, PartialEq, Eq, PartialOrd, Ord)]
pub struct Place {
    /// Group ID.
    pub group: u64,
    /// Object ID.
    pub object: u64,
}

/// 01: "A namespace is a count, then that many fields, each a length and
/// bytes." The bytes are those behind the count, lengths included.
#[derive(Debug, Clone, Copy)]
pub struct Namespace<'a> {
    /// How many fields there are.
    pub count: u64,
    /// Their lengths and bytes, one after another.
    pub bytes: &'a [u8],
}

/// 01: "Parameters are a count, then the entries of section 8.1; each value
/// is kept as bytes." An entry is a type, a length and the value.
#[derive(Debug, Clone, Copy)]
pub struct Parameters<'a> {
    /// How many parameters there are.
    pub count: u64,
    /// Their types, lengths and values, one after another.
    pub bytes: &'a [u8],
}

/// The Supported Versions of CLIENT_SETUP: a count, then that many integers.
#[derive(Debug, Clone, Copy)]
pub struct Versions<'a> {
    /// How many versions there are.
    pub count: u64,
    /// The integers, one after another.
    pub bytes: &'a [u8],
}

/// A track's full name: Track Namespace and Track Name.
#[derive(Debug, Clone, Copy, PartialEq, Eq)]
pub struct Track<'a> {
    /// Track Namespace.
    pub namespace: Namespace<'a>,
    /// Track Name.
    pub name: &'a [u8],
}

/// Bytes that are read field by field, from left to right.
#[derive(Debug, Clone)]
pub struct Fields<'a> {
    rest: &'a [u8],
    /// What a field that isn't all there answers.
    cut: u8,
}

impl<'a> Fields<'a> {
    /// The whole body of a message, or a whole datagram: a field that goes
    /// past its end answers 4.
    pub fn in_whole(bytes: &'a [u8]) -> Self {
        Fields {
            rest: bytes,
            cut: FILL,
        }
    }

    /// What has come of a stream so far. 01: "On a stream, a cut header
    /// answers 1".
    pub fn on_stream(bytes: &'a [u8]) -> Self {
        Fields {
            rest: bytes,
            cut: MORE,
        }
    }

    /// The bytes not read yet.
    pub fn rest(&self) -> &'a [u8] {
        self.rest
    }

    /// An integer of any form.
    #[inline]
    pub fn integer(&mut self) -> Result<u64, u8> {
        let (number, used) = integer::read(self.rest).map_err(|_| self.cut)?;
        self.rest = &self.rest[used..];
        Ok(number)
    }

    /// A field of one byte.
    #[inline]
    pub fn byte(&mut self) -> Result<u8, u8> {
        let (first, rest) = self.rest.split_first().ok_or(self.cut)?;
        self.rest = rest;
        Ok(*first)
    }

    /// The next `length` bytes.
    #[inline]
    pub fn take(&mut self, length: u64) -> Result<&'a [u8], u8> {
        if length > self.rest.len() as u64 {
            return Err(self.cut);
        }
        let (taken, rest) = self.rest.split_at(length as usize);
        self.rest = rest;
        Ok(taken)
    }

    /// 01: "A name or reason is a length and bytes."
    #[inline]
    pub fn counted(&mut self) -> Result<&'a [u8], u8> {
        let length = self.integer()?;
        self.take(length)
    }

    /// A group and an object.
    pub fn place(&mut self) -> Result<Place, u8> {
        let group = self.integer()?;
        let object = self.integer()?;
        Ok(Place { group, object })
    }

    /// A namespace that no name follows.
    pub fn namespace(&mut self) -> Result<Namespace<'a>, u8> {
        let mut track_bytes = 0;
        self.namespace_part(&mut track_bytes)
    }

    /// A namespace and the name after it.
    pub fn track(&mut self) -> Result<Track<'a>, u8> {
        let mut track_bytes = 0;
        let namespace = self.namespace_part(&mut track_bytes)?;
        let name = self.track_part(&mut track_bytes)?;
        Ok(Track { namespace, name })
    }

    /// 01: "a count or length over a size answers 6 even where the bytes it
    /// names are missing".
    fn namespace_part(&mut self, track_bytes: &mut u64) -> Result<Namespace<'a>, u8> {
        let count = self.integer()?;
        if count == 0 || count > MOST_NAMESPACE_FIELDS {
            return Err(SIZE);
        }
        let start = self.rest;
        for _ in 0..count {
            self.track_part(track_bytes)?;
        }
        let bytes = &start[..start.len() - self.rest.len()];
        Ok(Namespace { count, bytes })
    }

    /// A namespace field or a name. Its length is judged, together with those
    /// before it, before its bytes are looked for.
    fn track_part(&mut self, track_bytes: &mut u64) -> Result<&'a [u8], u8> {
        let length = self.integer()?;
        // Neither is above the greatest integer, so the sum is exact.
        *track_bytes += length;
        if *track_bytes > MOST_TRACK_BYTES {
            return Err(SIZE);
        }
        self.take(length)
    }

    /// Parameters. 01: "What a parameter holds, or its repetition, is not
    /// looked at."
    pub fn parameters(&mut self) -> Result<Parameters<'a>, u8> {
        let count = self.integer()?;
        if count > MOST_PARAMETERS {
            return Err(SIZE);
        }
        let start = self.rest;
        for _ in 0..count {
            self.parameter()?;
        }
        let bytes = &start[..start.len() - self.rest.len()];
        Ok(Parameters { count, bytes })
    }

    /// 004, figure 2: Parameter Type, Parameter Length, Parameter Value.
    pub fn parameter(&mut self) -> Result<(u64, &'a [u8]), u8> {
        let kind = self.integer()?;
        let value = self.counted()?;
        Ok((kind, value))
    }

    /// Versions. No size is set for their number.
    pub fn versions(&mut self) -> Result<Versions<'a>, u8> {
        let count = self.integer()?;
        let start = self.rest;
        for _ in 0..count {
            self.integer()?;
        }
        let bytes = &start[..start.len() - self.rest.len()];
        Ok(Versions { count, bytes })
    }
}

/// 5 where a value just read is forbidden.
#[inline]
pub fn refuse(forbidden: bool) -> Result<(), u8> {
    if forbidden {
        return Err(FORBIDDEN);
    }
    Ok(())
}

/// 004 on SUBSCRIBE and FETCH: "Values larger than 0x2 are a protocol error."
pub fn is_forbidden_asked_order(group_order: u8) -> bool {
    group_order > 2
}

/// 004 on SUBSCRIBE_OK and FETCH_OK: "Values of 0x0 and those larger than 0x2
/// are a protocol error."
pub fn is_forbidden_given_order(group_order: u8) -> bool {
    group_order == 0 || group_order > 2
}

// 01: "Two messages are the same when their numbers are equal and their byte
// fields equal, entry by entry." The forms of the integers that stand between
// the entries are no part of that, so equality goes over the entries. It means
// something only where the bytes make exactly the stated entries.

impl<'a> Namespace<'a> {
    /// The fields, in order.
    pub fn fields(&self) -> impl Iterator<Item = &'a [u8]> {
        let mut fields = Fields::in_whole(self.bytes);
        (0..self.count).map_while(move |_| fields.counted().ok())
    }
}

impl PartialEq for Namespace<'_> {
    fn eq(&self, other: &Self) -> bool {
        self.count == other.count && self.fields().eq(other.fields())
    }
}

impl Eq for Namespace<'_> {}

impl<'a> Parameters<'a> {
    /// The types and values, in order.
    pub fn entries(&self) -> impl Iterator<Item = (u64, &'a [u8])> {
        let mut fields = Fields::in_whole(self.bytes);
        (0..self.count).map_while(move |_| fields.parameter().ok())
    }
}

impl PartialEq for Parameters<'_> {
    fn eq(&self, other: &Self) -> bool {
        self.count == other.count && self.entries().eq(other.entries())
    }
}

impl Eq for Parameters<'_> {}

impl<'a> Versions<'a> {
    /// The versions, in order.
    pub fn numbers(&self) -> impl Iterator<Item = u64> + 'a {
        let mut fields = Fields::in_whole(self.bytes);
        (0..self.count).map_while(move |_| fields.integer().ok())
    }
}

impl PartialEq for Versions<'_> {
    fn eq(&self, other: &Self) -> bool {
        self.count == other.count && self.numbers().eq(other.numbers())
    }
}

impl Eq for Versions<'_> {}
