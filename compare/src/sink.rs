//! Where the fields of a message or header go, left to right: first into a
//! measure, which finds what can't be written and how many bytes the rest
//! takes, then into a writer.

use crate::fields::{
    Fields, Namespace, Parameters, Place, Track, Versions, MOST_NAMESPACE_FIELDS, MOST_PARAMETERS,
    MOST_TRACK_BYTES,
};
use crate::integer;

/// Something that fields are put into.
pub trait Sink {
    /// An integer.
    fn integer(&mut self, number: u64);
    /// A field of one byte.
    fn byte(&mut self, byte: u8);
    /// Bytes as they are.
    fn bytes(&mut self, bytes: &[u8]);
    /// A namespace that no name follows.
    fn namespace(&mut self, namespace: &Namespace<'_>);
    /// A namespace and the name after it.
    fn track(&mut self, track: &Track<'_>);
    /// Parameters.
    fn parameters(&mut self, parameters: &Parameters<'_>);
    /// Versions.
    fn versions(&mut self, versions: &Versions<'_>);

    /// A length and bytes.
    fn counted(&mut self, bytes: &[u8]) {
        self.integer(bytes.len() as u64);
        self.bytes(bytes);
    }

    /// A group and an object.
    fn place(&mut self, place: &Place) {
        self.integer(place.group);
        self.integer(place.object);
    }
}

/// What a message or header would take, and what stands against writing it.
#[derive(Debug, Clone, Copy, Default)]
pub struct Measure {
    /// The bytes of the shortest form.
    pub size: usize,
    /// 01: "A number above the greatest can't be written (5)."
    pub too_great: bool,
    /// 01: "bytes handed to it that don't make exactly the stated entries
    /// answer 5".
    pub not_the_entries: bool,
    /// 01: "Sizes (6, never 5)".
    pub over_size: bool,
}

impl Measure {
    /// The size never wraps: what is that long is refused in any case.
    #[inline]
    fn bytes_more(&mut self, more: usize) {
        self.size = self.size.saturating_add(more);
    }

    /// Measures a namespace; answers the bytes of its fields alone, without
    /// the lengths between them.
    fn namespace_part(&mut self, namespace: &Namespace<'_>) -> u64 {
        self.integer(namespace.count);
        if namespace.count == 0 || namespace.count > MOST_NAMESPACE_FIELDS {
            self.over_size = true;
        }
        let mut fields = Fields::in_whole(namespace.bytes);
        let mut track_bytes = 0;
        for _ in 0..namespace.count {
            let Ok(field) = fields.counted() else {
                self.not_the_entries = true;
                break;
            };
            self.counted(field);
            track_bytes += field.len() as u64;
        }
        self.end_of(&fields);
        track_bytes
    }

    fn end_of(&mut self, fields: &Fields<'_>) {
        if !fields.rest().is_empty() {
            self.not_the_entries = true;
        }
    }
}

impl Sink for Measure {
    #[inline]
    fn integer(&mut self, number: u64) {
        match integer::size(number) {
            Some(size) => self.bytes_more(size),
            None => self.too_great = true,
        }
    }

    #[inline]
    fn byte(&mut self, _byte: u8) {
        self.bytes_more(1);
    }

    #[inline]
    fn bytes(&mut self, bytes: &[u8]) {
        self.bytes_more(bytes.len());
    }

    fn namespace(&mut self, namespace: &Namespace<'_>) {
        if self.namespace_part(namespace) > MOST_TRACK_BYTES {
            self.over_size = true;
        }
    }

    fn track(&mut self, track: &Track<'_>) {
        let track_bytes = self.namespace_part(&track.namespace);
        self.counted(track.name);
        if track_bytes.saturating_add(track.name.len() as u64) > MOST_TRACK_BYTES {
            self.over_size = true;
        }
    }

    fn parameters(&mut self, parameters: &Parameters<'_>) {
        self.integer(parameters.count);
        if parameters.count > MOST_PARAMETERS {
            self.over_size = true;
        }
        let mut fields = Fields::in_whole(parameters.bytes);
        for _ in 0..parameters.count {
            let Ok((kind, value)) = fields.parameter() else {
                self.not_the_entries = true;
                break;
            };
            self.integer(kind);
            self.counted(value);
        }
        self.end_of(&fields);
    }

    fn versions(&mut self, versions: &Versions<'_>) {
        self.integer(versions.count);
        let mut fields = Fields::in_whole(versions.bytes);
        for _ in 0..versions.count {
            let Ok(version) = fields.integer() else {
                self.not_the_entries = true;
                break;
            };
            self.integer(version);
        }
        self.end_of(&fields);
    }
}

/// Writes what a measure has found to be writable and to have room.
#[derive(Debug)]
pub struct Writer<'o> {
    out: &'o mut [u8],
    at: usize,
}

impl<'o> Writer<'o> {
    /// A writer that begins at the first byte of `out`.
    pub fn new(out: &'o mut [u8]) -> Self {
        Writer { out, at: 0 }
    }

    /// The bytes written so far.
    pub fn written(&self) -> usize {
        self.at
    }
}

// 01: "The writer uses the fewest bytes", so the lengths and types between the
// entries are written anew.
impl Sink for Writer<'_> {
    #[inline]
    fn integer(&mut self, number: u64) {
        let written = integer::write(number, &mut self.out[self.at..]);
        self.at += written.expect("measured before it is written");
    }

    #[inline]
    fn byte(&mut self, byte: u8) {
        self.out[self.at] = byte;
        self.at += 1;
    }

    #[inline]
    fn bytes(&mut self, bytes: &[u8]) {
        self.out[self.at..self.at + bytes.len()].copy_from_slice(bytes);
        self.at += bytes.len();
    }

    fn namespace(&mut self, namespace: &Namespace<'_>) {
        self.integer(namespace.count);
        for field in namespace.fields() {
            self.counted(field);
        }
    }

    fn track(&mut self, track: &Track<'_>) {
        self.namespace(&track.namespace);
        self.counted(track.name);
    }

    fn parameters(&mut self, parameters: &Parameters<'_>) {
        self.integer(parameters.count);
        for (kind, value) in parameters.entries() {
            self.integer(kind);
            self.counted(value);
        }
    }

    fn versions(&mut self, versions: &Versions<'_>) {
        self.integer(versions.count);
        for version in versions.numbers() {
            self.integer(version);
        }
    }
}
