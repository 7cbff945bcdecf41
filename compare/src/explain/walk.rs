//! Bytes taken apart from left to right: each part with its name, up to the
//! first one that is refused. What a part is worth is judged here and in the
//! layouts as soon as its integer or byte is read.

use crate::answer::{FILL, MORE, SIZE};
use crate::fields::{MOST_NAMESPACE_FIELDS, MOST_PARAMETERS, MOST_TRACK_BYTES};
use crate::integer;

/// What a part is.
#[derive(Debug, Clone, Copy, PartialEq, Eq)]
pub enum Content {
    /// The type of a message.
    Type(u64),
    /// An integer of any form: a number, a count or a length.
    Number(u64),
    /// A field of one byte.
    Byte(u8),
    /// As many bytes as the length before them says.
    Bytes,
    /// What there is of a part that isn't all there.
    Cut,
    /// Bytes that no part takes.
    LeftOver,
}

/// A part of some bytes.
#[derive(Debug, Clone, Copy, PartialEq, Eq)]
pub struct Part<'a> {
    /// How many bytes there are before it.
    pub offset: usize,
    /// The bytes that it takes.
    pub bytes: &'a [u8],
    /// What 004 calls it.
    pub label: &'static str,
    /// What it is.
    pub content: Content,
}

/// The parts of some bytes, and what came of reading them.
#[derive(Debug, Clone, PartialEq, Eq)]
pub struct Walked<'a> {
    /// The parts in order, the refused one last.
    pub parts: Vec<Part<'a>>,
    /// The bytes used, or the number at which reading stopped.
    pub answer: Result<usize, u8>,
}

/// Goes over bytes of this layout.
pub fn walk<'a>(bytes: &'a [u8], layout: fn(&mut Walk<'a>) -> Result<(), u8>) -> Walked<'a> {
    let mut walk = Walk {
        parts: Vec::new(),
        used: 0,
        rest: bytes,
        cut: MORE,
    };
    let answer = layout(&mut walk).map(|()| walk.used);
    Walked {
        parts: walk.parts,
        answer,
    }
}

/// What 004 calls the count of a tuple, the length of a field of it, and that
/// field.
#[derive(Debug)]
pub struct Tuple {
    count: &'static str,
    length: &'static str,
    field: &'static str,
}

/// Track Namespace.
pub const NAMESPACE: Tuple = Tuple {
    count: "Number of Track Namespace Fields",
    length: "Track Namespace Field Length",
    field: "Track Namespace Field",
};

/// Track Namespace Prefix.
pub const PREFIX: Tuple = Tuple {
    count: "Number of Track Namespace Prefix Fields",
    length: "Track Namespace Prefix Field Length",
    field: "Track Namespace Prefix Field",
};

/// Bytes on the way: the parts so far, and what is left.
#[derive(Debug)]
pub struct Walk<'a> {
    parts: Vec<Part<'a>>,
    /// How many bytes the parts so far take.
    used: usize,
    rest: &'a [u8],
    /// What a part that isn't all there answers.
    cut: u8,
}

impl<'a> Walk<'a> {
    /// The next part takes that many of the bytes that are left.
    fn take(&mut self, label: &'static str, length: usize, content: Content) {
        let (bytes, rest) = self.rest.split_at(length);
        self.parts.push(Part {
            offset: self.used,
            bytes,
            label,
            content,
        });
        self.used += length;
        self.rest = rest;
    }

    /// A part that isn't all there takes all that is left; the number that it
    /// answers.
    fn take_cut(&mut self, label: &'static str) -> u8 {
        self.take(label, self.rest.len(), Content::Cut);
        self.cut
    }

    fn integer(&mut self, label: &'static str, content: fn(u64) -> Content) -> Result<u64, u8> {
        let Ok((number, size)) = integer::read(self.rest) else {
            return Err(self.take_cut(label));
        };
        self.take(label, size, content(number));
        Ok(number)
    }

    /// The type of a message.
    pub fn kind(&mut self) -> Result<u64, u8> {
        self.integer("Type", Content::Type)
    }

    /// An integer of any form.
    pub fn number(&mut self, label: &'static str) -> Result<u64, u8> {
        self.integer(label, Content::Number)
    }

    /// That many integers, each with its name.
    pub fn numbers(&mut self, labels: &[&'static str]) -> Result<(), u8> {
        for label in labels {
            self.number(label)?;
        }
        Ok(())
    }

    /// A field of one byte.
    pub fn byte(&mut self, label: &'static str) -> Result<u8, u8> {
        let Some(byte) = self.rest.first() else {
            return Err(self.take_cut(label));
        };
        self.take(label, 1, Content::Byte(*byte));
        Ok(*byte)
    }

    /// The next `length` bytes.
    fn bytes(&mut self, label: &'static str, length: u64) -> Result<(), u8> {
        if length > self.rest.len() as u64 {
            return Err(self.take_cut(label));
        }
        self.take(label, length as usize, Content::Bytes);
        Ok(())
    }

    /// A length and bytes. No size is set for the length.
    pub fn counted(&mut self, length: &'static str, label: &'static str) -> Result<(), u8> {
        let length = self.number(length)?;
        self.bytes(label, length)
    }

    /// 01: "A name or reason is a length and bytes."
    pub fn reason(&mut self) -> Result<(), u8> {
        self.counted("Reason Phrase Length", "Reason Phrase")
    }

    /// A namespace or a prefix; answers how many bytes its fields have.
    pub fn namespace(&mut self, tuple: &Tuple) -> Result<u64, u8> {
        let count = self.number(tuple.count)?;
        if count == 0 || count > MOST_NAMESPACE_FIELDS {
            return Err(SIZE);
        }
        let mut track_bytes = 0;
        for _ in 0..count {
            self.track_part(tuple.length, tuple.field, &mut track_bytes)?;
        }
        Ok(track_bytes)
    }

    /// Track Namespace, Track Name Length and Track Name.
    pub fn track(&mut self) -> Result<(), u8> {
        let mut track_bytes = self.namespace(&NAMESPACE)?;
        self.track_part("Track Name Length", "Track Name", &mut track_bytes)
    }

    /// A namespace field or a name. Its length is judged, together with those
    /// before it, before its bytes are looked for.
    fn track_part(
        &mut self,
        length: &'static str,
        label: &'static str,
        track_bytes: &mut u64,
    ) -> Result<(), u8> {
        let length = self.number(length)?;
        // Neither is above the greatest integer, so the sum is exact.
        *track_bytes += length;
        if *track_bytes > MOST_TRACK_BYTES {
            return Err(SIZE);
        }
        self.bytes(label, length)
    }

    /// 01: "Parameters are a count, then the entries of section 8.1".
    pub fn parameters(&mut self) -> Result<(), u8> {
        let count = self.number("Number of Parameters")?;
        if count > MOST_PARAMETERS {
            return Err(SIZE);
        }
        for _ in 0..count {
            self.number("Parameter Type")?;
            self.counted("Parameter Length", "Parameter Value")?;
        }
        Ok(())
    }

    /// The Supported Versions of CLIENT_SETUP. No size is set for their
    /// number.
    pub fn versions(&mut self) -> Result<(), u8> {
        let count = self.number("Number of Supported Versions")?;
        for _ in 0..count {
            self.number("Supported Version")?;
        }
        Ok(())
    }

    /// The next `length` bytes are the body, if they are all there: nothing
    /// else is left, and a part that its end cuts answers 4.
    pub fn enter_body(&mut self, length: u64) -> Result<(), u8> {
        if length > self.rest.len() as u64 {
            return Err(MORE);
        }
        self.rest = &self.rest[..length as usize];
        self.cut = FILL;
        Ok(())
    }

    /// 01: "no byte left over".
    pub fn end_body(&mut self) -> Result<(), u8> {
        if self.rest.is_empty() {
            return Ok(());
        }
        self.take("left over", self.rest.len(), Content::LeftOver);
        Err(FILL)
    }
}
