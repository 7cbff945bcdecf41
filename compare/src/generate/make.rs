//! The fields that generated messages and headers are made of. Written from
//! the layouts, without the library's own writer.

use super::random::Random;
use crate::integer::GREATEST;

/// Numbers at the ends of the four forms.
const ENDS: [u64; 10] = [
    0,
    62,
    63,
    64,
    16_383,
    16_384,
    1_073_741_823,
    1_073_741_824,
    GREATEST - 1,
    GREATEST,
];

/// A maker of fields.
#[derive(Debug)]
pub struct Make {
    /// Where the choices come from.
    pub random: Random,
    /// Whether integers may be written longer than needed.
    pub padded: bool,
    /// Whether forbidden values and sizes may come.
    pub wild: bool,
    /// Whether byte fields may be long.
    pub long: bool,
    /// Whether two subscriptions may ask for one track.
    pub shared: bool,
    /// Whether byte fields may be text, and about as long as can be shown.
    pub shown: bool,
    /// Where the last field of a length and bytes was put: its start and end.
    pub counted_at: Option<(usize, usize)>,
}

/// Writes the number in a form of `size` bytes (1, 2, 4 or 8), which it fits.
pub fn integer_of_size(out: &mut Vec<u8>, number: u64, size: usize) {
    let mark = size.trailing_zeros() as u8;
    let bytes = number.to_be_bytes();
    let start = out.len();
    out.extend_from_slice(&bytes[8 - size..]);
    out[start] |= mark << 6;
}

/// The bytes of the shortest form.
pub fn shortest(number: u64) -> usize {
    if number < 1 << 6 {
        1
    } else if number < 1 << 14 {
        2
    } else if number < 1 << 30 {
        4
    } else {
        8
    }
}

impl Make {
    /// A maker of plain fields.
    pub fn new(random: Random) -> Self {
        Make {
            random,
            padded: false,
            wild: false,
            long: false,
            shared: false,
            shown: false,
            counted_at: None,
        }
    }

    /// Back to plain fields.
    pub fn plain(&mut self) {
        self.padded = false;
        self.wild = false;
        self.long = false;
        self.shared = false;
        self.shown = false;
    }

    /// Writes this number, at times longer than needed.
    pub fn integer(&mut self, out: &mut Vec<u8>, number: u64) {
        let mut size = shortest(number);
        if self.padded {
            while size < 8 && self.random.one_in(3) {
                size *= 2;
            }
        }
        integer_of_size(out, number, size);
    }

    /// A number: mostly small, at times at the end of a form, at times any.
    pub fn number(&mut self) -> u64 {
        match self.random.below(4) {
            0 | 1 => self.random.below(12),
            2 => self.random.one_of(&ENDS),
            _ => {
                let bits = self.random.below(62);
                (self.random.number() & GREATEST) >> bits
            }
        }
    }

    /// Writes any number.
    pub fn any_integer(&mut self, out: &mut Vec<u8>) {
        let number = self.number();
        self.integer(out, number);
    }

    /// Writes that many numbers.
    pub fn integers(&mut self, out: &mut Vec<u8>, count: usize) {
        for _ in 0..count {
            self.any_integer(out);
        }
    }

    /// Writes any byte.
    pub fn byte(&mut self, out: &mut Vec<u8>) {
        out.push(self.random.number() as u8);
    }

    /// Writes that many bytes.
    pub fn bytes(&mut self, out: &mut Vec<u8>, count: u64) {
        for _ in 0..count {
            self.byte(out);
        }
    }

    /// Writes that many bytes of a field; where they may be text, half of them
    /// are, but for one byte now and then.
    pub fn field(&mut self, out: &mut Vec<u8>, count: u64) {
        if !self.shown || self.random.one_in(2) {
            return self.bytes(out, count);
        }
        for _ in 0..count {
            out.push(0x20 + self.random.below(0x5F) as u8);
        }
        if count > 0 && self.random.one_in(6) {
            let at = out.len() - 1 - self.random.below(count) as usize;
            out[at] = self.random.one_of(&[0x00, 0x0A, 0x1F, 0x7F, 0x80, 0xFF]) as u8;
        }
    }

    /// The length of a byte field: below a bound, or about what can be shown.
    fn length(&mut self, bound: u64) -> u64 {
        if self.shown && self.random.one_in(3) {
            return self.random.one_of(&[7, 8, 9, 23, 24, 25, 70]);
        }
        self.random.below(bound)
    }

    /// One of the permitted values, or, where wild, now and then one of the
    /// forbidden ones.
    pub fn value(&mut self, permitted: &[u64], forbidden: &[u64]) -> u64 {
        if self.wild && self.random.one_in(3) {
            return self.random.one_of(forbidden);
        }
        self.random.one_of(permitted)
    }

    /// Writes a length and bytes: a reason, a URI or a parameter's value.
    pub fn counted(&mut self, out: &mut Vec<u8>) {
        let length = if self.long && self.random.one_in(2) {
            self.random.one_of(&[63, 64, 300, 5_000, 12_000, 16_000])
        } else {
            self.length(6)
        };
        let start = out.len();
        self.integer(out, length);
        self.field(out, length);
        self.counted_at = Some((start, out.len()));
    }

    /// Writes a namespace; answers the bytes of its fields.
    pub fn namespace(&mut self, out: &mut Vec<u8>) -> u64 {
        let few = 1 + self.random.below(3);
        let count = match self.random.below(12) {
            0 => self.value(&[31, 32], &[0, 33, 64, GREATEST]),
            _ => self.value(&[few], &[0, 33]),
        };
        self.integer(out, count);
        let mut sum = 0;
        for _ in 0..count.min(33) {
            let length = if self.long && self.random.one_in(3) {
                let left = 4_096u64.saturating_sub(sum);
                let over = left + 1;
                self.value(&[left, left / 2], &[over, 4_097])
            } else {
                self.length(4).min(4_096u64.saturating_sub(sum))
            };
            self.integer(out, length);
            self.field(out, length);
            sum += length;
        }
        sum
    }

    /// Writes a namespace and a name.
    pub fn track(&mut self, out: &mut Vec<u8>) {
        let sum = self.namespace(out);
        let left = 4_096u64.saturating_sub(sum);
        let length = if self.long && self.random.one_in(2) {
            self.value(&[left], &[left + 1, 16_000])
        } else {
            self.length(6).min(left)
        };
        self.integer(out, length);
        self.field(out, length);
    }

    /// Writes parameters; types may come twice.
    pub fn parameters(&mut self, out: &mut Vec<u8>) {
        let few = self.random.below(3);
        let count = match self.random.below(16) {
            0 => self.value(&[63, 64], &[65, 66, GREATEST]),
            _ => self.value(&[few], &[65, 16_384]),
        };
        self.integer(out, count);
        for _ in 0..count.min(66) {
            self.any_integer(out);
            self.counted(out);
        }
    }
}
