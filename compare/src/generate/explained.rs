//! Generated inputs of `moqexplain`: traces and control streams whose byte
//! fields are at times text, of lengths about those that are shown whole.

use super::message::{self, VARIANTS};
use super::{damage, trace, Cases};

/// Fields at whose tag a trace is at fault, whole and cut.
const FAULTS: [&[u8]; 12] = [
    b"\x09",
    b"\x00\x00",
    b"\x09\x00\x01\x00",
    b"\xFF\x00\x0A\x00\x01\x02\x03\x04\x05\x06\x07\x08\x09",
    b"\x01\x00",
    b"\x01\x00\x00",
    b"\x01\x00\x02\x02\x0A",
    b"\x01\x00\x05\x00\x40\x0A\x00\x00",
    b"\x02\x00\x02\x40\x17",
    b"\x02\x00\x02\x17\x40",
    b"\x03\x00\x05\x07\x80\x00\x00\x00",
    b"\x03\x00\x0A\x07\x00\x00\x01\x02\x03\x04\x05\x06\x07",
];

impl Cases {
    /// A trace, the first an empty one. Some have messages with forbidden
    /// values and sizes; one in four ends in a fault, or is nothing else.
    pub fn next_trace(&mut self) -> Vec<u8> {
        self.made += 1;
        if self.made == 1 {
            return Vec::new();
        }
        self.make.plain();
        self.make.shown = true;
        self.make.wild = self.make.random.one_in(3);
        let mut bytes = trace::trace(&mut self.make);
        if self.make.random.one_in(4) {
            if self.make.random.one_in(4) {
                bytes.clear();
            }
            let at = self.make.random.below(FAULTS.len() as u64) as usize;
            bytes.extend(FAULTS[at]);
        }
        bytes
    }

    /// A control stream, the first an empty one: up to seven messages, most of
    /// them whole. The first message is of every type with all its variants by
    /// turns; one in four streams is cut somewhere.
    pub fn next_stream(&mut self) -> Vec<u8> {
        self.made += 1;
        if self.made == 1 {
            return Vec::new();
        }
        let (kind, variant) = VARIANTS[self.made % VARIANTS.len()];
        self.make.plain();
        self.make.shown = true;
        let mut bytes = message::message(&mut self.make, kind, variant);
        for _ in 0..self.make.random.below(7) {
            let next = self.any_message();
            bytes.extend(next);
        }
        if self.make.random.one_in(4) {
            damage::cut(&mut self.make.random, &mut bytes);
        }
        bytes
    }

    /// A message: half of them whole, the others perhaps with forbidden values
    /// and sizes, or damaged.
    fn any_message(&mut self) -> Vec<u8> {
        if self.make.random.one_in(4) {
            return self.control();
        }
        self.mood();
        message::any(&mut self.make)
    }
}
