//! Cases from a seed: valid messages of every type with all their variants
//! first, then a mixture of valid and damaged messages, data headers,
//! integers and whole traces; calls on ledgers; and what is to be explained.

mod damage;
pub mod damaged;
mod explained;
mod filled;
mod header;
mod ledger;
mod make;
mod message;
mod random;
mod trace;
mod track;

pub use ledger::{Call, LedgerCase, Ledgers};
pub use random::Random;

use crate::cases::Kind;
use make::Make;

/// An endless row of cases, the same for the same seed.
#[derive(Debug)]
pub struct Cases {
    make: Make,
    /// How many cases came before.
    made: usize,
}

impl Cases {
    /// The cases of a seed.
    pub fn new(seed: u64) -> Self {
        Cases {
            make: Make::new(Random::new(seed)),
            made: 0,
        }
    }

    /// The next case.
    pub fn next_case(&mut self) -> (Kind, Vec<u8>) {
        let at = self.made;
        self.made += 1;
        self.make.plain();
        if let Some((kind, variant)) = message::VARIANTS.get(at) {
            return (
                Kind::Control,
                message::message(&mut self.make, *kind, *variant),
            );
        }
        match self.make.random.below(100) {
            0..=4 => (Kind::Integer, self.integer()),
            5..=54 => (Kind::Control, self.control()),
            55..=60 => (Kind::Stream, self.header(header::stream)),
            61..=70 => (Kind::Datagram, self.header(header::datagram)),
            71..=77 => (Kind::SubgroupObject, self.header(header::subgroup_object)),
            78..=84 => (Kind::FetchObject, self.header(header::fetch_object)),
            _ => (Kind::Trace, trace::trace(&mut self.make)),
        }
    }

    /// An integer of any form, at times cut or with bytes after it.
    fn integer(&mut self) -> Vec<u8> {
        self.make.padded = true;
        let mut bytes = Vec::new();
        self.make.any_integer(&mut bytes);
        if self.make.random.one_in(3) {
            self.make.bytes(&mut bytes, 3);
        }
        if self.make.random.one_in(4) {
            damage::cut(&mut self.make.random, &mut bytes);
        }
        bytes
    }

    /// A message: half of them valid, the others with forbidden values or
    /// sizes, or damaged.
    fn control(&mut self) -> Vec<u8> {
        self.mood();
        let mut bytes = message::any(&mut self.make);
        if self.make.random.one_in(2) {
            damage::message(&mut self.make, &mut bytes);
        }
        bytes
    }

    fn header(&mut self, make: fn(&mut Make) -> Vec<u8>) -> Vec<u8> {
        self.mood();
        let mut bytes = make(&mut self.make);
        match self.make.random.below(6) {
            0 => damage::cut(&mut self.make.random, &mut bytes),
            1 => damage::flip(&mut self.make.random, &mut bytes),
            2 => self.make.bytes(&mut bytes, 4),
            3 => damage::any(&mut self.make.random, &mut bytes),
            _ => (),
        }
        bytes
    }

    /// Longer forms in half of the cases, wild values in a third, and long
    /// byte fields now and then.
    fn mood(&mut self) {
        self.make.padded = self.make.random.one_in(2);
        self.make.wild = self.make.random.one_in(3);
        self.make.long = self.make.random.one_in(40);
    }
}
