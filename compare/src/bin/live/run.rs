//! A run of cases: bytes for the readers, and one in four a call on a ledger.

use std::collections::BTreeMap;

use second::generate::{Cases, Ledgers};
use second::hex;

use crate::{compare, ledgers};

pub struct Run {
    cases: Cases,
    ledgers: Ledgers,
    /// How many cases there were of each kind, and of each call on a ledger.
    kinds: BTreeMap<(&'static str, &'static str), u64>,
    /// How many cases there was a difference over.
    pub failed: u64,
}

impl Run {
    pub fn new(seed: u64) -> Self {
        Run {
            cases: Cases::new(seed),
            ledgers: Ledgers::new(seed),
            kinds: BTreeMap::new(),
            failed: 0,
        }
    }

    /// The case that comes after that many others.
    pub fn case(&mut self, at: u64) {
        let (kind, found) = if at % 4 == 3 {
            let case = self.ledgers.next_case();
            let found = ledgers::difference(&case);
            let found = found.map(|difference| (ledgers::text(&case), difference));
            (("ledger", case.call.word()), found)
        } else {
            let (kind, bytes) = self.cases.next_case();
            let word = kind.word();
            let found = compare::difference(kind, &bytes);
            let found =
                found.map(|difference| (format!("{word} {}", hex::encode(&bytes)), difference));
            ((word, ""), found)
        };
        *self.kinds.entry(kind).or_default() += 1;
        if let Some((case, difference)) = found {
            if self.failed == 0 {
                println!("case {at}: {case}\n  {difference}");
            }
            self.failed += 1;
        }
    }

    pub fn print_kinds(&self) {
        for ((kind, call), count) in &self.kinds {
            println!("{}", format!("{count:>9} {kind} {call}").trim_end());
        }
    }
}
