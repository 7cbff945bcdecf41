//! Calls on ledgers. A ledger has a history that goes on from call to call; now
//! and then it is made any other ledger that 01 permits, and now and then the
//! numbers that are handed in are none's.

use super::damage;
use super::damaged::{self, DAMAGES};
use super::make::Make;
use super::message;
use super::random::Random;
use super::trace;
use crate::integer::GREATEST;
use crate::ledger::{Ledger, Part, Place, Range, Row, MOST_COUNTED, ROWS};
use crate::numbers::{self, COUNT};

/// A call on a ledger, as `include/moq.h` lists them.
#[derive(Debug, Clone, PartialEq, Eq)]
pub enum Call {
    /// Part, rows and maximum.
    Start(u64, u64, u64),
    /// The bytes of a message.
    Take(Vec<u8>),
    /// Bytes that could not be read.
    Malformed,
    /// Alias, group and object.
    Arrival([u64; 3]),
    /// These three of each, and at times one or two numbers more.
    Arrivals(Vec<u64>),
}

impl Call {
    /// The call's name.
    pub fn word(&self) -> &'static str {
        match self {
            Call::Start(..) => "start",
            Call::Take(_) => "take",
            Call::Malformed => "malformed",
            Call::Arrival(_) => "arrival",
            Call::Arrivals(_) => "arrivals",
        }
    }
}

/// A call, and the numbers that it is handed.
#[derive(Debug, Clone, PartialEq, Eq)]
pub struct LedgerCase {
    /// A ledger's, or not.
    pub numbers: Vec<u64>,
    /// The call.
    pub call: Call,
}

/// An endless row of calls, the same for the same seed.
#[derive(Debug)]
pub struct Ledgers {
    make: Make,
    ledger: Ledger,
    /// How many calls the ledger still gets.
    left: u64,
    /// How often numbers were damaged.
    damaged: usize,
}

impl Ledgers {
    /// The calls of a seed.
    pub fn new(seed: u64) -> Self {
        Ledgers {
            make: Make::new(Random::new(seed)),
            ledger: started(Part::Subscriber, 1, 0),
            left: 0,
            damaged: 0,
        }
    }

    /// The next call.
    pub fn next_case(&mut self) -> LedgerCase {
        self.make.plain();
        if self.left == 0 {
            self.begin();
        }
        self.left -= 1;
        if self.make.random.one_in(8) {
            self.turn();
        }
        let call = self.call();
        let mut numbers = numbers::of(&self.ledger);
        if self.make.random.one_in(4) {
            self.damage(&mut numbers);
        } else {
            self.step(&call);
        }
        let mut numbers = numbers.to_vec();
        if self.make.random.one_in(10) {
            other_length(&mut self.make.random, &mut numbers);
        }
        LedgerCase { numbers, call }
    }

    /// A new ledger; one in three is filled at once.
    fn begin(&mut self) {
        let random = &mut self.make.random;
        let part = if random.one_in(2) {
            Part::Subscriber
        } else {
            Part::Publisher
        };
        let capacity = random.one_of(&[1, 2, 3, 8, 63, 64, 64, 64]);
        let maximum = random.one_of(&[0, 3, 10, 200, 1_000, GREATEST, GREATEST, GREATEST]);
        self.left = 1 + random.below(120);
        let crowded = random.one_in(3);
        self.ledger = started(part, capacity, maximum);
        if crowded {
            self.crowd();
        }
    }

    /// As many rows as there may be, three of four of them active.
    fn crowd(&mut self) {
        while (self.ledger.used as u64) < self.ledger.capacity {
            let id = self.next_id();
            if id >= self.ledger.maximum {
                return;
            }
            let alias = self.new_alias();
            let (_, bytes) = trace::subscribe_as(&mut self.make, id, alias);
            self.step(&Call::Take(bytes));
            if !self.make.random.one_in(4) {
                let (_, bytes) = trace::by_id(&mut self.make, 0x4, id);
                self.step(&Call::Take(bytes));
            }
        }
    }

    /// What the call makes of the ledger. A closed one doesn't go on for long.
    fn step(&mut self, call: &Call) {
        match call {
            Call::Start(..) => (),
            Call::Take(bytes) => {
                if let Ok((message, _)) = crate::message::read(bytes) {
                    self.ledger.step_message(&message);
                }
            }
            Call::Malformed => {
                self.ledger.step_malformed();
            }
            Call::Arrival(each) => self.arrive(each),
            Call::Arrivals(run) => run.chunks_exact(3).for_each(|each| self.arrive(each)),
        }
        if self.ledger.closed.is_some() {
            self.left = self.left.min(6);
        }
    }

    fn arrive(&mut self, each: &[u64]) {
        self.ledger.step_arrival(each[0], each[1], each[2]);
    }

    fn call(&mut self) -> Call {
        match self.make.random.below(100) {
            0..=5 => self.start(),
            6..=44 => Call::Take(self.message()),
            45 | 46 => Call::Malformed,
            47..=79 => Call::Arrival(self.arrival()),
            _ => Call::Arrivals(self.run()),
        }
    }

    fn start(&mut self) -> Call {
        let random = &mut self.make.random;
        let part = random.one_of(&[0, 0, 0, 1, 1, 1, 2, 3, u64::MAX]);
        let rows = random.one_of(&[0, 1, 2, 63, 64, 64, 65, 1 << 32, u64::MAX]);
        let maximum = random.one_of(&[0, 10, GREATEST - 1, GREATEST, GREATEST + 1, u64::MAX]);
        Call::Start(part, rows, maximum)
    }

    /// A control message that the ledger keeps, mostly; whole, mostly.
    fn message(&mut self) -> Vec<u8> {
        self.make.padded = self.make.random.one_in(3);
        self.make.shared = true;
        let mut bytes = match self.make.random.below(12) {
            0..=4 => self.subscribe(),
            5..=8 => self.by_id(),
            9 => self.maximum(),
            10 => message::any(&mut self.make),
            _ => trace::malformed(&mut self.make).1,
        };
        if self.make.random.one_in(8) {
            damage::message(&mut self.make, &mut bytes);
        }
        bytes
    }

    fn subscribe(&mut self) -> Vec<u8> {
        let maximum = self.ledger.maximum;
        let id = match self.make.random.below(20) {
            0 => self.some_id(),
            1 => maximum.saturating_sub(1),
            2 => maximum,
            _ => self.next_id(),
        };
        let alias = if self.make.random.one_in(20) {
            self.some_row().alias
        } else {
            self.new_alias()
        };
        trace::subscribe_as(&mut self.make, id.min(GREATEST), alias).1
    }

    /// SUBSCRIBE_OK, SUBSCRIBE_ERROR, UNSUBSCRIBE or SUBSCRIBE_DONE, most often
    /// one that the row may have.
    fn by_id(&mut self) -> Vec<u8> {
        let row = self.some_row();
        let random = &mut self.make.random;
        let (kinds, id) = match (random.below(12), row.active) {
            (0, _) => ([0x4, 0x5, 0xA, 0xB], row.id),
            (1, _) => ([0x4, 0x5, 0xA, 0xB], self.some_id()),
            (_, false) => ([0x4, 0x4, 0x5, 0xA], row.id),
            (_, true) => ([0xA, 0xA, 0xB, 0xB], row.id),
        };
        let kind = self.make.random.one_of(&kinds);
        trace::by_id(&mut self.make, kind, id.min(GREATEST)).1
    }

    /// MAX_SUBSCRIBE_ID, larger or not.
    fn maximum(&mut self) -> Vec<u8> {
        let maximum = self.ledger.maximum;
        let few = 2 + self.make.random.below(9);
        let choices = [maximum.saturating_sub(1), maximum, maximum + 1];
        let mut larger = maximum + few;
        if self.make.random.one_in(3) {
            larger = self.make.random.one_of(&choices);
        }
        trace::by_id(&mut self.make, 0x15, larger.min(GREATEST)).1
    }

    /// An ID that is above the highest by a little.
    fn next_id(&mut self) -> u64 {
        let next = self.ledger.highest.map_or(0, |highest| highest + 1);
        next + self.make.random.below(2)
    }

    /// An ID about the highest, or about that of a row, or any.
    fn some_id(&mut self) -> u64 {
        let highest = self.ledger.highest.unwrap_or_default();
        let row = self.some_row();
        match self.make.random.below(4) {
            0 | 1 => near(&mut self.make.random, highest),
            2 => near(&mut self.make.random, row.id),
            _ => self.make.number(),
        }
    }

    /// An alias that no row has.
    fn new_alias(&mut self) -> u64 {
        let mut alias = self.make.number();
        while self.ledger.rows_in_use().iter().any(|r| r.alias == alias) {
            alias = (alias + 1) % (GREATEST + 1);
        }
        alias
    }

    /// Where a row in use stands, if there is one.
    fn some_place(&mut self) -> Option<usize> {
        let used = self.ledger.used as u64;
        (used > 0).then(|| self.make.random.below(used) as usize)
    }

    /// A row in use, or one of zeros.
    fn some_row(&mut self) -> Row {
        let at = self.some_place();
        at.map_or(Row::default(), |at| self.ledger.rows[at])
    }

    /// An arrival, most often at a row, and about its range or its greatest
    /// place.
    fn arrival(&mut self) -> [u64; 3] {
        let row = self.some_row();
        let alias = if self.make.random.one_in(12) {
            self.any_number()
        } else {
            row.alias
        };
        let (start, last) = match row.range {
            Range::NotKnown => (Place::default(), 0),
            Range::Open(start) => (start, start.group),
            Range::Closed(start, last) => (start, last),
        };
        let greatest = row.greatest.unwrap_or(start);
        let random = &mut self.make.random;
        let [group, object] = match random.below(8) {
            0 | 1 => about(random, start),
            2..=4 => about(random, greatest),
            5 => [near(random, last), random.below(4)],
            6 => [start.group + random.below(6), random.below(6)],
            _ => [self.any_number(), self.any_number()],
        };
        [alias, group, object]
    }

    /// Any number, now and then one above the greatest integer.
    fn any_number(&mut self) -> u64 {
        match self.make.random.below(8) {
            0 => self.make.random.one_of(&[GREATEST + 1, u64::MAX]),
            _ => self.make.number(),
        }
    }

    fn run(&mut self) -> Vec<u64> {
        let random = &mut self.make.random;
        let count = match random.below(12) {
            0 => 0,
            1 => 1,
            2 => random.below(200),
            _ => random.below(20),
        };
        let more = if random.one_in(3) { random.below(3) } else { 0 };
        let mut run: Vec<u64> = (0..count).flat_map(|_| self.arrival()).collect();
        run.extend((0..more).map(|_| self.any_number()));
        run
    }

    /// Makes the ledger another, which no history need lead to.
    fn turn(&mut self) {
        let number = self.make.number();
        let at = self.some_place();
        let used = self.ledger.used as u64;
        let random = &mut self.make.random;
        let ledger = &mut self.ledger;
        match (random.below(12), at) {
            (0, _) => ledger.maximum = number,
            (1, _) => ledger.capacity = used.max(1),
            (2, _) => ledger.capacity = ROWS as u64,
            (3, _) if random.one_in(4) => ledger.highest = Some(GREATEST),
            (4, _) if random.one_in(4) => ledger.closed = Some(1 + random.below(7) as u8),
            (5, _) => ledger.part = other(ledger.part),
            (6, Some(at)) => {
                let alias = self.new_alias();
                self.ledger.rows[at].alias = alias;
            }
            (7, Some(at)) if ledger.rows[at].active => {
                let row = &mut ledger.rows[at];
                row.greatest = Some(row.greatest.unwrap_or_default());
                row.count = MOST_COUNTED - random.below(3);
            }
            (8.., Some(at)) => {
                let range = self.known_range();
                let row = &mut self.ledger.rows[at];
                row.active = true;
                row.range = range;
            }
            _ => (),
        }
    }

    /// A range of any numbers; it may be empty.
    fn known_range(&mut self) -> Range {
        let (group, object) = (self.make.number(), self.make.number());
        let start = Place { group, object };
        let last = match self.make.random.below(4) {
            0 => return Range::Open(start),
            1 => self.make.number(),
            2 => group.saturating_sub(1),
            _ => group + self.make.random.below(3),
        };
        Range::Closed(start, last.min(GREATEST))
    }

    /// Each damage in its turn, and any number between.
    fn damage(&mut self, numbers: &mut [u64; COUNT]) {
        let random = &mut self.make.random;
        if random.one_in(5) {
            return damaged::any(random, numbers);
        }
        let (_, damage) = DAMAGES[self.damaged % DAMAGES.len()];
        self.damaged += 1;
        // A ledger that has nothing to damage goes as it is.
        damage(random, numbers);
    }
}

fn started(part: Part, capacity: u64, maximum: u64) -> Ledger {
    Ledger::start(part, capacity, maximum).expect("a ledger starts so")
}

fn other(part: Part) -> Part {
    match part {
        Part::Subscriber => Part::Publisher,
        Part::Publisher => Part::Subscriber,
    }
}

/// The number, or the one before or after it.
fn near(random: &mut Random, number: u64) -> u64 {
    random.one_of(&[number.saturating_sub(1), number, number + 1])
}

/// Places about a place, on both sides of it.
fn about(random: &mut Random, place: Place) -> [u64; 2] {
    let Place { group, object } = place;
    match random.below(4) {
        0 => [group, object],
        1 => [group, near(random, object)],
        2 => [near(random, group), object],
        _ => [near(random, group), near(random, object)],
    }
}

/// Too few numbers, by one or by many, none at all, or more of them.
fn other_length(random: &mut Random, numbers: &mut Vec<u64>) {
    match random.below(6) {
        0 => numbers.clear(),
        1 => numbers.truncate(random.below(COUNT as u64) as usize),
        2 | 3 => numbers.truncate(COUNT - 1),
        _ => {
            for _ in 0..=random.below(5) {
                numbers.push(random.number());
            }
        }
    }
}
