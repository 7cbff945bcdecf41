//! The ledger of subscriptions in one direction (01, "The ledger's steps").
//!
//! 01: "The ledger never sees bytes; it relies only on what the reader
//! promises." All fields are open, so a ledger can also be handed in; what
//! isn't a ledger answers 14.

use std::fmt;

use crate::answer::{
    BREAKS, CLOSED, COUNTED, DONE, FORBIDDEN, FULL, NOT_A_LEDGER, NOT_KEPT, NO_ALIAS, NO_START,
    OUTSIDE, PENDING, STALE,
};
pub use crate::fields::Place;
use crate::integer::GREATEST;
use crate::message::Message;
use crate::subscribe::{Subscribe, SubscribeOk};

/// The rows of every ledger, whatever its capacity.
pub const ROWS: usize = 64;
/// 01: "the count rises by one but stops at 4,294,967,295".
pub const MOST_COUNTED: u64 = 4_294_967_295;

/// The end that a ledger stands at, or that sends a message.
#[derive(Debug, Clone, Copy, PartialEq, Eq)]
pub enum Part {
    /// Sends SUBSCRIBE and UNSUBSCRIBE.
    Subscriber,
    /// Sends SUBSCRIBE_OK, SUBSCRIBE_ERROR, SUBSCRIBE_DONE and
    /// MAX_SUBSCRIBE_ID.
    Publisher,
}

/// 01: "A range is not known yet, open from a place, or closed at a last
/// group."
#[derive(Debug, Clone, Copy, Default, PartialEq, Eq)]
pub enum Range {
    /// Not known yet: filter 2 before its SUBSCRIBE_OK.
    #[default]
    NotKnown,
    /// Open from this place on.
    Open(Place),
    /// From this place to the last group, all of it; it may be empty.
    Closed(Place, u64),
}

impl Range {
    /// 01: "Filter 4 ends with its end group, all of it".
    fn holds(&self, place: Place) -> bool {
        match *self {
            Range::NotKnown => false,
            Range::Open(start) => start <= place,
            Range::Closed(start, last) => start <= place && place.group <= last,
        }
    }

    /// 01: "Range at OK: filter 2 starts at the largest place given, or at
    /// (0, 0) when no content exists. Filters 3 and 4 start as asked; if the
    /// start group is below the largest group given, at the largest place."
    fn at_ok(&self, largest: Option<Place>) -> Range {
        let moved = |start: Place| match largest {
            Some(largest) if start.group < largest.group => largest,
            _ => start,
        };
        match *self {
            Range::NotKnown => Range::Open(largest.unwrap_or_default()),
            Range::Open(start) => Range::Open(moved(start)),
            Range::Closed(start, last) => Range::Closed(moved(start), last),
        }
    }

    fn is_within_greatest(&self) -> bool {
        match *self {
            Range::NotKnown => true,
            Range::Open(start) => is_integer_place(start),
            Range::Closed(start, last) => is_integer_place(start) && last <= GREATEST,
        }
    }
}

fn is_integer_place(place: Place) -> bool {
    place.group <= GREATEST && place.object <= GREATEST
}

/// 01: "A row: ID, alias, pending or active, range, greatest place counted or
/// none, count." An unused row is `Row::default()`: 01: "unused rows are
/// pending, without range or place, all numbers 0".
#[derive(Debug, Clone, Copy, Default, PartialEq, Eq)]
pub struct Row {
    /// Subscribe ID.
    pub id: u64,
    /// Track Alias.
    pub alias: u64,
    /// Active, or else pending.
    pub active: bool,
    /// Range.
    pub range: Range,
    /// The greatest place counted.
    pub greatest: Option<Place>,
    /// The arrivals counted.
    pub count: u64,
}

impl Row {
    /// What 01 says of each row by itself.
    fn is_row(&self) -> bool {
        let numbers = self.id <= GREATEST
            && self.alias <= GREATEST
            && self.range.is_within_greatest()
            && self.greatest.is_none_or(is_integer_place)
            && self.count <= MOST_COUNTED;
        // "count is 0 exactly when no place is held"
        let place = (self.count == 0) == self.greatest.is_none();
        // "a pending row has count 0; an active row's range is known"
        let state = if self.active {
            self.range != Range::NotKnown
        } else {
            self.count == 0
        };
        numbers && place && state
    }
}

/// One of 01's numbers, and with a 13 the rule that is broken.
#[derive(Debug, Clone, Copy, PartialEq, Eq)]
pub struct Answer {
    /// The number.
    pub number: u8,
    /// 1 to 7 for R1 to R7, with a 13 only.
    pub rule: Option<u8>,
}

impl Answer {
    /// A number without a rule.
    pub const fn plain(number: u8) -> Self {
        Answer { number, rule: None }
    }
}

impl fmt::Display for Answer {
    fn fmt(&self, f: &mut fmt::Formatter<'_>) -> fmt::Result {
        match self.rule {
            None => write!(f, "{}", self.number),
            Some(rule) => write!(f, "{} R{}", self.number, rule),
        }
    }
}

/// The close code of a broken rule, from 004's table 1.
///
/// 01: "R3 closes as Too Many Subscribes, R4 as Duplicate Track Alias, the
/// others as Protocol Violation." None for what isn't a rule.
pub fn close_code(rule: u8) -> Option<u64> {
    match rule {
        3 => Some(0x6),
        4 => Some(0x4),
        1 | 2 | 5 | 6 | 7 => Some(0x3),
        _ => None,
    }
}

/// A ledger of subscriptions.
#[derive(Debug, Clone, PartialEq, Eq)]
pub struct Ledger {
    /// This end's part.
    pub part: Part,
    /// How many rows may be in use, 1 to 64.
    pub capacity: u64,
    /// The maximum Subscribe ID.
    pub maximum: u64,
    /// The highest ID accepted, if any.
    pub highest: Option<u64>,
    /// The rule that closed the session, if it is closed.
    pub closed: Option<u8>,
    /// How many rows are in use.
    pub used: usize,
    /// The rows; those in use come first.
    pub rows: [Row; ROWS],
}

/// What a message does to the row that it names.
#[derive(Clone, Copy)]
enum Step {
    Ok(Option<Place>),
    Error,
    Done,
    Unsubscribe,
}

impl Ledger {
    /// 01: "A ledger starts with its own end's part (subscriber or
    /// publisher), a row capacity and a maximum Subscribe ID." 15: "start
    /// refused: rows not 1 to 64, maximum above the greatest integer".
    pub fn start(part: Part, capacity: u64, maximum: u64) -> Result<Ledger, u8> {
        if capacity == 0 || capacity > ROWS as u64 || maximum > GREATEST {
            return Err(NO_START);
        }
        Ok(Ledger {
            part,
            capacity,
            maximum,
            highest: None,
            closed: None,
            used: 0,
            rows: [Row::default(); ROWS],
        })
    }

    /// The rows in use.
    pub fn rows_in_use(&self) -> &[Row] {
        &self.rows[..self.used]
    }

    /// Whether all holds that 01 lists of a ledger. 01: "Anything else is
    /// "not a ledger"."
    pub fn is_ledger(&self) -> bool {
        // "the capacity is 1 to 64 and bounds the rows"
        if self.capacity == 0 || self.capacity > ROWS as u64 || self.used as u64 > self.capacity {
            return false;
        }
        let (in_use, unused) = self.rows.split_at(self.used);
        // "no number is above the greatest integer"
        let numbers =
            self.maximum <= GREATEST && self.highest.is_none_or(|highest| highest <= GREATEST);
        // "a kept closing rule is a listed one"
        let rule = self.closed.is_none_or(|rule| (1..=7).contains(&rule));
        // "Rows rise strictly by ID, none above the highest ID accepted"
        let rising = in_use.windows(2).all(|pair| pair[0].id < pair[1].id);
        let bounded = match (in_use.last(), self.highest) {
            (Some(last), Some(highest)) => last.id <= highest,
            (Some(_), None) => false,
            (None, _) => true,
        };
        numbers
            && rule
            && rising
            && bounded
            && in_use.iter().all(Row::is_row)
            && has_distinct_aliases(in_use)
            && unused.iter().all(|row| *row == Row::default())
    }

    /// Takes a whole message. 14 first, then as [`Ledger::step_message`].
    pub fn take(&mut self, message: &Message<'_>) -> Answer {
        if !self.is_ledger() {
            return Answer::plain(NOT_A_LEDGER);
        }
        self.step_message(message)
    }

    /// Takes the report of malformed bytes. 14 first, then as
    /// [`Ledger::step_malformed`].
    pub fn malformed(&mut self) -> Answer {
        if !self.is_ledger() {
            return Answer::plain(NOT_A_LEDGER);
        }
        self.step_malformed()
    }

    /// Takes an arrival. 14 first, then as [`Ledger::step_arrival`].
    pub fn arrive(&mut self, alias: u64, group: u64, object: u64) -> Answer {
        if !self.is_ledger() {
            return Answer::plain(NOT_A_LEDGER);
        }
        self.step_arrival(alias, group, object)
    }

    /// Takes a whole message into what is known to be a ledger.
    ///
    /// 01: "Order: 14, 5, 10, then the rest". The sender is told by the
    /// message's type.
    pub fn step_message(&mut self, message: &Message<'_>) -> Answer {
        if message.has_forbidden_number() {
            return Answer::plain(FORBIDDEN);
        }
        if self.closed.is_some() {
            return Answer::plain(CLOSED);
        }
        match message {
            Message::Subscribe(body) => self.subscribe(body),
            Message::SubscribeOk(body) => self.subscribe_ok(body),
            Message::SubscribeError(body) => self.row_step(body.subscribe_id, Step::Error),
            Message::SubscribeDone(body) => self.row_step(body.subscribe_id, Step::Done),
            Message::Unsubscribe(body) => self.row_step(body.subscribe_id, Step::Unsubscribe),
            Message::MaxSubscribeId(body) => self.max_subscribe_id(body.subscribe_id),
            // 01: "All other messages: 9."
            _ => Answer::plain(NOT_KEPT),
        }
    }

    /// Takes the report of malformed bytes into what is known to be a ledger.
    /// 01: "Malformed: R1." The bytes are always the peer's.
    pub fn step_malformed(&mut self) -> Answer {
        if self.closed.is_some() {
            return Answer::plain(CLOSED);
        }
        self.close(1)
    }

    /// Takes an arrival into what is known to be a ledger.
    ///
    /// 01: "Order: 14, 5, 10, then the rest; for an arrival 18, 19, 17."
    #[inline]
    pub fn step_arrival(&mut self, alias: u64, group: u64, object: u64) -> Answer {
        let place = Place { group, object };
        if alias > GREATEST || !is_integer_place(place) {
            return Answer::plain(FORBIDDEN);
        }
        if self.closed.is_some() {
            return Answer::plain(CLOSED);
        }
        let Some(row) = self.rows[..self.used]
            .iter_mut()
            .find(|row| row.alias == alias)
        else {
            return Answer::plain(NO_ALIAS);
        };
        if !row.active {
            return Answer::plain(PENDING);
        }
        if !row.range.holds(place) {
            return Answer::plain(OUTSIDE);
        }
        // 01: "the row keeps the greater place, and the count rises by one
        // but stops at 4,294,967,295".
        row.greatest = Some(row.greatest.map_or(place, |held| held.max(place)));
        row.count = MOST_COUNTED.min(row.count + 1);
        Answer::plain(COUNTED)
    }

    /// A broken rule. 13: "own message: same ledger; peer's: closed, rule
    /// kept, rows unchanged".
    fn breaks(&mut self, rule: u8, sender: Part) -> Answer {
        if sender == self.part {
            return Answer {
                number: BREAKS,
                rule: Some(rule),
            };
        }
        self.close(rule)
    }

    fn close(&mut self, rule: u8) -> Answer {
        self.closed = Some(rule);
        Answer {
            number: BREAKS,
            rule: Some(rule),
        }
    }

    /// SUBSCRIBE, sent by the subscriber.
    fn subscribe(&mut self, body: &Subscribe<'_>) -> Answer {
        let id = body.subscribe_id;
        // "R2: ID not above the highest accepted, if any."
        if self.highest.is_some_and(|highest| id <= highest) {
            return self.breaks(2, Part::Subscriber);
        }
        // "R3: ID not below the maximum."
        if id >= self.maximum {
            return self.breaks(3, Part::Subscriber);
        }
        // "R4: alias held by any row."
        let alias = body.track_alias;
        if self.rows_in_use().iter().any(|row| row.alias == alias) {
            return self.breaks(4, Part::Subscriber);
        }
        // "Then 11."
        if self.used as u64 >= self.capacity {
            return Answer::plain(FULL);
        }
        // "Else a pending row is added last, its range not known yet for
        // filter 2 and as asked for 3 and 4, and the ID becomes the highest."
        let range = match (body.start, body.end_group) {
            (None, _) => Range::NotKnown,
            (Some(start), None) => Range::Open(start),
            (Some(start), Some(last)) => Range::Closed(start, last),
        };
        self.rows[self.used] = Row {
            id,
            alias,
            range,
            ..Row::default()
        };
        self.used += 1;
        self.highest = Some(id);
        Answer::plain(DONE)
    }

    /// SUBSCRIBE_OK, sent by the publisher.
    fn subscribe_ok(&mut self, body: &SubscribeOk<'_>) -> Answer {
        self.row_step(body.subscribe_id, Step::Ok(body.largest))
    }

    /// 01: "SUBSCRIBE_OK, SUBSCRIBE_ERROR, SUBSCRIBE_DONE (publisher),
    /// UNSUBSCRIBE (subscriber)."
    fn row_step(&mut self, id: u64, step: Step) -> Answer {
        let sender = match step {
            Step::Ok(_) | Step::Error | Step::Done => Part::Publisher,
            Step::Unsubscribe => Part::Subscriber,
        };
        let Some(at) = self.rows_in_use().iter().position(|row| row.id == id) else {
            return self.without_row(id, sender);
        };
        let row = &mut self.rows[at];
        match (step, row.active) {
            // "OK on pending makes it active"
            (Step::Ok(largest), false) => {
                row.active = true;
                row.range = row.range.at_ok(largest);
                Answer::plain(DONE)
            }
            // "ERROR on pending, DONE on active and UNSUBSCRIBE on either
            // free it"
            (Step::Error, false) | (Step::Done, true) | (Step::Unsubscribe, _) => {
                self.free(at);
                Answer::plain(DONE)
            }
            // "R6: OK or ERROR on active, DONE on pending."
            (Step::Ok(_), true) | (Step::Error, true) | (Step::Done, false) => {
                self.breaks(6, sender)
            }
        }
    }

    /// 01: "No row: R5 if the ID is above the highest or none was accepted,
    /// else 12."
    fn without_row(&mut self, id: u64, sender: Part) -> Answer {
        match self.highest {
            Some(highest) if id <= highest => Answer::plain(STALE),
            _ => self.breaks(5, sender),
        }
    }

    /// 01: "row removed, rows after move up one place".
    fn free(&mut self, at: usize) {
        self.rows.copy_within(at + 1..self.used, at);
        self.used -= 1;
        self.rows[self.used] = Row::default();
    }

    /// MAX_SUBSCRIBE_ID, sent by the publisher. "R7: not larger than the
    /// maximum."
    fn max_subscribe_id(&mut self, maximum: u64) -> Answer {
        if maximum <= self.maximum {
            return self.breaks(7, Part::Publisher);
        }
        self.maximum = maximum;
        Answer::plain(DONE)
    }
}

/// 01: "aliases are distinct".
fn has_distinct_aliases(rows: &[Row]) -> bool {
    rows.iter()
        .enumerate()
        .all(|(at, row)| rows[at + 1..].iter().all(|later| later.alias != row.alias))
}
