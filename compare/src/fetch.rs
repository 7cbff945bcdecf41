//! FETCH, FETCH_OK and FETCH_ERROR (004, sections 8.12 to 8.14). FETCH_CANCEL
//! holds nothing but a Subscribe ID.

use crate::answer::FORBIDDEN;
use crate::body::Body;
use crate::fields::{
    is_forbidden_asked_order, is_forbidden_given_order, refuse, Fields, Parameters, Place, Track,
};
use crate::sink::Sink;

/// FETCH (004, figure 13).
#[derive(Debug, Clone, Copy, PartialEq, Eq)]
pub struct Fetch<'a> {
    /// Subscribe ID.
    pub subscribe_id: u64,
    /// Subscriber Priority.
    pub subscriber_priority: u8,
    /// Group Order.
    pub group_order: u8,
    /// Fetch Type and the fields that it brings.
    pub fetch_type: FetchType<'a>,
    /// Parameters.
    pub parameters: Parameters<'a>,
}

/// The three Fetch Types of 004 with their own fields.
#[derive(Debug, Clone, Copy, PartialEq, Eq)]
pub enum FetchType<'a> {
    /// Standalone Fetch (0x1).
    Standalone(Standalone<'a>),
    /// Relative Joining Fetch (0x2).
    RelativeJoining(Joining),
    /// Absolute Joining Fetch (0x3).
    AbsoluteJoining(Joining),
}

/// The fields of a Standalone Fetch. EndObject is kept as it is written:
/// "The end Object ID, plus 1. A value of 0 means the entire group is
/// requested." An end before the start is answered by a FETCH_ERROR, so the
/// reader takes it.
#[derive(Debug, Clone, Copy, PartialEq, Eq)]
pub struct Standalone<'a> {
    /// Track Namespace and Track Name.
    pub track: Track<'a>,
    /// StartGroup and StartObject.
    pub start: Place,
    /// EndGroup and EndObject, plus 1.
    pub end: Place,
}

/// The fields of both Joining Fetches.
#[derive(Debug, Clone, Copy, PartialEq, Eq)]
pub struct Joining {
    /// Joining Subscribe ID.
    pub joining_subscribe_id: u64,
    /// Joining Start.
    pub joining_start: u64,
}

impl Joining {
    fn read(fields: &mut Fields<'_>) -> Result<Self, u8> {
        Ok(Joining {
            joining_subscribe_id: fields.integer()?,
            joining_start: fields.integer()?,
        })
    }

    fn put<S: Sink>(&self, sink: &mut S) {
        sink.integer(self.joining_subscribe_id);
        sink.integer(self.joining_start);
    }
}

impl<'a> FetchType<'a> {
    /// 01: "a fetch type 004 doesn't list".
    fn read(fields: &mut Fields<'a>) -> Result<Self, u8> {
        match fields.integer()? {
            1 => Ok(FetchType::Standalone(Standalone {
                track: fields.track()?,
                start: fields.place()?,
                end: fields.place()?,
            })),
            2 => Ok(FetchType::RelativeJoining(Joining::read(fields)?)),
            3 => Ok(FetchType::AbsoluteJoining(Joining::read(fields)?)),
            _ => Err(FORBIDDEN),
        }
    }

    fn put<S: Sink>(&self, sink: &mut S) {
        match self {
            FetchType::Standalone(standalone) => {
                sink.integer(1);
                sink.track(&standalone.track);
                sink.place(&standalone.start);
                sink.place(&standalone.end);
            }
            FetchType::RelativeJoining(joining) => {
                sink.integer(2);
                joining.put(sink);
            }
            FetchType::AbsoluteJoining(joining) => {
                sink.integer(3);
                joining.put(sink);
            }
        }
    }
}

impl<'a> Body<'a> for Fetch<'a> {
    fn read(fields: &mut Fields<'a>) -> Result<Self, u8> {
        let subscribe_id = fields.integer()?;
        let subscriber_priority = fields.byte()?;
        let group_order = fields.byte()?;
        refuse(is_forbidden_asked_order(group_order))?;
        Ok(Fetch {
            subscribe_id,
            subscriber_priority,
            group_order,
            fetch_type: FetchType::read(fields)?,
            parameters: fields.parameters()?,
        })
    }

    fn put<S: Sink>(&self, sink: &mut S) {
        sink.integer(self.subscribe_id);
        sink.byte(self.subscriber_priority);
        sink.byte(self.group_order);
        self.fetch_type.put(sink);
        sink.parameters(&self.parameters);
    }

    fn is_forbidden(&self) -> bool {
        is_forbidden_asked_order(self.group_order)
    }
}

/// FETCH_OK (004, figure 14). Of End Of Track 004 says "1 if all objects have
/// been published on this track" and "0 if not", and calls no value an error.
#[derive(Debug, Clone, Copy, PartialEq, Eq)]
pub struct FetchOk<'a> {
    /// Subscribe ID.
    pub subscribe_id: u64,
    /// Group Order.
    pub group_order: u8,
    /// End Of Track.
    pub end_of_track: u8,
    /// Largest Group ID and Largest Object ID.
    pub largest: Place,
    /// Subscribe Parameters.
    pub parameters: Parameters<'a>,
}

impl<'a> Body<'a> for FetchOk<'a> {
    fn read(fields: &mut Fields<'a>) -> Result<Self, u8> {
        let subscribe_id = fields.integer()?;
        let group_order = fields.byte()?;
        refuse(is_forbidden_given_order(group_order))?;
        Ok(FetchOk {
            subscribe_id,
            group_order,
            end_of_track: fields.byte()?,
            largest: fields.place()?,
            parameters: fields.parameters()?,
        })
    }

    fn put<S: Sink>(&self, sink: &mut S) {
        sink.integer(self.subscribe_id);
        sink.byte(self.group_order);
        sink.byte(self.end_of_track);
        sink.place(&self.largest);
        sink.parameters(&self.parameters);
    }

    fn is_forbidden(&self) -> bool {
        is_forbidden_given_order(self.group_order)
    }
}

/// FETCH_ERROR (004, figure 15).
#[derive(Debug, Clone, Copy, PartialEq, Eq)]
pub struct FetchError<'a> {
    /// Subscribe ID.
    pub subscribe_id: u64,
    /// Error Code.
    pub error_code: u64,
    /// Reason Phrase.
    pub reason_phrase: &'a [u8],
}

impl<'a> Body<'a> for FetchError<'a> {
    fn read(fields: &mut Fields<'a>) -> Result<Self, u8> {
        Ok(FetchError {
            subscribe_id: fields.integer()?,
            error_code: fields.integer()?,
            reason_phrase: fields.counted()?,
        })
    }

    fn put<S: Sink>(&self, sink: &mut S) {
        sink.integer(self.subscribe_id);
        sink.integer(self.error_code);
        sink.counted(self.reason_phrase);
    }
}
