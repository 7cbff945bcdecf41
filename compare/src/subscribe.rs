//! The messages about subscriptions (004, sections 8.4 to 8.11), and the body
//! of those that hold nothing but one Subscribe ID.

use crate::body::Body;
use crate::fields::{
    is_forbidden_asked_order, is_forbidden_given_order, refuse, Fields, Parameters, Place, Track,
};
use crate::sink::Sink;

/// The body of MAX_SUBSCRIBE_ID, SUBSCRIBES_BLOCKED, UNSUBSCRIBE and
/// FETCH_CANCEL (004, figures 5, 6, 11 and 16). Any number may stand there.
#[derive(Debug, Clone, Copy, PartialEq, Eq)]
pub struct JustId {
    /// Subscribe ID, or Maximum Subscribe ID in SUBSCRIBES_BLOCKED.
    pub subscribe_id: u64,
}

impl<'a> Body<'a> for JustId {
    fn read(fields: &mut Fields<'a>) -> Result<Self, u8> {
        Ok(JustId {
            subscribe_id: fields.integer()?,
        })
    }

    fn put<S: Sink>(&self, sink: &mut S) {
        sink.integer(self.subscribe_id);
    }
}

/// SUBSCRIBE (004, figure 7).
#[derive(Debug, Clone, Copy, PartialEq, Eq)]
pub struct Subscribe<'a> {
    /// Subscribe ID.
    pub subscribe_id: u64,
    /// Track Alias.
    pub track_alias: u64,
    /// Track Namespace and Track Name.
    pub track: Track<'a>,
    /// Subscriber Priority.
    pub subscriber_priority: u8,
    /// Group Order.
    pub group_order: u8,
    /// Filter Type: Latest Object (2), AbsoluteStart (3), AbsoluteRange (4).
    pub filter_type: u64,
    /// StartGroup and StartObject, for filters 3 and 4 only.
    pub start: Option<Place>,
    /// EndGroup, for filter 4 only.
    pub end_group: Option<u64>,
    /// Subscribe Parameters.
    pub parameters: Parameters<'a>,
}

/// 01: "filter type other than 2, 3, 4".
pub(crate) fn is_forbidden_filter(filter_type: u64) -> bool {
    !matches!(filter_type, 2..=4)
}

/// 004: StartGroup and StartObject are "Only present for "AbsoluteStart" and
/// "AbsoluteRange" filter types."
pub(crate) fn has_start(filter_type: u64) -> bool {
    filter_type == 3 || filter_type == 4
}

/// 004: EndGroup is "Only present for the "AbsoluteRange" filter type."
pub(crate) fn has_end(filter_type: u64) -> bool {
    filter_type == 4
}

/// 01: "end group below start group in SUBSCRIBE".
fn ends_before_start(start: Option<Place>, end_group: Option<u64>) -> bool {
    match (start, end_group) {
        (Some(start), Some(end_group)) => end_group < start.group,
        _ => false,
    }
}

impl<'a> Body<'a> for Subscribe<'a> {
    fn read(fields: &mut Fields<'a>) -> Result<Self, u8> {
        let subscribe_id = fields.integer()?;
        let track_alias = fields.integer()?;
        let track = fields.track()?;
        let subscriber_priority = fields.byte()?;
        let group_order = fields.byte()?;
        refuse(is_forbidden_asked_order(group_order))?;
        let filter_type = fields.integer()?;
        refuse(is_forbidden_filter(filter_type))?;
        let mut start = None;
        if has_start(filter_type) {
            start = Some(fields.place()?);
        }
        let mut end_group = None;
        if has_end(filter_type) {
            end_group = Some(fields.integer()?);
        }
        refuse(ends_before_start(start, end_group))?;
        Ok(Subscribe {
            subscribe_id,
            track_alias,
            track,
            subscriber_priority,
            group_order,
            filter_type,
            start,
            end_group,
            parameters: fields.parameters()?,
        })
    }

    fn put<S: Sink>(&self, sink: &mut S) {
        sink.integer(self.subscribe_id);
        sink.integer(self.track_alias);
        sink.track(&self.track);
        sink.byte(self.subscriber_priority);
        sink.byte(self.group_order);
        sink.integer(self.filter_type);
        if let Some(start) = &self.start {
            sink.place(start);
        }
        if let Some(end_group) = self.end_group {
            sink.integer(end_group);
        }
        sink.parameters(&self.parameters);
    }

    fn is_forbidden(&self) -> bool {
        is_forbidden_asked_order(self.group_order)
            || is_forbidden_filter(self.filter_type)
            || self.start.is_some() != has_start(self.filter_type)
            || self.end_group.is_some() != has_end(self.filter_type)
            || ends_before_start(self.start, self.end_group)
    }
}

/// SUBSCRIBE_OK (004, figure 8).
#[derive(Debug, Clone, Copy, PartialEq, Eq)]
pub struct SubscribeOk<'a> {
    /// Subscribe ID.
    pub subscribe_id: u64,
    /// Expires.
    pub expires: u64,
    /// Group Order.
    pub group_order: u8,
    /// ContentExists.
    pub content_exists: u8,
    /// Largest Group ID and Largest Object ID, if ContentExists is 1.
    pub largest: Option<Place>,
    /// Subscribe Parameters.
    pub parameters: Parameters<'a>,
}

impl<'a> Body<'a> for SubscribeOk<'a> {
    fn read(fields: &mut Fields<'a>) -> Result<Self, u8> {
        let subscribe_id = fields.integer()?;
        let expires = fields.integer()?;
        let group_order = fields.byte()?;
        refuse(is_forbidden_given_order(group_order))?;
        let content_exists = fields.byte()?;
        // 01: "content exists above 1".
        refuse(content_exists > 1)?;
        let mut largest = None;
        if content_exists == 1 {
            largest = Some(fields.place()?);
        }
        Ok(SubscribeOk {
            subscribe_id,
            expires,
            group_order,
            content_exists,
            largest,
            parameters: fields.parameters()?,
        })
    }

    fn put<S: Sink>(&self, sink: &mut S) {
        sink.integer(self.subscribe_id);
        sink.integer(self.expires);
        sink.byte(self.group_order);
        sink.byte(self.content_exists);
        if let Some(largest) = &self.largest {
            sink.place(largest);
        }
        sink.parameters(&self.parameters);
    }

    fn is_forbidden(&self) -> bool {
        is_forbidden_given_order(self.group_order)
            || self.content_exists > 1
            || self.largest.is_some() != (self.content_exists == 1)
    }
}

/// SUBSCRIBE_ERROR (004, figure 9).
#[derive(Debug, Clone, Copy, PartialEq, Eq)]
pub struct SubscribeError<'a> {
    /// Subscribe ID.
    pub subscribe_id: u64,
    /// Error Code.
    pub error_code: u64,
    /// Reason Phrase.
    pub reason_phrase: &'a [u8],
    /// Track Alias.
    pub track_alias: u64,
}

impl<'a> Body<'a> for SubscribeError<'a> {
    fn read(fields: &mut Fields<'a>) -> Result<Self, u8> {
        Ok(SubscribeError {
            subscribe_id: fields.integer()?,
            error_code: fields.integer()?,
            reason_phrase: fields.counted()?,
            track_alias: fields.integer()?,
        })
    }

    fn put<S: Sink>(&self, sink: &mut S) {
        sink.integer(self.subscribe_id);
        sink.integer(self.error_code);
        sink.counted(self.reason_phrase);
        sink.integer(self.track_alias);
    }
}

/// SUBSCRIBE_UPDATE (004, figure 10). Its EndGroup is kept as it is written:
/// "The end Group ID, plus 1. A value of 0 means the subscription is
/// open-ended." An end before the start is not called an error.
#[derive(Debug, Clone, Copy, PartialEq, Eq)]
pub struct SubscribeUpdate<'a> {
    /// Subscribe ID.
    pub subscribe_id: u64,
    /// StartGroup and StartObject.
    pub start: Place,
    /// EndGroup, plus 1.
    pub end_group: u64,
    /// Subscriber Priority.
    pub subscriber_priority: u8,
    /// Subscribe Parameters.
    pub parameters: Parameters<'a>,
}

impl<'a> Body<'a> for SubscribeUpdate<'a> {
    fn read(fields: &mut Fields<'a>) -> Result<Self, u8> {
        Ok(SubscribeUpdate {
            subscribe_id: fields.integer()?,
            start: fields.place()?,
            end_group: fields.integer()?,
            subscriber_priority: fields.byte()?,
            parameters: fields.parameters()?,
        })
    }

    fn put<S: Sink>(&self, sink: &mut S) {
        sink.integer(self.subscribe_id);
        sink.place(&self.start);
        sink.integer(self.end_group);
        sink.byte(self.subscriber_priority);
        sink.parameters(&self.parameters);
    }
}

/// SUBSCRIBE_DONE (004, figure 12).
#[derive(Debug, Clone, Copy, PartialEq, Eq)]
pub struct SubscribeDone<'a> {
    /// Subscribe ID.
    pub subscribe_id: u64,
    /// Status Code.
    pub status_code: u64,
    /// Stream Count.
    pub stream_count: u64,
    /// Reason Phrase.
    pub reason_phrase: &'a [u8],
}

impl<'a> Body<'a> for SubscribeDone<'a> {
    fn read(fields: &mut Fields<'a>) -> Result<Self, u8> {
        Ok(SubscribeDone {
            subscribe_id: fields.integer()?,
            status_code: fields.integer()?,
            stream_count: fields.integer()?,
            reason_phrase: fields.counted()?,
        })
    }

    fn put<S: Sink>(&self, sink: &mut S) {
        sink.integer(self.subscribe_id);
        sink.integer(self.status_code);
        sink.integer(self.stream_count);
        sink.counted(self.reason_phrase);
    }
}
