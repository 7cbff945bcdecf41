//! Control messages (004, section 8): Type, Length and a body.

use crate::announce::{JustNamespace, NamespaceError, NamespaceParameters};
use crate::answer::{BODY, FILL, FORBIDDEN, SHORT, SIZE, UNKNOWN};
use crate::body::Body;
use crate::fetch::{Fetch, FetchError, FetchOk, FetchType};
use crate::fields::Fields;
use crate::setup::{ClientSetup, Goaway, ServerSetup};
use crate::sink::{Measure, Sink, Writer};
use crate::subscribe::{
    JustId, Subscribe, SubscribeDone, SubscribeError, SubscribeOk, SubscribeUpdate,
};
use crate::track::{TrackStatus, TrackStatusRequest};

/// 01: "Length, at most 16,383", which 02 raises: "Raise the limit to 65,000"
/// (K8).
pub const MOST_BODY_BYTES: u64 = 65_000;

/// The 26 control messages of 004's table 2.
#[derive(Debug, Clone, Copy, PartialEq, Eq)]
#[allow(missing_docs)] // The names are 004's.
pub enum Message<'a> {
    SubscribeUpdate(SubscribeUpdate<'a>),
    Subscribe(Subscribe<'a>),
    SubscribeOk(SubscribeOk<'a>),
    SubscribeError(SubscribeError<'a>),
    Announce(NamespaceParameters<'a>),
    AnnounceOk(JustNamespace<'a>),
    AnnounceError(NamespaceError<'a>),
    Unannounce(JustNamespace<'a>),
    Unsubscribe(JustId),
    SubscribeDone(SubscribeDone<'a>),
    AnnounceCancel(NamespaceError<'a>),
    TrackStatusRequest(TrackStatusRequest<'a>),
    TrackStatus(TrackStatus<'a>),
    Goaway(Goaway<'a>),
    SubscribeAnnounces(NamespaceParameters<'a>),
    SubscribeAnnouncesOk(JustNamespace<'a>),
    SubscribeAnnouncesError(NamespaceError<'a>),
    UnsubscribeAnnounces(JustNamespace<'a>),
    MaxSubscribeId(JustId),
    Fetch(Fetch<'a>),
    FetchCancel(JustId),
    FetchOk(FetchOk<'a>),
    FetchError(FetchError<'a>),
    SubscribesBlocked(JustId),
    ClientSetup(ClientSetup<'a>),
    ServerSetup(ServerSetup<'a>),
}

/// 004's table 2: 0x2 to 0xE, 0x10 to 0x1A, 0x40 and 0x41, without a gap
/// inside the first two.
pub fn is_known(kind: u64) -> bool {
    matches!(kind, 0x2..=0xE | 0x10..=0x1A | 0x40 | 0x41)
}

/// The name that 004's table 2 gives a type; none where it has no such type.
pub fn name(kind: u64) -> Option<&'static str> {
    Some(match kind {
        0x2 => "SUBSCRIBE_UPDATE",
        0x3 => "SUBSCRIBE",
        0x4 => "SUBSCRIBE_OK",
        0x5 => "SUBSCRIBE_ERROR",
        0x6 => "ANNOUNCE",
        0x7 => "ANNOUNCE_OK",
        0x8 => "ANNOUNCE_ERROR",
        0x9 => "UNANNOUNCE",
        0xA => "UNSUBSCRIBE",
        0xB => "SUBSCRIBE_DONE",
        0xC => "ANNOUNCE_CANCEL",
        0xD => "TRACK_STATUS_REQUEST",
        0xE => "TRACK_STATUS",
        0x10 => "GOAWAY",
        0x11 => "SUBSCRIBE_ANNOUNCES",
        0x12 => "SUBSCRIBE_ANNOUNCES_OK",
        0x13 => "SUBSCRIBE_ANNOUNCES_ERROR",
        0x14 => "UNSUBSCRIBE_ANNOUNCES",
        0x15 => "MAX_SUBSCRIBE_ID",
        0x16 => "FETCH",
        0x17 => "FETCH_CANCEL",
        0x18 => "FETCH_OK",
        0x19 => "FETCH_ERROR",
        0x1A => "SUBSCRIBES_BLOCKED",
        0x40 => "CLIENT_SETUP",
        0x41 => "SERVER_SETUP",
        _ => return None,
    })
}

impl<'a> Message<'a> {
    /// The message's Type, from 004's table 2.
    pub fn kind(&self) -> u64 {
        match self {
            Message::SubscribeUpdate(_) => 0x2,
            Message::Subscribe(_) => 0x3,
            Message::SubscribeOk(_) => 0x4,
            Message::SubscribeError(_) => 0x5,
            Message::Announce(_) => 0x6,
            Message::AnnounceOk(_) => 0x7,
            Message::AnnounceError(_) => 0x8,
            Message::Unannounce(_) => 0x9,
            Message::Unsubscribe(_) => 0xA,
            Message::SubscribeDone(_) => 0xB,
            Message::AnnounceCancel(_) => 0xC,
            Message::TrackStatusRequest(_) => 0xD,
            Message::TrackStatus(_) => 0xE,
            Message::Goaway(_) => 0x10,
            Message::SubscribeAnnounces(_) => 0x11,
            Message::SubscribeAnnouncesOk(_) => 0x12,
            Message::SubscribeAnnouncesError(_) => 0x13,
            Message::UnsubscribeAnnounces(_) => 0x14,
            Message::MaxSubscribeId(_) => 0x15,
            Message::Fetch(_) => 0x16,
            Message::FetchCancel(_) => 0x17,
            Message::FetchOk(_) => 0x18,
            Message::FetchError(_) => 0x19,
            Message::SubscribesBlocked(_) => 0x1A,
            Message::ClientSetup(_) => 0x40,
            Message::ServerSetup(_) => 0x41,
        }
    }

    /// The message's name as 004 spells it.
    pub fn name(&self) -> &'static str {
        name(self.kind()).expect("a message has a known type")
    }

    /// The name of the track that the message names, if it names one: a
    /// part of the bytes that it was read from.
    pub fn track_name(&self) -> Option<&'a [u8]> {
        match self {
            Message::Subscribe(body) => Some(body.track.name),
            Message::TrackStatusRequest(body) => Some(body.track.name),
            Message::TrackStatus(body) => Some(body.track.name),
            Message::Fetch(body) => match body.fetch_type {
                FetchType::Standalone(standalone) => Some(standalone.track.name),
                FetchType::RelativeJoining(_) | FetchType::AbsoluteJoining(_) => None,
            },
            _ => None,
        }
    }

    /// Reads the body of a message of a known type.
    fn read_body(kind: u64, f: &mut Fields<'a>) -> Result<Self, u8> {
        Ok(match kind {
            0x2 => Message::SubscribeUpdate(Body::read(f)?),
            0x3 => Message::Subscribe(Body::read(f)?),
            0x4 => Message::SubscribeOk(Body::read(f)?),
            0x5 => Message::SubscribeError(Body::read(f)?),
            0x6 => Message::Announce(Body::read(f)?),
            0x7 => Message::AnnounceOk(Body::read(f)?),
            0x8 => Message::AnnounceError(Body::read(f)?),
            0x9 => Message::Unannounce(Body::read(f)?),
            0xA => Message::Unsubscribe(Body::read(f)?),
            0xB => Message::SubscribeDone(Body::read(f)?),
            0xC => Message::AnnounceCancel(Body::read(f)?),
            0xD => Message::TrackStatusRequest(Body::read(f)?),
            0xE => Message::TrackStatus(Body::read(f)?),
            0x10 => Message::Goaway(Body::read(f)?),
            0x11 => Message::SubscribeAnnounces(Body::read(f)?),
            0x12 => Message::SubscribeAnnouncesOk(Body::read(f)?),
            0x13 => Message::SubscribeAnnouncesError(Body::read(f)?),
            0x14 => Message::UnsubscribeAnnounces(Body::read(f)?),
            0x15 => Message::MaxSubscribeId(Body::read(f)?),
            0x16 => Message::Fetch(Body::read(f)?),
            0x17 => Message::FetchCancel(Body::read(f)?),
            0x18 => Message::FetchOk(Body::read(f)?),
            0x19 => Message::FetchError(Body::read(f)?),
            0x1A => Message::SubscribesBlocked(Body::read(f)?),
            0x40 => Message::ClientSetup(Body::read(f)?),
            0x41 => Message::ServerSetup(Body::read(f)?),
            _ => return Err(UNKNOWN),
        })
    }

    /// Puts the fields of the body from left to right.
    fn put_body<S: Sink>(&self, sink: &mut S) {
        match self {
            Message::SubscribeUpdate(body) => body.put(sink),
            Message::Subscribe(body) => body.put(sink),
            Message::SubscribeOk(body) => body.put(sink),
            Message::SubscribeError(body) => body.put(sink),
            Message::Announce(body) | Message::SubscribeAnnounces(body) => body.put(sink),
            Message::AnnounceOk(body)
            | Message::Unannounce(body)
            | Message::SubscribeAnnouncesOk(body)
            | Message::UnsubscribeAnnounces(body) => body.put(sink),
            Message::AnnounceError(body)
            | Message::AnnounceCancel(body)
            | Message::SubscribeAnnouncesError(body) => body.put(sink),
            Message::Unsubscribe(body)
            | Message::MaxSubscribeId(body)
            | Message::FetchCancel(body)
            | Message::SubscribesBlocked(body) => body.put(sink),
            Message::SubscribeDone(body) => body.put(sink),
            Message::TrackStatusRequest(body) => body.put(sink),
            Message::TrackStatus(body) => body.put(sink),
            Message::Goaway(body) => body.put(sink),
            Message::Fetch(body) => body.put(sink),
            Message::FetchOk(body) => body.put(sink),
            Message::FetchError(body) => body.put(sink),
            Message::ClientSetup(body) => body.put(sink),
            Message::ServerSetup(body) => body.put(sink),
        }
    }

    /// Whether a field holds a forbidden value; the messages without such
    /// fields stand in the last arm.
    fn is_forbidden(&self) -> bool {
        match self {
            Message::Subscribe(body) => body.is_forbidden(),
            Message::SubscribeOk(body) => body.is_forbidden(),
            Message::TrackStatus(body) => body.is_forbidden(),
            Message::Fetch(body) => body.is_forbidden(),
            Message::FetchOk(body) => body.is_forbidden(),
            _ => false,
        }
    }

    fn measure(&self) -> Measure {
        let mut measure = Measure::default();
        self.put_body(&mut measure);
        measure
    }

    /// 01: "A ledger call answers 5 for a value forbidden above or a number
    /// over the greatest integer." What the byte fields hold is not the
    /// ledger's business.
    pub fn has_forbidden_number(&self) -> bool {
        self.is_forbidden() || self.measure().too_great
    }
}

/// Reads one message from the front: the message and the bytes used.
///
/// 01: "The reader works in this order: Type, known or not; Length, at most
/// 16,383; whole body present; fields left to right, the first fault
/// deciding; no byte left over." The limit is 65,000 since 02's K8; its place
/// in the order stays.
pub fn read(bytes: &[u8]) -> Result<(Message<'_>, usize), u8> {
    let mut header = Fields::on_stream(bytes);
    let kind = header.integer()?;
    if !is_known(kind) {
        return Err(UNKNOWN);
    }
    let length = header.integer()?;
    if length > MOST_BODY_BYTES {
        return Err(BODY);
    }
    let body = header.take(length)?;
    let mut fields = Fields::in_whole(body);
    let message = Message::read_body(kind, &mut fields)?;
    if !fields.rest().is_empty() {
        return Err(FILL);
    }
    Ok((message, bytes.len() - header.rest().len()))
}

/// Writes the message at the front of `out`, in its shortest form; answers
/// the bytes written. On refusal `out` is unchanged.
///
/// 01: "The writer checks 5, 6, 3, 7 in that order", each over the whole
/// message.
pub fn write(message: &Message<'_>, out: &mut [u8]) -> Result<usize, u8> {
    let measure = message.measure();
    if message.is_forbidden() || measure.too_great || measure.not_the_entries {
        return Err(FORBIDDEN);
    }
    if measure.over_size {
        return Err(SIZE);
    }
    let length = measure.size as u64;
    if length > MOST_BODY_BYTES {
        return Err(BODY);
    }
    let mut header = Measure::default();
    header.integer(message.kind());
    header.integer(length);
    if out.len() < header.size + measure.size {
        return Err(SHORT);
    }
    let mut writer = Writer::new(out);
    writer.integer(message.kind());
    writer.integer(length);
    message.put_body(&mut writer);
    Ok(writer.written())
}
