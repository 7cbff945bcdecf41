//! Data headers (004, section 9): datagrams, stream headers, and the object
//! headers that follow on a subgroup or fetch stream.
//!
//! 01: "Extension headers are kept as bytes; where 004 gives their length in
//! bytes they aren't looked into." In 004 this is everywhere.

use crate::answer::{FILL, FORBIDDEN, SHORT, UNKNOWN};
use crate::fields::{refuse, Fields};
use crate::sink::{Measure, Sink, Writer};

/// 004: "0x0 := Normal object", "0x1 := Indicates Object does not exist",
/// "0x3 := Indicates end of Group", "0x4 := Indicates end of Track", "Any
/// other value SHOULD be treated as a protocol error".
fn is_forbidden_status(object_status: u64) -> bool {
    !matches!(object_status, 0 | 1 | 3 | 4)
}

/// What both kinds of datagram begin with, after their type (004, figures 29
/// and 30).
#[derive(Debug, Clone, Copy, PartialEq, Eq)]
pub struct ObjectDatagram<'a> {
    /// Track Alias.
    pub track_alias: u64,
    /// Group ID.
    pub group_id: u64,
    /// Object ID.
    pub object_id: u64,
    /// Publisher Priority.
    pub publisher_priority: u8,
    /// Extension headers.
    pub extension_headers: &'a [u8],
}

/// The header of a datagram, its type included.
#[derive(Debug, Clone, Copy, PartialEq, Eq)]
pub enum Datagram<'a> {
    /// OBJECT_DATAGRAM (0x1). What follows the header is payload.
    Object(ObjectDatagram<'a>),
    /// OBJECT_DATAGRAM_STATUS (0x2): the same and the Object Status.
    Status(ObjectDatagram<'a>, u64),
}

impl<'a> ObjectDatagram<'a> {
    fn read(fields: &mut Fields<'a>) -> Result<Self, u8> {
        Ok(ObjectDatagram {
            track_alias: fields.integer()?,
            group_id: fields.integer()?,
            object_id: fields.integer()?,
            publisher_priority: fields.byte()?,
            extension_headers: fields.counted()?,
        })
    }

    fn put<S: Sink>(&self, sink: &mut S) {
        sink.integer(self.track_alias);
        sink.integer(self.group_id);
        sink.integer(self.object_id);
        sink.byte(self.publisher_priority);
        sink.counted(self.extension_headers);
    }
}

impl Datagram<'_> {
    /// The type, from 004's table 9.
    pub fn kind(&self) -> u64 {
        match self {
            Datagram::Object(_) => 0x1,
            Datagram::Status(..) => 0x2,
        }
    }
}

/// Reads the header of a whole datagram: the header and the bytes used.
///
/// 01: "in a datagram, which is always whole, it [a cut header] answers 4,
/// and so do bytes after a status datagram". The payload of an
/// OBJECT_DATAGRAM isn't among the bytes used.
pub fn read_datagram(bytes: &[u8]) -> Result<(Datagram<'_>, usize), u8> {
    let mut fields = Fields::in_whole(bytes);
    let datagram = match fields.integer()? {
        0x1 => Datagram::Object(ObjectDatagram::read(&mut fields)?),
        0x2 => {
            let header = ObjectDatagram::read(&mut fields)?;
            let object_status = fields.integer()?;
            refuse(is_forbidden_status(object_status))?;
            if !fields.rest().is_empty() {
                return Err(FILL);
            }
            Datagram::Status(header, object_status)
        }
        _ => return Err(UNKNOWN),
    };
    Ok((datagram, bytes.len() - fields.rest().len()))
}

/// The header that a stream begins with, its type included.
#[derive(Debug, Clone, Copy, PartialEq, Eq)]
pub enum StreamHeader {
    /// SUBGROUP_HEADER (0x4).
    Subgroup(SubgroupHeader),
    /// FETCH_HEADER (0x5).
    Fetch {
        /// Subscribe ID.
        subscribe_id: u64,
    },
}

/// SUBGROUP_HEADER (004, figure 31).
#[derive(Debug, Clone, Copy, PartialEq, Eq)]
pub struct SubgroupHeader {
    /// Track Alias.
    pub track_alias: u64,
    /// Group ID.
    pub group_id: u64,
    /// Subgroup ID.
    pub subgroup_id: u64,
    /// Publisher Priority.
    pub publisher_priority: u8,
}

impl StreamHeader {
    /// The type, from 004's table 8.
    pub fn kind(&self) -> u64 {
        match self {
            StreamHeader::Subgroup(_) => 0x4,
            StreamHeader::Fetch { .. } => 0x5,
        }
    }
}

/// Reads the header at the beginning of a stream: it and the bytes used.
pub fn read_stream(bytes: &[u8]) -> Result<(StreamHeader, usize), u8> {
    let mut fields = Fields::on_stream(bytes);
    let header = match fields.integer()? {
        0x4 => StreamHeader::Subgroup(SubgroupHeader {
            track_alias: fields.integer()?,
            group_id: fields.integer()?,
            subgroup_id: fields.integer()?,
            publisher_priority: fields.byte()?,
        }),
        0x5 => StreamHeader::Fetch {
            subscribe_id: fields.integer()?,
        },
        _ => return Err(UNKNOWN),
    };
    Ok((header, bytes.len() - fields.rest().len()))
}

/// What both kinds of object header end with (004, figures 32 and 34).
#[derive(Debug, Clone, Copy, PartialEq, Eq)]
pub struct ObjectFields<'a> {
    /// Extension headers.
    pub extension_headers: &'a [u8],
    /// Object Payload Length.
    pub payload_length: u64,
    /// Object Status. 004: "only sent if the Object Payload Length is zero".
    pub object_status: Option<u64>,
}

impl<'a> ObjectFields<'a> {
    fn read(fields: &mut Fields<'a>) -> Result<Self, u8> {
        let extension_headers = fields.counted()?;
        let payload_length = fields.integer()?;
        let mut object_status = None;
        if payload_length == 0 {
            let status = fields.integer()?;
            refuse(is_forbidden_status(status))?;
            object_status = Some(status);
        }
        Ok(ObjectFields {
            extension_headers,
            payload_length,
            object_status,
        })
    }

    fn put<S: Sink>(&self, sink: &mut S) {
        sink.counted(self.extension_headers);
        sink.integer(self.payload_length);
        if let Some(status) = self.object_status {
            sink.integer(status);
        }
    }

    /// A status that 004 doesn't list, or one beside a payload, or none
    /// without a payload.
    fn is_forbidden(&self) -> bool {
        match self.object_status {
            Some(status) => self.payload_length != 0 || is_forbidden_status(status),
            None => self.payload_length == 0,
        }
    }
}

/// The header of an object on a subgroup stream (004, figure 32).
#[derive(Debug, Clone, Copy, PartialEq, Eq)]
pub struct SubgroupObject<'a> {
    /// Object ID.
    pub object_id: u64,
    /// Extension headers, payload length and status.
    pub object: ObjectFields<'a>,
}

/// Reads an object header on a subgroup stream: it and the bytes used.
pub fn read_subgroup_object(bytes: &[u8]) -> Result<(SubgroupObject<'_>, usize), u8> {
    let mut fields = Fields::on_stream(bytes);
    let header = SubgroupObject {
        object_id: fields.integer()?,
        object: ObjectFields::read(&mut fields)?,
    };
    Ok((header, bytes.len() - fields.rest().len()))
}

/// The header of an object on a fetch stream (004, figure 34).
#[derive(Debug, Clone, Copy, PartialEq, Eq)]
pub struct FetchObject<'a> {
    /// Group ID.
    pub group_id: u64,
    /// Subgroup ID.
    pub subgroup_id: u64,
    /// Object ID.
    pub object_id: u64,
    /// Publisher Priority.
    pub publisher_priority: u8,
    /// Extension headers, payload length and status.
    pub object: ObjectFields<'a>,
}

/// Reads an object header on a fetch stream: it and the bytes used.
pub fn read_fetch_object(bytes: &[u8]) -> Result<(FetchObject<'_>, usize), u8> {
    let mut fields = Fields::on_stream(bytes);
    let header = FetchObject {
        group_id: fields.integer()?,
        subgroup_id: fields.integer()?,
        object_id: fields.integer()?,
        publisher_priority: fields.byte()?,
        object: ObjectFields::read(&mut fields)?,
    };
    Ok((header, bytes.len() - fields.rest().len()))
}

/// A data header that can be written.
pub trait Header {
    /// Puts the fields from left to right, the type first where there is one.
    fn put<S: Sink>(&self, sink: &mut S);

    /// Whether a field holds a forbidden value, or doesn't belong.
    fn is_forbidden(&self) -> bool;
}

impl Header for Datagram<'_> {
    fn put<S: Sink>(&self, sink: &mut S) {
        sink.integer(self.kind());
        match self {
            Datagram::Object(header) => header.put(sink),
            Datagram::Status(header, object_status) => {
                header.put(sink);
                sink.integer(*object_status);
            }
        }
    }

    fn is_forbidden(&self) -> bool {
        match self {
            Datagram::Object(_) => false,
            Datagram::Status(_, object_status) => is_forbidden_status(*object_status),
        }
    }
}

impl Header for StreamHeader {
    fn put<S: Sink>(&self, sink: &mut S) {
        sink.integer(self.kind());
        match self {
            StreamHeader::Subgroup(header) => {
                sink.integer(header.track_alias);
                sink.integer(header.group_id);
                sink.integer(header.subgroup_id);
                sink.byte(header.publisher_priority);
            }
            StreamHeader::Fetch { subscribe_id } => sink.integer(*subscribe_id),
        }
    }

    fn is_forbidden(&self) -> bool {
        false
    }
}

impl Header for SubgroupObject<'_> {
    fn put<S: Sink>(&self, sink: &mut S) {
        sink.integer(self.object_id);
        self.object.put(sink);
    }

    fn is_forbidden(&self) -> bool {
        self.object.is_forbidden()
    }
}

impl Header for FetchObject<'_> {
    fn put<S: Sink>(&self, sink: &mut S) {
        sink.integer(self.group_id);
        sink.integer(self.subgroup_id);
        sink.integer(self.object_id);
        sink.byte(self.publisher_priority);
        self.object.put(sink);
    }

    fn is_forbidden(&self) -> bool {
        self.object.is_forbidden()
    }
}

/// Writes a data header at the front of `out`, in its shortest form; answers
/// the bytes written. First 5, then 7; on refusal `out` is unchanged.
pub fn write<H: Header>(header: &H, out: &mut [u8]) -> Result<usize, u8> {
    let mut measure = Measure::default();
    header.put(&mut measure);
    if header.is_forbidden() || measure.too_great {
        return Err(FORBIDDEN);
    }
    if out.len() < measure.size {
        return Err(SHORT);
    }
    let mut writer = Writer::new(out);
    header.put(&mut writer);
    Ok(writer.written())
}
