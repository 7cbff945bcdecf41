//! TRACK_STATUS_REQUEST and TRACK_STATUS (004, sections 8.16 and 8.17).

use crate::body::Body;
use crate::fields::{refuse, Fields, Place, Track};
use crate::sink::Sink;

/// TRACK_STATUS_REQUEST (004, figure 17).
#[derive(Debug, Clone, Copy, PartialEq, Eq)]
pub struct TrackStatusRequest<'a> {
    /// Track Namespace and Track Name.
    pub track: Track<'a>,
}

impl<'a> Body<'a> for TrackStatusRequest<'a> {
    fn read(fields: &mut Fields<'a>) -> Result<Self, u8> {
        Ok(TrackStatusRequest {
            track: fields.track()?,
        })
    }

    fn put<S: Sink>(&self, sink: &mut S) {
        sink.track(&self.track);
    }
}

/// TRACK_STATUS (004, figure 18).
#[derive(Debug, Clone, Copy, PartialEq, Eq)]
pub struct TrackStatus<'a> {
    /// Track Namespace and Track Name.
    pub track: Track<'a>,
    /// Status Code.
    pub status_code: u64,
    /// Largest Group ID and Largest Object ID.
    pub largest: Place,
}

/// 01: "track status above 4".
pub(crate) fn is_forbidden_status(status_code: u64) -> bool {
    status_code > 4
}

/// 01: "status 1 or 2 with a largest group or object that is not 0".
pub(crate) fn is_forbidden_largest(status_code: u64, group_or_object: u64) -> bool {
    (status_code == 1 || status_code == 2) && group_or_object != 0
}

impl<'a> Body<'a> for TrackStatus<'a> {
    fn read(fields: &mut Fields<'a>) -> Result<Self, u8> {
        let track = fields.track()?;
        let status_code = fields.integer()?;
        refuse(is_forbidden_status(status_code))?;
        let group = fields.integer()?;
        refuse(is_forbidden_largest(status_code, group))?;
        let object = fields.integer()?;
        refuse(is_forbidden_largest(status_code, object))?;
        Ok(TrackStatus {
            track,
            status_code,
            largest: Place { group, object },
        })
    }

    fn put<S: Sink>(&self, sink: &mut S) {
        sink.track(&self.track);
        sink.integer(self.status_code);
        sink.place(&self.largest);
    }

    fn is_forbidden(&self) -> bool {
        is_forbidden_status(self.status_code)
            || is_forbidden_largest(self.status_code, self.largest.group)
            || is_forbidden_largest(self.status_code, self.largest.object)
    }
}
