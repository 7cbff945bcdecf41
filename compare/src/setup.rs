//! CLIENT_SETUP, SERVER_SETUP and GOAWAY (004, sections 8.2 and 8.3).

use crate::body::Body;
use crate::fields::{Fields, Parameters, Versions};
use crate::sink::Sink;

/// CLIENT_SETUP (004, figure 3).
#[derive(Debug, Clone, Copy, PartialEq, Eq)]
pub struct ClientSetup<'a> {
    /// Supported Versions, of any number and width.
    pub supported_versions: Versions<'a>,
    /// Setup Parameters.
    pub parameters: Parameters<'a>,
}

impl<'a> Body<'a> for ClientSetup<'a> {
    fn read(fields: &mut Fields<'a>) -> Result<Self, u8> {
        Ok(ClientSetup {
            supported_versions: fields.versions()?,
            parameters: fields.parameters()?,
        })
    }

    fn put<S: Sink>(&self, sink: &mut S) {
        sink.versions(&self.supported_versions);
        sink.parameters(&self.parameters);
    }
}

/// SERVER_SETUP (004, figure 3).
#[derive(Debug, Clone, Copy, PartialEq, Eq)]
pub struct ServerSetup<'a> {
    /// Selected Version.
    pub selected_version: u64,
    /// Setup Parameters.
    pub parameters: Parameters<'a>,
}

impl<'a> Body<'a> for ServerSetup<'a> {
    fn read(fields: &mut Fields<'a>) -> Result<Self, u8> {
        Ok(ServerSetup {
            selected_version: fields.integer()?,
            parameters: fields.parameters()?,
        })
    }

    fn put<S: Sink>(&self, sink: &mut S) {
        sink.integer(self.selected_version);
        sink.parameters(&self.parameters);
    }
}

/// GOAWAY (004, figure 4). Whether a URI may stand in it depends on who
/// receives it, so the reader takes any.
#[derive(Debug, Clone, Copy, PartialEq, Eq)]
pub struct Goaway<'a> {
    /// New Session URI.
    pub new_session_uri: &'a [u8],
}

impl<'a> Body<'a> for Goaway<'a> {
    fn read(fields: &mut Fields<'a>) -> Result<Self, u8> {
        Ok(Goaway {
            new_session_uri: fields.counted()?,
        })
    }

    fn put<S: Sink>(&self, sink: &mut S) {
        sink.counted(self.new_session_uri);
    }
}
