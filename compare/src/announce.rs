//! The three bodies of the nine messages about announcements (004, sections
//! 8.18 to 8.26). A Track Namespace Prefix has the sizes of a namespace.

use crate::body::Body;
use crate::fields::{Fields, Namespace, Parameters};
use crate::sink::Sink;

/// The body of ANNOUNCE and SUBSCRIBE_ANNOUNCES (004, figures 19 and 24).
#[derive(Debug, Clone, Copy, PartialEq, Eq)]
pub struct NamespaceParameters<'a> {
    /// Track Namespace, or Track Namespace Prefix.
    pub namespace: Namespace<'a>,
    /// Parameters.
    pub parameters: Parameters<'a>,
}

impl<'a> Body<'a> for NamespaceParameters<'a> {
    fn read(fields: &mut Fields<'a>) -> Result<Self, u8> {
        Ok(NamespaceParameters {
            namespace: fields.namespace()?,
            parameters: fields.parameters()?,
        })
    }

    fn put<S: Sink>(&self, sink: &mut S) {
        sink.namespace(&self.namespace);
        sink.parameters(&self.parameters);
    }
}

/// The body of ANNOUNCE_OK, UNANNOUNCE, SUBSCRIBE_ANNOUNCES_OK and
/// UNSUBSCRIBE_ANNOUNCES (004, figures 20, 22, 25 and 27).
#[derive(Debug, Clone, Copy, PartialEq, Eq)]
pub struct JustNamespace<'a> {
    /// Track Namespace, or Track Namespace Prefix.
    pub namespace: Namespace<'a>,
}

impl<'a> Body<'a> for JustNamespace<'a> {
    fn read(fields: &mut Fields<'a>) -> Result<Self, u8> {
        Ok(JustNamespace {
            namespace: fields.namespace()?,
        })
    }

    fn put<S: Sink>(&self, sink: &mut S) {
        sink.namespace(&self.namespace);
    }
}

/// The body of ANNOUNCE_ERROR, ANNOUNCE_CANCEL and SUBSCRIBE_ANNOUNCES_ERROR
/// (004, figures 21, 23 and 26). In figure 23 the second "Reason Phrase
/// Length" is the phrase.
#[derive(Debug, Clone, Copy, PartialEq, Eq)]
pub struct NamespaceError<'a> {
    /// Track Namespace, or Track Namespace Prefix.
    pub namespace: Namespace<'a>,
    /// Error Code.
    pub error_code: u64,
    /// Reason Phrase.
    pub reason_phrase: &'a [u8],
}

impl<'a> Body<'a> for NamespaceError<'a> {
    fn read(fields: &mut Fields<'a>) -> Result<Self, u8> {
        Ok(NamespaceError {
            namespace: fields.namespace()?,
            error_code: fields.integer()?,
            reason_phrase: fields.counted()?,
        })
    }

    fn put<S: Sink>(&self, sink: &mut S) {
        sink.namespace(&self.namespace);
        sink.integer(self.error_code);
        sink.counted(self.reason_phrase);
    }
}
