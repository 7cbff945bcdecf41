//! What the body of a message owes: it is read from fields, put into a sink,
//! and says whether one of its fields may not stand there.

use crate::fields::Fields;
use crate::sink::Sink;

/// The body of a message: its fields in the order of its figure in 004.
pub trait Body<'a>: Sized {
    /// Reads the fields from left to right, the first fault deciding.
    fn read(fields: &mut Fields<'a>) -> Result<Self, u8>;

    /// Puts the fields from left to right.
    fn put<S: Sink>(&self, sink: &mut S);

    /// Whether a field holds a value that 01 forbids, or a field is there
    /// that doesn't belong to the others. Numbers above the greatest integer
    /// are found by the measure.
    fn is_forbidden(&self) -> bool {
        false
    }
}
