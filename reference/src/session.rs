//! Sessions of requests T-04 and T-05: a tape, and a record that goes over it one step at a time, or is asked
//! where a run would bring it.

use crate::machine::{preview, stand, step, Preview};
use crate::Record;

#[derive(Clone, Copy, Debug, PartialEq, Eq)]
pub struct Session<'a> {
    pub tape: &'a [u32],
    pub record: Record,
}

impl<'a> Session<'a> {
    /// What a refused opening gives; every step and preview on it is refused with 6.
    const REFUSED: Session<'a> = Session {
        tape: &[],
        record: Record {
            registers: [1; 4],
            position: 0,
        },
    };

    /// Opens a session, with the refusals of a run to where the record stands; beside it its number.
    pub fn open(tape: &'a [u32], record: Record) -> (Session<'a>, u32) {
        match stand(tape, record) {
            Ok(_) => (Session { tape, record }, 0),
            Err(number) => (Session::REFUSED, number),
        }
    }

    /// One step, or one undone, with the refusals of `step`; a refused one leaves the session.
    pub fn step(self, backward: bool) -> (Session<'a>, u32) {
        match step(self.tape, self.record, backward) {
            Ok(record) => (Session { record, ..self }, 0),
            Err(number) => (self, number),
        }
    }

    /// What a run to a position would come to, with its refusals; the session stays as it is.
    pub fn preview(&self, to: u32) -> Result<Preview, u32> {
        preview(self.tape, self.record, to)
    }
}
