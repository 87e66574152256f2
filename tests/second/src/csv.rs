//! RFC 4180, read byte by byte: fields in quotes or not, commas between them, records that CR LF ends.

use std::slice::Iter;
use State::*;

pub type Record = Vec<Vec<u8>>;

/// The bytes that come next are no record. Where the one after them would begin isn't known.
pub struct NoRecord;

/// Where in a record the reader stands.
enum State {
    /// Nothing of the field has come yet.
    FieldStart,
    Unquoted,
    Quoted,
    /// A quote came in a quoted field: it closes the field, unless a second one follows.
    QuoteInQuoted,
    /// A CR came outside quotes: only an LF may follow.
    Ending,
}

/// The records of a file in order; after one that is none, nothing of use follows.
pub struct Records<'a> {
    rest: Iter<'a, u8>,
}

impl Records<'_> {
    pub fn of(file: &[u8]) -> Records<'_> {
        Records { rest: file.iter() }
    }

    fn record(&mut self) -> Result<Record, NoRecord> {
        let mut record = Record::new();
        let mut field = Vec::new();
        let mut state = FieldStart;
        for byte in self.rest.by_ref().copied() {
            state = match (state, byte) {
                (Ending, b'\n') => {
                    record.push(field);
                    return Ok(record);
                }
                (FieldStart, b'"') => Quoted,
                (Quoted, b'"') => QuoteInQuoted,
                (FieldStart | Unquoted | QuoteInQuoted, b',') => {
                    record.push(field);
                    field = Vec::new();
                    FieldStart
                }
                (FieldStart | Unquoted | QuoteInQuoted, b'\r') => Ending,
                (Quoted, byte) | (QuoteInQuoted, byte @ b'"') => {
                    field.push(byte);
                    Quoted
                }
                (Unquoted, b'"') | (FieldStart | Unquoted, b'\n') => return Err(NoRecord),
                (QuoteInQuoted | Ending, _) => return Err(NoRecord),
                (FieldStart | Unquoted, byte) => {
                    field.push(byte);
                    Unquoted
                }
            };
        }
        record.push(field);
        match state {
            Quoted | Ending => Err(NoRecord),
            FieldStart | Unquoted | QuoteInQuoted => Ok(record),
        }
    }
}

impl Iterator for Records<'_> {
    type Item = Result<Record, NoRecord>;

    /// The end of the last line begins no further record.
    fn next(&mut self) -> Option<Self::Item> {
        let more = !self.rest.as_slice().is_empty();
        more.then(|| self.record())
    }
}
