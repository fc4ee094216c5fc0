//! What the call works in.

use crate::call::{call, Answer};
use crate::schema::{Schema, RECORD};

/// Words of the table that the call uses.
const TABLE: usize = 16_384;

/// The buffers of a new `Work`, which suffice for all but very wide batches.
const USUAL: usize = 65_536;

/// No schema needs more: the library is proved to give fewer than 2^18 field records and 2^27 name bytes.
const RECORDS: usize = RECORD << 18;
const NAMES: usize = 1 << 27;

/// By how much the buffers grow. The batch is traced again each time, so they grow in few steps: 64 KiB to 128 MiB in four.
const GROWTH: usize = 8;

/// The work table and the two output buffers, which the call borrows and which may be lent again and again.
///
/// One from [`Work::new`] grows: where a schema does not fit, its buffers are made longer and the batch is traced again, so
/// [`Refusal::ShortBuffer`](crate::Refusal::ShortBuffer) is never said. A short batch can ask for much, though: five bytes
/// of commands name a field, and the name may be all of the text. Who reads batches from strangers and cannot spare 130 MiB
/// takes [`Work::fixed`], which never grows.
#[derive(Clone, Debug)]
pub struct Work {
    table: Vec<u32>,
    fields: Vec<u8>,
    names: Vec<u8>,
    grows: bool,
}

impl Work {
    /// Buffers of 64 KiB each, which grow where a schema needs it and stay grown.
    pub fn new() -> Self {
        Work {
            grows: true,
            ..Work::fixed(USUAL, USUAL)
        }
    }

    /// Buffers of just so many bytes for field records (eight each) and for names. A schema that needs more is refused.
    pub fn fixed(fields: usize, names: usize) -> Self {
        Work {
            table: vec![0; TABLE],
            fields: vec![0; fields],
            names: vec![0; names],
            grows: false,
        }
    }

    pub(crate) fn call(&mut self, options: u16, commands: &[u8], text: &[u8]) -> Answer {
        let Work {
            table,
            fields,
            names,
            ..
        } = self;
        call(options, commands, text, table, fields, names)
    }

    /// The schema of an answer that is no refusal, copied out of the buffers.
    pub(crate) fn schema(&self, answer: &Answer) -> Schema {
        let records = &self.fields[..answer.field_records as usize * RECORD];
        let names = &self.names[..answer.name_bytes as usize];
        Schema::new(records, names, answer.columns as usize)
    }

    /// Makes both buffers longer, since an answer does not tell which is short. Whether there was more to give.
    pub(crate) fn grow(&mut self) -> bool {
        let (fields, names) = (self.fields.len(), self.names.len());
        if !self.grows || (fields >= RECORDS && names >= NAMES) {
            return false;
        }
        // replaced, not resized: what they hold is of no use
        self.fields = vec![0; (fields * GROWTH).min(RECORDS)];
        self.names = vec![0; (names * GROWTH).min(NAMES)];
        true
    }
}

impl Default for Work {
    fn default() -> Self {
        Work::new()
    }
}
