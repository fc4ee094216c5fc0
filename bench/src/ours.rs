//! The call, as Rust links it, over a table and buffers that are lent again and again.

use crate::shapes::Batch;

const TABLE: usize = 16_384;
/// Of a nullable byte.
const WIDENED: u8 = 2;
/// The buffers of schema-list.
pub const BUFFERS: (usize, usize) = (65_536, 65_536);
/// Buffers that suffice for every batch (include/fasthrom.h).
pub const ENOUGH: (usize, usize) = (2_097_152, 134_217_728);

#[repr(C)]
#[derive(Clone, Copy, Debug)]
pub struct Answer {
    pub refusal: u32,
    pub place: u32,
    pub field_records: u32,
    pub name_bytes: u32,
    pub columns: u32,
}

extern "C" {
    // a slice is passed as a pointer and a length
    fn fasthrom_trace(
        options: u16,
        commands: *const u8,
        commands_length: usize,
        text: *const u8,
        text_length: usize,
        table: *mut u32,
        table_length: usize,
        fields: *mut u8,
        fields_length: usize,
        names: *mut u8,
        names_length: usize,
    ) -> Answer;
}

pub struct Lent {
    table: Vec<u32>,
    fields: Vec<u8>,
    names: Vec<u8>,
}

impl Lent {
    /// A table, and buffers for so many bytes of fields and of names.
    pub fn new((fields, names): (usize, usize)) -> Self {
        Lent {
            table: vec![0; TABLE],
            fields: vec![0; fields],
            names: vec![0; names],
        }
    }

    pub fn trace(&mut self, batch: &Batch) -> Answer {
        // SAFETY: each pointer is that of a slice of its length, and no two of those that are written overlap
        unsafe {
            fasthrom_trace(
                batch.options,
                batch.commands.as_ptr(),
                batch.commands.len(),
                batch.text.as_ptr(),
                batch.text.len(),
                self.table.as_mut_ptr(),
                self.table.len(),
                self.fields.as_mut_ptr(),
                self.fields.len(),
                self.names.as_mut_ptr(),
                self.names.len(),
            )
        }
    }

    /// The field records and names that the last call wrote, with the mark of widened places taken off, which the Rust does not have.
    pub fn unmarked(&mut self, answer: Answer) -> (&[u8], &[u8]) {
        let records = &mut self.fields[..answer.field_records as usize * 8];
        records
            .iter_mut()
            .skip(1)
            .step_by(8)
            .for_each(|nullable| *nullable &= !WIDENED);
        (records, &self.names[..answer.name_bytes as usize])
    }
}
