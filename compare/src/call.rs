//! The call, as Rust links it, over a table and buffers that hold a pattern, so that all it changes is seen.

/// Words that a call uses.
pub const TABLE: usize = 16_384;

const BYTE: u8 = 0xA5;
const WORD: u32 = 0xA5A5_A5A5;
/// What stands behind each slice that is lent, and must never change.
const BEHIND: usize = 16;

#[repr(C)]
struct Answer {
    refusal: u32,
    place: u32,
    field_records: u32,
    name_bytes: u32,
    columns: u32,
}

extern "C" {
    // a slice is passed as a pointer and a length
    fn fasthrom_trace(
        options: u16,
        commands: *const u8,
        commands_length: usize,
        text: *const u8,
        text_length: usize,
        table: *mut u32,
        table_length: usize,
        fields: *mut u8,
        fields_length: usize,
        names: *mut u8,
        names_length: usize,
    ) -> Answer;
}

pub struct Question<'a> {
    pub options: u16,
    pub commands: &'a [u8],
    pub text: &'a [u8],
}

/// How much is lent: words of the table, bytes of each buffer.
#[derive(Clone, Copy, Debug)]
pub struct Lent {
    pub table: usize,
    pub fields: usize,
    pub names: usize,
}

#[derive(Clone, PartialEq, Eq, Debug)]
pub enum Answered {
    Schema {
        records: Vec<u8>,
        names: Vec<u8>,
        columns: u32,
    },
    Refused {
        number: u32,
        place: u32,
    },
}

/// What must hold of every answer and does not.
pub type Broken = &'static str;

/// Whether all are the same as one: the first is, and each is as the one before it (which is fast to compare).
fn same<T: PartialEq>(all: &[T], one: T) -> bool {
    all.is_empty() || all[0] == one && all[1..] == all[..all.len() - 1]
}

fn written<'a>(buffer: &'a [u8], bytes: usize, lent: usize) -> Result<&'a [u8], Broken> {
    if bytes > lent {
        return Err("more is counted than was lent");
    }
    if !same(&buffer[bytes..], BYTE) {
        return Err("a buffer is changed past what is written");
    }
    Ok(&buffer[..bytes])
}

fn check_table(table: &[u32], refusal: u32) -> Result<(), Broken> {
    if (1..=3).contains(&refusal) {
        return if same(table, WORD) { Ok(()) } else { Err("refusals 1 to 3 leave the table alone") };
    }
    if table.len() < TABLE || !same(&table[..TABLE], 0) {
        return Err("the table is not zeroed");
    }
    if !same(&table[TABLE..], WORD) {
        return Err("the table is changed past its 16,384 words");
    }
    Ok(())
}

/// Makes the call, and tests what must hold of every answer.
pub fn call(question: &Question, lent: Lent) -> Result<Answered, Broken> {
    let mut table = vec![WORD; lent.table + BEHIND];
    let mut fields = vec![BYTE; lent.fields + BEHIND];
    let mut names = vec![BYTE; lent.names + BEHIND];
    // SAFETY: each pointer is that of a slice of its length, and no two of those that are written overlap
    let answer = unsafe {
        fasthrom_trace(
            question.options,
            question.commands.as_ptr(),
            question.commands.len(),
            question.text.as_ptr(),
            question.text.len(),
            table.as_mut_ptr(),
            lent.table,
            fields.as_mut_ptr(),
            lent.fields,
            names.as_mut_ptr(),
            lent.names,
        )
    };
    check_table(&table, answer.refusal)?;
    let records = written(&fields, answer.field_records as usize * 8, lent.fields)?;
    let names = written(&names, answer.name_bytes as usize, lent.names)?;
    if answer.refusal == 0 {
        if answer.place != 0 {
            return Err("a schema has a place");
        }
        return Ok(Answered::Schema {
            records: records.to_vec(),
            names: names.to_vec(),
            columns: answer.columns,
        });
    }
    if answer.field_records != 0 || answer.name_bytes != 0 || answer.columns != 0 {
        return Err("a refusal has counts");
    }
    Ok(Answered::Refused {
        number: answer.refusal,
        place: answer.place,
    })
}
