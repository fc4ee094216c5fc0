//! The call itself: all that is unsafe in this crate.
#![allow(unsafe_code)]

/// What the call answers. On success refusal and place are 0, on a refusal every count is.
#[repr(C)]
#[derive(Clone, Copy, Debug, PartialEq, Eq)]
pub struct Answer {
    pub refusal: u32,
    pub place: u32,
    pub field_records: u32,
    pub name_bytes: u32,
    pub columns: u32,
}

extern "C" {
    // as in include/fasthrom.h: a slice is passed as a pointer and a length
    fn fasthrom_trace(
        options: u16,
        commands: *const u8,
        commands_length: usize,
        text: *const u8,
        text_length: usize,
        table: *mut u32,
        table_length: usize,
        fields: *mut u8,
        fields_length: usize,
        names: *mut u8,
        names_length: usize,
    ) -> Answer;
}

/// Makes the call over slices.
pub fn call(
    options: u16,
    commands: &[u8],
    text: &[u8],
    table: &mut [u32],
    fields: &mut [u8],
    names: &mut [u8],
) -> Answer {
    // SAFETY: the call asks that each pointer is not null and is that of as many elements as its length says, that all can be
    // read and the last three written for as long as the call runs, and that those three overlap nothing else. Each pair below
    // is a slice's own pointer and length, and the borrows say the rest. The call keeps no pointer, and asks nothing of
    // what the slices hold or of how long they are.
    unsafe {
        fasthrom_trace(
            options,
            commands.as_ptr(),
            commands.len(),
            text.as_ptr(),
            text.len(),
            table.as_mut_ptr(),
            table.len(),
            fields.as_mut_ptr(),
            fields.len(),
            names.as_mut_ptr(),
            names.len(),
        )
    }
}

#[cfg(test)]
mod tests;
