//! From observed records to the fields of a schema: the call of `libfasthrom.a`, made for use from Rust.
//!
//! [`Records`] turns records into the bytes that the call reads, [`trace`] makes the call, and [`Schema`] is what it answers.
//! Everything is decided by the proved library; nothing here decides about types.
//!
//! ```
//! use fasthrom::{trace, DataType, Records, TracingOptions, Work};
//!
//! let mut records = Records::new();
//! records.add(|record| {
//!     record.structure(|fields| {
//!         fields.field("length", |value| value.f64());
//!         fields.field("name", |value| value.text("Vega"));
//!     })
//! })?;
//! records.add(|record| {
//!     record.structure(|fields| fields.field("length", |value| value.u32()))
//! })?;
//!
//! let options = TracingOptions::default().coerce_numbers(true);
//! let schema = trace(options, records.commands(), records.text(), &mut Work::new())?;
//! let [length, name] = &schema.fields()[..] else { panic!("two fields") };
//! assert_eq!(length.data_type, DataType::Float64);
//! assert!(length.widened && !length.nullable);
//! assert!(name.nullable && !name.widened);
//! # Ok::<(), Box<dyn std::error::Error>>(())
//! ```

// the tests of the call share random records with those under tests/
#[cfg(test)]
extern crate self as fasthrom;

mod call;
mod data_type;
mod options;
mod records;
mod refused;
mod schema;
mod work;

pub use data_type::{DataType, Strategy, Zone};
pub use options::TracingOptions;
pub use records::{Done, Entries, Fields, Full, Items, Records, Value};
pub use refused::{Refusal, Refused};
pub use schema::{Field, Schema};
pub use work::Work;

/// The most bytes that commands may have, and that the text may have.
pub const INPUT_LIMIT: usize = 65_535;

/// Traces a batch: the whole schema, or why there is none.
///
/// Any bytes may be handed in; what is no batch is refused. `work` is what the call works in; a caller that traces often keeps
/// one and lends it each time. What it held before makes no difference to the answer, but for its size: see [`Work`].
pub fn trace(
    options: TracingOptions,
    commands: &[u8],
    text: &[u8],
    work: &mut Work,
) -> Result<Schema, Refused> {
    loop {
        let answer = work.call(options.word(), commands, text);
        let Some(refusal) = Refusal::from_number(answer.refusal) else {
            return Ok(work.schema(&answer));
        };
        if refusal != Refusal::ShortBuffer || !work.grow() {
            let place = answer.place;
            return Err(Refused { refusal, place });
        }
    }
}
