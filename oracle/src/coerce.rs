//! The joint of two primitive types (coerce_primitive_type), asked of a tracer that has seen the first.

use std::io::{self, Write};
use std::sync::Arc;

use marrow::datatypes::DataType;

use crate::codes;
use crate::internal::schema::tracer::Tracer;

/// The options that the joint reads: string_as_large_utf8, coerce_numbers, allow_to_string.
const READ: u16 = 1 << 3 | 1 << 6 | 1 << 7;
const ALL: u16 = (1 << 10) - 1;

fn joint(prev: &DataType, curr: &DataType, word: u16) -> Option<u8> {
    let options = Arc::new(codes::options(word));
    let mut tracer = Tracer::new(String::from("$"), String::from("$"), options);
    tracer
        .ensure_primitive(prev.clone())
        .expect("the first sight of a type");
    tracer.ensure_primitive(curr.clone()).ok()?;
    let Tracer::Primitive(tracer) = tracer else {
        panic!("a primitive type became {:?}", tracer.get_type());
    };
    Some(codes::code_of(&tracer.item_type))
}

/// A line `OPTIONS FIRST SECOND JOINT`, in decimal and `-` for none, for all pairs of types and all settings of the
/// options that the joint reads, the others all off and all on.
pub fn table(out: &mut impl Write) -> io::Result<()> {
    let types = codes::primitive_types();
    for word in 0..=ALL {
        if word & !READ != 0 && word & !READ != ALL & !READ {
            continue;
        }
        for prev in &types {
            for curr in &types {
                let (first, second) = (codes::code_of(prev), codes::code_of(curr));
                match joint(prev, curr, word) {
                    Some(code) => writeln!(out, "{word} {first} {second} {code}")?,
                    None => writeln!(out, "{word} {first} {second} -")?,
                }
            }
        }
    }
    Ok(())
}
