//! Turns a few ferries' returns into commands and prints the schema:
//!
//!     cargo run --example ferries

use std::error::Error;

use fasthrom::{trace, Done, Records, TracingOptions, Value, Work};

/// What a return says of a ferry. Of a number the schema asks only the kind, so only the kind is here.
struct Ferry {
    name: &'static str,
    length: Length,
    has_berth: bool,
    arrival: &'static str,
    calls: Vec<&'static str>,
    state: State,
}

/// Operators write lengths with or without a fraction.
enum Length {
    Whole,
    Fraction,
}

enum State {
    Sailing,
    /// By how many minutes, in the return.
    Delayed,
}

fn write_state<'a>(state: &State, value: Value<'a>) -> Done<'a> {
    match state {
        State::Sailing => value.unit_variant(0, "Sailing"),
        State::Delayed => value.struct_variant(1, "Delayed", |fields| {
            fields.field("minutes", |v| v.u16());
        }),
    }
}

/// A text is told whole, since it may be a date.
fn write_ferry<'a>(ferry: &Ferry, record: Value<'a>) -> Done<'a> {
    record.structure(|fields| {
        fields.field("name", |v| v.text(ferry.name));
        fields.field("length", |v| match ferry.length {
            Length::Whole => v.u16(),
            Length::Fraction => v.f64(),
        });
        fields.field("berth", |v| match ferry.has_berth {
            true => v.some(|v| v.u8()),
            false => v.none(),
        });
        fields.field("arrival", |v| v.text(ferry.arrival));
        fields.field("calls", |v| {
            v.sequence(|items| {
                for call in &ferry.calls {
                    items.item(|v| v.text(call));
                }
            })
        });
        fields.field("state", |v| write_state(&ferry.state, v));
    })
}

fn main() -> Result<(), Box<dyn Error>> {
    let ferries = [
        Ferry {
            name: "Vega",
            length: Length::Whole,
            has_berth: true,
            arrival: "2024-01-02T03:04:05Z",
            calls: vec!["Havn", "Sund"],
            state: State::Sailing,
        },
        Ferry {
            name: "Lyra",
            length: Length::Fraction,
            has_berth: false,
            arrival: "2024-01-02T04:10:00Z",
            calls: vec![],
            state: State::Delayed,
        },
    ];

    let mut records = Records::new();
    for ferry in &ferries {
        records.add(|record| write_ferry(ferry, record))?;
    }
    let options = TracingOptions::default()
        .coerce_numbers(true)
        .guess_dates(true)
        .allow_null_fields(true);
    let mut work = Work::new();
    let schema = trace(options, records.commands(), records.text(), &mut work)?;
    print!("{schema}");
    println!("{} columns", schema.columns());

    // without coerce_numbers the two lengths do not go together
    let strict = options.coerce_numbers(false);
    if let Err(refused) = trace(strict, records.commands(), records.text(), &mut work) {
        println!("without coerce_numbers: {refused}");
    }
    Ok(())
}
