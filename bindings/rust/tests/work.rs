//! What is lent to the call: it grows, or it does not.

use fasthrom::{trace, Records, Refusal, TracingOptions, Work};

/// Two structs with a field of the same long name: the text has it once, the schema's names twice.
fn long_names(length: usize) -> Records {
    let name = "x".repeat(length);
    let mut records = Records::new();
    records
        .add(|record| {
            record.structure(|fields| {
                fields.field("a", |v| v.structure(|f| f.field(&name, |v| v.bool())));
                fields.field("b", |v| v.structure(|f| f.field(&name, |v| v.bool())));
            })
        })
        .unwrap();
    records
}

fn traced(records: &Records, work: &mut Work) -> Result<usize, Refusal> {
    let options = TracingOptions::default();
    trace(options, records.commands(), records.text(), work)
        .map(|schema| schema.names().len())
        .map_err(|refused| refused.refusal)
}

#[test]
fn a_new_one_grows() {
    let mut work = Work::new();
    assert_eq!(traced(&long_names(60_000), &mut work), Ok(120_002));
    // and is of use after that
    assert_eq!(traced(&long_names(10), &mut work), Ok(22));
}

#[test]
fn it_grows_more_than_once() {
    // five hundred fields of as many structs, each named by the whole text: 65,000 bytes come to 32 MB
    let name = "y".repeat(65_000);
    let mut records = Records::new();
    records
        .add(|record| {
            record.tuple(|items| {
                for _ in 0..500 {
                    items.item(|v| v.structure(|f| f.field(&name, |v| v.bool())));
                }
            })
        })
        .unwrap();
    let options = TracingOptions::default();
    let mut work = Work::new();
    let schema = trace(options, records.commands(), records.text(), &mut work).unwrap();
    assert_eq!(schema.columns(), 500);
    let positions = 10 + 90 * 2 + 400 * 3;
    assert_eq!(schema.names().len(), 500 * 65_000 + positions);
}

#[test]
fn a_fixed_one_does_not() {
    let records = long_names(10);
    assert_eq!(traced(&records, &mut Work::fixed(32, 22)), Ok(22));
    let short = Err(Refusal::ShortBuffer);
    assert_eq!(traced(&records, &mut Work::fixed(31, 22)), short);
    assert_eq!(traced(&records, &mut Work::fixed(32, 21)), short);
    assert_eq!(traced(&records, &mut Work::fixed(0, 0)), short);
}
