//! Stand-in for the writing of schemas, which tracing does not use.

pub mod serialize {
    pub struct PrettyField;
}
