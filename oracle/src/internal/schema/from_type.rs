//! Stand-in for from-type tracing, which is left out.

use serde::Deserialize;

use super::{tracer::Tracer, TracingOptions};
use crate::internal::error::{fail, Result};

impl Tracer {
    pub fn from_type<'de, T: Deserialize<'de>>(_options: TracingOptions) -> Result<Self> {
        fail!("types are not traced here");
    }
}
