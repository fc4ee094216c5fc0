//! Stand-in for the crate bytemuck: an error that never comes.

use std::convert::Infallible;
use std::fmt::{Display, Formatter, Result};

#[derive(Debug)]
pub struct PodCastError(Infallible);

impl Display for PodCastError {
    fn fmt(&self, _: &mut Formatter<'_>) -> Result {
        match self.0 {}
    }
}
