//! Stand-in for the crate chrono: an error that never comes. The tracer parses no date; its matchers are its own.

pub mod format {
    use std::convert::Infallible;
    use std::fmt::{Display, Formatter, Result};

    #[derive(Debug)]
    pub struct ParseError(Infallible);

    impl Display for ParseError {
        fn fmt(&self, _: &mut Formatter<'_>) -> Result {
            match self.0 {}
        }
    }

    impl std::error::Error for ParseError {}
}
