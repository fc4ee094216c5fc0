//! The published files under the paths that they name each other by.
pub mod chrono;
pub mod error;
pub mod schema;
pub mod utils;
