//! Stand-in for utils: fields are never read from values here.

pub mod value {
    use crate::internal::error::{fail, Result};

    pub fn transmute<T, U: serde::Serialize>(_value: U) -> Result<T> {
        fail!("fields are not read from values here");
    }
}
