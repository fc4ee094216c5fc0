"""The account held to what document 01 says of examples, to stored answers of the Rust, and to its own census."""
