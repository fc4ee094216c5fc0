//! Stand-in for the extension types, which tracing does not use.
