//! Safe wrappers over the functions that the libraries of probe/build export.
//! The unsafe code of the workspace is here, and in bench: a clock, the stack.
pub mod host;
pub mod probe;
