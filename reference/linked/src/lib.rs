//! The proved library, called through include/fibexp.h; reference::drawing has inputs to call it with.
//!
//! `random` calls every service of the C interface with drawn inputs and compares the answers with
//! this implementation's; `bench` measures both. They share the numbers of documents 01 and 02 and the
//! declarations of the header with the proved crates, and nothing else.

pub mod lent;
pub mod proved;
pub mod tally;
