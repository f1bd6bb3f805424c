//! The refusals of documents 01 and 02 by their words; a comment gives the word where it is another.

pub const MODULUS: u32 = 1;
pub const ORDER: u32 = 2;
pub const EXPONENT: u32 = 3;
pub const VARIANT: u32 = 4;
pub const TAPE: u32 = 5;
pub const LENGTH: u32 = 6;
pub const WORD: u32 = 7;
pub const STRANGER: u32 = 8;
pub const REGISTER: u32 = 9;
pub const POSITION: u32 = 10;
pub const BASE: u32 = 11;
pub const RANGE: u32 = 12;
pub const INDEX: u32 = 13;
/// Document 02: crowd.
pub const COUNT: u32 = 14;
