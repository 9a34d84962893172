//! Document 01's answer numbers under their names.

pub const WRONG_LENGTH: u8 = 1;
pub const NO_WORD: u8 = 2;
pub const CHECK_BITS: u8 = 3;
pub const HEADER_CHECK: u8 = 4;
pub const OTHER_CHANNEL: u8 = 5;
pub const HEADER_FORM: u8 = 6;
pub const BLOCKS_OR_PADDING: u8 = 7;
pub const OUT_OF_STEP: u8 = 8;
pub const ONE_TOO_MANY: u8 = 9;
pub const TOO_SHORT: u8 = 10;
pub const OUTSIDE_RULE: u8 = 11;
pub const BAD_LINE: u8 = 12;
pub const NOT_THIS_GROUP: u8 = 13;
pub const OVER_260: u8 = 14;
