//! The figures that document 02's Changes 3 and 4 set. They stand apart, so that the same text can be read with the figures before each
//! (`rust/before`).

/// "A number may have four groups, up to 268,435,455".
pub const MOST_GROUPS: usize = 4;

/// "the term file grows to 1,280 bytes"
pub const TERM_BYTES: usize = 1_280;

/// "tags 29 aenc, 30 adec, 31 pk, 32 sign, 33 verify, 34 true, with arities 2, 2, 1, 2, 3, 0"
pub const SIGNING: &[usize] = &[2, 2, 1, 2, 3, 0];
