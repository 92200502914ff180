//! The reference with the figures before document 02's Change 4: the same text, and a `figures` of its own.

/// How many groups a number may have, a term file's limit, and no functions behind the free ones.
pub mod figures {
    /// "A number may have four groups, up to 268,435,455".
    pub const MOST_GROUPS: usize = 4;

    /// "the term file grows to 1,280 bytes"
    pub const TERM_BYTES: usize = 1_280;

    /// No function has a tag above 28.
    pub const SIGNING: &[usize] = &[];
}

include!("../../engine.rs");
