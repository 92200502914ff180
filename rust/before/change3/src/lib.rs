//! The reference with the figures before document 02's Change 3: the same text, and a `figures` of its own.

/// How many groups a number may have, a term file's limit, and no functions behind the free ones.
pub mod figures {
    /// "three groups at most (2,097,151)"
    pub const MOST_GROUPS: usize = 3;

    /// "Term (1,024 bytes)"
    pub const TERM_BYTES: usize = 1_024;

    /// No function has a tag above 28.
    pub const SIGNING: &[usize] = &[];
}

include!("../../engine.rs");
