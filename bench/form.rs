//! The two forms of a trace: document 01's, and document 02's with times of 6 bytes (L10).

#[derive(Clone, Copy, PartialEq)]
pub struct Form {
    /// The kind of a label block; that of an arrivals block is one more.
    pub label: u16,
    /// The bytes of a record: time (4 or 6), wire number (2), mark (1), zero (1).
    pub width: usize,
    /// The records of a full block.
    pub most: usize,
}

pub const ONE: Form = Form { label: 1, width: 8, most: 62 };
#[allow(dead_code)] // The calls are timed on form 1 only.
pub const TWO: Form = Form { label: 3, width: 10, most: 50 };
