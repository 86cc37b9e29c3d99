//! What a call answers, laid out as in C. A refusal's number is 0 if there is none; what does not apply is 0.

/// The answer to folding: a refusal, or the figures of the table.
#[repr(C)]
#[derive(Clone, Copy, Default, Debug, PartialEq, Eq)]
pub struct FoldReply {
    pub number: u64,
    pub place: u64,
    pub points: u64,
    pub edges: u64,
    pub rank: u64,
    pub finite: u64,
    pub index: u64,
    pub start_points: u64,
    pub start_edges: u64,
    pub merging: u64,
    pub closing: u64,
}

/// The answer to a question: a refusal, or 1 for yes and 0 for no.
#[repr(C)]
#[derive(Clone, Copy, Default, Debug, PartialEq, Eq)]
pub struct YesReply {
    pub number: u64,
    pub place: u64,
    pub yes: u64,
}

/// The answer to expressing: a refusal, or 1 for a member and how many numbers were written, or 0.
#[repr(C)]
#[derive(Clone, Copy, Default, Debug, PartialEq, Eq)]
pub struct ExpressReply {
    pub number: u64,
    pub place: u64,
    pub yes: u64,
    pub count: u64,
}

/// The answer to checking a table: a refusal, or its counts.
#[repr(C)]
#[derive(Clone, Copy, Default, Debug, PartialEq, Eq)]
pub struct CheckReply {
    pub number: u64,
    pub place: u64,
    pub edges: u64,
    pub rank: u64,
    pub finite: u64,
    pub index: u64,
}

/// The answer to writing: a refusal, or how many words (0 where words are not told) and bytes.
#[repr(C)]
#[derive(Clone, Copy, Default, Debug, PartialEq, Eq)]
pub struct WrittenReply {
    pub number: u64,
    pub place: u64,
    pub words: u64,
    pub bytes: u64,
}

/// The answer to loading: a refusal and kind 0; a table, kind 1; or a list, kind 2, with its words and bytes.
#[repr(C)]
#[derive(Clone, Copy, Default, Debug, PartialEq, Eq)]
pub struct LoadReply {
    pub number: u64,
    pub place: u64,
    pub kind: u64,
    pub n: u64,
    pub points: u64,
    pub words: u64,
    pub bytes: u64,
}

/// Which of two lists is handed back (1 the first, 2 the second, 0 neither), and how many of its bytes.
#[repr(C)]
#[derive(Clone, Copy, Default, Debug, PartialEq, Eq)]
pub struct PartReply {
    pub which: u64,
    pub bytes: u64,
}
