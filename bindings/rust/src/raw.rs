//! The functions and replies as `include/subgroups.h` declares them. `scripts/boundary` compares the two, and both
//! with the library's source.

#[repr(C)]
pub struct FoldReply {
    pub number: u64,
    pub place: u64,
    pub points: u64,
    pub edges: u64,
    pub rank: u64,
    pub finite: u64,
    pub index: u64,
    pub start_points: u64,
    pub start_edges: u64,
    pub merging: u64,
    pub closing: u64,
}

#[repr(C)]
pub struct YesReply {
    pub number: u64,
    pub place: u64,
    pub yes: u64,
}

#[repr(C)]
pub struct CheckReply {
    pub number: u64,
    pub place: u64,
    pub edges: u64,
    pub rank: u64,
    pub finite: u64,
    pub index: u64,
}

#[repr(C)]
pub struct WrittenReply {
    pub number: u64,
    pub place: u64,
    pub words: u64,
    pub bytes: u64,
}

#[repr(C)]
pub struct PartReply {
    pub which: u64,
    pub bytes: u64,
}

#[repr(C)]
pub struct ExpressReply {
    pub number: u64,
    pub place: u64,
    pub yes: u64,
    pub count: u64,
}

#[repr(C)]
pub struct LoadReply {
    pub number: u64,
    pub place: u64,
    pub kind: u64,
    pub n: u64,
    pub points: u64,
    pub words: u64,
    pub bytes: u64,
}

extern "C" {
    pub fn subgroups_fold(
        n: u64,
        list: *const u8,
        list_len: usize,
        table: *mut u32,
        table_len: usize,
        work: *mut u32,
        work_len: usize,
    ) -> FoldReply;

    pub fn subgroups_ask(
        n: u64,
        list: *const u8,
        list_len: usize,
        query: *const u8,
        query_len: usize,
        table: *mut u32,
        table_len: usize,
        work: *mut u32,
        work_len: usize,
    ) -> YesReply;

    pub fn subgroups_check(n: u64, points: u64, table: *const u32, table_len: usize) -> CheckReply;

    pub fn subgroups_member(
        n: u64,
        points: u64,
        table: *const u32,
        table_len: usize,
        query: *const u8,
        query_len: usize,
        work: *mut u32,
        work_len: usize,
    ) -> YesReply;

    pub fn subgroups_equal(
        n: u64,
        points: u64,
        table: *const u32,
        table_len: usize,
        other_n: u64,
        other_points: u64,
        other: *const u32,
        other_len: usize,
    ) -> YesReply;

    pub fn subgroups_normal(
        n: u64,
        points: u64,
        table: *const u32,
        table_len: usize,
        work: *mut u32,
        work_len: usize,
    ) -> YesReply;

    pub fn subgroups_basis(
        n: u64,
        points: u64,
        table: *const u32,
        table_len: usize,
        work: *mut u32,
        work_len: usize,
        out: *mut u8,
        out_len: usize,
    ) -> WrittenReply;

    pub fn subgroups_express(
        n: u64,
        points: u64,
        table: *const u32,
        table_len: usize,
        query: *const u8,
        query_len: usize,
        work: *mut u32,
        work_len: usize,
        out: *mut i32,
        out_len: usize,
    ) -> ExpressReply;

    pub fn subgroups_shorter(
        n: u64,
        first: *const u8,
        first_len: usize,
        second: *const u8,
        second_len: usize,
    ) -> PartReply;

    pub fn subgroups_save_table(
        n: u64,
        points: u64,
        table: *const u32,
        table_len: usize,
        out: *mut u8,
        out_len: usize,
    ) -> WrittenReply;

    pub fn subgroups_save_list(n: u64, list: *const u8, list_len: usize, out: *mut u8, out_len: usize) -> WrittenReply;

    pub fn subgroups_load(
        file: *const u8,
        file_len: usize,
        table: *mut u32,
        table_len: usize,
        text: *mut u8,
        text_len: usize,
    ) -> LoadReply;
}
