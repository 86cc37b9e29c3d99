//! The proved library, called through its C interface.
#![allow(dead_code)] // the benchmark does not call all of it

use crate::replies::{CheckReply, ExpressReply, FoldReply, LoadReply, PartReply, WrittenReply, YesReply};

extern "C" {
    fn subgroups_fold(
        n: u64, list: *const u8, list_len: usize,
        table: *mut u32, table_len: usize, work: *mut u32, work_len: usize,
    ) -> FoldReply;
    fn subgroups_ask(
        n: u64, list: *const u8, list_len: usize, query: *const u8, query_len: usize,
        table: *mut u32, table_len: usize, work: *mut u32, work_len: usize,
    ) -> YesReply;
    fn subgroups_check(n: u64, points: u64, table: *const u32, table_len: usize) -> CheckReply;
    fn subgroups_member(
        n: u64, points: u64, table: *const u32, table_len: usize,
        query: *const u8, query_len: usize, work: *mut u32, work_len: usize,
    ) -> YesReply;
    fn subgroups_equal(
        n: u64, points: u64, table: *const u32, table_len: usize,
        other_n: u64, other_points: u64, other: *const u32, other_len: usize,
    ) -> YesReply;
    fn subgroups_normal(
        n: u64, points: u64, table: *const u32, table_len: usize, work: *mut u32, work_len: usize,
    ) -> YesReply;
    fn subgroups_express(
        n: u64, points: u64, table: *const u32, table_len: usize,
        query: *const u8, query_len: usize,
        work: *mut u32, work_len: usize, out: *mut i32, out_len: usize,
    ) -> ExpressReply;
    fn subgroups_basis(
        n: u64, points: u64, table: *const u32, table_len: usize,
        work: *mut u32, work_len: usize, out: *mut u8, out_len: usize,
    ) -> WrittenReply;
    fn subgroups_save_table(
        n: u64, points: u64, table: *const u32, table_len: usize, out: *mut u8, out_len: usize,
    ) -> WrittenReply;
    fn subgroups_save_list(
        n: u64, list: *const u8, list_len: usize, out: *mut u8, out_len: usize,
    ) -> WrittenReply;
    fn subgroups_load(
        file: *const u8, file_len: usize, table: *mut u32, table_len: usize, text: *mut u8, text_len: usize,
    ) -> LoadReply;
    fn subgroups_shorter(
        n: u64, first: *const u8, first_len: usize, second: *const u8, second_len: usize,
    ) -> PartReply;
}

// SAFETY, of every call below: the pointers and lengths are those of live slices that do not overlap.

/// Folds a list into the lent table.
pub fn fold(n: u64, list: &[u8], table: &mut [u32], work: &mut [u32]) -> FoldReply {
    unsafe {
        subgroups_fold(
            n, list.as_ptr(), list.len(),
            table.as_mut_ptr(), table.len(), work.as_mut_ptr(), work.len(),
        )
    }
}

/// Folds a list and answers one query.
pub fn ask(n: u64, list: &[u8], query: &[u8], table: &mut [u32], work: &mut [u32]) -> YesReply {
    unsafe {
        subgroups_ask(
            n, list.as_ptr(), list.len(), query.as_ptr(), query.len(),
            table.as_mut_ptr(), table.len(), work.as_mut_ptr(), work.len(),
        )
    }
}

/// Counts edges, rank and index of a lent table.
pub fn check(n: u64, points: u64, table: &[u32]) -> CheckReply {
    unsafe { subgroups_check(n, points, table.as_ptr(), table.len()) }
}

/// Answers one query on a lent table.
pub fn member(n: u64, points: u64, table: &[u32], query: &[u8], work: &mut [u32]) -> YesReply {
    unsafe {
        subgroups_member(
            n, points, table.as_ptr(), table.len(),
            query.as_ptr(), query.len(), work.as_mut_ptr(), work.len(),
        )
    }
}

/// Compares two lent tables.
pub fn equal(n: u64, points: u64, table: &[u32], other_n: u64, other_points: u64, other: &[u32]) -> YesReply {
    unsafe {
        subgroups_equal(
            n, points, table.as_ptr(), table.len(),
            other_n, other_points, other.as_ptr(), other.len(),
        )
    }
}

/// Says whether the subgroup of a lent table is normal.
pub fn normal(n: u64, points: u64, table: &[u32], work: &mut [u32]) -> YesReply {
    unsafe {
        subgroups_normal(n, points, table.as_ptr(), table.len(), work.as_mut_ptr(), work.len())
    }
}

/// Expresses one query in the basis of a lent table.
pub fn express(
    n: u64, points: u64, table: &[u32], query: &[u8], work: &mut [u32], out: &mut [i32],
) -> ExpressReply {
    unsafe {
        subgroups_express(
            n, points, table.as_ptr(), table.len(),
            query.as_ptr(), query.len(),
            work.as_mut_ptr(), work.len(), out.as_mut_ptr(), out.len(),
        )
    }
}

/// Writes the basis of a lent table.
pub fn basis(n: u64, points: u64, table: &[u32], work: &mut [u32], out: &mut [u8]) -> WrittenReply {
    unsafe {
        subgroups_basis(
            n, points, table.as_ptr(), table.len(),
            work.as_mut_ptr(), work.len(), out.as_mut_ptr(), out.len(),
        )
    }
}

/// Saves a lent table.
pub fn save_table(n: u64, points: u64, table: &[u32], out: &mut [u8]) -> WrittenReply {
    unsafe {
        subgroups_save_table(n, points, table.as_ptr(), table.len(), out.as_mut_ptr(), out.len())
    }
}

/// Saves a list.
pub fn save_list(n: u64, list: &[u8], out: &mut [u8]) -> WrittenReply {
    unsafe {
        subgroups_save_list(n, list.as_ptr(), list.len(), out.as_mut_ptr(), out.len())
    }
}

/// Loads a file of either kind.
pub fn load(file: &[u8], table: &mut [u32], text: &mut [u8]) -> LoadReply {
    unsafe {
        subgroups_load(
            file.as_ptr(), file.len(),
            table.as_mut_ptr(), table.len(), text.as_mut_ptr(), text.len(),
        )
    }
}

/// Says which of two lists is the shorter.
pub fn shorter(n: u64, first: &[u8], second: &[u8]) -> PartReply {
    unsafe {
        subgroups_shorter(n, first.as_ptr(), first.len(), second.as_ptr(), second.len())
    }
}
