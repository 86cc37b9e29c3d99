//! The calls, on slices. Nothing here allocates.

use crate::raw;
use crate::Refusal;

// SAFETY, of every call of `raw` below: pointers and lengths are those of live slices, and Rust sees to it that a
// slice lent with `&mut` overlaps no other. The library asks nothing else of its callers.

/// A lent table: n, the points, and the cells, 2n for each point. Cells behind those are not looked at.
#[derive(Clone, Copy, Debug, PartialEq, Eq)]
pub struct Table<'a> {
    /// The alphabet size, 1 to 26.
    pub n: u64,
    /// The number of points.
    pub points: u64,
    /// The cells, row by row, letters in the order a, A, b, B, and so on.
    pub cells: &'a [u32],
}

/// The counts of a table.
#[derive(Clone, Copy, Debug, PartialEq, Eq)]
pub struct Counts {
    /// Edges of the graph.
    pub edges: u64,
    /// Rank of the subgroup.
    pub rank: u64,
    /// Index of the subgroup, or `None` where it is infinite.
    pub index: Option<u64>,
}

/// What folding tells.
#[derive(Clone, Copy, Debug, PartialEq, Eq)]
pub struct Folded {
    /// Points of the table.
    pub points: u64,
    /// Its counts.
    pub counts: Counts,
    /// Points of the start graph.
    pub start_points: u64,
    /// Edges of the start graph.
    pub start_edges: u64,
    /// Folds that merged two points.
    pub merging: u64,
    /// Folds that only took an edge away.
    pub closing: u64,
}

/// How much was written.
#[derive(Clone, Copy, Debug, PartialEq, Eq)]
pub struct Written {
    /// Words.
    pub words: u64,
    /// Bytes, from the start of the output.
    pub bytes: usize,
}

/// Which of two lists is the shorter, with the caller's own list.
#[derive(Clone, Copy, Debug, PartialEq, Eq)]
pub enum Shorter<'a> {
    /// The first, also on a tie.
    First(&'a [u8]),
    /// The second.
    Second(&'a [u8]),
    /// Neither: both lists are refused, or n is.
    Neither,
}

impl<'a> Shorter<'a> {
    /// The list, or nothing where it is neither.
    pub fn list(self) -> Option<&'a [u8]> {
        match self {
            Shorter::First(list) | Shorter::Second(list) => Some(list),
            Shorter::Neither => None,
        }
    }
}

/// What was loaded.
#[derive(Clone, Copy, Debug, PartialEq, Eq)]
pub enum Loaded {
    /// A table; its cells stand in the lent table.
    Table {
        /// The alphabet size.
        n: u64,
        /// The number of points.
        points: u64,
    },
    /// A list; it stands in the lent text.
    List {
        /// The alphabet size.
        n: u64,
        /// The number of words.
        words: u64,
        /// The length of the list in bytes.
        bytes: usize,
    },
}

fn index(finite: u64, index: u64) -> Option<u64> {
    (finite == 1).then_some(index)
}

/// Folds a list into its canonical table. [`fold_sizes`](crate::fold_sizes) tells how long table and work must be.
///
/// The table's first `points` rows are filled, and [`ABSENT`](crate::ABSENT) stands in the other cells needed; the work cells needed
/// are 0. Refused by 1, 2, 3 or 4, 5, 6, 7, in this order; then no cell changes.
///
/// ```
/// let list = b"bb\nbbb\n";
/// let sizes = subgroups::fold_sizes(2, list);
/// let (mut table, mut work) = (vec![0; sizes.table], vec![0; sizes.work]);
/// let folded = subgroups::fold(2, list, &mut table, &mut work)?;
/// assert_eq!((folded.points, folded.counts.rank, folded.counts.index), (1, 1, None));
/// assert_eq!((folded.start_points, folded.start_edges), (4, 5));
/// assert_eq!((folded.merging, folded.closing), (3, 1));
/// # Ok::<(), subgroups::Refusal>(())
/// ```
pub fn fold(n: u64, list: &[u8], table: &mut [u32], work: &mut [u32]) -> Result<Folded, Refusal> {
    let reply = unsafe {
        raw::subgroups_fold(
            n,
            list.as_ptr(),
            list.len(),
            table.as_mut_ptr(),
            table.len(),
            work.as_mut_ptr(),
            work.len(),
        )
    };
    Refusal::unless_0(reply.number, reply.place)?;
    Ok(Folded {
        points: reply.points,
        counts: Counts { edges: reply.edges, rank: reply.rank, index: index(reply.finite, reply.index) },
        start_points: reply.start_points,
        start_edges: reply.start_edges,
        merging: reply.merging,
        closing: reply.closing,
    })
}

/// Folds a list and says whether a query is a member. [`ask_sizes`](crate::ask_sizes) tells how long table and work must be.
///
/// The buffers are left as by [`fold`]. Refused by 1, 2, 3 or 4, 5, 6, 7, of each the list's before the query's; then
/// no cell changes. Fold the list alone to learn whose place it is.
///
/// ```
/// let (list, query) = (b"ab\n", b"aBbb");
/// let sizes = subgroups::ask_sizes(2, list, query);
/// let (mut table, mut work) = (vec![0; sizes.table], vec![0; sizes.work]);
/// assert!(subgroups::ask(2, list, query, &mut table, &mut work)?);
/// # Ok::<(), subgroups::Refusal>(())
/// ```
pub fn ask(n: u64, list: &[u8], query: &[u8], table: &mut [u32], work: &mut [u32]) -> Result<bool, Refusal> {
    let reply = unsafe {
        raw::subgroups_ask(
            n,
            list.as_ptr(),
            list.len(),
            query.as_ptr(),
            query.len(),
            table.as_mut_ptr(),
            table.len(),
            work.as_mut_ptr(),
            work.len(),
        )
    };
    answer(reply)
}

fn answer(reply: raw::YesReply) -> Result<bool, Refusal> {
    Refusal::unless_0(reply.number, reply.place)?;
    Ok(reply.yes == 1)
}

/// Counts edges, rank and index of a table. Refused by 1, 6, 8.
///
/// ```
/// let table = subgroups::Table { n: 1, points: 3, cells: &[1, 2, 2, 0, 0, 1] };
/// assert_eq!(subgroups::check(table)?.index, Some(3));
/// # Ok::<(), subgroups::Refusal>(())
/// ```
pub fn check(table: Table) -> Result<Counts, Refusal> {
    let reply = unsafe { raw::subgroups_check(table.n, table.points, table.cells.as_ptr(), table.cells.len()) };
    Refusal::unless_0(reply.number, reply.place)?;
    Ok(Counts { edges: reply.edges, rank: reply.rank, index: index(reply.finite, reply.index) })
}

/// Says whether a query is a member of a table's subgroup. Work: a cell for each byte of the query.
///
/// The work cells needed are 0 afterwards. Refused by 1, 2, 3 or 4, 6, 7, 8; then no cell changes.
///
/// ```
/// let table = subgroups::Table { n: 1, points: 3, cells: &[1, 2, 2, 0, 0, 1] };
/// let mut work = [0; 3];
/// assert!(subgroups::member(table, b"AAA", &mut work)?);
/// assert!(!subgroups::member(table, b"aa", &mut work)?);
/// # Ok::<(), subgroups::Refusal>(())
/// ```
pub fn member(table: Table, query: &[u8], work: &mut [u32]) -> Result<bool, Refusal> {
    let reply = unsafe {
        raw::subgroups_member(
            table.n,
            table.points,
            table.cells.as_ptr(),
            table.cells.len(),
            query.as_ptr(),
            query.len(),
            work.as_mut_ptr(),
            work.len(),
        )
    };
    answer(reply)
}

/// Says whether two tables are equal, so whether their subgroups are. Refused by 1, then 6 of the first, 6 of the
/// second, 8 of the first, 8 of the second.
///
/// ```
/// let two = subgroups::Table { n: 1, points: 2, cells: &[1, 1, 0, 0] };
/// let three = subgroups::Table { n: 1, points: 3, cells: &[1, 2, 2, 0, 0, 1] };
/// assert!(subgroups::equal(two, two)?);
/// assert!(!subgroups::equal(two, three)?);
/// # Ok::<(), subgroups::Refusal>(())
/// ```
pub fn equal(first: Table, second: Table) -> Result<bool, Refusal> {
    let reply = unsafe {
        raw::subgroups_equal(
            first.n,
            first.points,
            first.cells.as_ptr(),
            first.cells.len(),
            second.n,
            second.points,
            second.cells.as_ptr(),
            second.cells.len(),
        )
    };
    answer(reply)
}

/// Says whether a table's subgroup is normal. [`basis_work`](crate::basis_work) tells how long the work must be.
///
/// The work cells needed are 0 afterwards. Refused by 1, 6, 7, 8; then no cell changes.
///
/// ```
/// let table = subgroups::Table { n: 1, points: 3, cells: &[1, 2, 2, 0, 0, 1] };
/// assert!(subgroups::normal(table, &mut [0; 12])?);
/// # Ok::<(), subgroups::Refusal>(())
/// ```
pub fn normal(table: Table, work: &mut [u32]) -> Result<bool, Refusal> {
    let reply = unsafe {
        raw::subgroups_normal(
            table.n,
            table.points,
            table.cells.as_ptr(),
            table.cells.len(),
            work.as_mut_ptr(),
            work.len(),
        )
    };
    answer(reply)
}

/// Writes the basis of a table's subgroup as a list. [`basis_work`](crate::basis_work) tells how long the work must
/// be; with an empty output refusal 9 tells the length needed.
///
/// The work cells needed are 0 afterwards, and the output changes in the part written alone. Refused by 1, 6, 7, 8;
/// then nothing changes. Refused by 9: the work cells needed are 0, and the output does not change.
///
/// ```
/// let table = subgroups::Table { n: 2, points: 2, cells: &[1, 1, 0, 0, 0, 0, 1, 1] };
/// let (mut work, mut out) = ([0; 8], [0; 100]);
/// let written = subgroups::basis(table, &mut work, &mut out)?;
/// assert_eq!(written.words, 3);
/// assert_eq!(&out[..written.bytes], b"b\naa\nabA\n");
/// # Ok::<(), subgroups::Refusal>(())
/// ```
pub fn basis(table: Table, work: &mut [u32], out: &mut [u8]) -> Result<Written, Refusal> {
    let reply = unsafe {
        raw::subgroups_basis(
            table.n,
            table.points,
            table.cells.as_ptr(),
            table.cells.len(),
            work.as_mut_ptr(),
            work.len(),
            out.as_mut_ptr(),
            out.len(),
        )
    };
    Refusal::unless_0(reply.number, reply.place)?;
    Ok(Written { words: reply.words, bytes: reply.bytes as usize })
}

/// Expresses a query in the basis: k stands for basis word k, −k for its inverse. Gives how many numbers were
/// written, or `None` where the query is no member. Work: a cell for each byte of the query. An expression has at
/// most as many numbers as the query has letters.
///
/// The work cells needed are 0 afterwards, and the output changes in the part written alone. Refused by 1, 2, 3 or 4,
/// 6, 7, 8; then nothing changes. Refused by 9: the work cells needed are 0, and the output does not change.
///
/// ```
/// let table = subgroups::Table { n: 1, points: 3, cells: &[1, 2, 2, 0, 0, 1] };
/// let (mut work, mut out) = ([0; 3], [0; 3]);
/// assert_eq!(subgroups::express(table, b"AAA", &mut work, &mut out)?, Some(1));
/// assert_eq!(out[0], -1);
/// assert_eq!(subgroups::express(table, b"aa", &mut work, &mut out)?, None);
/// # Ok::<(), subgroups::Refusal>(())
/// ```
pub fn express(table: Table, query: &[u8], work: &mut [u32], out: &mut [i32]) -> Result<Option<usize>, Refusal> {
    let reply = unsafe {
        raw::subgroups_express(
            table.n,
            table.points,
            table.cells.as_ptr(),
            table.cells.len(),
            query.as_ptr(),
            query.len(),
            work.as_mut_ptr(),
            work.len(),
            out.as_mut_ptr(),
            out.len(),
        )
    };
    Refusal::unless_0(reply.number, reply.place)?;
    Ok((reply.yes == 1).then_some(reply.count as usize))
}

/// Says which of two lists has fewer letters as written, and hands it back: the first on a tie. A list that is
/// refused never comes before one that is not. Nothing is refused.
///
/// ```
/// use subgroups::{shorter, Shorter};
/// assert_eq!(shorter(2, b"aba\n", b"ab\n\n"), Shorter::Second(b"ab\n\n"));
/// assert_eq!(shorter(2, b"abab\n", b"c\n").list(), Some(&b"abab\n"[..]));
/// assert_eq!(shorter(27, b"", b""), Shorter::Neither);
/// ```
pub fn shorter<'a>(n: u64, first: &'a [u8], second: &'a [u8]) -> Shorter<'a> {
    let reply = unsafe { raw::subgroups_shorter(n, first.as_ptr(), first.len(), second.as_ptr(), second.len()) };
    match reply.which {
        1 => Shorter::First(first),
        2 => Shorter::Second(second),
        _ => Shorter::Neither,
    }
}

/// Saves a table as a file of kind 1 and gives its length. With an empty output refusal 9 tells the length needed.
///
/// The output changes in the part written alone. Refused by 1, 6, 8, 9; then nothing changes.
///
/// ```
/// let table = subgroups::Table { n: 1, points: 2, cells: &[1, 1, 0, 0] };
/// let mut out = [0; 100];
/// let length = subgroups::save_table(table, &mut out)?;
/// assert_eq!(&out[..length], [1, 1, 2, 2, 2, 1, 1]);
/// # Ok::<(), subgroups::Refusal>(())
/// ```
pub fn save_table(table: Table, out: &mut [u8]) -> Result<usize, Refusal> {
    let reply = unsafe {
        raw::subgroups_save_table(
            table.n,
            table.points,
            table.cells.as_ptr(),
            table.cells.len(),
            out.as_mut_ptr(),
            out.len(),
        )
    };
    Refusal::unless_0(reply.number, reply.place)?;
    Ok(reply.bytes as usize)
}

/// Saves a list as a file of kind 2 and gives its length. With an empty output refusal 9 tells the length needed.
///
/// The output changes in the part written alone. Refused by 1, 2, 3 or 4, 5, 9; then nothing changes.
///
/// ```
/// let mut out = [0; 100];
/// let length = subgroups::save_list(2, b"aB\n\n", &mut out)?;
/// assert_eq!(&out[..length], [2, 2, 2, 2, 0, 3, 0]);
/// # Ok::<(), subgroups::Refusal>(())
/// ```
pub fn save_list(n: u64, list: &[u8], out: &mut [u8]) -> Result<usize, Refusal> {
    let reply = unsafe { raw::subgroups_save_list(n, list.as_ptr(), list.len(), out.as_mut_ptr(), out.len()) };
    Refusal::unless_0(reply.number, reply.place)?;
    Ok(reply.bytes as usize)
}

/// Loads a file of either kind. A table of as many cells and a text of as many bytes as the file has bytes are long
/// enough for every file that is whole. The buffer of the other kind is not touched and may be empty.
///
/// Refused in the order of the file: its kind (10, 11), n (10, 1), the points (10, 6) or the number of words (10), the
/// other numbers (10 or 4), 12, then 8, or 2 and 9. Refused by 8: the table's cells are [`ABSENT`](crate::ABSENT).
/// Refused by another: nothing changes.
///
/// ```
/// use subgroups::{load, Loaded};
/// let (mut table, mut text) = ([7; 5], [7; 5]);
/// assert_eq!(load(&[1, 1, 2, 2, 2, 1, 1], &mut table, &mut [])?, Loaded::Table { n: 1, points: 2 });
/// assert_eq!(table, [1, 1, 0, 0, 7]);
/// assert_eq!(load(&[2, 2, 2, 2, 0, 3, 0], &mut [], &mut text)?, Loaded::List { n: 2, words: 2, bytes: 4 });
/// assert_eq!(&text, b"aB\n\n\x07");
/// # Ok::<(), subgroups::Refusal>(())
/// ```
pub fn load(file: &[u8], table: &mut [u32], text: &mut [u8]) -> Result<Loaded, Refusal> {
    let reply = unsafe {
        raw::subgroups_load(file.as_ptr(), file.len(), table.as_mut_ptr(), table.len(), text.as_mut_ptr(), text.len())
    };
    Refusal::unless_0(reply.number, reply.place)?;
    Ok(match reply.kind {
        1 => Loaded::Table { n: reply.n, points: reply.points },
        _ => Loaded::List { n: reply.n, words: reply.words, bytes: reply.bytes as usize },
    })
}
