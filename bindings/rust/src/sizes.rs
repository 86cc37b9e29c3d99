//! How long the buffers of a call must be.

/// The longest list or query that is not refused, in bytes.
pub const MOST_BYTES: usize = 1_048_576;

/// The most points of a table that is not refused.
pub const MOST_POINTS: u64 = 1_048_577;

/// How many cells a call needs. Longer buffers will do too.
#[derive(Clone, Copy, Debug, PartialEq, Eq)]
pub struct Sizes {
    /// Cells of the table.
    pub table: usize,
    /// Cells of the work buffer.
    pub work: usize,
}

/// The letters of a list as written: its bytes without the line ends.
///
/// ```
/// assert_eq!(subgroups::letters(b"abA\n\na\n"), 4);
/// ```
pub fn letters(list: &[u8]) -> usize {
    list.iter().filter(|&&byte| byte != b'\n').count()
}

/// The cells of a table of so many points over n generators. Of an n or of points that every call refuses it is 0.
///
/// ```
/// assert_eq!(subgroups::table_cells(2, 3), 12);
/// ```
pub fn table_cells(n: u64, points: u64) -> usize {
    let good = (1..=26).contains(&n) && points <= MOST_POINTS;
    if good {
        (points * 2 * n) as usize
    } else {
        0
    }
}

/// What [`fold`](crate::fold) needs. Of an n or a list length that it refuses it is 0 and 0.
///
/// ```
/// let sizes = subgroups::fold_sizes(2, b"ab\n");
/// assert_eq!((sizes.table, sizes.work), (12, 24));
/// ```
pub fn fold_sizes(n: u64, list: &[u8]) -> Sizes {
    if !(1..=26).contains(&n) || list.len() > MOST_BYTES {
        return Sizes { table: 0, work: 0 };
    }
    let rows = letters(list) + 1;
    Sizes { table: rows * 2 * n as usize, work: rows * 8 }
}

/// What [`ask`](crate::ask) needs. Of an n or a length that it refuses it is 0 and 0.
///
/// ```
/// let sizes = subgroups::ask_sizes(1, b"a\n", b"aaaaaaaaaaaaaaaaaaaa");
/// assert_eq!((sizes.table, sizes.work), (4, 20));
/// ```
pub fn ask_sizes(n: u64, list: &[u8], query: &[u8]) -> Sizes {
    if query.len() > MOST_BYTES {
        return Sizes { table: 0, work: 0 };
    }
    let sizes = fold_sizes(n, list);
    match sizes.table {
        0 => sizes,
        _ => Sizes { work: sizes.work.max(query.len()), ..sizes },
    }
}

/// The work cells that [`basis`](crate::basis) and `normal` need for a table of so many points. Of points that they
/// refuse it is 0.
///
/// ```
/// assert_eq!(subgroups::basis_work(2), 8);
/// ```
pub fn basis_work(points: u64) -> usize {
    if points <= MOST_POINTS {
        4 * points as usize
    } else {
        0
    }
}
