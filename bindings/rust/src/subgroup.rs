//! A subgroup that owns its table. Buffers are allocated here; the library never allocates.

use crate::calls::{self, Counts, Folded, Table};
use crate::sizes::{basis_work, fold_sizes, table_cells};
use crate::{Cause, Refusal};

/// A subgroup of the free group over n generators, as its canonical table. Two are equal exactly if their subgroups
/// and their n are.
///
/// ```
/// use subgroups::Subgroup;
/// let h = Subgroup::fold(2, "aaB\nbAba\nabA\naaaaaa\n")?;
/// assert_eq!(h.counts()?.rank, 3);
/// assert!(h.contains("aba")?);
/// assert!(!h.contains("a")?);
/// assert_eq!(h.basis()?, ["b", "aa", "abA"]);
/// assert_eq!(h, Subgroup::fold(2, "abA\naa\nb\n")?);
/// # Ok::<(), subgroups::Refusal>(())
/// ```
#[derive(Clone, Debug, PartialEq, Eq, Hash)]
pub struct Subgroup {
    n: u64,
    points: u64,
    cells: Vec<u32>, // 2n for each point, canonical
}

/// What a saved file held.
#[derive(Clone, Debug, PartialEq, Eq)]
pub enum Saved {
    /// A table.
    Table(Subgroup),
    /// A list.
    List {
        /// The alphabet size.
        n: u64,
        /// The list as text.
        list: String,
    },
}

impl Subgroup {
    /// Folds a list: words over a to z, where a capital is the inverse, each ended by a line end. Refused by 1, 2, 3
    /// or 4, 5.
    ///
    /// ```
    /// let refusal = subgroups::Subgroup::fold(1, "aaa").unwrap_err();
    /// assert_eq!(refusal.to_string(), "line end missing at byte 3: each word of a list needs one");
    /// ```
    pub fn fold(n: u64, list: impl AsRef<[u8]>) -> Result<Subgroup, Refusal> {
        Ok(Subgroup::folded(n, list)?.0)
    }

    /// Folds a list, and tells the start graph and the folds too.
    ///
    /// ```
    /// let (_, folded) = subgroups::Subgroup::folded(2, "ab\nab\n")?;
    /// assert_eq!((folded.merging, folded.closing), (1, 1));
    /// # Ok::<(), subgroups::Refusal>(())
    /// ```
    pub fn folded(n: u64, list: impl AsRef<[u8]>) -> Result<(Subgroup, Folded), Refusal> {
        let list = list.as_ref();
        let sizes = fold_sizes(n, list);
        let (mut cells, mut work) = (vec![0; sizes.table], vec![0; sizes.work]);
        let folded = calls::fold(n, list, &mut cells, &mut work)?;
        cells.truncate(table_cells(n, folded.points));
        cells.shrink_to_fit();
        Ok((Subgroup { n, points: folded.points, cells }, folded))
    }

    /// Takes the cells of a table, 2n for each point; cells behind those are dropped. Refused by 1, 6, 8.
    ///
    /// ```
    /// let h = subgroups::Subgroup::from_cells(1, 2, vec![1, 1, 0, 0])?;
    /// assert!(h.contains("aa")?);
    /// # Ok::<(), subgroups::Refusal>(())
    /// ```
    pub fn from_cells(n: u64, points: u64, mut cells: Vec<u32>) -> Result<Subgroup, Refusal> {
        calls::check(Table { n, points, cells: &cells })?;
        cells.truncate(table_cells(n, points));
        Ok(Subgroup { n, points, cells })
    }

    /// The table, to lend to the calls on slices.
    pub fn table(&self) -> Table<'_> {
        Table { n: self.n, points: self.points, cells: &self.cells }
    }

    /// Edges, rank and index. Nothing is refused.
    pub fn counts(&self) -> Result<Counts, Refusal> {
        calls::check(self.table())
    }

    /// Whether a word is a member. Refused by 2, 3 or 4.
    pub fn contains(&self, query: impl AsRef<[u8]>) -> Result<bool, Refusal> {
        let query = query.as_ref();
        calls::member(self.table(), query, &mut vec![0; query.len()])
    }

    /// Whether both are the same subgroup. Refused by 1 where n differs.
    pub fn equals(&self, other: &Subgroup) -> Result<bool, Refusal> {
        calls::equal(self.table(), other.table())
    }

    /// The basis as a list. Nothing is refused. It has up to rank × 2 × points bytes, so that of a large table may not
    /// fit the memory.
    ///
    /// ```
    /// let h = subgroups::Subgroup::fold(2, "bb\nbbb\n")?;
    /// assert_eq!(h.basis_list()?, "b\n");
    /// # Ok::<(), subgroups::Refusal>(())
    /// ```
    pub fn basis_list(&self) -> Result<String, Refusal> {
        let mut work = vec![0; basis_work(self.points)];
        let out = measured(|out| Ok(calls::basis(self.table(), &mut work, out)?.bytes))?;
        Ok(text(out))
    }

    /// The words of the basis. Nothing is refused.
    pub fn basis(&self) -> Result<Vec<String>, Refusal> {
        Ok(self.basis_list()?.lines().map(String::from).collect())
    }

    /// The table as a file of kind 1. Nothing is refused.
    ///
    /// ```
    /// let h = subgroups::Subgroup::fold(2, "abA\n")?;
    /// assert_eq!(h.save()?, [1, 2, 2, 2, 0, 0, 0, 0, 1, 2, 2]);
    /// # Ok::<(), subgroups::Refusal>(())
    /// ```
    pub fn save(&self) -> Result<Vec<u8>, Refusal> {
        measured(|out| calls::save_table(self.table(), out))
    }

    /// Whether the subgroup is normal. Nothing is refused.
    ///
    /// ```
    /// use subgroups::Subgroup;
    /// assert!(Subgroup::fold(2, "aaB\nbAba\nabA\naaaaaa\n")?.is_normal()?);
    /// assert!(!Subgroup::fold(2, "abA\n")?.is_normal()?);
    /// # Ok::<(), subgroups::Refusal>(())
    /// ```
    pub fn is_normal(&self) -> Result<bool, Refusal> {
        calls::normal(self.table(), &mut vec![0; basis_work(self.points)])
    }

    /// A word in the basis: k for basis word k, −k for its inverse; `None` where it is no member. Refused by 2, 3 or 4.
    ///
    /// ```
    /// let h = subgroups::Subgroup::fold(2, "aaB\nbAba\nabA\naaaaaa\n")?;
    /// assert_eq!(h.express("bAba")?, Some(vec![1, -2, 3, 2]));
    /// assert_eq!(h.express("a")?, None);
    /// # Ok::<(), subgroups::Refusal>(())
    /// ```
    pub fn express(&self, query: impl AsRef<[u8]>) -> Result<Option<Vec<i32>>, Refusal> {
        let query = query.as_ref();
        let (mut work, mut out) = (vec![0; query.len()], vec![0; query.len()]);
        let count = calls::express(self.table(), query, &mut work, &mut out)?;
        Ok(count.map(|count| {
            out.truncate(count);
            out
        }))
    }
}

/// A list as a file of kind 2. Refused by 1, 2, 3 or 4, 5.
///
/// ```
/// assert_eq!(subgroups::saved_list(2, "aB\n\n")?, [2, 2, 2, 2, 0, 3, 0]);
/// # Ok::<(), subgroups::Refusal>(())
/// ```
pub fn saved_list(n: u64, list: impl AsRef<[u8]>) -> Result<Vec<u8>, Refusal> {
    measured(|out| calls::save_list(n, list.as_ref(), out))
}

/// Loads a file of either kind. Refused as by [`load`](crate::load), but never by 9; refused by 6, the file says no
/// points, or more than it has bytes for.
///
/// ```
/// use subgroups::{loaded, Saved, Subgroup};
/// let h = Subgroup::fold(2, "abA\n")?;
/// assert_eq!(loaded(&h.save()?)?, Saved::Table(h));
/// # Ok::<(), subgroups::Refusal>(())
/// ```
pub fn loaded(file: &[u8]) -> Result<Saved, Refusal> {
    // Each cell, each letter and each line end stands for a byte of the file at least.
    let (mut cells, mut list) = (vec![0; file.len()], vec![0; file.len()]);
    Ok(match calls::load(file, &mut cells, &mut list)? {
        calls::Loaded::Table { n, points } => {
            cells.truncate(table_cells(n, points));
            Saved::Table(Subgroup { n, points, cells })
        }
        calls::Loaded::List { n, bytes, .. } => {
            list.truncate(bytes);
            Saved::List { n, list: text(list) }
        }
    })
}

/// What `write` writes, into an output as long as its refusal of an empty one asks for.
fn measured(mut write: impl FnMut(&mut [u8]) -> Result<usize, Refusal>) -> Result<Vec<u8>, Refusal> {
    let mut out = Vec::new();
    match write(&mut out) {
        Err(Refusal { cause: Cause::Output, place }) => out.resize(place as usize, 0),
        other => return other.map(|_| out),
    }
    write(&mut out)?;
    Ok(out)
}

/// Letters and line ends as text.
fn text(bytes: Vec<u8>) -> String {
    String::from_utf8(bytes).expect("letters and line ends are ASCII")
}
