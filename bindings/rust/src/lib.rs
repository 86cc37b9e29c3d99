//! Subgroups of free groups: safe calls of the proved library `libsubgroups.a`.
//!
//! A list is words over a to z, where a capital is the inverse of its letter; a line end stands after each word. n is
//! the alphabet size, 1 to 26. The library folds a list into a canonical table, says which words are members, writes a
//! free basis, compares and saves.
//!
//! [`Subgroup`] owns its table, and is the shortest way:
//!
//! ```
//! use subgroups::Subgroup;
//! let h = Subgroup::fold(2, "aab\nba\n")?;
//! println!("{:?}: {}", h.basis()?, h.contains("aabba")?);
//! # Ok::<(), subgroups::Refusal>(())
//! ```
//!
//! The other functions take slices that the caller lends, and allocate nothing. [`fold_sizes`], [`ask_sizes`],
//! [`table_cells`] and [`basis_work`] tell how long these must be. Each call answers, or refuses with a [`Refusal`]
//! that prints what to mend. No call keeps a pointer or a state: threads may call at once, each with its own buffers.

#![warn(missing_docs)]

mod calls;
#[allow(missing_docs)]
mod raw;
mod refusal;
mod sizes;
mod subgroup;

pub use calls::{ask, basis, check, equal, fold, member, save_table, shorter};
pub use calls::{Counts, Folded, Shorter, Table, Written};
pub use refusal::{Cause, Refusal};
pub use sizes::{ask_sizes, basis_work, fold_sizes, letters, table_cells, Sizes, MOST_BYTES, MOST_POINTS};
pub use subgroup::Subgroup;

pub use calls::{express, load, normal, save_list, Loaded};
pub use subgroup::{loaded, saved_list, Saved};

/// The cell of a letter that leads nowhere.
pub const ABSENT: u32 = 4_294_967_295;

// The examples of the guide are run as tests.
#[cfg(doctest)]
#[doc = include_str!("../../../docs/USING.md")]
struct Using;
