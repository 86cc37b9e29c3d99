//! Expressing in plain Rust, by the same marks: the edges outside the paths are told from the table alone, and
//! numbered from a few tallies left in the work cells of the query.
#![allow(dead_code)] // the benchmark does not call all of it

use super::tables::{cause_6, short, Lent};
use super::{cause_1, cause_2, cause_3_or_4, reduce, Refused, ABSENT};
use crate::replies::ExpressReply;

/// The greatest point met, and how many edges outside the paths there are, up to some place of a table.
#[derive(Clone, Copy, Default)]
struct Tally {
    met: u32,
    edges: u32,
}

impl Lent<'_> {
    /// The place of the cell that leads back to x where letter z leads from it; behind all places if it is absent.
    fn place_back(&self, x: usize, z: usize) -> usize {
        match self.row(x)[z] {
            ABSENT => self.cells.len(),
            u => u as usize * self.width + (z ^ 1),
        }
    }

    /// The place where x is first met; behind all places for the base.
    fn step_place(&self, x: usize) -> usize {
        let places = (0..self.width).map(|z| self.place_back(x, z));
        if x == 0 { self.cells.len() } else { places.min().unwrap_or(self.cells.len()) }
    }

    /// No path uses the edge of letter y at v: the row of its greater end tells.
    fn is_outside(&self, v: usize, y: usize) -> bool {
        let x = self.row(v)[y] as usize;
        match x.cmp(&v) {
            std::cmp::Ordering::Equal => true,
            std::cmp::Ordering::Less => self.place_back(v, y) != self.step_place(v),
            std::cmp::Ordering::Greater => v * self.width + y != self.step_place(x),
        }
    }

    /// Passes the cells of row v of letters below `upto`.
    fn pass_cells(&self, v: usize, upto: usize, mut tally: Tally) -> Tally {
        let first = self.step_place(v);
        for (y, &x) in self.row(v)[..upto].iter().enumerate() {
            if x == ABSENT {
                continue;
            }
            if x > tally.met {
                tally.met = x;
            } else if y % 2 == 0 && self.place_back(v, y) != first {
                tally.edges += 1;
            }
        }
        tally
    }

    fn pass_rows(&self, rows: std::ops::Range<usize>, tally: Tally) -> Tally {
        rows.fold(tally, |tally, v| self.pass_cells(v, self.width, tally))
    }

    /// How many rows the marks leave from one to the next.
    fn run_of(&self, marks: usize) -> usize {
        self.points / (marks + 1) + 1
    }

    /// The row of mark j.
    fn mark_row(&self, marks: usize, j: usize) -> usize {
        (j * self.run_of(marks)).min(self.points)
    }

    /// Leaves the tally before each mark's row in the work cells.
    fn mark(&self, work: &mut [u32], marks: usize) {
        let (mut tally, mut row) = (Tally::default(), 0);
        for j in 0..marks {
            let to = self.mark_row(marks, j + 1);
            tally = self.pass_rows(row..to, tally);
            (work[2 * j], work[2 * j + 1]) = (tally.met, tally.edges);
            row = to;
        }
    }

    /// The number of the edge of lower-case letter y at v: from the last mark before its row on.
    fn number_of(&self, work: &[u32], marks: usize, v: usize, y: usize) -> u32 {
        let j = v / self.run_of(marks);
        let tally = match j {
            0 => Tally::default(),
            _ => Tally { met: work[2 * j - 2], edges: work[2 * j - 1] },
        };
        let before = self.pass_rows(self.mark_row(marks, j)..v, tally);
        self.pass_cells(v, y, before).edges + 1
    }

    /// Calls `each` for the edges outside the paths that the word crosses from the base: point, letter, next point.
    fn crossed(&self, word: &[u32], mut each: impl FnMut(usize, usize, usize)) {
        let mut v = 0;
        for &y in word {
            let (y, x) = (y as usize, self.row(v)[y as usize] as usize);
            if self.is_outside(v, y) {
                each(v, y, x);
            }
            v = x;
        }
    }

    /// The word leads from the base to the base.
    fn is_home(&self, word: &[u32]) -> bool {
        let read = word.iter().try_fold(0, |at: u32, &y| {
            let to = self.row(at as usize)[y as usize];
            (to != ABSENT).then_some(to)
        });
        read == Some(0)
    }

    /// Writes the signed places of the edges that the word crosses, and then their numbers in their stead.
    fn write_numbers(&self, length: usize, work: &mut [u32], marks: usize, out: &mut [i32]) {
        let (mut at, w) = (0, self.width);
        self.crossed(&work[..length], |v, y, x| {
            out[at] = if y % 2 == 0 { (v * w + y + 1) as i32 } else { -((x * w + (y ^ 1) + 1) as i32) };
            at += 1;
        });
        self.mark(work, marks);
        for z in &mut out[..at] {
            let place = z.unsigned_abs() as usize - 1;
            let k = self.number_of(work, marks, place / w, place % w) as i32;
            *z = if *z < 0 { -k } else { k };
        }
    }
}

/// Expresses one query in the basis of a lent table.
pub fn express(
    n: u64, points: u64, table: &[u32], query: &[u8], work: &mut [u32], out: &mut [i32],
) -> ExpressReply {
    let mut answer = || {
        cause_1(n)?;
        cause_2(query)?;
        cause_3_or_4(n, query, false)?;
        let lent = cause_6(n, points, table)?;
        short(7, work.len(), query.len() as u64)?;
        lent.walk()?;
        let length = reduce(query, work);
        let mut said = Ok(None);
        if lent.is_home(&work[..length]) {
            let mut count = 0;
            lent.crossed(&work[..length], |_, _, _| count += 1);
            said = short(9, out.len(), count).map(|()| Some(count));
            if said.is_ok() {
                lent.write_numbers(length, work, query.len() / 2, out);
            }
        }
        work[..query.len()].fill(0);
        said
    };
    match answer() {
        Err(Refused(number, place)) => ExpressReply { number, place, ..ExpressReply::default() },
        Ok(None) => ExpressReply::default(),
        Ok(Some(count)) => ExpressReply { number: 0, place: 0, yes: 1, count },
    }
}
