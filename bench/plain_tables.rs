//! Lent tables in plain Rust: check, member, equal, basis, normal, and the shorter of two lists.
#![allow(dead_code)] // the benchmark does not call all of it

use super::{cause_1, cause_2, cause_3_or_4, cause_5, leads_back, Refused, ABSENT};
use crate::replies::{CheckReply, PartReply, WrittenReply, YesReply};

const MOST_POINTS: u64 = 1_048_577;
const LINE_END: u8 = 10;

/// A lent table that has its cells.
pub struct Lent<'a> {
    pub points: usize,
    pub width: usize,
    pub cells: &'a [u32],
}

/// What a canonical table counts: its edges, and whether no cell is absent.
pub struct Counted {
    edges: u64,
    full: bool,
}

/// 6: V is 0 or too great, or the table is too short.
pub fn cause_6(n: u64, points: u64, table: &[u32]) -> Result<Lent<'_>, Refused> {
    if points == 0 || points > MOST_POINTS || (table.len() as u64) < points * 2 * n {
        return Err(Refused(6, 0));
    }
    let (points, width) = (points as usize, 2 * n as usize);
    Ok(Lent { points, width, cells: &table[..points * width] })
}

/// 7, 9: fewer items than are needed.
pub fn short(number: u64, length: usize, needed: u64) -> Result<(), Refused> {
    if (length as u64) < needed { Err(Refused(number, needed)) } else { Ok(()) }
}

impl Lent<'_> {
    pub fn row(&self, v: usize) -> &[u32] {
        &self.cells[v * self.width..(v + 1) * self.width]
    }

    /// 8: the lowest cell of any broken rule; else the counts.
    pub fn walk(&self) -> Result<Counted, Refused> {
        let (mut met, mut edges, mut full) = (0, 0, true);
        for v in 0..self.points {
            let row = self.row(v);
            let at = (v * self.width) as u64;
            if v > 0 && (met < v || row.iter().filter(|&&x| x != ABSENT).count() < 2) {
                return Err(Refused(8, at));
            }
            for (y, &x) in row.iter().enumerate() {
                if x == ABSENT {
                    full = false;
                    continue;
                }
                let to = x as usize;
                if to >= self.points || to > met + 1 || self.row(to)[y ^ 1] as usize != v {
                    return Err(Refused(8, at + y as u64));
                }
                met = met.max(to);
                edges += (y % 2 == 0) as u64;
            }
        }
        Ok(Counted { edges, full })
    }

    /// For each point the point and the letter it was first met from, and the length of its path.
    fn note_paths(&self, work: &mut [u32]) {
        let (from, rest) = work.split_at_mut(self.points);
        let (by, depth) = rest.split_at_mut(self.points);
        depth[0] = 0;
        let mut met = 0;
        for v in 0..self.points {
            for (y, &x) in self.row(v).iter().enumerate() {
                if x != ABSENT && x as usize > met {
                    met = x as usize;
                    (from[met], by[met], depth[met]) = (v as u32, y as u32, depth[v] + 1);
                }
            }
        }
    }

    /// Calls `each` for the edges that no path uses, by source point and then by letter.
    fn outside(&self, work: &[u32], mut each: impl FnMut(usize, usize, usize)) {
        let steps = |v: usize, y: usize, x: usize| {
            x > 0 && work[x] as usize == v && work[self.points + x] as usize == y
        };
        for v in 0..self.points {
            for y in (0..self.width).step_by(2) {
                let x = self.row(v)[y];
                if x != ABSENT && !steps(v, y, x as usize) && !steps(x as usize, y ^ 1, v) {
                    each(v, y, x as usize);
                }
            }
        }
    }
}

/// The byte of a letter number.
pub fn byte(y: usize) -> u8 {
    if y % 2 == 0 { b'a' + (y / 2) as u8 } else { b'A' + (y / 2) as u8 }
}

/// Writes the line of a basis word from `at` on; gives the place behind it.
fn write_line(points: usize, work: &[u32], (v, y, x): (usize, usize, usize), out: &mut [u8], at: usize) -> usize {
    let depth = |p: usize| work[2 * points + p] as usize;
    let (mut p, mut to) = (v, at + depth(v));
    let mid = to;
    while p > 0 {
        to -= 1;
        out[to] = byte(work[points + p] as usize);
        p = work[p] as usize;
    }
    out[mid] = byte(y);
    (p, to) = (x, mid + 1);
    while p > 0 {
        out[to] = byte(work[points + p] as usize ^ 1);
        to += 1;
        p = work[p] as usize;
    }
    out[to] = LINE_END;
    to + 1
}

fn checked(n: u64, points: u64, table: &[u32]) -> Result<Counted, Refused> {
    cause_1(n)?;
    cause_6(n, points, table)?.walk()
}

/// Counts edges, rank and index of a lent table.
pub fn check(n: u64, points: u64, table: &[u32]) -> CheckReply {
    match checked(n, points, table) {
        Err(Refused(number, place)) => CheckReply { number, place, ..CheckReply::default() },
        Ok(Counted { edges, full }) => CheckReply {
            number: 0,
            place: 0,
            edges,
            rank: edges + 1 - points,
            finite: full as u64,
            index: if full { points } else { 0 },
        },
    }
}

/// A refusal, or yes or no.
fn said(answer: Result<bool, Refused>) -> YesReply {
    match answer {
        Err(Refused(number, place)) => YesReply { number, place, yes: 0 },
        Ok(yes) => YesReply { number: 0, place: 0, yes: yes as u64 },
    }
}

/// A refusal, or how many words and bytes.
pub fn wrote(answer: Result<(u64, u64), Refused>) -> WrittenReply {
    match answer {
        Err(Refused(number, place)) => WrittenReply { number, place, ..WrittenReply::default() },
        Ok((words, bytes)) => WrittenReply { number: 0, place: 0, words, bytes },
    }
}

/// Answers one query on a lent table.
pub fn member(n: u64, points: u64, table: &[u32], query: &[u8], work: &mut [u32]) -> YesReply {
    let mut answer = || {
        cause_1(n)?;
        cause_2(query)?;
        cause_3_or_4(n, query, false)?;
        let lent = cause_6(n, points, table)?;
        short(7, work.len(), query.len() as u64)?;
        lent.walk()?;
        let inside = leads_back(lent.width, query, lent.cells, work);
        work[..query.len()].fill(0);
        Ok(inside)
    };
    said(answer())
}

/// Compares two lent tables.
pub fn equal(n: u64, points: u64, table: &[u32], other_n: u64, other_points: u64, other: &[u32]) -> YesReply {
    let answer = || {
        cause_1(n)?;
        if other_n != n {
            return Err(Refused(1, 0));
        }
        let (first, second) = (cause_6(n, points, table)?, cause_6(n, other_points, other)?);
        first.walk()?;
        second.walk()?;
        Ok(first.cells == second.cells)
    };
    said(answer())
}

/// Writes the basis of a lent table.
pub fn basis(n: u64, points: u64, table: &[u32], work: &mut [u32], out: &mut [u8]) -> WrittenReply {
    let mut answer = || {
        cause_1(n)?;
        let lent = cause_6(n, points, table)?;
        short(7, work.len(), 4 * points)?;
        lent.walk()?;
        lent.note_paths(work);
        let (mut words, mut bytes) = (0, 0);
        let depth = &work[2 * lent.points..3 * lent.points];
        lent.outside(work, |v, _, x| {
            words += 1;
            bytes += depth[v] as u64 + depth[x] as u64 + 2;
        });
        let room = short(9, out.len(), bytes);
        if room.is_ok() {
            let mut at = 0;
            lent.outside(work, |v, y, x| at = write_line(lent.points, work, (v, y, x), out, at));
        }
        work[..4 * lent.points].fill(0);
        room.map(|()| (words, bytes))
    };
    wrote(answer())
}

/// Says whether every basis word leads from p back to p: all cells can be carried over from the base to p, so that
/// each point has one image.
fn all_lead_back(lent: &Lent, image: &mut [u32], p: u32) -> bool {
    image[0] = p;
    let mut met = 0;
    for v in 0..lent.points {
        let (row, over) = (lent.row(v), lent.row(image[v] as usize));
        for (&x, &to) in row.iter().zip(over).filter(|(&x, _)| x != ABSENT) {
            let x = x as usize;
            if to == ABSENT || x <= met && image[x] != to {
                return false;
            }
            if x > met {
                (met, image[x]) = (x, to);
            }
        }
    }
    true
}

/// Says whether the subgroup of a lent table is normal.
pub fn normal(n: u64, points: u64, table: &[u32], work: &mut [u32]) -> YesReply {
    let mut answer = || {
        cause_1(n)?;
        let lent = cause_6(n, points, table)?;
        short(7, work.len(), 4 * points)?;
        lent.walk()?;
        let neighbours = lent.row(0).iter().filter(|&&p| p != ABSENT && p != 0);
        let yes = neighbours.into_iter().all(|&p| all_lead_back(&lent, work, p));
        work[..4 * lent.points].fill(0);
        Ok(yes)
    };
    said(answer())
}

/// The letters of a list that is not refused.
pub fn letters_of(n: u64, list: &[u8]) -> Result<usize, Refused> {
    cause_1(n)?;
    cause_2(list)?;
    let letters = cause_3_or_4(n, list, true)?;
    cause_5(list)?;
    Ok(letters)
}

/// Says which of two lists is the shorter.
pub fn shorter(n: u64, first: &[u8], second: &[u8]) -> PartReply {
    let which = match (letters_of(n, first), letters_of(n, second)) {
        (Err(_), Err(_)) => 0,
        (Ok(a), Ok(b)) if b < a => 2,
        (Ok(_), _) => 1,
        (Err(_), Ok(_)) => 2,
    };
    PartReply { which, bytes: [0, first.len(), second.len()][which as usize] as u64 }
}
