//! The same folding in plain Rust, without proofs: the measure of the proved library, and its stand-in for the
//! driver where that library is not built. Same contract, same steps:
//!   a word is reduced, read from the base forward and backward as far as cells exist, its middle chained in;
//!   what collides is united, and drained before the next word; points are then numbered by exchanging names.
//! Between two steps the table is an inverse graph: y leads from v to u exactly if y ^ 1 leads from u to v.

use crate::replies::{FoldReply, YesReply};

#[path = "plain_express.rs"]
mod expressing;
#[path = "plain_files.rs"]
mod files;
#[path = "plain_tables.rs"]
mod tables;
#[allow(unused_imports)] // the benchmark does not call all of it
pub use {
    expressing::express,
    files::{load, save_list, save_table},
    tables::{basis, check, equal, member, normal, shorter},
};

const ABSENT: u32 = u32::MAX;
const LINE_END: u8 = 10;
const MOST_BYTES: usize = 1_048_576;
const MOST_LETTERS: u64 = 26;

/// A refusal: its number and place.
struct Refused(u64, u64);

/// The number of a letter byte in the order a, A, b, B, ..; None for other bytes.
fn letter(byte: u8) -> Option<u32> {
    match byte {
        b'a'..=b'z' => Some(2 * (byte - b'a') as u32),
        b'A'..=b'Z' => Some(2 * (byte - b'A') as u32 + 1),
        _ => None,
    }
}

/// 1: n not 1 to 26.
fn cause_1(n: u64) -> Result<(), Refused> {
    if (1..=MOST_LETTERS).contains(&n) { Ok(()) } else { Err(Refused(1, 0)) }
}

/// 2: too many bytes.
fn cause_2(text: &[u8]) -> Result<(), Refused> {
    if text.len() <= MOST_BYTES { Ok(()) } else { Err(Refused(2, 0)) }
}

/// 3, 4: the first byte that is no letter, or a letter beyond n; a list may have line ends. Counts the letters.
fn cause_3_or_4(n: u64, text: &[u8], line_ends: bool) -> Result<usize, Refused> {
    let mut letters = 0;
    for (offset, &byte) in text.iter().enumerate() {
        match letter(byte) {
            Some(y) if (y as u64) < 2 * n => letters += 1,
            Some(_) => return Err(Refused(4, offset as u64)),
            None if line_ends && byte == LINE_END => {}
            None => return Err(Refused(3, offset as u64)),
        }
    }
    Ok(letters)
}

/// 5: a list that is not ended.
fn cause_5(list: &[u8]) -> Result<(), Refused> {
    match list.last() {
        Some(&byte) if byte != LINE_END => Err(Refused(5, list.len() as u64)),
        _ => Ok(()),
    }
}

/// 6, 7: a table of less than rows x 2n cells, a work buffer that is too short.
fn cause_6_or_7(cells: usize, table: &[u32], needed: usize, work: &[u32]) -> Result<(), Refused> {
    if table.len() < cells {
        return Err(Refused(6, 0));
    }
    if work.len() < needed {
        return Err(Refused(7, needed as u64));
    }
    Ok(())
}

/// The lent cells of one fold: a table of rows of `width` cells, and for each point its forward and pending cell.
struct Room<'a> {
    width: usize,
    table: &'a mut [u32],
    forward: &'a mut [u32],
    pending: &'a mut [u32],
    waiting: usize,
    made: usize,
}

impl Room<'_> {
    fn cell(&self, v: u32, y: u32) -> u32 {
        self.table[v as usize * self.width + y as usize]
    }

    fn set(&mut self, v: u32, y: u32, x: u32) {
        self.table[v as usize * self.width + y as usize] = x;
    }

    /// A new point, its own root.
    fn make(&mut self) -> u32 {
        let v = self.made as u32;
        self.forward[self.made] = v;
        self.made += 1;
        v
    }

    /// The root of a point, by path halving.
    fn find(&mut self, mut v: u32) -> u32 {
        loop {
            let up = self.forward[v as usize];
            if up == v {
                return v;
            }
            let over = self.forward[up as usize];
            self.forward[v as usize] = over;
            v = over;
        }
    }

    /// Makes two points one: the greater root forwards to the smaller and waits to be drained.
    fn unite(&mut self, p: u32, q: u32) {
        let (p, q) = (self.find(p), self.find(q));
        if p == q {
            return;
        }
        self.forward[p.max(q) as usize] = p.min(q);
        self.pending[self.waiting] = p.max(q);
        self.waiting += 1;
    }

    /// Joins a to b by letter y; where a cell is taken the edge goes and points are united.
    fn link(&mut self, a: u32, y: u32, b: u32) {
        let c = self.cell(a, y);
        if c != ABSENT {
            return self.unite(c, b);
        }
        let d = self.cell(b, y ^ 1);
        if d != ABSENT {
            return self.unite(d, a);
        }
        self.set(a, y, b);
        self.set(b, y ^ 1, a);
    }

    /// Moves the edges of each waiting point to its root of that moment, the newest point first.
    fn drain(&mut self) {
        while self.waiting > 0 {
            self.waiting -= 1;
            let v = self.pending[self.waiting];
            let u = self.find(v);
            for y in 0..self.width as u32 {
                let q = self.cell(v, y);
                if q != ABSENT {
                    self.set(v, y, ABSENT);
                    self.set(q, y ^ 1, ABSENT);
                    self.link(u, y, if q == v { u } else { q });
                }
            }
        }
    }

    /// How many letters can be read from the base, and where they lead.
    fn read(&self, letters: impl Iterator<Item = u32>) -> (usize, u32) {
        let (mut count, mut at) = (0, 0);
        for y in letters {
            let to = self.cell(at, y);
            if to == ABSENT {
                break;
            }
            (count, at) = (count + 1, to);
        }
        (count, at)
    }

    /// Takes in a reduced word that is not empty: reads what is there, chains the middle.
    fn take_in(&mut self, word: &[u32]) {
        let (read, mut at) = self.read(word.iter().copied());
        let rest = &word[read..];
        let (back, end) = self.read(rest.iter().rev().map(|y| y ^ 1));
        match rest[..rest.len() - back].split_last() {
            None => self.unite(at, end),
            Some((&last, middle)) => {
                for &y in middle {
                    let to = self.make();
                    self.link(at, y, to);
                    at = to;
                }
                self.link(at, last, end);
            }
        }
        self.drain();
    }

    /// Swaps the names of two points.
    fn exchange(&mut self, k: u32, p: u32) {
        if k == p {
            return;
        }
        let swapped = |x| if x == k { p } else if x == p { k } else { x };
        for y in 0..self.width as u32 {
            let (a, b) = (self.cell(k, y), self.cell(p, y));
            self.set(k, y, swapped(b));
            self.set(p, y, swapped(a));
            if a != ABSENT && a != k && a != p {
                self.set(a, y ^ 1, p);
            }
            if b != ABSENT && b != k && b != p {
                self.set(b, y ^ 1, k);
            }
        }
    }

    /// Numbers the points by breadth, in place; gives their count.
    fn number(&mut self) -> usize {
        let (mut v, mut met) = (0, 1);
        while v < met {
            for y in 0..self.width as u32 {
                let u = self.cell(v, y);
                if u != ABSENT && u >= met {
                    self.exchange(u, met);
                    met += 1;
                }
            }
            v += 1;
        }
        met as usize
    }
}

/// Reduces the letters of a word into the cells; gives the reduced length.
fn reduce(letters: &[u8], cells: &mut [u32]) -> usize {
    let mut length = 0;
    for y in letters.iter().filter_map(|&byte| letter(byte)) {
        if length > 0 && cells[length - 1] == y ^ 1 {
            length -= 1;
        } else {
            cells[length] = y;
            length += 1;
        }
    }
    length
}

/// The words of a list that is ended.
fn words(list: &[u8]) -> impl Iterator<Item = &[u8]> {
    list.split_inclusive(|&byte| byte == LINE_END).map(|word| &word[..word.len() - 1])
}

/// The figures of a numbered table of so many points, from m words of S reduced letters.
fn figures(width: usize, points: usize, m: u64, s: u64, table: &[u32]) -> FoldReply {
    let rows = &table[..points * width];
    let edges = rows.iter().step_by(2).filter(|&&x| x != ABSENT).count() as u64;
    let finite = !rows.contains(&ABSENT);
    let (points, start_points) = (points as u64, s + 1 - m);
    let rank = edges + 1 - points;
    FoldReply {
        points,
        edges,
        rank,
        finite: finite as u64,
        index: if finite { points } else { 0 },
        start_points,
        start_edges: s,
        merging: start_points - points,
        closing: m - rank,
        ..FoldReply::default()
    }
}

/// Folds a list that is not refused; the work cells are left as they come.
fn folded(n: u64, list: &[u8], rows: usize, table: &mut [u32], work: &mut [u32]) -> FoldReply {
    let width = 2 * n as usize;
    let table = &mut table[..rows * width];
    table.fill(ABSENT);
    let (forward, rest) = work.split_at_mut(rows);
    let (pending, rest) = rest.split_at_mut(rows);
    let cells = &mut rest[..rows];
    let mut room = Room { width, table, forward, pending, waiting: 0, made: 0 };
    room.make();
    let (mut m, mut s) = (0, 0);
    for word in words(list) {
        let length = reduce(word, cells);
        if length > 0 {
            room.take_in(&cells[..length]);
            m += 1;
            s += length as u64;
        }
    }
    let points = room.number();
    figures(width, points, m, s, room.table)
}

/// The rows that a list needs, or why folding it is refused; a query needs a work cell a letter.
fn room_of(
    n: u64, list: &[u8], query: &[u8], table: &[u32], work: &[u32],
) -> Result<(usize, usize), Refused> {
    cause_1(n)?;
    cause_2(list)?;
    cause_2(query)?;
    let rows = cause_3_or_4(n, list, true)? + 1;
    cause_3_or_4(n, query, false)?;
    cause_5(list)?;
    let needed = (8 * rows).max(query.len());
    cause_6_or_7(rows * 2 * n as usize, table, needed, work)?;
    Ok((rows, needed))
}

/// Folds a list into the lent table.
pub fn fold(n: u64, list: &[u8], table: &mut [u32], work: &mut [u32]) -> FoldReply {
    match room_of(n, list, &[], table, work) {
        Err(Refused(number, place)) => FoldReply { number, place, ..FoldReply::default() },
        Ok((rows, needed)) => {
            let reply = folded(n, list, rows, table, work);
            work[..needed].fill(0);
            reply
        }
    }
}

/// Says whether the reduced query leads from the base back to it.
fn leads_back(width: usize, query: &[u8], table: &[u32], cells: &mut [u32]) -> bool {
    let length = reduce(query, cells);
    let read = cells[..length].iter().try_fold(0, |at, &y| {
        let to = table[at as usize * width + y as usize];
        (to != ABSENT).then_some(to)
    });
    read == Some(0)
}

/// Folds a list and answers one query.
#[allow(dead_code)] // the benchmark does not ask
pub fn ask(n: u64, list: &[u8], query: &[u8], table: &mut [u32], work: &mut [u32]) -> YesReply {
    match room_of(n, list, query, table, work) {
        Err(Refused(number, place)) => YesReply { number, place, yes: 0 },
        Ok((rows, needed)) => {
            folded(n, list, rows, table, work);
            let yes = leads_back(2 * n as usize, query, table, work) as u64;
            work[..needed].fill(0);
            YesReply { number: 0, place: 0, yes }
        }
    }
}
