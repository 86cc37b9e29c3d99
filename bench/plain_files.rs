//! Files in plain Rust: saving a table or a list, and loading either.
#![allow(dead_code)] // the benchmark does not call all of it

use super::tables::{byte, cause_6, letters_of, short, wrote};
use super::{cause_1, letter, words, Refused, ABSENT, LINE_END, MOST_BYTES};
use crate::replies::{LoadReply, WrittenReply};

/// The number of a cell in a file.
fn number_of(x: u32) -> u64 {
    if x == ABSENT { 0 } else { x as u64 + 1 }
}

/// The bytes that a number takes.
fn number_size(number: u64) -> u64 {
    1 + (number >= 1 << 7) as u64 + (number >= 1 << 14) as u64 + (number >= 1 << 21) as u64 + (number >= 1 << 28) as u64
}

/// Writes a number from `at` on; gives the place behind it.
fn write_number(mut number: u64, out: &mut [u8], mut at: usize) -> usize {
    while number >= 128 {
        out[at] = number as u8 | 128;
        number >>= 7;
        at += 1;
    }
    out[at] = number as u8;
    at + 1
}

/// Saves a lent table.
pub fn save_table(n: u64, points: u64, table: &[u32], out: &mut [u8]) -> WrittenReply {
    let mut answer = || {
        cause_1(n)?;
        let lent = cause_6(n, points, table)?;
        lent.walk()?;
        let numbers = || [1, n, points].into_iter().chain(lent.cells.iter().map(|&x| number_of(x)));
        let bytes = numbers().map(number_size).sum();
        short(9, out.len(), bytes)?;
        numbers().fold(0, |at, number| write_number(number, out, at));
        Ok((0, bytes))
    };
    wrote(answer())
}

/// Saves a list.
pub fn save_list(n: u64, list: &[u8], out: &mut [u8]) -> WrittenReply {
    let mut answer = || {
        let letters = letters_of(n, list)? as u64;
        let count = list.len() as u64 - letters;
        let lengths: u64 = words(list).map(|word| number_size(word.len() as u64)).sum();
        let bytes = 2 + number_size(count) + lengths + letters;
        short(9, out.len(), bytes)?;
        let mut at = [2, n, count].into_iter().fold(0, |at, number| write_number(number, out, at));
        for word in words(list) {
            at = write_number(word.len() as u64, out, at);
            let letters = &mut out[at..at + word.len()];
            letters.iter_mut().zip(word.iter().filter_map(|&byte| letter(byte))).for_each(|(to, y)| *to = y as u8);
            at += word.len();
        }
        Ok((0, bytes))
    };
    wrote(answer())
}

/// The number at a place and the place behind it; 10 if it is cut, too long, too big, or not in its shortest form.
fn read_number(file: &[u8], at: usize) -> Result<(u64, usize), Refused> {
    let (mut number, mut place) = (0, at);
    while place < file.len() && place < at + 5 {
        let group = file[place] as u64;
        number |= (group & 127) << (7 * (place - at));
        place += 1;
        if group < 128 {
            let shortest = group > 0 || place == at + 1;
            return if shortest && number <= u32::MAX as u64 { Ok((number, place)) } else { Err(Refused(10, at as u64)) };
        }
    }
    Err(Refused(10, at as u64))
}

/// The place behind so many numbers; 4 where one is not below the bound.
fn skip(file: &[u8], at: usize, count: u64, bound: u64) -> Result<usize, Refused> {
    (0..count).try_fold(at, |at, _| match read_number(file, at)? {
        (number, _) if number >= bound => Err(Refused(4, at as u64)),
        (_, next) => Ok(next),
    })
}

/// 12: bytes after the end.
fn cause_12(file: &[u8], end: usize) -> Result<(), Refused> {
    if end < file.len() { Err(Refused(12, end as u64)) } else { Ok(()) }
}

/// Loads the table behind n: read through, then written, then walked.
fn load_table(n: u64, file: &[u8], at: usize, table: &mut [u32]) -> Result<LoadReply, Refused> {
    let (points, at) = read_number(file, at)?;
    let count = cause_6(n, points, table)?.cells.len();
    cause_12(file, skip(file, at, count as u64, u64::MAX)?)?;
    let mut place = at;
    for cell in &mut table[..count] {
        let (number, next) = read_number(file, place)?;
        (*cell, place) = ((number as u32).wrapping_sub(1), next);
    }
    if let Err(refused) = cause_6(n, points, table)?.walk() {
        table[..count].fill(ABSENT);
        return Err(refused);
    }
    Ok(LoadReply { kind: 1, n, points, ..LoadReply::default() })
}

/// Loads the list behind n: read through, then written.
fn load_list(n: u64, file: &[u8], at: usize, text: &mut [u8]) -> Result<LoadReply, Refused> {
    let (words, start) = read_number(file, at)?;
    let (mut at, mut bytes) = (start, 0);
    for _ in 0..words {
        let (length, next) = read_number(file, at)?;
        at = skip(file, next, length, 2 * n)?;
        bytes += length + 1;
    }
    cause_12(file, at)?;
    if bytes > MOST_BYTES as u64 {
        return Err(Refused(2, 0));
    }
    short(9, text.len(), bytes)?;
    let (mut at, mut to) = (start, 0);
    for _ in 0..words {
        let (length, next) = read_number(file, at)?;
        at = next;
        for _ in 0..length {
            let (y, next) = read_number(file, at)?;
            (text[to], at) = (byte(y as usize), next);
            to += 1;
        }
        text[to] = LINE_END;
        to += 1;
    }
    Ok(LoadReply { kind: 2, n, words, bytes, ..LoadReply::default() })
}

/// Loads a file of either kind.
pub fn load(file: &[u8], table: &mut [u32], text: &mut [u8]) -> LoadReply {
    let mut answer = || {
        let (kind, at) = read_number(file, 0)?;
        if kind != 1 && kind != 2 {
            return Err(Refused(11, 0));
        }
        let (n, at) = read_number(file, at)?;
        cause_1(n)?;
        if kind == 1 { load_table(n, file, at, table) } else { load_list(n, file, at, text) }
    };
    answer().unwrap_or_else(|Refused(number, place)| LoadReply { number, place, ..LoadReply::default() })
}
