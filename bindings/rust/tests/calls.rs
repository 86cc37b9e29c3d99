//! Each call on good input and on each of its refusals, with guards around every buffer.

mod lent;

use lent::Lent;
use subgroups::{ask, basis, check, equal, fold, member, save_table, shorter};
use subgroups::{ask_sizes, basis_work, fold_sizes, table_cells};
use subgroups::{Cause, Counts, Folded, Refusal, Shorter, Table, Written, ABSENT, MOST_BYTES, MOST_POINTS};

const LIST: &[u8] = b"aaB\nbAba\nabA\naaaaaa\n"; // 16 letters
const CELLS: [u32; 8] = [1, 1, 0, 0, 0, 0, 1, 1]; // its table
const FAULTY: [u32; 8] = [1, 1, 0, 0, 0, 0, 1, 0]; // faulty from cell 6 on
const BASIS: &[u8] = b"b\naa\nabA\n";
const FILE: &[u8] = &[1, 2, 2, 2, 2, 1, 1, 1, 1, 2, 2];
const LINES: &[u8] = &[b'\n'; MOST_BYTES + 1];
const LONG: &[u8] = &[b'a'; MOST_BYTES + 1];

fn table(n: u64, points: u64, cells: &[u32]) -> Table<'_> {
    Table { n, points, cells }
}

fn refusal(cause: Cause, place: u64) -> Refusal {
    Refusal { cause, place }
}

/// Every n that is refused, 258 and others that a narrow number would take for a good one among them.
const BAD_N: [u64; 6] = [0, 27, 258, 65_538, 4_294_967_298, u64::MAX];

mod folding {
    use super::*;

    fn folds(n: u64, list: &[u8], want: Folded, rows: &[u32]) {
        let sizes = fold_sizes(n, list);
        for more in [0, 5] {
            let (mut table, mut work) = (Lent::new(sizes.table + more), Lent::new(sizes.work + more));
            assert_eq!(fold(n, list, table.part(), work.part()), Ok(want));
            let mut cells = rows.to_vec();
            cells.resize(sizes.table, ABSENT);
            table.starts(&cells);
            work.starts(&vec![0; sizes.work]);
        }
    }

    fn refuses(n: u64, list: &[u8], table: usize, work: usize, cause: Cause, place: u64) {
        let (mut table, mut work) = (Lent::new(table), Lent::new(work));
        assert_eq!(fold(n, list, table.part(), work.part()), Err(refusal(cause, place)));
        table.kept();
        work.kept();
    }

    #[test]
    fn a_list() {
        let counts = Counts { edges: 4, rank: 3, index: Some(2) };
        let want = Folded { points: 2, counts, start_points: 13, start_edges: 16, merging: 11, closing: 1 };
        folds(2, LIST, want, &CELLS);
    }

    #[test]
    fn no_words() {
        let counts = Counts { edges: 0, rank: 0, index: None };
        let want = Folded { points: 1, counts, start_points: 1, start_edges: 0, merging: 0, closing: 0 };
        folds(2, b"", want, &[ABSENT; 4]);
        folds(26, b"aA\n\n", want, &[ABSENT; 52]);
        folds(2, &LINES[..MOST_BYTES], want, &[ABSENT; 4]);
    }

    #[test]
    fn more_points_than_16_bits_tell() {
        let list = [&LONG[..65_537], b"\n"].concat();
        let sizes = fold_sizes(1, &list);
        let (mut table, mut work) = (vec![0; 131_076], vec![0; sizes.work]);
        let folded = fold(1, &list, &mut table, &mut work).unwrap();
        assert_eq!((folded.points, folded.counts.index), (65_537, Some(65_537)));
        refuses(1, &list, 131_075, sizes.work, Cause::Table, 0);
    }

    #[test]
    fn n() {
        BAD_N.into_iter().for_each(|n| refuses(n, LIST, 68, 136, Cause::Alphabet, 0));
    }

    #[test]
    fn bytes() {
        refuses(2, LINES, 4, 8, Cause::Bytes, 0);
    }

    #[test]
    fn byte() {
        refuses(2, b"ab\na b\n", 100, 100, Cause::Byte, 4);
        refuses(2, "ab\nä\n".as_bytes(), 100, 100, Cause::Byte, 3);
        refuses(2, b"ab\r\n", 100, 100, Cause::Byte, 2);
    }

    #[test]
    fn letter() {
        refuses(1, LIST, 68, 136, Cause::Letter, 2);
        refuses(25, b"aZ", 68, 136, Cause::Letter, 1);
    }

    #[test]
    fn line_end() {
        refuses(2, b"ab\nab", 100, 100, Cause::Unended, 5);
    }

    #[test]
    fn table() {
        refuses(2, LIST, 67, 135, Cause::Table, 0);
        refuses(2, b"", 0, 0, Cause::Table, 0);
    }

    #[test]
    fn work() {
        refuses(2, LIST, 68, 135, Cause::Work, 136);
        refuses(2, b"", 4, 0, Cause::Work, 8);
    }
}

mod asking {
    use super::*;

    fn asks(n: u64, list: &[u8], query: &[u8], want: bool, rows: &[u32]) {
        let sizes = ask_sizes(n, list, query);
        for more in [0, 5] {
            let (mut table, mut work) = (Lent::new(sizes.table + more), Lent::new(sizes.work + more));
            assert_eq!(ask(n, list, query, table.part(), work.part()), Ok(want));
            let mut cells = rows.to_vec();
            cells.resize(sizes.table, ABSENT);
            table.starts(&cells);
            work.starts(&vec![0; sizes.work]);
        }
    }

    fn refuses(n: u64, list: &[u8], query: &[u8], table: usize, work: usize, cause: Cause, place: u64) {
        let (mut table, mut work) = (Lent::new(table), Lent::new(work));
        assert_eq!(ask(n, list, query, table.part(), work.part()), Err(refusal(cause, place)));
        table.kept();
        work.kept();
    }

    #[test]
    fn a_query() {
        asks(2, LIST, b"aba", true, &CELLS);
        asks(2, LIST, b"a", false, &CELLS);
        asks(2, LIST, b"aA", true, &CELLS);
        asks(2, LIST, b"", true, &CELLS);
        asks(2, LIST, &[b'a'; 1000], true, &CELLS);
        asks(2, b"ab\n", b"aBbb", true, &[1, ABSENT, ABSENT, 1, ABSENT, 0, 0, ABSENT]);
    }

    #[test]
    fn n() {
        BAD_N.into_iter().for_each(|n| refuses(n, LIST, b"a", 68, 136, Cause::Alphabet, 0));
    }

    #[test]
    fn bytes() {
        refuses(2, LIST, LONG, 68, 136, Cause::Bytes, 0);
        refuses(2, LINES, b"a", 68, 136, Cause::Bytes, 0);
    }

    #[test]
    fn byte() {
        refuses(2, LIST, b"ab\n", 68, 136, Cause::Byte, 2);
        refuses(2, b"a1\n", b" ", 68, 136, Cause::Byte, 1);
    }

    #[test]
    fn letter() {
        refuses(2, LIST, b"abc", 68, 136, Cause::Letter, 2);
        refuses(2, b"abac\n", b" ", 68, 136, Cause::Letter, 3);
        refuses(2, b"a", b"c", 68, 136, Cause::Letter, 0);
    }

    #[test]
    fn line_end() {
        refuses(2, b"ab", b"a", 68, 136, Cause::Unended, 2);
    }

    #[test]
    fn table() {
        refuses(2, LIST, b"a", 67, 136, Cause::Table, 0);
    }

    #[test]
    fn work() {
        refuses(2, LIST, b"a", 68, 135, Cause::Work, 136);
        refuses(2, LIST, &[b'a'; 137], 68, 136, Cause::Work, 137);
    }
}

mod checking {
    use super::*;

    fn refuses(n: u64, points: u64, cells: &[u32], cause: Cause, place: u64) {
        assert_eq!(check(table(n, points, cells)), Err(refusal(cause, place)));
    }

    #[test]
    fn a_table() {
        let want = Ok(Counts { edges: 4, rank: 3, index: Some(2) });
        assert_eq!(check(table(2, 2, &CELLS)), want);
        assert_eq!(check(table(2, 2, &[&CELLS[..], &[9, 9]].concat())), want);
        assert_eq!(check(table(1, 1, &[ABSENT; 2])), Ok(Counts { edges: 0, rank: 0, index: None }));
    }

    #[test]
    fn n() {
        BAD_N.into_iter().for_each(|n| refuses(n, 2, &CELLS, Cause::Alphabet, 0));
    }

    #[test]
    fn the_table() {
        for points in [0, 3, MOST_POINTS + 1, 1 << 32, (1 << 32) + 2, u64::MAX] {
            refuses(2, points, &CELLS, Cause::Table, 0);
        }
        refuses(2, 2, &CELLS[..7], Cause::Table, 0);
    }

    #[test]
    fn canonical() {
        refuses(2, 2, &FAULTY, Cause::Canonical, 6);
        refuses(2, 2, &[ABSENT; 8], Cause::Canonical, 4);
        refuses(1, 1, &[1, 1], Cause::Canonical, 0);
    }
}

mod asking_of_a_table {
    use super::*;

    fn says(query: &[u8], want: bool) {
        let mut work = Lent::new(query.len() + 3);
        assert_eq!(member(table(2, 2, &CELLS), query, work.part()), Ok(want));
        work.starts(&vec![0; query.len()]);
    }

    fn refuses(table: Table, query: &[u8], work: usize, cause: Cause, place: u64) {
        let mut work = Lent::new(work);
        assert_eq!(member(table, query, work.part()), Err(refusal(cause, place)));
        work.kept();
    }

    #[test]
    fn a_query() {
        says(b"aba", true);
        says(b"a", false);
        says(b"", true);
        says(b"bBa", false);
    }

    #[test]
    fn each_refusal() {
        BAD_N.into_iter().for_each(|n| refuses(table(n, 2, &CELLS), b"a", 1, Cause::Alphabet, 0));
        refuses(table(2, 2, &CELLS), LONG, 1, Cause::Bytes, 0);
        refuses(table(2, 2, &CELLS), b"a\n", 2, Cause::Byte, 1);
        refuses(table(2, 2, &CELLS), b"aC", 2, Cause::Letter, 1);
        refuses(table(2, 2, &CELLS[..7]), b"a", 0, Cause::Table, 0);
        refuses(table(2, 2, &FAULTY), b"aba", 2, Cause::Work, 3);
        refuses(table(2, 2, &FAULTY), b"aba", 3, Cause::Canonical, 6);
    }
}

mod comparing {
    use super::*;

    fn refuses(first: Table, second: Table, cause: Cause, place: u64) {
        assert_eq!(equal(first, second), Err(refusal(cause, place)));
    }

    #[test]
    fn two_tables() {
        let (one, loop_alone) = (table(2, 2, &CELLS), [ABSENT, ABSENT, 0, 0]);
        assert_eq!(equal(one, one), Ok(true));
        assert_eq!(equal(one, table(2, 2, &[&CELLS[..], &[9]].concat())), Ok(true));
        assert_eq!(equal(one, table(2, 1, &loop_alone)), Ok(false));
    }

    #[test]
    fn each_refusal() {
        let good = table(2, 2, &CELLS);
        BAD_N.into_iter().for_each(|n| refuses(table(n, 2, &CELLS), table(n, 2, &CELLS), Cause::Alphabet, 0));
        refuses(good, table(1, 2, &CELLS), Cause::Alphabet, 0);
        refuses(table(2, 2, &CELLS[..7]), good, Cause::Table, 0);
        refuses(table(2, 2, &FAULTY), table(2, 0, &CELLS), Cause::Table, 0);
        refuses(table(2, 2, &[5; 8]), table(2, 2, &FAULTY), Cause::Canonical, 0);
        refuses(good, table(2, 2, &FAULTY), Cause::Canonical, 6);
    }
}

mod writing_a_basis {
    use super::*;

    fn refuses(table: Table, work: usize, out: usize, cause: Cause, place: u64) {
        let (mut work, mut out) = (Lent::new(work), Lent::new(out));
        assert_eq!(basis(table, work.part(), out.part()), Err(refusal(cause, place)));
        work.kept();
        out.kept();
    }

    #[test]
    fn a_basis() {
        for more in [0, 5] {
            let (mut work, mut out) = (Lent::new(basis_work(2) + more), Lent::new(BASIS.len() + more));
            let want = Written { words: 3, bytes: BASIS.len() };
            assert_eq!(basis(table(2, 2, &CELLS), work.part(), out.part()), Ok(want));
            work.starts(&[0; 8]);
            out.starts(BASIS);
        }
    }

    #[test]
    fn of_no_words() {
        let (mut work, mut out) = (Lent::new(4), Lent::new(0));
        assert_eq!(basis(table(1, 1, &[ABSENT; 2]), work.part(), out.part()), Ok(Written { words: 0, bytes: 0 }));
        work.starts(&[0; 4]);
        out.kept();
    }

    #[test]
    fn each_refusal() {
        BAD_N.into_iter().for_each(|n| refuses(table(n, 2, &CELLS), 8, 20, Cause::Alphabet, 0));
        refuses(table(2, 2, &CELLS[..7]), 7, 20, Cause::Table, 0);
        refuses(table(2, MOST_POINTS + 1, &CELLS), 7, 20, Cause::Table, 0);
        refuses(table(2, 2, &FAULTY), 7, 20, Cause::Work, 8);
        refuses(table(2, 2, &FAULTY), 8, 0, Cause::Canonical, 6);
    }

    #[test]
    fn output() {
        let (mut work, mut out) = (Lent::new(9), Lent::new(BASIS.len() - 1));
        let got = basis(table(2, 2, &CELLS), work.part(), out.part());
        assert_eq!(got, Err(refusal(Cause::Output, BASIS.len() as u64)));
        work.starts(&[0; 8]);
        out.kept();
    }
}

mod saving_a_table {
    use super::*;

    fn refuses(table: Table, out: usize, cause: Cause, place: u64) {
        let mut out = Lent::new(out);
        assert_eq!(save_table(table, out.part()), Err(refusal(cause, place)));
        out.kept();
    }

    #[test]
    fn a_file() {
        for more in [0, 5] {
            let mut out = Lent::new(FILE.len() + more);
            assert_eq!(save_table(table(2, 2, &CELLS), out.part()), Ok(FILE.len()));
            out.starts(FILE);
        }
    }

    #[test]
    fn each_refusal() {
        BAD_N.into_iter().for_each(|n| refuses(table(n, 2, &CELLS), 20, Cause::Alphabet, 0));
        refuses(table(2, 3, &CELLS), 20, Cause::Table, 0);
        refuses(table(2, 2, &FAULTY), 0, Cause::Canonical, 6);
        refuses(table(2, 2, &CELLS), 10, Cause::Output, 11);
    }
}

mod the_shorter_list {
    use super::*;

    #[test]
    fn of_two() {
        assert_eq!(shorter(2, b"ab\n\n", b"aba\n"), Shorter::First(b"ab\n\n"));
        assert_eq!(shorter(2, b"aba\n", b"ab\n\n"), Shorter::Second(b"ab\n\n"));
        assert_eq!(shorter(2, b"ab\n", b"a\nb\n"), Shorter::First(b"ab\n"));
        assert_eq!(shorter(2, b"", b""), Shorter::First(b""));
    }

    #[test]
    fn is_the_callers_own() {
        let (first, second) = (b"aba\n", b"ab\n");
        assert!(std::ptr::eq(shorter(2, first, second).list().unwrap(), &second[..]));
    }

    #[test]
    fn of_bad_ones() {
        assert_eq!(shorter(2, b"c\n", b"abab\n"), Shorter::Second(b"abab\n"));
        assert_eq!(shorter(2, b"abab\n", b"a"), Shorter::First(b"abab\n"));
        assert_eq!(shorter(2, b"c\n", b"a"), Shorter::Neither);
        BAD_N.into_iter().for_each(|n| assert_eq!(shorter(n, b"a\n", b""), Shorter::Neither));
    }
}

mod sizes {
    use super::*;

    #[test]
    fn of_what_is_refused() {
        let none = fold_sizes(0, b"");
        assert_eq!((none.table, none.work), (0, 0));
        assert!(BAD_N.into_iter().all(|n| fold_sizes(n, LIST) == none && ask_sizes(n, LIST, b"a") == none));
        assert!(fold_sizes(2, LINES) == none && ask_sizes(2, LIST, LONG) == none && ask_sizes(2, LINES, b"") == none);
        assert!(BAD_N.into_iter().all(|n| table_cells(n, 2) == 0));
        assert_eq!((table_cells(26, u64::MAX), basis_work(u64::MAX)), (0, 0));
        assert_eq!(table_cells(26, MOST_POINTS), 54_526_004);
    }
}

mod normality {
    use super::*;
    use subgroups::normal;

    fn says(table: Table, want: bool) {
        let needed = basis_work(table.points);
        let mut work = Lent::new(needed + 3);
        assert_eq!(normal(table, work.part()), Ok(want));
        work.starts(&vec![0; needed]);
    }

    fn refuses(table: Table, work: usize, cause: Cause, place: u64) {
        let mut work = Lent::new(work);
        assert_eq!(normal(table, work.part()), Err(refusal(cause, place)));
        work.kept();
    }

    #[test]
    fn of_a_table() {
        says(table(2, 2, &CELLS), true);
        says(table(1, 1, &[ABSENT; 2]), true);
        says(table(2, 2, &[1, ABSENT, ABSENT, ABSENT, ABSENT, 0, 1, 1]), false);
    }

    #[test]
    fn each_refusal() {
        BAD_N.into_iter().for_each(|n| refuses(table(n, 2, &CELLS), 8, Cause::Alphabet, 0));
        refuses(table(2, 2, &CELLS[..7]), 7, Cause::Table, 0);
        refuses(table(2, 2, &FAULTY), 7, Cause::Work, 8);
        refuses(table(2, 2, &FAULTY), 8, Cause::Canonical, 6);
    }
}

mod expressing {
    use super::*;
    use subgroups::express;

    fn says(query: &[u8], want: Option<&[i16]>) {
        let numbers: Vec<i32> = want.unwrap_or_default().iter().map(|&k| k.into()).collect();
        let (mut work, mut out) = (Lent::new(query.len() + 3), Lent::new(numbers.len() + 3));
        let got = express(table(2, 2, &CELLS), query, work.part(), out.part());
        assert_eq!(got, Ok(want.map(|numbers| numbers.len())));
        work.starts(&vec![0; query.len()]);
        out.starts(&numbers);
    }

    fn refuses(table: Table, query: &[u8], work: usize, cause: Cause, place: u64) {
        let (mut work, mut out) = (Lent::new(work), Lent::new(0));
        assert_eq!(express(table, query, work.part(), out.part()), Err(refusal(cause, place)));
        work.kept();
        out.kept();
    }

    #[test]
    fn a_query() {
        says(b"aba", Some(&[3, 2]));
        says(b"bAba", Some(&[1, -2, 3, 2]));
        says(b"aA", Some(&[]));
        says(b"a", None);
    }

    #[test]
    fn each_refusal() {
        BAD_N.into_iter().for_each(|n| refuses(table(n, 2, &CELLS), b"a", 1, Cause::Alphabet, 0));
        refuses(table(2, 2, &CELLS), LONG, 1, Cause::Bytes, 0);
        refuses(table(2, 2, &CELLS), b"a\n", 2, Cause::Byte, 1);
        refuses(table(2, 2, &CELLS), b"aC", 2, Cause::Letter, 1);
        refuses(table(2, 2, &CELLS[..7]), b"a", 0, Cause::Table, 0);
        refuses(table(2, 2, &FAULTY), b"aba", 2, Cause::Work, 3);
        refuses(table(2, 2, &FAULTY), b"aba", 3, Cause::Canonical, 6);
    }

    #[test]
    fn output() {
        let (mut work, mut out) = (Lent::new(5), Lent::new(3));
        let got = express(table(2, 2, &CELLS), b"bAba", work.part(), out.part());
        assert_eq!(got, Err(refusal(Cause::Output, 4)));
        work.starts(&[0; 4]);
        out.kept();
    }
}

mod files {
    use super::*;
    use subgroups::{load, save_list, Loaded};

    const WORDS: &[u8] = &[2, 2, 3, 3, 0, 1, 2, 0, 1, 3]; // aAb, blank, B
    const TEXT: &[u8] = b"aAb\n\nB\n";

    fn saving_refuses(n: u64, list: &[u8], out: usize, cause: Cause, place: u64) {
        let mut out = Lent::new(out);
        assert_eq!(save_list(n, list, out.part()), Err(refusal(cause, place)));
        out.kept();
    }

    fn refuses(file: &[u8], cells: usize, bytes: usize, cause: Cause, place: u64) {
        let (mut cells, mut bytes) = (Lent::new(cells), Lent::new(bytes));
        assert_eq!(load(file, cells.part(), bytes.part()), Err(refusal(cause, place)));
        cells.kept();
        bytes.kept();
    }

    #[test]
    fn a_list_saved() {
        for more in [0, 5] {
            let mut out = Lent::new(WORDS.len() + more);
            assert_eq!(save_list(2, TEXT, out.part()), Ok(WORDS.len()));
            out.starts(WORDS);
        }
    }

    #[test]
    fn saving_refused() {
        BAD_N.into_iter().for_each(|n| saving_refuses(n, TEXT, 20, Cause::Alphabet, 0));
        saving_refuses(2, LINES, 20, Cause::Bytes, 0);
        saving_refuses(2, b"a-\n", 20, Cause::Byte, 1);
        saving_refuses(1, TEXT, 20, Cause::Letter, 2);
        saving_refuses(2, b"a", 0, Cause::Unended, 1);
        saving_refuses(2, TEXT, 9, Cause::Output, 10);
    }

    #[test]
    fn a_table_loaded() {
        let (mut cells, mut bytes) = (Lent::new(9), Lent::new(4));
        assert_eq!(load(FILE, cells.part(), bytes.part()), Ok(Loaded::Table { n: 2, points: 2 }));
        cells.starts(&CELLS);
        bytes.kept();
    }

    #[test]
    fn a_list_loaded() {
        let (mut cells, mut bytes) = (Lent::new(4), Lent::new(9));
        let want = Loaded::List { n: 2, words: 3, bytes: TEXT.len() };
        assert_eq!(load(WORDS, cells.part(), bytes.part()), Ok(want));
        cells.kept();
        bytes.starts(TEXT);
    }

    #[test]
    fn loading_refused() {
        refuses(&[1, 27, 1], 9, 9, Cause::Alphabet, 0);
        refuses(&[2, 2, 1, 2, 0, 4], 9, 9, Cause::Letter, 5);
        refuses(FILE, 7, 9, Cause::Table, 0);
        refuses(&[1, 2, 0], 9, 9, Cause::Table, 0);
        refuses(WORDS, 9, 6, Cause::Output, 7);
        refuses(&[], 9, 9, Cause::Number, 0);
        refuses(&[1, 0x82, 0, 2], 9, 9, Cause::Number, 1);
        refuses(&FILE[..10], 9, 9, Cause::Number, 10);
        refuses(&[3, 2, 2], 9, 9, Cause::Kind, 0);
        refuses(&[WORDS, &[0]].concat(), 9, 9, Cause::After, 10);
    }

    #[test]
    fn a_text_too_long() {
        let mut file = vec![2, 1, 1, 0x80, 0x80, 0x40]; // one word of 1,048,576 letters
        file.resize(6 + MOST_BYTES, 0);
        refuses(&file, 9, 9, Cause::Bytes, 0);
    }

    #[test]
    fn a_faulty_table_is_taken_back() {
        let (mut cells, mut bytes) = (Lent::new(9), Lent::new(4));
        let file = [1, 2, 2, 2, 2, 1, 1, 1, 1, 2, 1];
        assert_eq!(load(&file, cells.part(), bytes.part()), Err(refusal(Cause::Canonical, 6)));
        cells.starts(&[ABSENT; 8]);
        bytes.kept();
    }
}
