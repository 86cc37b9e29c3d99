//! Runs cases on the library (or, built with --cfg plain, on plain Rust), with guards around every lent buffer.
//!
//! driver stored | folds | asks | calls | chain   reads cases from standard input and prints a line for each.
//!
//! A case is little-endian numbers and then bytes; lengths have 4 bytes, n and points 8. Before the call lent cells
//! and signed numbers hold 777 and lent bytes 77.
//! stored, folds, asks: n, the lengths of list, table and work, for asks also that of the query; the list; the query.
//! calls: a letter and what the call takes. A table is n, points, a length and its cells, 4 bytes each.
//!   c table (check); m table, lengths of query and work, the query (member); e table, table (equal);
//!   n table, length of work (normal); x table, lengths of query, work and output, the query (express);
//!   b table, lengths of work and output (basis); s table, length of output (save_table);
//!   f table, length of output (the basis, folded); l n, two lengths, two lists (shorter);
//!   w n, lengths of list and output, the list (save_list);
//!   r lengths of file, table and text, the file (load); g the same (load, and what it loaded saved).
//! chain: n, points, length of output; the table is a chain with loops, made here.
//! A line is the reply: 'refused NUMBER PLACE'; or the figures; or yes, no. Then the lent cells (stored: of a table
//! of at most 64, and check numbers; chain: how many work cells, of one more than needed, are not 0), the lent
//! bytes in hexadecimal after x; and 'broken' if a guard, or a buffer lent to be read, has changed.

use std::fmt::Display;
use std::io::{self, BufWriter, Read, Write};

mod calls;
mod lent;
#[path = "../../bench/replies.rs"]
mod replies;
#[cfg(plain)]
#[path = "../../bench/plain.rs"]
mod engine;
#[cfg(not(plain))]
#[path = "../../bench/library.rs"]
mod engine;

use replies::FoldReply;

const MOST_SHOWN: usize = 64;
const CHECK_PRIME: u64 = 4_294_967_291;

/// What is left of the standard input.
struct Input<'a> {
    bytes: &'a [u8],
}

impl<'a> Input<'a> {
    fn take(&mut self, length: usize) -> &'a [u8] {
        let (part, rest) = self.bytes.split_at(length);
        self.bytes = rest;
        part
    }

    fn number(&mut self, width: usize) -> u64 {
        self.take(width).iter().rev().fold(0, |value, &byte| value << 8 | byte as u64)
    }

    fn length(&mut self) -> usize {
        self.number(4) as usize
    }
}

/// The items of one printed line.
#[derive(Default)]
struct Line {
    text: String,
}

impl Line {
    fn item(&mut self, item: impl Display) {
        let gap = if self.text.is_empty() { "" } else { " " };
        self.text += &format!("{gap}{item}");
    }

    fn cells(&mut self, cells: &[u32]) {
        cells.iter().for_each(|x| self.item(x));
    }

    fn refusal(&mut self, number: u64, place: u64) {
        self.item(format!("refused {number} {place}"));
    }
}

/// A number that changes with any one cell.
fn check(cells: &[u32]) -> u64 {
    cells.iter().fold(0, |h, &x| (h * 31 + x as u64) % CHECK_PRIME)
}

fn folded(line: &mut Line, reply: FoldReply) {
    if reply.number != 0 {
        let nothing = FoldReply { number: reply.number, place: reply.place, ..FoldReply::default() };
        line.refusal(reply.number, reply.place);
        return if reply != nothing { line.item("figures") };
    }
    [reply.points, reply.edges, reply.rank].iter().for_each(|x| line.item(x));
    match (reply.finite, reply.index) {
        (1, index) => line.item(index),
        (0, 0) => line.item("infinite"),
        (finite, index) => line.item(format!("{finite}:{index}")),
    }
    [reply.start_points, reply.start_edges, reply.merging, reply.closing].iter().for_each(|x| line.item(x));
}

/// Runs the next case and gives its line.
fn run(mode: &str, input: &mut Input) -> String {
    match mode {
        "calls" => calls::run(input),
        "chain" => calls::chain(input),
        _ => run_list(mode, input),
    }
}

/// Runs the next case of a list.
fn run_list(mode: &str, input: &mut Input) -> String {
    let n = input.number(8);
    let (list, table, work) = (input.length(), input.length(), input.length());
    let query = if mode == "asks" { input.length() } else { 0 };
    let (list, query) = (&*input.take(list).to_vec(), &*input.take(query).to_vec()); // apart from all others
    let (mut table, mut work) = (lent::cells(table), lent::cells(work));
    let mut line = Line::default();
    if mode == "asks" {
        line.said(engine::ask(n, list, query, table.part(), work.part()));
    } else {
        folded(&mut line, engine::fold(n, list, table.part(), work.part()));
    }
    let kept = table.kept() && work.kept();
    let (table, work) = (table.part(), work.part());
    if mode != "stored" || table.len() <= MOST_SHOWN {
        line.cells(table);
    }
    if mode == "stored" {
        line.item(check(table));
        line.item(check(work));
    } else {
        line.cells(work);
    }
    if !kept {
        line.item("broken");
    }
    line.text
}

fn main() -> io::Result<()> {
    let mode = std::env::args().nth(1).unwrap_or_default();
    if !["stored", "folds", "asks", "calls", "chain"].contains(&mode.as_str()) {
        eprintln!("usage: driver stored | folds | asks | calls | chain");
        std::process::exit(2);
    }
    let mut bytes = Vec::new();
    io::stdin().read_to_end(&mut bytes)?;
    let mut input = Input { bytes: &bytes };
    let mut out = BufWriter::new(io::stdout().lock());
    while !input.bytes.is_empty() {
        writeln!(out, "{}", run(&mode, &mut input))?;
    }
    out.flush()
}
