//! Calls on lent tables of many points and on long lists, by the library and by plain Rust, in one run on warm
//! buffers. Both must give the same replies and leave the same cells, bytes and numbers.

use std::collections::HashMap;

use crate::plain;
use crate::replies::{CheckReply, ExpressReply, LoadReply, WrittenReply, YesReply};
use crate::shapes::{action, inverse, long_word, matrices, random_words, ABSENT};
use crate::{least, shown};

const POINTS: [usize; 3] = [1_000, 100_000, 1_000_000];
const ALPHABETS: [usize; 3] = [2, 3, 26];
const MOST_CELLS: usize = 12_000_000;
const MOST_LETTERS: usize = 1_000_000;

/// The calls of one engine.
#[derive(Clone, Copy)]
struct Engine {
    ask: fn(u64, &[u8], &[u8], &mut [u32], &mut [u32]) -> YesReply,
    check: fn(u64, u64, &[u32]) -> CheckReply,
    member: fn(u64, u64, &[u32], &[u8], &mut [u32]) -> YesReply,
    normal: fn(u64, u64, &[u32], &mut [u32]) -> YesReply,
    express: fn(u64, u64, &[u32], &[u8], &mut [u32], &mut [i32]) -> ExpressReply,
    basis: fn(u64, u64, &[u32], &mut [u32], &mut [u8]) -> WrittenReply,
    save_table: fn(u64, u64, &[u32], &mut [u8]) -> WrittenReply,
    save_list: fn(u64, &[u8], &mut [u8]) -> WrittenReply,
    load: fn(&[u8], &mut [u32], &mut [u8]) -> LoadReply,
}

macro_rules! engine {
    ($from:path) => {{
        use $from as from;
        Engine {
            ask: from::ask,
            check: from::check,
            member: from::member,
            normal: from::normal,
            express: from::express,
            basis: from::basis,
            save_table: from::save_table,
            save_list: from::save_list,
            load: from::load,
        }
    }};
}

const PLAIN: Engine = engine!(crate::plain);
#[cfg(not(plain))]
const LIBRARY: Option<Engine> = Some(engine!(crate::library));
#[cfg(plain)]
const LIBRARY: Option<Engine> = None;

/// What a call works on: a canonical table, queries, a list, the files of both, and the buffers that suffice.
struct Lent {
    n: u64,
    points: u64,
    table: Vec<u32>,
    query: Vec<u8>,
    members: [Vec<u8>; 2],
    list: Vec<u8>,
    files: [Vec<u8>; 2],
    cells: Vec<u32>,
    work: Vec<u32>,
    out: Vec<u8>,
    numbers: Vec<i32>,
}

impl Lent {
    fn new(n: usize, table: Vec<u32>) -> Lent {
        let points = table.len() / (2 * n);
        let mut work = vec![777; 4 * points.max(MOST_LETTERS)];
        let needed = plain::basis(n as u64, points as u64, &table, &mut work, &mut []).place as usize;
        let mut out = vec![77; needed];
        plain::basis(n as u64, points as u64, &table, &mut work, &mut out);
        let members = [200, 5_000].map(|count| product(&out, count));
        let list = random_words(n, points, 100);
        let files = [
            saved(|out| plain::save_table(n as u64, points as u64, &table, out)),
            saved(|out| plain::save_list(n as u64, &list, out)),
        ];
        out.resize(needed.max(files[0].len()).max(files[1].len()).max(list.len()), 77);
        work.resize(members.iter().map(Vec::len).max().unwrap_or(0).max(8 * (points + 1)), 777);
        let numbers = vec![777; members.iter().map(Vec::len).max().unwrap_or(0)];
        let (query, cells) = (long_word(n, points), vec![777; table.len() + 2 * n]);
        Lent { n: n as u64, points: points as u64, table, query, members, list, files, cells, work, out, numbers }
    }
}

/// The bytes that a call writes.
fn saved(mut save: impl FnMut(&mut [u8]) -> WrittenReply) -> Vec<u8> {
    let mut out = vec![0; save(&mut []).place as usize];
    save(&mut out);
    out
}

/// So many words of a basis, from all over it, every second inverted: fewer where they would have too many letters.
fn product(basis: &[u8], count: usize) -> Vec<u8> {
    let words: Vec<&[u8]> = basis.split(|&byte| byte == b'\n').filter(|word| !word.is_empty()).collect();
    let mut letters = Vec::new();
    for i in 0..count {
        let word = words[i * 7919 % words.len()];
        if letters.len() + word.len() > MOST_LETTERS {
            break;
        }
        letters.extend(if i % 2 == 0 { word.to_vec() } else { inverse(word) });
    }
    letters
}

/// A call: its name, how an engine makes it, and over how many cells or bytes it goes. More calls are more rows.
struct Call {
    name: &'static str,
    made: fn(&Engine, &mut Lent) -> [u64; 4],
    items: fn(&Lent) -> usize,
}

const fn on_table(name: &'static str, made: fn(&Engine, &mut Lent) -> [u64; 4]) -> Call {
    Call { name, made, items: |l| l.table.len() }
}

const fn on_list(name: &'static str, made: fn(&Engine, &mut Lent) -> [u64; 4]) -> Call {
    Call { name, made, items: |l| l.list.len() }
}

fn written(r: WrittenReply) -> [u64; 4] {
    [r.number, r.place, r.words, r.bytes]
}

fn said(r: YesReply) -> [u64; 4] {
    [r.number, r.place, r.yes, 0]
}

fn expressed(e: &Engine, l: &mut Lent, which: usize) -> [u64; 4] {
    let r = (e.express)(l.n, l.points, &l.table, &l.members[which], &mut l.work, &mut l.numbers);
    [r.number, r.place, r.yes, r.count]
}

fn loaded(e: &Engine, l: &mut Lent, which: usize) -> [u64; 4] {
    let r = (e.load)(&l.files[which], &mut l.cells, &mut l.out);
    [r.number, r.kind, r.points + r.words, r.bytes]
}

const CALLS: [Call; 11] = [
    on_table("check", |e, l| {
        let r = (e.check)(l.n, l.points, &l.table);
        [r.number, r.edges, r.rank, r.index]
    }),
    on_table("member", |e, l| said((e.member)(l.n, l.points, &l.table, &l.query, &mut l.work))),
    on_table("normal", |e, l| said((e.normal)(l.n, l.points, &l.table, &mut l.work))),
    on_table("express, 200 words", |e, l| expressed(e, l, 0)),
    on_table("express, 5,000 words", |e, l| expressed(e, l, 1)),
    on_table("basis", |e, l| written((e.basis)(l.n, l.points, &l.table, &mut l.work, &mut l.out))),
    on_table("save_table", |e, l| written((e.save_table)(l.n, l.points, &l.table, &mut l.out))),
    on_table("load, a table", |e, l| loaded(e, l, 0)),
    on_list("ask", |e, l| said((e.ask)(l.n, &l.list, &l.query, &mut l.cells, &mut l.work))),
    on_list("save_list", |e, l| written((e.save_list)(l.n, &l.list, &mut l.out))),
    on_list("load, a list", |e, l| loaded(e, l, 1)),
];

/// The reply of an engine, and the lent buffers that it leaves.
fn outcome(call: &Call, engine: &Engine, lent: &mut Lent) -> ([u64; 4], [Vec<u32>; 2], Vec<u8>, Vec<i32>) {
    lent.work.fill(777);
    lent.cells.fill(777);
    lent.out.fill(77);
    lent.numbers.fill(777);
    let reply = (call.made)(engine, lent);
    (reply, [lent.work.clone(), lent.cells.clone()], lent.out.clone(), lent.numbers.clone())
}

/// The time an item of the smallest table, by call, shape and n.
type Firsts = HashMap<(&'static str, &'static str, usize), f64>;

fn rows(shape: &'static str, n: usize, table: Vec<u32>, firsts: &mut Firsts) {
    let mut lent = Lent::new(n, table);
    let library = LIBRARY.unwrap_or(PLAIN);
    let [fill] = least([&mut || std::hint::black_box(&mut lent.cells).fill(ABSENT)]);
    for call in &CALLS {
        let (ours, other) = (outcome(call, &library, &mut lent), outcome(call, &PLAIN, &mut lent));
        assert!(ours.0[0] == 0 && ours == other, "{} of {shape}: {:?}, {:?}", call.name, ours.0, other.0);
        let reply = ours.0;
        let lent = std::cell::RefCell::new(&mut lent);
        let [ours, plain] = least([
            &mut || _ = std::hint::black_box((call.made)(&library, &mut lent.borrow_mut())),
            &mut || _ = std::hint::black_box((call.made)(&PLAIN, &mut lent.borrow_mut())),
        ]);
        let lent = lent.borrow();
        let each = |time: std::time::Duration| time.as_nanos() as f64 / (call.items)(&lent) as f64;
        let over = ours.as_nanos() as f64 / fill.as_nanos() as f64;
        let growth = each(ours) / *firsts.entry((call.name, shape, n)).or_insert(each(ours));
        let ours = LIBRARY.map(|_| each(ours));
        println!(
            "| {} | {shape} | {n} | {} | {} {} | {} | {:.2} | {} | {over:.1} | {growth:.2} |",
            call.name, lent.points, reply[2], reply[3], shown(ours, 2), each(plain), shown(ours.map(|x| x / each(plain)), 2),
        );
    }
}

/// Prints the rows of every call, shape and size; at most so many points.
pub fn print(most: usize) {
    println!(
        "\nLeast of six or more runs, ns a cell of the table; of a list, which has a letter a point, ns a byte.\n\
         A query has as many letters as there are points. A reply is rank and index, yes and the numbers of an\n\
         expression, or words (of a table loaded, points) and bytes.\n"
    );
    println!("| call | shape | n | points | reply | library | plain | library / plain | over a fill | growth |");
    println!("|---|---|--:|--:|--:|--:|--:|--:|--:|--:|");
    let mut firsts = Firsts::new();
    for n in ALPHABETS {
        for points in POINTS.into_iter().filter(|&points| points * 2 * n <= MOST_CELLS && points <= most) {
            rows("finite index", n, action(n, points), &mut firsts);
            rows("words of 100", n, folded(n, points), &mut firsts);
            rows("normal", n, matrices(n, points), &mut firsts);
        }
    }
}

/// The table of a list of words of 100 letters: about so many points.
fn folded(n: usize, points: usize) -> Vec<u32> {
    let list = random_words(n, points + points / 20, 100);
    let rows = list.iter().filter(|&&byte| byte != b'\n').count() + 1;
    let (mut table, mut work) = (vec![ABSENT; rows * 2 * n], vec![0; 8 * rows]);
    let reply = plain::fold(n as u64, &list, &mut table, &mut work);
    table.truncate(reply.points as usize * 2 * n);
    table
}
