//! Folds lists of many shapes by the library and by plain Rust, in one run on warm buffers, and prints a table.
//! Both must leave the same figures and the same cells. Then calls on lent tables and lists (tables.rs). An argument,
//! 'folds' or 'tables', chooses one part; after 'tables' a number sets the most points. Built with --cfg plain it
//! measures plain Rust alone.

use std::cell::RefCell;
use std::time::{Duration, Instant};

#[cfg(not(plain))]
mod library;
mod plain;
mod replies;
mod shapes;
mod tables;

use replies::FoldReply;
use shapes::{Shape, ABSENT, SHAPES};

type Fold = fn(u64, &[u8], &mut [u32], &mut [u32]) -> FoldReply;

#[cfg(not(plain))]
const LIBRARY: Option<Fold> = Some(library::fold);
#[cfg(plain)]
const LIBRARY: Option<Fold> = None;

const SIZES: [usize; 3] = [10_000, 100_000, 1_000_000];
const ALPHABETS: [usize; 3] = [2, 3, 26];

/// Buffers to lend.
struct Lent {
    table: Vec<u32>,
    work: Vec<u32>,
}

impl Lent {
    fn new(rows: usize, n: usize) -> Lent {
        Lent { table: vec![777; rows * 2 * n], work: vec![777; 8 * rows] }
    }
}

/// The least times of several engines: each has two spells of three runs and a tenth of a second at least, so
/// that its buffers are warm and no spell of a busy machine falls on one engine alone.
fn least<const K: usize>(mut runs: [&mut dyn FnMut(); K]) -> [Duration; K] {
    let mut times = [Duration::MAX; K];
    for _ in 0..2 {
        for (run, time) in runs.iter_mut().zip(&mut times) {
            let (start, mut turns) = (Instant::now(), 0);
            while turns < 3 || start.elapsed() < Duration::from_millis(100) {
                let before = Instant::now();
                run();
                *time = before.elapsed().min(*time);
                turns += 1;
            }
        }
    }
    times
}

/// What one list of a shape took, in ns a letter: the library where it is built, plain Rust, filling the table.
struct Row {
    letters: usize,
    points: u64,
    library: Option<f64>,
    plain: f64,
    fill: f64,
}

fn row(shape: &Shape, n: usize, size: usize) -> Row {
    let list = (shape.list)(n, size);
    let letters = list.iter().filter(|&&byte| byte != b'\n').count();
    let (mut ours, mut other) = (Lent::new(letters + 1, n), Lent::new(letters + 1, n));
    let folded = |fold: Fold, lent: &mut Lent| fold(n as u64, &list, &mut lent.table, &mut lent.work);
    let fold = LIBRARY.unwrap_or(plain::fold);
    let (reply, other_reply) = (folded(fold, &mut ours), folded(plain::fold, &mut other));
    assert!(reply.number == 0 && reply == other_reply, "{}: {reply:?}, {other_reply:?}", shape.name);
    assert!(ours.table == other.table && ours.work == other.work, "{}: other cells", shape.name);
    drop(other);
    // one pair of buffers for both engines: where a buffer lies must not tell them apart
    let lent = RefCell::new(ours);
    let [library, plain] = least([
        &mut || _ = folded(fold, &mut lent.borrow_mut()),
        &mut || _ = folded(plain::fold, &mut lent.borrow_mut()),
    ]);
    let [fill] = least([&mut || std::hint::black_box(&mut lent.borrow_mut().table).fill(ABSENT)]);
    let each = |time: Duration| time.as_nanos() as f64 / letters as f64;
    Row {
        letters,
        points: reply.points,
        library: LIBRARY.map(|_| each(library)),
        plain: each(plain),
        fill: each(fill),
    }
}

/// A number with its digits after the point, or a dash.
fn shown(value: Option<f64>, digits: usize) -> String {
    value.map_or("-".to_string(), |x| format!("{x:.digits$}"))
}

fn main() {
    let part = std::env::args().nth(1);
    let chosen = |name| part.as_deref().is_none_or(|one| one == name);
    if chosen("folds") {
        folds();
    }
    if part.as_deref() == Some("lists") {
        lists(&std::env::args().nth(2).expect("a folder for the lists"));
    }
    if chosen("tables") {
        tables::print(std::env::args().nth(2).map_or(usize::MAX, |most| most.parse().expect("a number of points")));
    }
}

/// Writes the smallest list of each shape and n into a folder, with an index of them: for other engines.
fn lists(folder: &str) {
    let mut index = String::new();
    for shape in &SHAPES {
        for n in ALPHABETS.into_iter().filter(|&n| n >= shape.least_n) {
            let list = (shape.list)(n, SIZES[0]);
            let letters = list.iter().filter(|&&byte| byte != b'\n').count();
            let file = format!("{folder}/{} {n}", shape.name);
            std::fs::write(&file, &list).expect("a list written");
            index += &format!("{file}\t{n}\t{letters}\t{}\n", shape.name);
        }
    }
    std::fs::write(format!("{folder}/index"), index).expect("the index written");
}

/// Prints the rows of every shape and size.
fn folds() {
    match LIBRARY {
        Some(_) => println!("The last two columns are the library's."),
        None => println!("The library is not built: plain Rust alone, also in the last two columns."),
    }
    println!("Least of six or more runs, ns a letter; growth from the smallest size of the same shape.\n");
    println!("| shape | n | letters | points | library | plain | library / plain | over a fill | growth |");
    println!("|---|--:|--:|--:|--:|--:|--:|--:|--:|");
    for shape in &SHAPES {
        for n in ALPHABETS.into_iter().filter(|&n| n >= shape.least_n) {
            let mut first = None;
            for size in SIZES {
                let Row { letters, points, library, plain, fill } = row(shape, n, size);
                let time = library.unwrap_or(plain);
                let growth = time / *first.get_or_insert(time);
                let ratio = library.map(|x| x / plain);
                println!(
                    "| {} | {n} | {letters} | {points} | {} | {plain:.1} | {} | {:.1} | {growth:.2} |",
                    shape.name, shown(library, 1), shown(ratio, 2), time / fill,
                );
            }
        }
    }
}
