//! Calls on lent tables, one a case, and on lists: modes 'calls' and 'chain' (see main.rs).

use crate::engine;
use crate::lent::{self, Lent};
use crate::replies::{CheckReply, ExpressReply, LoadReply, PartReply, WrittenReply, YesReply};
use crate::{folded, Input, Line};

const ABSENT: u32 = u32::MAX;

/// A lent table with n and its points, and its cells once more.
struct Table {
    n: u64,
    points: u64,
    cells: Lent<u32>,
    before: Vec<u32>,
}

impl Table {
    fn new(n: u64, points: u64, before: Vec<u32>) -> Table {
        let mut cells = lent::cells(before.len());
        cells.part().copy_from_slice(&before);
        Table { n, points, cells, before }
    }

    fn read(input: &mut Input) -> Table {
        let (n, points, length) = (input.number(8), input.number(8), input.length());
        let before = (0..length).map(|_| input.number(4) as u32).collect();
        Table::new(n, points, before)
    }

    /// A chain of points by the first letter, and at each a loop of every other letter.
    fn chain(n: u64, points: u64) -> Table {
        let cell = |v: u64, y: u64| match y {
            0 if v + 1 < points => v as u32 + 1,
            1 if v > 0 => v as u32 - 1,
            0 | 1 => ABSENT,
            _ => v as u32,
        };
        let rows = (0..points).flat_map(|v| (0..2 * n).map(move |y| cell(v, y)));
        Table::new(n, points, rows.collect())
    }

    fn kept(&mut self) -> bool {
        self.cells.kept() && self.cells.part() == self.before
    }
}

impl Line {
    /// The items that stand where nothing is refused; where it is, whether all others are 0.
    fn reply(&mut self, number: u64, place: u64, others_0: bool, items: &[String]) {
        match (number, others_0) {
            (0, _) if place == 0 => items.iter().for_each(|x| self.item(x)),
            (0, _) => self.item(format!("0:{place}")),
            (_, true) => self.refusal(number, place),
            (_, false) => self.item(format!("{number} with figures")),
        }
    }

    fn checked(&mut self, r: CheckReply) {
        let nothing = CheckReply { number: r.number, place: r.place, ..CheckReply::default() };
        let index = match (r.finite, r.index) {
            (1, index) => index.to_string(),
            (0, 0) => "infinite".to_string(),
            (finite, index) => format!("{finite}:{index}"),
        };
        self.reply(r.number, r.place, r == nothing, &[r.edges.to_string(), r.rank.to_string(), index]);
    }

    pub fn said(&mut self, r: YesReply) {
        let answer = match r.yes {
            0 => "no".to_string(),
            1 => "yes".to_string(),
            other => other.to_string(),
        };
        self.reply(r.number, r.place, r.yes == 0, &[answer]);
    }

    fn expressed(&mut self, r: ExpressReply) {
        let answer = match (r.yes, r.count) {
            (0, 0) => "no".to_string(),
            (1, count) => format!("yes {count}"),
            (yes, count) => format!("{yes}:{count}"),
        };
        self.reply(r.number, r.place, (r.yes, r.count) == (0, 0), &[answer]);
    }

    fn written(&mut self, r: WrittenReply) {
        let nothing = WrittenReply { number: r.number, place: r.place, ..WrittenReply::default() };
        self.reply(r.number, r.place, r == nothing, &[r.words.to_string(), r.bytes.to_string()]);
    }

    fn loaded(&mut self, r: LoadReply) {
        let nothing = LoadReply { number: r.number, place: r.place, ..LoadReply::default() };
        let answer = match (r.kind, r.points, r.words, r.bytes) {
            (1, points, 0, 0) => format!("table {} {points}", r.n),
            (2, 0, words, bytes) => format!("list {} {words} {bytes}", r.n),
            _ => format!("{r:?}"),
        };
        self.reply(r.number, r.place, r == nothing, &[answer]);
    }

    fn handed(&mut self, r: PartReply) {
        self.item(r.which);
        self.item(r.bytes);
    }

    fn bytes(&mut self, bytes: &[u8]) {
        let digits: String = bytes.iter().map(|byte| format!("{byte:02x}")).collect();
        self.item(format!("x{digits}"));
    }

    fn kept(&mut self, kept: bool) {
        if !kept {
            self.item("broken");
        }
    }
}

/// The basis of a table, and the table that its text folds to.
fn folded_back(line: &mut Line, t: &mut Table, out: usize) {
    let (mut work, mut out) = (lent::cells(4 * t.points as usize), lent::bytes(out));
    let reply = engine::basis(t.n, t.points, t.cells.part(), work.part(), out.part());
    line.written(reply);
    let list = &out.part()[..reply.bytes as usize];
    let rows = list.len() - reply.words as usize + 1;
    let (mut table, mut work) = (lent::cells(rows * 2 * t.n as usize), lent::cells(8 * rows));
    folded(line, engine::fold(t.n, list, table.part(), work.part()));
    line.cells(table.part());
    line.kept(table.kept() && work.kept());
}

/// A file loaded, and saved again.
fn saved_back(line: &mut Line, file: &[u8], table: usize, text: usize) {
    let (mut table, mut text) = (lent::cells(table), lent::bytes(text));
    let reply = engine::load(file, table.part(), text.part());
    line.loaded(reply);
    let mut out = lent::bytes(file.len());
    line.written(match reply.kind {
        1 => engine::save_table(reply.n, reply.points, table.part(), out.part()),
        _ => engine::save_list(reply.n, &text.part()[..reply.bytes as usize], out.part()),
    });
    line.bytes(out.part());
    line.kept(table.kept() && text.kept() && out.kept());
}

/// Runs the next case of mode 'calls' and gives its line.
pub fn run(input: &mut Input) -> String {
    let mut line = Line::default();
    match input.take(1)[0] {
        b'l' => {
            let (n, first, second) = (input.number(8), input.length(), input.length());
            line.handed(engine::shorter(n, &input.take(first).to_vec(), &input.take(second).to_vec()));
        }
        b'w' => {
            let (n, list, mut out) = (input.number(8), input.length(), lent::bytes(input.length()));
            line.written(engine::save_list(n, &input.take(list).to_vec(), out.part()));
            line.bytes(out.part());
            line.kept(out.kept());
        }
        b'r' => {
            let file = input.length();
            let (mut table, mut text) = (lent::cells(input.length()), lent::bytes(input.length()));
            line.loaded(engine::load(&input.take(file).to_vec(), table.part(), text.part()));
            line.cells(table.part());
            line.bytes(text.part());
            line.kept(table.kept() && text.kept());
        }
        b'g' => {
            let (file, table, text) = (input.length(), input.length(), input.length());
            saved_back(&mut line, &input.take(file).to_vec(), table, text);
        }
        kind => run_table(kind, input, &mut line),
    }
    line.text
}

/// Runs a call on a table.
fn run_table(kind: u8, input: &mut Input, line: &mut Line) {
    let mut t = Table::read(input);
    match kind {
        b'c' => line.checked(engine::check(t.n, t.points, t.cells.part())),
        b'm' => {
            let (query, mut work) = (input.length(), lent::cells(input.length()));
            let query = &*input.take(query).to_vec();
            line.said(engine::member(t.n, t.points, t.cells.part(), query, work.part()));
            line.cells(work.part());
            line.kept(work.kept());
        }
        b'e' => {
            let mut other = Table::read(input);
            let (first, second) = (t.cells.part(), other.cells.part());
            line.said(engine::equal(t.n, t.points, first, other.n, other.points, second));
            line.kept(other.kept());
        }
        b'n' => {
            let mut work = lent::cells(input.length());
            line.said(engine::normal(t.n, t.points, t.cells.part(), work.part()));
            line.cells(work.part());
            line.kept(work.kept());
        }
        b'x' => {
            let (query, mut work) = (input.length(), lent::cells(input.length()));
            let (mut out, query) = (lent::numbers(input.length()), &*input.take(query).to_vec());
            line.expressed(engine::express(t.n, t.points, t.cells.part(), query, work.part(), out.part()));
            line.cells(work.part());
            out.part().iter().for_each(|z| line.item(z));
            line.kept(work.kept() && out.kept());
        }
        b'b' => {
            let (mut work, mut out) = (lent::cells(input.length()), lent::bytes(input.length()));
            line.written(engine::basis(t.n, t.points, t.cells.part(), work.part(), out.part()));
            line.cells(work.part());
            line.bytes(out.part());
            line.kept(work.kept() && out.kept());
        }
        b's' => {
            let mut out = lent::bytes(input.length());
            line.written(engine::save_table(t.n, t.points, t.cells.part(), out.part()));
            line.bytes(out.part());
            line.kept(out.kept());
        }
        b'f' => folded_back(line, &mut t, input.length()),
        other => panic!("no call {other}"),
    }
    line.kept(t.kept());
}

/// Runs the next case of mode 'chain': checks, saves and writes the basis of a long chain into few bytes.
pub fn chain(input: &mut Input) -> String {
    let (n, points, out) = (input.number(8), input.number(8), input.length());
    let mut line = Line::default();
    let mut t = Table::chain(n, points);
    let (mut work, mut out) = (lent::cells(4 * points as usize + 1), lent::bytes(out));
    line.checked(engine::check(n, points, t.cells.part()));
    line.written(engine::save_table(n, points, t.cells.part(), out.part()));
    line.written(engine::basis(n, points, t.cells.part(), work.part(), out.part()));
    line.item(work.part().iter().filter(|&&x| x != 0).count());
    line.bytes(out.part());
    line.kept(work.kept() && out.kept() && t.kept());
    line.text
}
