//! Lists to measure on: each shape makes a list of about so many letters over n generators.

use std::collections::HashMap;
use std::hash::Hash;

/// The cell of a letter that leads nowhere.
pub const ABSENT: u32 = u32::MAX;

/// A list has at most so many bytes.
const MOST_BYTES: usize = 1_048_576;

/// A shape: its name, the least n that it needs, and how it is made.
pub struct Shape {
    pub name: &'static str,
    pub least_n: usize,
    pub list: fn(n: usize, letters: usize) -> Vec<u8>,
}

const fn shape(name: &'static str, least_n: usize, list: fn(usize, usize) -> Vec<u8>) -> Shape {
    Shape { name, least_n, list }
}

pub const SHAPES: [Shape; 13] = [
    shape("words of 10", 2, |n, letters| random_words(n, letters, 10)),
    shape("words of 100", 2, |n, letters| random_words(n, letters, 100)),
    shape("words of 1,000", 2, |n, letters| random_words(n, letters, 1000)),
    shape("one word", 2, |n, letters| random_words(n, letters, letters)),
    shape("one-letter words", 2, |n, letters| random_words(n, letters, 1)),
    shape("powers", 2, powers),
    shape("conjugates", 2, conjugates),
    shape("shared prefixes", 2, prefixes),
    shape("all to one point", 2, collapse),
    shape("AB A^N, Baa, aaa", 2, three_words),
    shape("comb on a rose", 3, comb),
    shape("finite index", 2, loops),
    shape("reducing to nothing", 2, cancelling),
];

/// Numbers that look random and are the same in every run.
struct Chance(u64);

impl Chance {
    fn below(&mut self, bound: usize) -> usize {
        self.0 = self.0.wrapping_mul(6364136223846793005).wrapping_add(1442695040888963407);
        ((self.0 >> 33) as usize) % bound
    }

    /// A reduced word of so many letters.
    fn word(&mut self, n: usize, letters: usize) -> Vec<u8> {
        let mut word: Vec<u8> = Vec::new();
        while word.len() < letters {
            let y = letter(self.below(2 * n));
            if word.last() != Some(&(y ^ 32)) {
                word.push(y);
            }
        }
        word
    }
}

const SEED: Chance = Chance(4004);

/// The byte of a letter number; its inverse is the byte with bit 32 changed.
fn letter(y: usize) -> u8 {
    b'a' + (y / 2) as u8 - if y % 2 == 1 { 32 } else { 0 }
}

pub fn inverse(word: &[u8]) -> Vec<u8> {
    word.iter().rev().map(|y| y ^ 32).collect()
}

/// A list that grows up to a number of letters, and never over the most bytes.
struct List {
    text: Vec<u8>,
    letters: usize,
    most: usize,
}

impl List {
    fn new(most: usize) -> List {
        List { text: Vec::new(), letters: 0, most }
    }

    /// Adds a word if there is room for it.
    fn add(&mut self, word: &[u8]) -> bool {
        let room = self.letters + word.len() <= self.most && self.text.len() + word.len() < MOST_BYTES;
        if room {
            self.letters += word.len();
            self.text.extend_from_slice(word);
            self.text.push(b'\n');
        }
        room
    }
}

pub fn random_words(n: usize, letters: usize, length: usize) -> Vec<u8> {
    let (mut chance, mut list) = (SEED, List::new(letters));
    while list.add(&chance.word(n, length)) {}
    list.text
}

/// Powers of one word of three letters, of many lengths.
fn powers(n: usize, letters: usize) -> Vec<u8> {
    let (mut chance, mut list) = (SEED, List::new(letters));
    let root = [b'a', b'b', letter(2 * n - 2)];
    while list.add(&root.repeat(12 * (1 + chance.below(40)))) {}
    list.text
}

/// Words u v U, where u is one of ten.
fn conjugates(n: usize, letters: usize) -> Vec<u8> {
    let (mut chance, mut list) = (SEED, List::new(letters));
    let few: Vec<_> = (0..10).map(|_| chance.word(n, 40)).collect();
    loop {
        let u = &few[chance.below(few.len())];
        if !list.add(&[u.clone(), chance.word(n, 20), inverse(u)].concat()) {
            return list.text;
        }
    }
}

/// Words of 100 letters of which the first 90 are always the same.
fn prefixes(n: usize, letters: usize) -> Vec<u8> {
    let (mut chance, mut list) = (SEED, List::new(letters));
    let start = chance.word(n, 90);
    while list.add(&[start.clone(), chance.word(n, 10)].concat()) {}
    list.text
}

/// Long words first, and then each generator.
fn collapse(n: usize, letters: usize) -> Vec<u8> {
    let mut text = random_words(n, letters - n, 1000);
    (0..n).for_each(|i| text.extend_from_slice(&[letter(2 * i), b'\n']));
    text
}

/// Quadratic where roots are found without path halving and the newest pending point comes first.
fn three_words(_: usize, letters: usize) -> Vec<u8> {
    [b"AB".to_vec(), b"A".repeat(letters - 8), b"\nBaa\naaa\n".to_vec()].concat()
}

/// A spine of b's that folds onto the loop b at the base, and at each of its points a tooth a. Teeth are numbered
/// downward along the spine, and reached by words over ac, cc. Quadratic without path halving in either order.
fn comb(_: usize, letters: usize) -> Vec<u8> {
    let tooth = |i: usize| -> Vec<u8> {
        let digits = (0..15).rev().flat_map(|k| [if i >> k & 1 == 1 { b'a' } else { b'c' }, b'c']);
        std::iter::once(b'c').chain(digits).collect()
    };
    let teeth = (letters - 33) / (2 * 31 + 3);
    let mut list = List::new(letters);
    list.add(b"b");
    for i in (0..teeth).rev() {
        list.add(&[tooth(i), b"Aba".to_vec(), inverse(&tooth(i + 1))].concat());
    }
    list.add(&[tooth(0), b"A".to_vec()].concat());
    list.text
}

/// The loops of a random action on as many points as the letters suffice for.
fn loops(n: usize, letters: usize) -> Vec<u8> {
    let mut points = letters / n;
    loop {
        let mut list = List::new(letters);
        if loops_of(n, points).iter().all(|word| list.add(word)) {
            return list.text;
        }
        points -= points / 10;
    }
}

/// A random action on points: for each letter where it takes each point.
fn moves_of(n: usize, points: usize) -> Vec<Vec<usize>> {
    let mut chance = SEED;
    let mut moves = vec![vec![0; points]; 2 * n];
    for i in 0..n {
        let mut to: Vec<usize> = (0..points).collect();
        (1..points).for_each(|k| to.swap(k, chance.below(k + 1)));
        to.iter().enumerate().for_each(|(p, &q)| moves[2 * i + 1][q] = p);
        moves[2 * i] = to;
    }
    moves
}

/// The table of points and the way a letter moves them, numbered by breadth.
fn numbered<P: Copy + Eq + Hash>(n: usize, base: P, moved: impl Fn(P, usize) -> P) -> Vec<u32> {
    let (mut number, mut order, mut cells) = (HashMap::from([(base, 0)]), vec![base], Vec::new());
    let mut at = 0;
    while at < order.len() {
        for y in 0..2 * n {
            let to = moved(order[at], y);
            cells.push(*number.entry(to).or_insert_with(|| {
                order.push(to);
                order.len() as u32 - 1
            }));
        }
        at += 1;
    }
    cells
}

/// The table of a random action: no cell is absent. Points that the base does not reach are left out.
pub fn action(n: usize, points: usize) -> Vec<u32> {
    let moves = moves_of(n, points);
    numbered(n, 0, |p, y| moves[y][p])
}

/// The table of a normal subgroup of so many points or more: a letter adds a multiple of one row of a matrix of two
/// rows to the other, modulo a prime; words that leave the matrix 1 are the members.
pub fn matrices(n: usize, points: usize) -> Vec<u32> {
    let is_prime = |p: &usize| (2..*p).all(|q| p % q != 0);
    let p = (2..).filter(is_prime).find(|p| p * (p * p - 1) >= points).unwrap();
    numbered(n, [1, 0, 0, 1], |[a, b, c, d], y| {
        let k = if y % 2 == 0 { y / 4 + 1 } else { p * p - y / 4 - 1 };
        if y / 2 % 2 == 0 { [a, (b + k * a) % p, c, (d + k * c) % p] } else { [(a + k * b) % p, b, (c + k * d) % p, d] }
    })
}

/// One reduced word of so many letters.
pub fn long_word(n: usize, letters: usize) -> Vec<u8> {
    let mut chance = SEED;
    chance.word(n, letters)
}

/// For each point and generator: path to the point, letter, inverse of the path to where it leads.
fn loops_of(n: usize, points: usize) -> Vec<Vec<u8>> {
    let moves = moves_of(n, points);
    let mut paths: Vec<Option<Vec<u8>>> = vec![None; points];
    paths[0] = Some(Vec::new());
    let mut order = vec![0];
    let mut at = 0;
    while at < order.len() {
        let path = paths[order[at]].clone().unwrap();
        for y in 0..2 * n {
            let q = moves[y][order[at]];
            if paths[q].is_none() {
                paths[q] = Some([path.clone(), vec![letter(y)]].concat());
                order.push(q);
            }
        }
        at += 1;
    }
    let path = |p: usize| paths[p].as_deref().unwrap();
    let word = |p: usize, i: usize| [path(p), &[letter(2 * i)], &inverse(path(moves[2 * i][p]))].concat();
    order.iter().flat_map(|&p| (0..n).map(move |i| (p, i))).map(|(p, i)| word(p, i)).collect()
}

/// Words that reduce to nothing.
fn cancelling(n: usize, letters: usize) -> Vec<u8> {
    let (mut chance, mut list) = (SEED, List::new(letters));
    loop {
        let u = chance.word(n, 50);
        if !list.add(&[u.clone(), inverse(&u)].concat()) {
            return list.text;
        }
    }
}
