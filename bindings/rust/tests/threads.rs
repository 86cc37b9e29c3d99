//! Many threads call at once, each with its own buffers, and get the answers that one thread gets.

use std::sync::Barrier;
use std::thread;

use subgroups::{ask, basis, check, equal, express, fold, load, member, normal, save_list, save_table, shorter};
use subgroups::{ask_sizes, basis_work, fold_sizes, table_cells, Subgroup, Table};

const THREADS: usize = 16;
const LISTS: u64 = 120;

/// Lists that look random, the same in every run.
struct Chance(u64);

impl Chance {
    fn below(&mut self, most: u64) -> u64 {
        self.0 = self.0.wrapping_mul(6_364_136_223_846_793_005).wrapping_add(1_442_695_040_888_963_407);
        (self.0 >> 33) % most
    }

    fn word(&mut self, n: u64, most: u64) -> Vec<u8> {
        let letters = self.below(most + 1);
        (0..letters).map(|_| self.below(n) as u8 + if self.below(2) == 0 { b'a' } else { b'A' }).collect()
    }

    fn list(&mut self, n: u64) -> Vec<u8> {
        let words = self.below(8);
        (0..words).flat_map(|_| [self.word(n, 12), vec![b'\n']].concat()).collect()
    }
}

/// Every call on one list, with fresh buffers, and all that it answers and leaves.
fn answers(seed: u64) -> String {
    let mut chance = Chance(seed);
    let n = 1 + chance.below(4);
    let (list, other, query) = (chance.list(n), chance.list(n), chance.word(n, 30));
    let sizes = fold_sizes(n, &list);
    let (mut cells, mut work) = (vec![7; sizes.table], vec![7; sizes.work]);
    let folded = fold(n, &list, &mut cells, &mut work).unwrap();
    let asked = {
        let sizes = ask_sizes(n, &list, &query);
        ask(n, &list, &query, &mut vec![7; sizes.table], &mut vec![7; sizes.work])
    };
    let table = Table { n, points: folded.points, cells: &cells[..table_cells(n, folded.points)] };
    let (mut room, mut out) = (vec![7; basis_work(table.points)], vec![7; 4000]);
    let written = basis(table, &mut room, &mut out);
    let mut file = vec![7; 4000];
    let saved = save_table(table, &mut file);
    let held = member(table, &query, &mut vec![7; query.len()]);
    let mut numbers = vec![7; query.len()];
    let shown = express(table, &query, &mut vec![7; query.len()], &mut numbers);
    let read = load(&file[..saved.unwrap()], &mut vec![7; 4000], &mut []);
    let kept = save_list(n, &list, &mut vec![7; 4000]);
    let even = normal(table, &mut room);
    let same = equal(table, Subgroup::fold(n, &other).unwrap().table());
    assert_eq!(asked, held);
    format!(
        "{shown:?} {numbers:?} {read:?} {kept:?} {even:?} {folded:?} {cells:?} {asked:?} {:?} {written:?} {out:?} {saved:?} {file:?} {same:?} {:?} {:?}",
        check(table),
        shorter(n, &list, &other),
        fold(n, b"a", &mut cells, &mut work),
    )
}

#[test]
fn threads_answer_as_one_does() {
    let alone: Vec<String> = (0..LISTS).map(answers).collect();
    let start = Barrier::new(THREADS);
    thread::scope(|scope| {
        for t in 0..THREADS as u64 {
            let (alone, start) = (&alone, &start);
            scope.spawn(move || {
                start.wait();
                for k in 0..LISTS {
                    let seed = (k + t * 7) % LISTS; // threads are at different lists
                    assert_eq!(answers(seed), alone[seed as usize]);
                }
            });
        }
    });
}

#[test]
fn a_subgroup_is_shared() {
    let h = Subgroup::fold(2, "aaB\nbAba\nabA\naaaaaa\n").unwrap();
    thread::scope(|scope| {
        for t in 0..THREADS {
            let (h, query) = (&h, "a".repeat(t));
            scope.spawn(move || assert_eq!(h.contains(query).unwrap(), t % 2 == 0));
        }
    });
}
