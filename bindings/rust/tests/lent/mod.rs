//! Buffers to lend, between guards that no call may change.
#![allow(dead_code)] // no test file uses all of it

use std::fmt::Debug;

const GUARDS: usize = 16;

/// Items that hold 77 before a call, with guards of 99 before and behind them.
pub struct Lent<T> {
    items: Vec<T>,
}

impl<T: Copy + From<u8> + PartialEq + Debug> Lent<T> {
    pub fn new(length: usize) -> Lent<T> {
        let mut items = vec![T::from(99); GUARDS + length + GUARDS];
        items[GUARDS..GUARDS + length].fill(T::from(77));
        Lent { items }
    }

    pub fn holding(items: &[T]) -> Lent<T> {
        let mut lent = Lent::new(items.len());
        lent.part().copy_from_slice(items);
        lent
    }

    /// The part to lend.
    pub fn part(&mut self) -> &mut [T] {
        let end = self.items.len() - GUARDS;
        &mut self.items[GUARDS..end]
    }

    /// The part starts with these items, the rest of it is as before the call, and so are the guards.
    #[track_caller]
    pub fn starts(&mut self, want: &[T]) {
        let end = self.items.len() - GUARDS;
        let guards = self.items[..GUARDS].iter().chain(&self.items[end..]);
        assert!(guards.copied().all(|x| x == T::from(99)), "a guard has changed");
        let (written, rest) = self.part().split_at(want.len());
        assert_eq!(written, want);
        assert!(rest.iter().all(|&x| x == T::from(77)), "an item behind those written has changed");
    }

    /// Nothing has changed.
    #[track_caller]
    pub fn kept(&mut self) {
        self.starts(&[]);
    }
}
