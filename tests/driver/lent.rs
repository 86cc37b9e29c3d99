//! Buffers to lend, between guards that no call may change. Built with --cfg exact there are no guards: then a tool that
//! watches memory sees every access beyond a buffer.

const CELL_BEFORE: u32 = 777;
const CELL_GUARD: u32 = 0x5EED_5EED;
const NUMBER_BEFORE: i32 = 777;
const NUMBER_GUARD: i32 = -0x5EED_5EED;
const BYTE_BEFORE: u8 = 77;
const BYTE_GUARD: u8 = 0xA5;
const GUARDS: usize = if cfg!(exact) { 0 } else { 16 };

/// Items that can be lent, with guards before and behind them.
pub struct Lent<T> {
    items: Vec<T>,
    guard: T,
}

impl<T: Copy + PartialEq> Lent<T> {
    fn new(length: usize, before: T, guard: T) -> Lent<T> {
        let mut items = vec![guard; GUARDS + length + GUARDS];
        items[GUARDS..GUARDS + length].fill(before);
        Lent { items, guard }
    }

    pub fn part(&mut self) -> &mut [T] {
        let end = self.items.len() - GUARDS;
        &mut self.items[GUARDS..end]
    }

    pub fn kept(&self) -> bool {
        let end = self.items.len() - GUARDS;
        self.items[..GUARDS].iter().chain(&self.items[end..]).all(|&x| x == self.guard)
    }
}

/// Cells as they are before a call.
pub fn cells(length: usize) -> Lent<u32> {
    Lent::new(length, CELL_BEFORE, CELL_GUARD)
}

/// Signed numbers as they are before a call.
pub fn numbers(length: usize) -> Lent<i32> {
    Lent::new(length, NUMBER_BEFORE, NUMBER_GUARD)
}

/// Bytes as they are before a call.
pub fn bytes(length: usize) -> Lent<u8> {
    Lent::new(length, BYTE_BEFORE, BYTE_GUARD)
}
