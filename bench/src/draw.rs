//! Inputs from a small seed: the state after x is 48271 x mod 2147483647.

pub struct Draw(u64);

impl Draw {
    pub fn new(seed: u32) -> Draw {
        Draw(u64::from(seed) + 1)
    }

    pub fn number(&mut self, below: u32) -> u32 {
        self.0 = 48271 * self.0 % 2147483647;
        u32::try_from(3 * self.0 % u64::from(below)).expect("below a u32")
    }

    pub fn numbers(&mut self, count: usize, below: u32) -> Vec<u32> {
        (0..count).map(|_| self.number(below)).collect()
    }

    pub fn bytes(&mut self, count: usize) -> Vec<u8> {
        (0..count).map(|_| self.number(256) as u8).collect()
    }

    /// From -bound to bound.
    pub fn secrets(&mut self, count: usize, bound: u32) -> Vec<i32> {
        let zero = i32::try_from(bound).expect("a small bound");
        (0..count).map(|_| self.number(2 * bound + 1) as i32 - zero).collect()
    }
}
