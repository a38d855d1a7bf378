//! Memory for a call, with more memory on both sides that must stay as it is.

/// How much lies on each side.
const SIDE: usize = 8;

/// A part to lend, in the middle of a longer memory.
pub struct Lent<T> {
    memory: Vec<T>,
    side: T,
}

impl<T: Copy + PartialEq> Lent<T> {
    /// The content to lend, and what lies on both sides of it.
    pub fn new(content: impl IntoIterator<Item = T>, side: T) -> Lent<T> {
        let mut memory = vec![side; SIDE];
        memory.extend(content);
        memory.extend([side; SIDE]);
        Lent { memory, side }
    }

    /// The part as it is now.
    pub fn part(&self) -> &[T] {
        &self.memory[SIDE..self.memory.len() - SIDE]
    }

    /// The part to lend.
    pub fn part_mut(&mut self) -> &mut [T] {
        let end = self.memory.len() - SIDE;
        &mut self.memory[SIDE..end]
    }

    /// Are both sides as they were?
    pub fn sides_kept(&self) -> bool {
        let (left, right) = (&self.memory[..SIDE], &self.memory[self.memory.len() - SIDE..]);
        left.iter().chain(right).all(|&item| item == self.side)
    }
}

/// A sheet between bytes 10: a call that reads past its end meets a line's end.
pub fn sheet(bytes: &[u8]) -> Lent<u8> {
    Lent::new(bytes.iter().copied(), b'\n')
}

/// What a lent word holds before a call.
fn word(salt: u64, place: usize) -> u64 {
    (salt + place as u64 + 1).wrapping_mul(0x9E37_79B9_7F4A_7C15)
}

/// So many words to lend.
pub fn words(salt: u64, count: usize) -> Lent<u64> {
    Lent::new((0..count).map(|place| word(salt, place)), 0x5555_5555_5555_5555)
}

/// So many bytes to lend.
pub fn bytes(salt: u64, count: usize) -> Lent<u8> {
    Lent::new((0..count).map(|place| (word(salt, place) >> 56) as u8), 0x55)
}

#[cfg(test)]
mod tests {
    use super::*;

    #[test]
    fn a_change_on_a_side_is_seen() {
        let mut lent = words(1, 3);
        lent.part_mut().fill(0);
        assert!(lent.sides_kept());
        for at in [SIDE - 1, SIDE + 3] {
            let before = std::mem::replace(&mut lent.memory[at], 0);
            assert!(!lent.sides_kept());
            lent.memory[at] = before;
        }
    }
}
