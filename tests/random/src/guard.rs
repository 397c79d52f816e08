//! Lent memory with guards around it.

/// Guard words, or bytes, on each side. Their number is odd, so that bytes
/// are lent from an odd place.
const GUARD: usize = 257;

/// What guards are made of.
pub trait Guard: Copy + PartialEq {
    /// Differs from place to place.
    fn guard(at: usize) -> Self;
}

impl Guard for u16 {
    fn guard(at: usize) -> u16 {
        0xa500 ^ (at as u16).wrapping_mul(40503)
    }
}

impl Guard for u8 {
    fn guard(at: usize) -> u8 {
        u16::guard(at).to_le_bytes()[0]
    }
}

pub struct Guarded<T> {
    memory: Vec<T>,
    length: usize,
}

impl<T: Guard> Guarded<T> {
    /// Memory that holds what is to be lent, guarded.
    pub fn new(lent: &[T]) -> Guarded<T> {
        let mut memory: Vec<T> = (0..GUARD + lent.len() + GUARD).map(T::guard).collect();
        memory[GUARD..GUARD + lent.len()].copy_from_slice(lent);
        Guarded {
            memory,
            length: lent.len(),
        }
    }

    /// What is lent. The pointer may be written around by whoever gets it
    /// from here: that is what the guards are for.
    pub fn lend(&mut self) -> &mut [T] {
        &mut self.memory[GUARD..GUARD + self.length]
    }

    pub fn lent(&self) -> &[T] {
        &self.memory[GUARD..GUARD + self.length]
    }

    /// Is every guard as it was?
    pub fn is_intact(&self) -> bool {
        let behind = GUARD + self.length;
        (0..GUARD)
            .chain(behind..behind + GUARD)
            .all(|at| self.memory[at] == T::guard(at))
    }
}

#[cfg(test)]
mod tests {
    use super::*;

    fn shows_a_write_on_either_side<T: Guard + From<u8>>(length: usize, changed: fn(T) -> T) {
        let lent = vec![T::from(7); length];
        let mut guarded = Guarded::new(&lent);
        guarded.lend().fill(T::from(9));
        assert!(guarded.is_intact());
        for at in [0, GUARD - 1, GUARD + length, GUARD + length + GUARD - 1] {
            let mut guarded = Guarded::new(&lent);
            guarded.memory[at] = changed(guarded.memory[at]);
            assert!(!guarded.is_intact());
        }
    }

    #[test]
    fn a_word_on_either_side_shows() {
        for length in [0, 1, 7688] {
            shows_a_write_on_either_side(length, |word: u16| word ^ 1);
        }
    }

    #[test]
    fn a_byte_on_either_side_shows() {
        for length in [0, 1, 14, 12_266] {
            shows_a_write_on_either_side(length, |byte: u8| byte ^ 1);
        }
    }
}
