//! Buffers with random content before a call, compared with what they should hold after it.
use crate::rng::Rng;

pub trait Number: Copy + PartialEq {
    fn of(word: u64) -> Self;
}

macro_rules! numbers {
    ($($t:ty)*) => { $(impl Number for $t { fn of(word: u64) -> $t { word as $t } })* };
}
numbers!(u8 i16 i32 u64);

pub struct Lent<T> {
    before: Vec<T>,
    pub now: Vec<T>,
}

impl<T: Number> Lent<T> {
    pub fn new(rng: &mut Rng, length: usize) -> Lent<T> {
        let before: Vec<T> = (0..length).map(|_| T::of(rng.next())).collect();
        Lent { now: before.clone(), before }
    }

    /// The front is this, and the rest is as it was.
    pub fn holds(&self, front: &[T]) -> bool {
        let n = front.len();
        n <= self.now.len() && self.now[..n] == *front && self.now[n..] == self.before[n..]
    }
}

#[cfg(test)]
mod tests {
    use super::*;

    #[test]
    fn a_changed_buffer_is_seen() {
        let mut buffer: Lent<u64> = Lent::new(&mut Rng::new(5), 9);
        assert!(buffer.holds(&[]));
        buffer.now[..3].fill(0);
        assert!(buffer.holds(&[0; 3]));
        assert!(!buffer.holds(&[]) && !buffer.holds(&[0; 2]) && !buffer.holds(&[0; 4]) && !buffer.holds(&[0; 10]));
        buffer.now[8] ^= 1;
        assert!(!buffer.holds(&[0; 3]));
    }
}
