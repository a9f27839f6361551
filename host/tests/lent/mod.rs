//! Memory that is lent to the exports, with guards on both sides, and what a call must leave there.

use oracle::generate::Random;
use std::fmt::Debug;

/// Words or bytes on either side of what is lent.
const GUARD: usize = 16;

/// A buffer lent to a call.
#[derive(Clone)]
pub struct Lent<T> {
    memory: Vec<T>,
    start: usize,
}

impl<T: Copy + PartialEq + Debug> Lent<T> {
    /// A buffer of so many words or bytes. Its first content, and that of its guards, is made of
    /// random bits.
    pub fn new(random: &mut Random, room: usize, word: impl Fn(u64) -> T) -> Lent<T> {
        let (first, start) = (random.bits(), GUARD + random.below(8));
        let content = |k: usize| {
            word(first.wrapping_add(k as u64).wrapping_mul(0x9e37_79b9_7f4a_7c15).rotate_left(29))
        };
        Lent { memory: (0..start + room + GUARD).map(content).collect(), start }
    }

    /// What is lent, without the guards.
    pub fn part(&mut self) -> &mut [T] {
        let end = self.memory.len() - GUARD;
        &mut self.memory[self.start..end]
    }

    /// Fails where a word or byte differs from the expected one, guards included.
    pub fn assert_same(&self, expected: &Lent<T>, name: &str, case: impl Fn() -> String) {
        assert_eq!(self.memory.len(), expected.memory.len());
        if self.memory != expected.memory {
            let at = (0..self.memory.len()).find(|&k| self.memory[k] != expected.memory[k]);
            let at = at.expect("they differ");
            panic!(
                "{name} at {}: {:?} where {:?} is expected\n{}",
                at as isize - self.start as isize,
                self.memory[at],
                expected.memory[at],
                case()
            );
        }
    }
}

/// A text lent to a call, amid bytes that would change the answer if they were read.
pub struct Text {
    memory: Lent<u8>,
    kept: Lent<u8>,
}

impl Text {
    pub fn new(random: &mut Random, text: &[u8]) -> Text {
        let mut memory =
            Lent::new(random, text.len(), |bits| b"\n\n\n 0123456789)]i"[(bits % 17) as usize]);
        memory.part().copy_from_slice(text);
        Text { kept: memory.clone(), memory }
    }

    pub fn part(&mut self) -> &[u8] {
        self.memory.part()
    }

    pub fn assert_kept(&self, name: &str, case: impl Fn() -> String) {
        self.memory.assert_same(&self.kept, name, case);
    }
}
