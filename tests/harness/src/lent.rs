//! Memory lent to the library, between guards.

use analyser::random::Random;

/// What can be lent: bytes, words and long words.
pub trait Element: Copy + PartialEq + Into<u64> {
    fn any(random: &mut Random) -> Self;
}

impl Element for u8 {
    fn any(random: &mut Random) -> u8 {
        random.word() as u8
    }
}

impl Element for u32 {
    fn any(random: &mut Random) -> u32 {
        random.word() as u32
    }
}

impl Element for u64 {
    fn any(random: &mut Random) -> u64 {
        random.word()
    }
}

/// So many elements of any content.
pub fn filled<T: Element>(random: &mut Random, count: usize) -> Vec<T> {
    (0..count).map(|_| T::any(random)).collect()
}

/// Elements between two guards, and how all of it was when it was lent.
pub struct Lent<T> {
    memory: Vec<T>,
    before: Vec<T>,
    guard: usize,
}

impl<T: Element> Lent<T> {
    /// The guards hold anything; their size varies, and with it the address lent.
    pub fn new(random: &mut Random, contents: &[T]) -> Lent<T> {
        let guard = random.between(64, 79) as usize;
        let mut before: Vec<T> = filled(random, guard);
        before.extend_from_slice(contents);
        before.extend(filled::<T>(random, guard));
        Lent { memory: before.clone(), before, guard }
    }

    /// The address lent, good for the guards as well.
    pub fn address(&mut self) -> *mut T {
        self.memory[..].as_mut_ptr().wrapping_add(self.guard)
    }

    pub fn len(&self) -> usize {
        self.memory.len() - 2 * self.guard
    }

    pub fn contents(&self) -> &[T] {
        &self.memory[self.guard..self.guard + self.len()]
    }

    pub fn is_unchanged(&self) -> bool {
        self.memory == self.before
    }

    pub fn guards_hold(&self) -> bool {
        let end = self.guard + self.len();
        let before = self.memory[..self.guard] == self.before[..self.guard];
        before && self.memory[end..] == self.before[end..]
    }
}
